//! The examples of document 01, as of document 02 amend them, once, as data; and all of
//! them on any library.

use super::compare::Cases;
use super::frame::Frame;
use super::library::Library;
use crate::model::Kind;
use crate::sys::*;

/// "Examples to be proved", encodings: bytes and their broadcasts.
pub const BROADCASTS: [(u8, u64); 5] =
    [(0x00, 0x0001), (0x01, 0x004F), (0x02, 0x0097), (0x03, 0x00D9), (0xFF, 0x3FCD)];

const fn fields(address: u16, e: u8, sub_address: u8, data: u8) -> Fields {
    Fields { address, e, sub_address, data }
}

/// "Examples to be proved", encodings: fields and their long frames. The second is RESET.
pub const LONG_FRAMES: [(Fields, u64); 3] = [
    (fields(0, 0, 2, 0x35), 0x100_0102_3543),
    (fields(5, 0, 6, 0x00), 0x100_1506_00F3),
    (fields(5, 1, 0x10, 0xAA), 0x100_1710_AAB7),
];

/// RESET of the receiver with ID 5.
pub const RESET: Frame = Frame::of(Kind::Long, LONG_FRAMES[1].1);

/// "Examples to be proved", decodings: "02 corrected".
pub const CORRECTED: Frame = Frame::of(Kind::Short, 0x0095);

/// "Examples to be proved", decodings: these "can't be corrected". The second is "one stray 0 in
/// idle". Q-8: they "now get 11".
pub const ODD_SYNDROMES: [Frame; 2] =
    [Frame::of(Kind::Short, 0x0039), Frame::of(Kind::Long, 0x1FF_FFFF_FFFF)];

/// "Examples to be proved": settings and their bytes.
pub const SETTINGS: [(u8, u8); 5] = [(0, 14), (1, 29), (15, 15), (30, 0), (239, 239)];

/// "Stored lines": the lines of the program's input, and what it prints after the number of each.
/// "lines 2 and 6 get place 1, and lines 1, 5 and 7 place 0".
pub const LINES: [(&str, &str); 8] = [
    ("004F", "1 0 01 0"),
    ("2097", "1 1 02 1"),
    ("004E", "7 0 -"),
    ("304F", "8 0 -"),
    ("100150235AD", "2 0 00150235 0"),
    ("180150235AD", "2 1 00150235 1"),
    ("100190235B5", "5 0 00190235 0"),
    ("4001", "! 12"),
];

/// "Stored lines": single errors, double errors, event count and bunch count at the end. Q-1 of
/// document 02: "In the example the bunch count becomes 215."
pub const END: &str = "end 2 2 0 215";

/// "Run by a program": the trigger bits of five clocks from fresh, and what they show.
pub const TRIGGERS: [Outputs; 5] = [
    bus(1, 0, STROBE_BUNCH, 0),
    bus(1, 1, STROBE_EVENT_LOW, 0),
    bus(0, 0, STROBE_EVENT_HIGH, 0),
    bus(1, 0, STROBE_BUNCH, 3),
    bus(0, 0, STROBE_EVENT_LOW, 2),
];

/// A clock on which no frame finished.
const fn bus(trigger: u8, missed: u8, strobe: u8, number: u16) -> Outputs {
    Outputs { trigger, missed, number, strobe, verdict: 0, corrected: 0, place: 0, word: 0 }
}

/// "Stored lines": the whole input of the program.
pub fn input() -> String {
    LINES.map(|(line, _)| format!("{line}\n")).concat()
}

/// "Stored lines": the whole output of the program.
pub fn output() -> String {
    let mut output = String::new();
    for (number, (_, said)) in (1..).zip(LINES) {
        output += &format!("{number} {said}\n");
    }
    output + END + "\n"
}

/// "Stored lines": the frames of the lines that are not refused.
pub fn frames() -> Vec<Frame> {
    let frame = |&(line, _): &(&str, &str)| {
        let mut kinds = Kind::BOTH.into_iter();
        let kind = kinds.find(|kind| kind.digits() == line.len());
        let number = u64::from_str_radix(line, 16);
        Frame::of(kind.expect("4 or 11"), number.expect("digits"))
    };
    let accepted = LINES.iter().filter(|(_, said)| !said.starts_with('!'));
    accepted.map(frame).collect()
}

/// All examples on a library.
#[track_caller]
pub fn check(library: &dyn Library) {
    let cases = Cases::of("examples of document 01");
    encodings(&cases, library);
    decodings(&cases, library);
    settings(&cases, library);
    triggers(&cases, library);
    report(&cases, library);
    cases.at_least(5 + 3 + 3 + 2 * 5 + 5 + 7 + 3);
}

fn encodings(cases: &Cases, library: &dyn Library) {
    let encoded = |number| Encoded { refusal: 0, number };
    for (data, number) in BROADCASTS {
        cases.same(data, library.encode_short(data), encoded(number));
    }
    for (fields, number) in LONG_FRAMES {
        let answer = library.encode_long(fields.address, fields.e, fields.sub_address, fields.data);
        cases.same(fields, answer, encoded(number));
    }
}

/// The bit that is wrong in 0095 is the last check bit.
fn decodings(cases: &Cases, library: &dyn Library) {
    let corrected = Decoded {
        corrected: 1,
        place: PLACES_SHORT,
        word: 0x02,
        fields: fields(0, 0, 0, 0x02),
        ..Decoded::default()
    };
    let odd_syndrome = Decoded { verdict: VERDICT_ODD_SYNDROME, ..Decoded::default() };
    let [short, long] = ODD_SYNDROMES.map(|frame| frame.number);
    let answer = library.decode_short(CORRECTED.number);
    cases.same(CORRECTED, answer, corrected);
    cases.same(short, library.decode_short(short), odd_syndrome);
    cases.same(long, library.decode_long(long), odd_syndrome);
}

fn settings(cases: &Cases, library: &dyn Library) {
    let refusal = 0;
    for (setting, byte) in SETTINGS {
        let there = Byte { refusal, byte };
        cases.same(setting, library.delay_byte(setting), there);
        let back = Setting { refusal, setting };
        cases.same(byte, library.delay_setting(byte), back);
    }
}

fn triggers(cases: &Cases, library: &dyn Library) {
    let mut state = library.fresh(5, 5).receiver;
    for (clock, expected) in (1..).zip(TRIGGERS) {
        let answer = library.clock(state, expected.trigger, 1);
        cases.same(clock, (answer.refusal, answer.outputs), (0, expected));
        state = answer.receiver;
    }
}

/// The good lines are read one by one, and the whole input is reported.
fn report(cases: &Cases, library: &dyn Library) {
    for ((line, _), frame) in LINES.iter().zip(frames()) {
        let expected = Line { refusal: 0, kind: frame.kind().number(), number: frame.number };
        cases.same(line, library.read_line(line.as_bytes()), expected);
    }
    let mut buffer = [0; 400];
    let input = input();
    let lines = library.report_input(library.report_start(), input.as_bytes(), &mut buffer);
    cases.same(&input, (lines.used, lines.room_wanted), (input.len(), 0));
    let end = library.report_end(lines.report, &mut buffer[lines.written..]);
    cases.same(&input, (end.used, end.room_wanted), (0, 0));
    let said = &buffer[..lines.written + end.written];
    cases.same(&input, String::from_utf8_lossy(said).as_ref(), &output());
}
