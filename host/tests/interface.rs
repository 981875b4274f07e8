//! Header, Rust declarations and Rattle source agree: constants and functions. Each constant that
//! names an answer is met: a call of the library gives it.

use std::collections::BTreeMap;
use ttcrx_host::model::{block, Fields};
use ttcrx_host::testing::columns::OWN;
use ttcrx_host::testing::example;
use ttcrx_host::testing::files::text;
use ttcrx_host::testing::frame::Frame;
use ttcrx_host::ttcrx::{self, BlockOutcome, Receiver};

/// Names with their numbers. No name comes twice.
type Names = BTreeMap<String, u64>;

#[track_caller]
fn once(pairs: impl Iterator<Item = (String, u64)>) -> Names {
    let mut all = Names::new();
    for (name, number) in pairs {
        let before = all.insert(name.clone(), number);
        assert_eq!(before, None, "{name} comes twice");
    }
    all
}

/// `#define TTCRX_NAME VALUE` of the header.
fn defined() -> Names {
    let header = text("../include/ttcrx.h");
    let value = |line: &str| {
        let mut words = line.strip_prefix("#define TTCRX_")?.split_whitespace();
        let (name, value) = (words.next()?, words.next()?);
        Some((name.to_string(), value.parse().expect(name)))
    };
    once(header.lines().filter_map(value))
}

/// `pub const NAME: TYPE = VALUE;` of a Rust or Rattle file, where the value is a number.
fn constants(path: &str) -> Names {
    let value = |line: &str| {
        let (name, rest) = line.strip_prefix("pub const ")?.split_once(": ")?;
        let (_, value) = rest.strip_suffix(';')?.split_once(" = ")?;
        Some((name.to_string(), value.parse().ok()?))
    };
    once(text(path).lines().filter_map(value))
}

/// The functions of a file: what comes after this and before a bracket, but for comments. Each has
/// number 0.
fn functions(path: &str, before: &str) -> Names {
    let name = |line: &str| {
        let (_, rest) = line.split_once(before)?;
        let (name, _) = rest.split_once('(')?;
        Some((name.to_string(), 0))
    };
    let file = text(path);
    let lines = file.lines().filter(|line| !line.starts_with(" *"));
    once(lines.filter_map(name))
}

#[test]
fn constants_are_those_of_the_header() {
    let header = defined();
    assert_eq!(header.len(), 20 + 12 + 1 + 2 + 2 + 2 + 2 + 4 + 4 + 2 + 2 + 1);
    assert_eq!(constants("src/sys.rs"), header);
}

#[test]
fn constants_of_the_source_are_those_of_the_header() {
    let header = defined();
    let files = [
        ("line_report", vec!["LONGEST_LINE", "LONGEST_END"]),
        ("trace", vec!["RECORD_NUMBERS", "BLOCK_CLOCKS"]),
        ("ttcrx", vec!["VERSION"]),
    ];
    for (name, shared) in files {
        let source = constants(&format!("../crates/{name}/src/lib.rt"));
        for constant in shared {
            assert_eq!(source[constant], header[constant], "{name}: {constant}");
        }
    }
    assert_eq!(ttcrx::version(), ttcrx::VERSION);
}

#[test]
fn functions_are_those_of_the_header() {
    let header = functions("../include/ttcrx.h", " ttcrx_");
    assert_eq!(header.len(), 23 + 10);
    assert_eq!(functions("src/sys.rs", "pub fn ttcrx_"), header);
    let marked = functions("../crates/ttcrx/src/lib.rt", "pub extern \"C\" fn ttcrx_");
    assert_eq!(marked, header);
}

/// The library's own columns, as the header lists them: numbers with commas after them, in the three
/// lines of a comment that have nothing else.
#[test]
fn own_columns_are_those_of_the_header() {
    let header = text("../include/ttcrx.h");
    let lines = header.lines().filter_map(|line| line.strip_prefix(" *     ")?.strip_suffix(','));
    let numbers = lines.flat_map(|line| line.split(", ")).map(|number| number.parse());
    assert_eq!(numbers.collect::<Result<Vec<u8>, _>>(), Ok(OWN.to_vec()));
    assert_eq!((OWN.len(), ttcrx::COLUMNS_SHORT), (ttcrx::COLUMNS, 8));
    assert_eq!(ttcrx::check_columns(&OWN).refusal, ttcrx::ACCEPTED);
}

fn fresh() -> Receiver {
    ttcrx::fresh(5, 5).receiver
}

/// So many idle clocks, with room for so many numbers.
fn idle_block(clocks: usize, room: usize) -> BlockOutcome {
    let idle = vec![block::byte(0, 1); clocks];
    ttcrx::run_block(&mut fresh(), &idle, &mut vec![0; room])
}

fn refusals() -> Vec<(&'static str, u8)> {
    let clocks = ttcrx::BLOCK_CLOCKS;
    let numbers = ttcrx::RECORD_NUMBERS * clocks;
    vec![
        ("ACCEPTED", idle_block(clocks, numbers).refusal),
        ("REFUSED_BIT", ttcrx::clock(fresh(), 2, 1).refusal),
        ("REFUSED_STATE", ttcrx::read(Receiver::default(), 0).refusal),
        ("REFUSED_ID", ttcrx::fresh(0, 5).refusal),
        ("REFUSED_I2C_ID", ttcrx::fresh(5, 64).refusal),
        ("REFUSED_REGISTER", ttcrx::read(fresh(), 4).refusal),
        ("REFUSED_READ_ONLY", ttcrx::write(fresh(), 22, 0).refusal),
        ("REFUSED_CONFIG", ttcrx::write(fresh(), 20, 0).refusal),
        ("REFUSED_SETTING", ttcrx::delay_byte(240).refusal),
        ("REFUSED_DELAY_BYTE", ttcrx::delay_setting(240).refusal),
        ("REFUSED_LINE_LENGTH", ttcrx::read_line(b"").refusal),
        ("REFUSED_CHARACTER", ttcrx::read_line(b"004G").refusal),
        ("REFUSED_FRAME", ttcrx::read_line(b"4001").refusal),
        ("REFUSED_FIELD", ttcrx::encode_long(0, 2, 0, 0).refusal),
        ("REFUSED_LINE_BUFFER", ttcrx::write_short(1, &mut []).refusal),
        ("REFUSED_BLOCK_LENGTH", idle_block(clocks + 1, numbers + 5).refusal),
        ("REFUSED_RECORD_BUFFER", idle_block(clocks, numbers - 1).refusal),
        ("REFUSED_NO_SETTING", ttcrx::write(fresh(), 1, 240).refusal),
        ("REFUSED_COLUMN_COUNT", ttcrx::check_columns(&OWN[1..]).refusal),
        ("REFUSED_BAD_COLUMN", ttcrx::check_columns(&[7; ttcrx::COLUMNS]).refusal),
    ]
}

/// A long frame for a receiver with this address.
fn long(address: u16, e: u8, sub_address: u8) -> Frame {
    Frame::long(Fields { address, e, sub_address, data: 0x35 })
}

fn verdict(frame: Frame) -> u8 {
    let kind = frame.kind().number();
    ttcrx::receive(fresh(), kind, frame.number).outputs.verdict
}

fn verdicts() -> Vec<(&'static str, u8)> {
    vec![
        ("VERDICT_NONE", ttcrx::clock(fresh(), 1, 1).outputs.verdict),
        ("VERDICT_BROADCAST", verdict(Frame::short(0x01))),
        ("VERDICT_STORED", verdict(long(5, 0, 2))),
        ("VERDICT_RESET", verdict(long(ttcrx::ADDRESS_ALL, 0, ttcrx::SUB_ADDRESS_RESET))),
        ("VERDICT_OUTSIDE", verdict(long(5, 1, 2))),
        ("VERDICT_OTHER_ADDRESS", verdict(long(6, 0, 2))),
        ("VERDICT_OTHER_SUB_ADDRESS", verdict(long(5, 0, 4))),
        ("VERDICT_STOP_BIT", verdict(Frame::short(0x01).flipped(1))),
        ("VERDICT_EVEN_SYNDROME", verdict(Frame::short(0x01).flipped(0b11 << 1))),
        ("VERDICT_FIXED_BIT", verdict(Frame::word(0))),
        ("VERDICT_NO_SETTING", verdict(Frame::word(0x0015_00F3))),
        ("VERDICT_ODD_SYNDROME", verdict(example::ODD_SYNDROMES[0])),
        ("DECODED_GOOD", ttcrx::decode_short(0x004F).verdict),
    ]
}

/// The kinds of frames, the places of their last protected bits, and the strobes of one trigger.
fn kinds() -> Vec<(&'static str, u8)> {
    let idle = ttcrx::clock(fresh(), 0, 1);
    let bunch = ttcrx::clock(fresh(), 1, 1);
    let low = ttcrx::clock(bunch.receiver, 0, 1);
    let high = ttcrx::clock(low.receiver, 0, 1);
    vec![
        ("SHORT", ttcrx::read_line(b"004F").kind),
        ("LONG", ttcrx::read_line(b"100150235AD").kind),
        ("PLACES_SHORT", ttcrx::decode_short(0x0095).place),
        ("PLACES_LONG", ttcrx::decode_long(0x100_1502_35AF).place),
        ("STROBE_NONE", idle.outputs.strobe),
        ("STROBE_BUNCH", bunch.outputs.strobe),
        ("STROBE_EVENT_LOW", low.outputs.strobe),
        ("STROBE_EVENT_HIGH", high.outputs.strobe),
    ]
}

/// The code of a block's last record.
fn code(block: &[u8]) -> u32 {
    let mut buffer = vec![0; ttcrx::RECORD_NUMBERS * block.len()];
    let outcome = ttcrx::run_block(&mut fresh(), block, &mut buffer);
    let last = ttcrx::records(&buffer, outcome.records).last();
    last.expect("a record").code
}

/// The bits of a record's code. Verdicts 6 and 9 have all bits of a verdict together.
fn codes() -> Vec<(&'static str, u32)> {
    let trigger = block::byte(1, 1);
    let corrected = code(&example::CORRECTED.block(0));
    let missed = code(&[trigger, trigger]);
    let six = code(&long(5, 0, 4).block(0));
    let nine = code(&Frame::word(0).block(0));
    vec![
        ("CODE_VERDICT", six | nine),
        ("CODE_CORRECTED", corrected - u32::from(ttcrx::VERDICT_BROADCAST)),
        ("CODE_TRIGGER", code(&[trigger])),
        ("CODE_MISSED", missed - code(&[trigger])),
    ]
}

/// The constants of the header that are no answer.
const NO_ANSWERS: [&str; 9] = [
    "VERSION",
    "COLUMNS",
    "COLUMNS_SHORT",
    "ADDRESS_ALL",
    "SUB_ADDRESS_RESET",
    "BLOCK_CLOCKS",
    "RECORD_NUMBERS",
    "LONGEST_LINE",
    "LONGEST_END",
];

fn named<N: Into<u64>>(pairs: Vec<(&str, N)>) -> Names {
    let pairs = pairs.into_iter();
    once(pairs.map(|(name, number)| (name.to_string(), number.into())))
}

#[test]
fn every_answer_with_a_name_is_met() {
    let small = named([refusals(), verdicts(), kinds()].concat());
    let met = once(small.into_iter().chain(named(codes())));
    let mut answers = defined();
    answers.retain(|name, _| !NO_ANSWERS.contains(&name.as_str()));
    assert_eq!(met, answers);
}
