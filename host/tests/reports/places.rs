//! Q-8 of document 02, "Say what was wrong and which bit", in reports: the place is the last field for
//! verdicts 1 to 6, 9 and 10, and for no other; `-` for 11 as for 7 and 8.

use crate::driver::{said, Driver};
use crate::inputs::{front, input};
use ttcrx_host::model::Kind;
use ttcrx_host::sys::*;
use ttcrx_host::tallies;
use ttcrx_host::testing::compare::Both;
use ttcrx_host::testing::coverage::{assert_seen, Tally};
use ttcrx_host::testing::frame::{wanting, Frame, RUN};
use ttcrx_host::testing::random::Random;
use ttcrx_host::testing::traffic::storm;
use ttcrx_host::testing::{states, verdict};
use ttcrx_host::ttcrx;

/// Frames of each verdict at a fresh receiver of ID 5, and what is printed of each.
const BY_HAND: [(&str, &str); 26] = [
    // The first and the last bit of word and check bits of a broadcast, and all clean.
    ("0097", "1 0 02 0"),
    ("2097", "1 1 02 1"),
    ("00D7", "1 1 02 8"),
    ("00B7", "1 1 02 9"),
    ("0095", "1 1 02 13"),
    // The same of a long frame.
    ("100150235AD", "2 0 00150235 0"),
    ("180150235AD", "2 1 00150235 1"),
    ("100150234AD", "2 1 00150235 32"),
    ("1001502352D", "2 1 00150235 33"),
    ("100150235AF", "2 1 00150235 39"),
    // RESET, to the outside, for another address, without a meaning; the fixed bit is wrong.
    ("100140600F3", "3 1 00150600 16"),
    ("1001610AAB7", "4 1 001710AA 16"),
    ("100180235B5", "5 1 00190235 16"),
    ("100150600F3", "3 0 00150600 0"),
    ("1001710AAB7", "4 0 001710AA 0"),
    ("100190235B5", "5 0 00190235 0"),
    // No fine delay setting, clean and with a wrong bit.
    ("1001500F387", "10 0 001500F3 0"),
    ("1001500F385", "10 1 001500F3 39"),
    // Fixed bit 0, clean and with a wrong bit: it has no place.
    ("10000000001", "9 0 00000000 0"),
    ("10000000003", "9 0 00000000 0"),
    ("18000000001", "9 0 00000000 0"),
    // Stop bit 0; two wrong bits; three, and a stray 0 in idle.
    ("004E", "7 0 -"),
    ("304F", "8 0 -"),
    ("100150235AB", "8 0 -"),
    ("0039", "11 0 -"),
    ("1FFFFFFFFFF", "11 0 -"),
];

#[test]
fn lines_by_hand() {
    let both = Both::of("lines with places, by hand");
    let fresh = ttcrx::fresh(5, 5).receiver;
    for (line, expected) in BY_HAND {
        let (text, after) = said(&both, fresh, line);
        let first = text.split_once('\n').map_or("", |(first, _)| first);
        both.same(line, first, format!("1 {expected}").as_str());
        both.same(line, said(&both, fresh, format!("{line}\n")), (text, after));
    }
    both.at_least(26 * 18);
}

/// Receivers that finish no frame with the line: they hold a bit, or want ones. Verdict 0 has digits
/// and no place, also after a line with one.
#[test]
fn no_place_with_verdict_0() {
    let both = Both::of("lines with verdict 0");
    let fresh = ttcrx::fresh(5, 5).receiver;
    let after_a_place = ttcrx::receive_short(fresh, 0x2097);
    both.same("place", after_a_place.outputs.place, 1);
    let start_bit = Held { count: 1, ..Held::default() };
    for held in [start_bit, wanting(1), wanting(RUN)] {
        let receiver = Receiver { held, ..after_a_place.receiver };
        for (line, expected) in [("0001\n", "00"), ("10001023542\n", "00000000")] {
            let (text, _) = said(&both, receiver, line);
            let lines = text.split_once("end ").map(|(lines, _)| lines);
            both.same((held, line), lines, Some(format!("1 0 0 {expected}\n").as_str()));
        }
    }
    both.at_least(3 * 20);
}

/// Every place of frames of each verdict, in one input.
#[test]
fn every_place() {
    let both = Both::of("lines with one flip, by verdict and place");
    let fresh = ttcrx::fresh(5, 5).receiver;
    let long = |word, verdict| (Frame::word(word), verdict);
    let frames = [
        (Frame::short(0xA4), VERDICT_BROADCAST),
        long(0x0015_0235, VERDICT_STORED),
        long(0x0001_0600, VERDICT_RESET),
        long(0x0003_0235, VERDICT_OUTSIDE),
        long(0x0019_0235, VERDICT_OTHER_ADDRESS),
        long(0x0015_0735, VERDICT_OTHER_SUB_ADDRESS),
        long(0x0014_0235, VERDICT_FIXED_BIT),
        long(0x0015_01FF, VERDICT_NO_SETTING),
    ];
    for (frame, verdict) in frames {
        let digits = frame.kind().digits();
        let (mut input, mut expected) = (String::new(), String::new());
        for place in frame.places() {
            let arrived = frame.flipped(frame.at(place)).number;
            input += &format!("{arrived:0digits$X}\n");
            let (flag, shown) = match verdict {
                VERDICT_FIXED_BIT => (0, 0),
                _ => (1, place),
            };
            let width = frame.kind().word_digits();
            let word = format!("{:0width$X}", frame.data());
            expected += &format!("{place} {verdict} {flag} {word} {shown}\n");
        }
        let (text, _) = said(&both, fresh, &input);
        let lines = text.split_once("end ").map(|(lines, _)| lines);
        both.same(frame, lines, Some(expected.as_str()));
    }
    both.at_least(8 * 13);
}

/// Any number of flips at receivers that wait: with an odd number never 8, with an even never 11. The
/// flag is 1 exactly if the place is 1 or more.
#[test]
fn storms() {
    let both = Both::of("lines with any number of flips");
    let mut random = Random::new(360);
    let mut seen = Tally::of([("odd number", 0, 1), ("dropped", 0, 1), ("long", 0, 1)]);
    for call in 0..20_000 {
        let mut report = ttcrx::report_start();
        report.receiver.core = states::well_formed(&mut random).core;
        let (data, word) = (random.byte(), random.number() as u32 | 1 << 16);
        let frame = random.pick(&[Frame::short(data), Frame::word(word)]);
        let flips = storm(&mut random, frame, 1);
        let digits = frame.kind().digits();
        let line = format!("{:0digits$X}\n", frame.flipped(flips).number);
        let mut driver = Driver::of(&both, call, report);
        driver.input(line.as_bytes(), LONGEST_LINE);
        let text = driver.text();
        let fields: Vec<&str> = text.trim_end().split(' ').collect();
        let odd = flips.count_ones() % 2 == 1;
        let never = if odd { "8" } else { "11" };
        both.same((frame, flips), fields[1] == never, false);
        if let [_, _, flag, _, place] = fields[..] {
            both.same((frame, flips), flag == "1", place != "0");
        }
        let long = frame.kind() == Kind::Long;
        seen.seen([odd.into(), (fields[3] == "-").into(), long.into()]);
    }
    assert_seen(&[&seen]);
    both.at_least(20_000 * 7);
}

tallies! {
    /// What was printed.
    struct Printed {
        verdicts: [verdict::ANY],
        short: [("place in a line of 2 digits", 0, PLACES_SHORT)],
        long: [("place in a line of 8 digits", 0, PLACES_LONG)],
    }
}

impl Printed {
    fn line(&mut self, line: &str) {
        let fields: Vec<&str> = line.split(' ').collect();
        let number = |field: &str| field.parse().expect("a small number");
        match fields[..] {
            [_, "!", _] => {}
            [_, verdict, "0", _] => self.verdicts.seen([number(verdict)]),
            [_, verdict, _, word, place] => {
                self.verdicts.seen([number(verdict)]);
                match word.len() {
                    2 => self.short.seen([number(place)]),
                    _ => self.long.seen([number(place)]),
                }
            }
            _ => panic!("a line of another form: {line}"),
        }
    }
}

/// Any input on receivers of ID 5 that wait, until every verdict and every place has been printed.
#[test]
fn random_reports() {
    let both = Both::of("reports in which every place is printed");
    let mut random = Random::new(361);
    let mut printed = Printed::default();
    for call in 0..6_000 {
        let input = input(&mut random, 12);
        let receiver = match random.once_in(8) {
            true => Receiver { held: wanting(RUN), ..ttcrx::fresh(5, 5).receiver },
            false => ttcrx::fresh(5, 5).receiver,
        };
        let report = Report { receiver, ..ttcrx::report_start() };
        let mut driver = Driver::of(&both, call, report);
        driver.input(&input, 600);
        driver.text().lines().for_each(|line| printed.line(line));
    }
    printed.assert_complete();
    both.at_least(6_000 * 5);
}

/// Receivers with the largest counters: one that is well formed, and one that is not.
fn full(bunch: u16, event: u32) -> Receiver {
    let mut receiver = ttcrx::report_start().receiver;
    receiver.core.errors.single_errors = u16::MAX;
    receiver.core.errors.double_errors = u8::MAX;
    receiver.core.counters = Counters { bunch, event };
    receiver
}

/// The end after the longest line, with a buffer that is too small by one, and with one just large
/// enough. The third has 66 bytes.
#[test]
fn the_end_after_the_longest_line() {
    let both = Both::of("the end with buffers of 65 and 66 bytes");
    let own = ttcrx::report_start().receiver;
    for (receiver, line, expected) in [
        (own, "1001500F385", "18446744073709551615 10 1 001500F3 39\nend 1 0 0 42\n"),
        (own, "1FFFFFFFFFF", "18446744073709551615 11 0 -\nend 0 1 0 42\n"),
        (
            full(1_000, (1 << 24) - 1),
            "1001500F385",
            "18446744073709551615 10 1 001500F3 39\nend 65535 255 16777215 1042\n",
        ),
        (
            full(u16::MAX, u32::MAX),
            "1001500F385",
            "18446744073709551615 ! 2\nend 65535 255 4294967295 65535\n",
        ),
    ] {
        let part = front(line.as_bytes());
        let report = Report { receiver, lines: u64::MAX - 1, part };
        let mut driver = Driver::of(&both, 0, report);
        let small = driver.end(65);
        both.same(line, (small.written, small.room_wanted), (0, 66));
        let done = driver.end(66);
        both.same(line, (done.written, done.room_wanted), (expected.len(), 0));
        both.same(line, driver.text().as_str(), expected);
    }
    both.at_least(4 * 11);
}
