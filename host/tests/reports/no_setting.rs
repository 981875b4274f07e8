//! Q-4 of document 02, "No delay byte without a setting", in reports: lines with verdict 10, which
//! are the longest, and receivers whose fine delays have no setting.

use crate::driver::{said, Driver};
use ttcrx_host::sys::{Report, LONGEST_LINE};
use ttcrx_host::testing::compare::Both;
use ttcrx_host::testing::frame::Frame;
use ttcrx_host::ttcrx;

/// Inputs, what is printed of them, and the fine delays after them.
const BY_HAND: [(&str, &str, [u8; 2]); 9] = [
    ("1001500F387\n", "1 10 0 001500F3 0\nend 0 0 0 42\n", [0, 0]),
    ("1001500F387", "1 10 0 001500F3 0\nend 0 0 0 42\n", [0, 0]),
    // With a wrong check bit; F3 received as E3; small letters.
    ("1001501F3B1\n", "1 10 1 001501F3 39\nend 1 0 0 42\n", [0, 0]),
    ("1001500e387\n", "1 10 1 001500F3 28\nend 1 0 0 42\n", [0, 0]),
    // To every receiver: F0, the first byte of no setting, and FF.
    ("1000100F071\n1000101FF5B\n", "1 10 0 000100F0 0\n2 10 0 000101FF 0\nend 0 0 0 84\n", [0, 0]),
    // EF is the last byte of a setting; in register 1 it is received as FF.
    (
        "1001500EFA7\n1001501FF93",
        "1 2 0 001500EF 0\n2 2 1 001501EF 28\nend 1 0 0 84\n",
        [0xEF, 0xEF],
    ),
    // 10 leaves what was stored before; a broadcast may follow at once.
    (
        "1001500EFA7\n1001500F387\n0001\n",
        "1 2 0 001500EF 0\n2 10 0 001500F3 0\n3 1 0 00 0\nend 0 0 0 100\n",
        [0xEF, 0],
    ),
    // The same data for other registers, another address, and with E = 1.
    (
        "1001502F3BF\n1001503F38B\n1001900F39F\n1001700F3E3\n",
        "1 2 0 001502F3 0\n2 2 0 001503F3 0\n3 5 0 001900F3 0\n4 4 0 001700F3 0\nend 0 0 0 168\n",
        [0, 0],
    ),
    // Stop bit 0, with 41 ones; two wrong bits; fixed bit 0.
    (
        "1001500F386\n1001500F381\n1001400F3E5\n1001501F3B3",
        "1 7 0 -\n2 8 0 -\n3 9 0 001400F3 0\n4 10 0 001501F3 0\nend 0 3 0 209\n",
        [0, 0],
    ),
];

#[test]
fn lines_by_hand() {
    let both = Both::of("lines with verdict 10, by hand");
    for (input, expected, fine_delays) in BY_HAND {
        let (text, after) = said(&both, ttcrx::fresh(5, 5).receiver, input);
        both.same(input, text.as_str(), expected);
        let settings = after.core.settings;
        both.same(input, [settings.fine1, settings.fine2], fine_delays);
    }
    both.at_least(9 * 12);
}

/// Every such frame, clean and with each protected bit wrong.
#[test]
fn every_flip() {
    let both = Both::of("lines with verdict 10 and one flip");
    for (register, data) in (240..=255).flat_map(|data| [(0, data), (1, data)]) {
        let word = 0x0015_0000 | register << 8 | data;
        let frame = Frame::word(word);
        let mut input = format!("{:011X}\n", frame.number);
        let mut expected = format!("1 10 0 {word:08X} 0\n");
        for place in frame.places() {
            input += &format!("{:011X}\n", frame.flipped(frame.at(place)).number);
            expected += &format!("{} 10 1 {word:08X} {place}\n", place + 1);
        }
        expected += "end 39 0 0 1680\n";
        let (text, _) = said(&both, ttcrx::fresh(5, 5).receiver, &input);
        both.same(word, text, expected);
    }
    both.at_least(32 * 12);
}

/// A line number of 20 digits and a place of two: the text has as many bytes as a buffer must have
/// room for, 38. With a place of one digit it is shorter, and needs as much room.
#[test]
fn the_longest_line() {
    let both = Both::of("the longest line");
    for (line, said, length) in [
        ("1001500F385\n", "10 1 001500F3 39", 38),
        ("1001500FB87\n", "10 1 001500F3 29", 38),
        ("1801500F387\n", "10 1 001500F3 1", 37),
        ("1001500F387\n", "10 0 001500F3 0", 37),
    ] {
        let report = Report { lines: u64::MAX - 1, ..ttcrx::report_start() };
        let expected = format!("18446744073709551615 {said}\n");
        both.same(line, expected.len(), length);
        let mut driver = Driver::of(&both, 0, report);
        let small = driver.input(line.as_bytes(), 37);
        both.same(line, (small.used, small.written, small.room_wanted), (0, 0, LONGEST_LINE));
        let done = driver.input(line.as_bytes(), 38);
        both.same(line, (done.used, done.written, done.room_wanted), (12, length, 0));
        both.same(line, driver.text(), expected);
    }
    both.at_least(4 * 14);
}

/// A byte of no setting in either register or in both: a frame's line is refused by 2, and the
/// receiver stays. 239 is accepted.
#[test]
fn ill_formed_receivers() {
    let both = Both::of("reports of receivers with fine delays of no setting");
    for byte in 239..=255 {
        for (first, second) in [(byte, 14), (14, byte), (byte, byte)] {
            let mut receiver = ttcrx::fresh(5, 5).receiver;
            receiver.core.settings.fine1 = first;
            receiver.core.settings.fine2 = second;
            let (text, after) = said(&both, receiver, "0001\n4001\n1001500F387");
            let expected = match byte {
                239 => "1 1 0 00 0\n2 ! 12\n3 10 0 001500F3 0\nend 0 0 0 58\n",
                _ => "1 ! 2\n2 ! 12\n3 ! 2\nend 0 0 0 0\n",
            };
            both.same(receiver, text.as_str(), expected);
            both.same(receiver, after.core.settings, receiver.core.settings);
        }
    }
    both.at_least(17 * 3 * 12);
}
