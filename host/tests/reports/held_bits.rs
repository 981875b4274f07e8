//! Reports of well-formed receivers that hold bits: a line's bits come after them. The frame that
//! the last of them finishes, if any, need not be of the line's kind; its word has the digits of
//! the line's kind all the same.

use crate::driver::Driver;
use crate::inputs::{input, within_a_frame};
use ttcrx_host::model::Kind;
use ttcrx_host::sys::{Held, Report, LONGEST_END, LONGEST_LINE};
use ttcrx_host::sys::{VERDICT_BROADCAST, VERDICT_EVEN_SYNDROME, VERDICT_NONE};
use ttcrx_host::sys::{VERDICT_ODD_SYNDROME, VERDICT_STOP_BIT};
use ttcrx_host::testing::compare::Both;
use ttcrx_host::testing::coverage::{assert_seen, Tally};
use ttcrx_host::testing::frame::Frame;
use ttcrx_host::testing::lines::{any_frame, EVERY_KIND};
use ttcrx_host::testing::random::Random;
use ttcrx_host::testing::verdict;
use ttcrx_host::ttcrx::report_start;

/// The report's start with these bits held.
fn holding(held: Held) -> Report {
    let mut report = report_start();
    report.receiver.held = held;
    report
}

/// What a report says of these lines.
#[track_caller]
fn said(both: &Both<'static>, report: Report, input: &[u8]) -> String {
    let mut driver = Driver::of(both, report.lines, report);
    let used = driver.input(input, 300).used;
    both.same(report, used, input.len());
    driver.text()
}

#[test]
fn receivers_within_a_frame() {
    let both = Both::of("reports of receivers within a frame");
    let mut random = Random::new(322);
    let mut verdicts = Tally::of([verdict::ANY]);
    for _ in 0..40_000 {
        let input = input(&mut random, 4);
        let report = within_a_frame(&mut random);
        for line in said(&both, report, &input).lines() {
            if let Ok(verdict) = line.split(' ').nth(1).unwrap_or_default().parse() {
                verdicts.seen([verdict]);
            }
        }
    }
    assert_seen(&[&verdicts]);
    both.at_least(6 * 40_000);
}

/// How many bits are held, the bits, a line, and what is printed of it, all by hand.
const BY_HAND: [(u8, u64, &str, &str); 12] = [
    // 100150235AD: 26 bits of it, and its last 16 as a line.
    (26, 0x0100_1502, "35AD\n", "1 2 0 35 0\n"),
    (26, 0x0180_1502, "35AD\n", "1 2 1 35 1\n"),
    (26, 0x0100_1502, "35AC\n", "1 7 0 -\n"),
    (26, 0x01C0_1502, "35AD\n", "1 8 0 -\n"),
    // 6 bits of 011B, and its last 10 in a line before two more broadcasts.
    (6, 0, "11B00013FCD\n", "1 1 0 000000FF 0\n"),
    (6, 0, "11B00010095\n", "1 1 1 00000002 13\n"),
    (6, 0, "11B00010039\n", "1 11 0 -\n"),
    (6, 0, "11B0001304F\n", "1 8 0 -\n"),
    // The frame finishes before the last bit, in 0001 with stop bit 0.
    (1, 0, "0001\n", "1 0 0 00\n"),
    (1, 0, "1FFFFFFFFFF\n", "1 0 0 00000000\n"),
    // The line's start bit is the stop bit of the frame held: no frame of the line is taken.
    (15, 0x0027, "2097\n", "1 0 0 00\n"),
    (41, 0x0080_0A81_1AD6, "100150235AD\n", "1 0 0 00000000\n"),
];

#[test]
fn words_by_hand() {
    let both = Both::of("words after held bits, by hand");
    for (count, bits, line, expected) in BY_HAND {
        let report = holding(Held { count, bits, ..Held::default() });
        let text = said(&both, report, line.as_bytes());
        both.same(line, text.as_str(), expected);
        // The same without line feed, at the end of the input.
        let mut driver = Driver::of(&both, 0, report);
        driver.input(line.trim_end().as_bytes(), LONGEST_LINE);
        driver.end(LONGEST_END);
        both.same(line, driver.text().starts_with(expected), true);
    }
    both.at_least(17 * 12);
}

/// A frame of this kind and of any fate for which the test holds.
fn frame(random: &mut Random, kind: Kind, right: impl Fn(u64) -> bool) -> Frame {
    loop {
        let frame = any_frame(random, &EVERY_KIND);
        if frame.kind() == kind && right(frame.number) {
            return frame;
        }
    }
}

/// The verdict of the only line. The word has so many digits, or is `-`; a place comes after the
/// word of a frame that finished.
#[track_caller]
fn verdict(both: &Both<'static>, held: Held, line: &str, digits: usize) -> u8 {
    let text = said(both, holding(held), line.as_bytes());
    let fields: Vec<&str> = text.trim_end().split(' ').collect();
    let [_, verdict, _, word, ref place @ ..] = fields[..] else {
        panic!("a line of another form: {text}");
    };
    let verdict = verdict.parse().expect("a number");
    let no_word = matches!(verdict, 7 | 8 | 11);
    let digits = if no_word { 1 } else { digits };
    both.same(line, (word.len(), word == "-"), (digits, no_word));
    both.same(line, place.len(), verdict::has_word(verdict).into());
    verdict
}

/// The receiver holds all but the last 16 bits of a long frame; these are a short line. Its first two
/// bits, which are 0, are data bits 7 and 6: no single flip makes 240 of such data, so verdict 10
/// does not come.
#[test]
fn long_frames_by_short_lines() {
    let both = Both::of("long frames finished by short lines");
    let mut random = Random::new(324);
    let mut others = Tally::of([("verdict", 2, 6)]);
    let mut dropped = Tally::of([verdict::DROPPED]);
    for _ in 0..5_000 {
        let whole = frame(&mut random, Kind::Long, |number| number & 0xC000 == 0);
        let line = format!("{:04X}\n", whole.back(16).number);
        let verdict = verdict(&both, whole.front(26).held(), &line, 2);
        match verdict::is_dropped(verdict) {
            true => dropped.seen([verdict::of_dropped(verdict)]),
            false => others.seen([verdict]),
        }
    }
    assert_seen(&[&others, &dropped]);
    both.at_least(8 * 5_000);
}

/// The receiver holds 6 bits of a short frame; its last 10 and two more are a long line. If the
/// first or the second has stop bit 0, the third is not taken: no frame finishes with the line.
#[test]
fn short_frames_by_long_lines() {
    let both = Both::of("short frames finished by long lines");
    let mut random = Random::new(325);
    let mut fates = Tally::of([("fate (executed, verdict 7, 8, 11, none)", 0, 4)]);
    for _ in 0..5_000 {
        let first = frame(&mut random, Kind::Short, |number| number >> 8 & 3 == 1);
        let [second, third] = [(); 2].map(|_| frame(&mut random, Kind::Short, |_| true).number);
        let line = format!("{:03X}{second:04X}{third:04X}\n", first.back(10).number);
        let verdict = verdict(&both, first.front(6).held(), &line, 8);
        let quiet = first.number & second & 1 == 0;
        both.same(&line, verdict == VERDICT_NONE, quiet);
        fates.seen([match verdict {
            VERDICT_BROADCAST => 0,
            VERDICT_STOP_BIT => 1,
            VERDICT_EVEN_SYNDROME => 2,
            VERDICT_ODD_SYNDROME => 3,
            _ => 4,
        }]);
    }
    assert_seen(&[&fates]);
    both.at_least(8 * 5_000);
}
