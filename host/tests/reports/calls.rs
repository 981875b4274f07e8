//! Single calls of `ttcrx_report_start` and `ttcrx_report_input` with reports of every kind.

use crate::driver::Driver;
use crate::inputs::{every_kind, input, TOO_LONG};
use ttcrx_host::sys::{LinePart, Report, LONGEST_END, LONGEST_LINE};
use ttcrx_host::testing::compare::{Both, Cases};
use ttcrx_host::testing::coverage::{assert_seen, Tally};
use ttcrx_host::testing::library::Library;
use ttcrx_host::testing::random::Random;
use ttcrx_host::ttcrx;

#[test]
fn the_start() {
    let both = Both::of("the start of a report");
    let by_hand =
        Report { receiver: ttcrx::fresh(5, 5).receiver, lines: 0, part: LinePart::default() };
    both.same((), both.report_start(), by_hand);
    both.at_least(2);
}

/// Buffers too short for a line, just long enough for one, and longer.
const LENGTHS: [usize; 14] = [0, 1, 36, 37, 38, 39, 43, 44, 45, 65, 66, 67, 68, 300];

#[test]
fn reports_of_every_kind() {
    let both = Both::of("single calls with reports of every kind");
    let mut random = Random::new(320);
    let mut seen = Tally::of([("well formed", 0, 1), ("input used up", 0, 1)]);
    for call in 0..60_000 {
        let input = input(&mut random, 12);
        let report = every_kind(&mut random);
        let length = random.pick(&LENGTHS);
        let answer = Driver::of(&both, call, report).input(&input, length);
        let good = ttcrx::well_formed(report.receiver);
        seen.seen([good, (answer.used == input.len()).into()]);
    }
    assert_seen(&[&seen]);
    both.at_least(200_000);
}

/// Past 2^64 - 1 the lines go on from 0.
#[test]
fn line_numbers_of_20_digits() {
    let both = Both::of("line numbers up to 2^64 - 1 and beyond");
    let report = Report { lines: u64::MAX - 2, ..ttcrx::report_start() };
    let mut driver = Driver::of(&both, 0, report);
    driver.piece(b"100150235AD\n1001710AAB7\n004F\n0001\n", LONGEST_LINE);
    let expected = "18446744073709551614 2 0 00150235 0\n\
                    18446744073709551615 4 0 001710AA 0\n\
                    0 1 0 01 0\n\
                    1 1 0 00 0\n";
    both.same("text", driver.text().as_str(), expected);
    both.same("lines", driver.report.lines, 1);
    both.at_least(10);
}

/// What the library says of the input and its end. The part of a line that is kept is left out.
fn said(report: Report, input: &[u8]) -> (Vec<u8>, Report) {
    let mut buffer = [0; 400];
    let lines = ttcrx::report_input(report, input, &mut buffer);
    assert_eq!((lines.used, lines.room_wanted), (input.len(), 0));
    let room = &mut buffer[lines.written..];
    assert!(room.len() >= LONGEST_END);
    let end = ttcrx::report_end(lines.report, room);
    let part = LinePart::default();
    let text = buffer[..lines.written + end.written].to_vec();
    (text, Report { part, ..end.report })
}

/// Of the characters "those beyond the count do not matter"; a count over 12 "is taken as 12".
#[test]
fn what_does_not_matter() {
    let cases = Cases::of("characters beyond the count, and counts over 12");
    let mut random = Random::new(326);
    for _ in 0..50_000 {
        let input = input(&mut random, 4);
        let report = every_kind(&mut random);
        let mut other = report;
        let mut kept = usize::from(report.part.count);
        if report.part == TOO_LONG {
            other.part.count += random.below(244) as u8;
            kept = 0;
        }
        random.fill(&mut other.part.characters[kept..]);
        cases.same((report, other), said(other, &input), said(report, &input));
    }
    cases.at_least(50_000);
}
