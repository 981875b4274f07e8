//! `ttcrx_report_end` with reports of every kind and buffers of every length.

use crate::driver::{untouched, Driver};
use crate::inputs::{every_kind, front, TOO_LONG};
use ttcrx_host::sys::{Counters, Errors, LinePart, Report, LONGEST_END};
use ttcrx_host::testing::compare::Both;
use ttcrx_host::testing::random::Random;
use ttcrx_host::ttcrx::report_start;

#[test]
fn every_length() {
    let both = Both::of("ends with buffers of every length");
    let mut random = Random::new(330);
    for length in (0..140).chain([1_000, 4_096]) {
        for call in 0..100 {
            let report = every_kind(&mut random);
            let answer = Driver::of(&both, call, report).end(length);
            let small = length < LONGEST_END;
            let nothing = untouched(report, LONGEST_END);
            both.same(report, answer == nothing, small);
            let done = (answer.used, answer.room_wanted, answer.written > 0);
            both.same(report, done == (0, 0, true), !small);
        }
    }
    both.at_least(142 * 100 * 6);
}

/// Exactly this text is written.
#[track_caller]
fn says(both: &Both<'static>, report: Report, expected: &str) {
    let mut driver = Driver::of(both, 0, report);
    driver.end(LONGEST_END);
    both.same(report, driver.text().as_str(), expected);
}

#[test]
fn ends_by_hand() {
    let both = Both::of("ends written out by hand");
    let ends: [(u64, LinePart, &str); 15] = [
        (0, front(b""), "end 0 0 0 0\n"),
        (9, front(b""), "end 0 0 0 0\n"),
        (9, front(b"2097"), "10 1 1 02 1\nend 1 0 0 16\n"),
        (0, front(b"304F"), "1 8 0 -\nend 0 1 0 16\n"),
        (0, front(b"0039"), "1 11 0 -\nend 0 1 0 16\n"),
        (0, front(b"10000000003"), "1 9 0 00000000 0\nend 0 1 0 42\n"),
        // 41 ones after the last line too.
        (0, front(b"004E"), "1 7 0 -\nend 0 1 0 57\n"),
        (1, front(b"100150235AC"), "2 7 0 -\nend 0 1 0 83\n"),
        (0, front(b"100"), "1 ! 10\nend 0 0 0 0\n"),
        (u64::MAX, front(b"20G7"), "0 ! 11\nend 0 0 0 0\n"),
        (7, front(b"4001"), "8 ! 12\nend 0 0 0 0\n"),
        (
            u64::MAX - 1,
            front(b"100150235AD"),
            "18446744073709551615 2 0 00150235 0\nend 0 0 0 42\n",
        ),
        (0, TOO_LONG, "1 ! 10\nend 0 0 0 0\n"),
        // Fine delay F3, clean and with a wrong check bit: it belongs to no setting.
        (0, front(b"1001500F387"), "1 10 0 001500F3 0\nend 0 0 0 42\n"),
        (9, front(b"1001500F385"), "10 10 1 001500F3 39\nend 1 0 0 42\n"),
    ];
    for (lines, part, expected) in ends {
        let receiver = report_start().receiver;
        let report = Report { receiver, lines, part };
        says(&both, report, expected);
    }
    both.at_least(15 * 5);
}

/// The greatest numbers: those of a receiver that waits, and any of one that is ill-formed. The
/// longest text has 66 bytes: the longest line is never that of an ill-formed receiver.
#[test]
fn greatest_numbers() {
    let both = Both::of("ends with the greatest numbers");
    let mut report = report_start();
    report.lines = u64::MAX - 1;
    report.receiver.core.errors = Errors { single_errors: 65535, double_errors: 255, status5: 1 };
    let events = (1 << 24) - 1;
    let ends: [(u16, u32, &[u8], &str, &str); 6] = [
        (4079, events, b"2097", "1 1 02 1", "0 4095"),
        (4079, events, b"0001", "1 0 00 0", "16777215 4095"),
        (4053, events, b"1001500F387", "10 0 001500F3 0", "16777215 4095"),
        (4053, events, b"1001500F385", "10 1 001500F3 39", "16777215 4095"),
        (65535, u32::MAX, b"0001", "! 2", "4294967295 65535"),
        (65535, u32::MAX, b"1001500F387", "! 2", "4294967295 65535"),
    ];
    let mut longest = 0;
    for (bunch, event, line, said, counts) in ends {
        report.part = front(line);
        report.receiver.core.counters = Counters { bunch, event };
        let expected = format!("18446744073709551615 {said}\nend 65535 255 {counts}\n");
        says(&both, report, &expected);
        longest = longest.max(expected.len());
    }
    both.same("longest", longest, 66);
    both.at_least(6 * 5 + 1);
}
