//! Q-1 of document 02, "Quiet after a bad stop", in reports: 41 ones after each line with verdict
//! 7, and receivers that want ones.

use crate::driver::{said, Driver};
use crate::inputs::{input, quiet, report};
use ttcrx_host::model::Kind;
use ttcrx_host::sys::*;
use ttcrx_host::testing::compare::{Both, Cases};
use ttcrx_host::testing::coverage::{assert_seen, Tally};
use ttcrx_host::testing::frame::{send, wanting, Frame, RUN};
use ttcrx_host::testing::library::Proved;
use ttcrx_host::testing::lines::{any_frame, EVERY_KIND};
use ttcrx_host::testing::random::Random;
use ttcrx_host::testing::{printed, states, verdict};
use ttcrx_host::ttcrx;

/// Lines with verdict 7, first, in the middle, last, several in a row, with and without the last
/// line feed; and what is printed. 004E and 2096 take 16 clocks and 41 ones, 100150235AC takes 42
/// and 41.
const BY_HAND: [(&str, &str); 14] = [
    ("004E\n", "1 7 0 -\nend 0 1 0 57\n"),
    ("004E", "1 7 0 -\nend 0 1 0 57\n"),
    ("2096\n", "1 7 0 -\nend 0 1 0 57\n"),
    ("100150235AC\n", "1 7 0 -\nend 0 1 0 83\n"),
    ("100150235AC", "1 7 0 -\nend 0 1 0 83\n"),
    ("004E\n0001\n", "1 7 0 -\n2 1 0 00 0\nend 0 1 0 73\n"),
    ("0001\n004E\n0001\n", "1 1 0 00 0\n2 7 0 -\n3 1 0 00 0\nend 0 1 0 89\n"),
    ("0001\n004E\n", "1 1 0 00 0\n2 7 0 -\nend 0 1 0 73\n"),
    ("0001\n004E", "1 1 0 00 0\n2 7 0 -\nend 0 1 0 73\n"),
    ("004E\n004E\n004E\n", "1 7 0 -\n2 7 0 -\n3 7 0 -\nend 0 3 0 171\n"),
    ("004E\n100150235AC\n004E", "1 7 0 -\n2 7 0 -\n3 7 0 -\nend 0 3 0 197\n"),
    // A refused line sends no bit, and the ones were sent before it.
    ("004E\n4001\n\n2097\n", "1 7 0 -\n2 ! 12\n3 ! 10\n4 1 1 02 1\nend 1 1 0 73\n"),
    // No ones after the other frames that are dropped: 8, 9 and 11.
    ("304F\n10000000001\n0039\n", "1 8 0 -\n2 9 0 00000000 0\n3 11 0 -\nend 0 3 0 74\n"),
    // The ones count before a broadcast clears the bunch counter, and RESET clears all.
    (
        "004E\n004F\n004E\n100150600F3\n004E",
        "1 7 0 -\n2 1 0 01 0\n3 7 0 -\n4 3 0 00150600 0\n5 7 0 -\nend 0 1 0 57\n",
    ),
];

#[test]
fn lines_by_hand() {
    let both = Both::of("lines with verdict 7, by hand");
    let fresh = ttcrx::fresh(5, 5).receiver;
    for (input, expected) in BY_HAND {
        let (text, after) = said(&both, fresh, input);
        both.same(input, text.as_str(), expected);
        both.same(input, after.held, Held::default());
    }
    both.at_least(14 * 12);
}

/// The ones come with the line, not with the next one: the receiver waits when the call is done.
#[test]
fn the_ones_come_at_once() {
    let both = Both::of("the receiver after a line with verdict 7");
    for (line, bunch) in [("004E\n", 57), ("100150235AC\n", 83)] {
        let mut driver = Driver::of(&both, 0, ttcrx::report_start());
        driver.input(line.as_bytes(), LONGEST_LINE);
        let receiver = driver.report.receiver;
        let kept = (receiver.held, receiver.core.counters.bunch);
        both.same(line, kept, (Held::default(), bunch));
        let mut cut = Driver::of(&both, 0, ttcrx::report_start());
        cut.input(line.trim_end().as_bytes(), LONGEST_LINE);
        both.same(line, cut.report.receiver, ttcrx::report_start().receiver);
        cut.end(LONGEST_END);
        both.same(line, cut.report.receiver, receiver);
    }
    both.at_least(2 * 15);
}

/// A receiver that wants ones takes no frame: verdict 0, and no ones are sent, whatever the stop
/// bit. The long line of a start bit and 41 ones ends the run.
#[test]
fn receivers_that_want_ones_by_hand() {
    let both = Both::of("reports of receivers that want ones, by hand");
    let inputs: [(&str, &str, u8); 7] = [
        ("", "end 0 0 0 0\n", 0),
        ("0001\n", "1 0 0 00\nend 0 0 0 16\n", 40),
        ("0001", "1 0 0 00\nend 0 0 0 16\n", 40),
        ("004E\n004F\n", "1 0 0 00\n2 0 0 00\nend 0 0 0 32\n", 37),
        ("004E\n100150235AC", "1 0 0 00\n2 0 0 00000000\nend 0 0 0 58\n", 41),
        ("4001\n000G\n3FFF\n", "1 ! 12\n2 ! 11\n3 0 0 00\nend 0 0 0 16\n", 27),
        ("1FFFFFFFFFF\n2097\n004E", "1 0 0 00000000\n2 1 1 02 1\n3 7 0 -\nend 1 1 0 115\n", 0),
    ];
    for ones_wanted in 1..=RUN {
        let mut receiver = ttcrx::fresh(5, 5).receiver;
        receiver.held = wanting(ones_wanted);
        for (input, expected, wanted) in inputs {
            let (text, after) = said(&both, receiver, input);
            let wanted = if input.is_empty() { ones_wanted } else { wanted };
            both.same((input, ones_wanted), text.as_str(), expected);
            both.same((input, ones_wanted), after.held, wanting(wanted));
        }
    }
    both.at_least(41 * 7 * 5);
}

/// The ones at the end of a line count, and the start bit of the next line begins the run again: no
/// number of short lines ends it.
#[test]
fn runs_across_lines() {
    let both = Both::of("runs of ones across lines");
    let mut receiver = ttcrx::fresh(5, 5).receiver;
    receiver.held = wanting(RUN);
    let lines = "3FFF\n3FFF\n3FFF\n0001\n";
    let expected = "1 0 0 00\n2 0 0 00\n3 0 0 00\n4 0 0 00\nend 0 0 0 64\n";
    let (text, after) = said(&both, receiver, lines);
    both.same(lines, text.as_str(), expected);
    both.same(lines, after.held, wanting(40));
    both.at_least(10);
}

/// The text that a line has by the library's own single clocks, and the receiver after it.
fn by_clocks(receiver: Receiver, number: usize, line: &[u8]) -> (String, Receiver) {
    let read = ttcrx::read_line(line);
    if read.refusal != ACCEPTED {
        return (format!("{number} ! {}\n", read.refusal), receiver);
    }
    let kind = Kind::of_number(read.kind).expect("a kind");
    let last = send(&Proved, receiver, Frame::of(kind, read.number));
    let after = match last.outputs.verdict {
        VERDICT_STOP_BIT => send(&Proved, last.receiver, Frame::ones(RUN)).receiver,
        _ => last.receiver,
    };
    (format!("{number} {}\n", printed::fate(kind, &last.outputs)), after)
}

/// Reports beside single clocks of the library: of receivers that wait, hold bits or want ones.
#[test]
fn reports_by_single_clocks() {
    let cases = Cases::of("reports beside the library's single clocks");
    let mut random = Random::new(350);
    let keeps = ("receiver (waits, holds bits, wants ones)", 0, 2);
    let mut seen = Tally::of([keeps, ("verdict 7 on a line", 0, 1)]);
    for _ in 0..30_000 {
        let input = input(&mut random, 5);
        let mut receiver = states::well_formed(&mut random);
        let before = receiver.held;
        let report = Report { receiver, ..ttcrx::report_start() };
        let mut buffer = [0; 400];
        let done = ttcrx::report_input(report, &input, &mut buffer);
        let mut text = String::new();
        let lines = input.split_inclusive(|byte| *byte == b'\n');
        for (number, line) in (1..).zip(lines.filter(|line| line.ends_with(b"\n"))) {
            let (said, after) = by_clocks(receiver, number, &line[..line.len() - 1]);
            text += &said;
            receiver = after;
        }
        let known = (report, &input);
        cases.same(known, done.report.receiver, receiver);
        cases.same(known, &*String::from_utf8_lossy(&buffer[..done.written]), &*text);
        let keeps = u8::from(before.count > 0) + 2 * u8::from(before.ones_wanted > 0);
        seen.seen([keeps, text.contains(" 7 0 -").into()]);
    }
    assert_seen(&[&seen]);
    cases.at_least(2 * 30_000);
}

/// Any input on receivers that want ones; each verdict has to be seen, 0 before the run has ended.
#[test]
fn random_reports() {
    let both = Both::of("reports of receivers that want ones");
    let mut random = Random::new(351);
    let mut verdicts = Tally::of([verdict::ANY]);
    for ones_wanted in (1..=RUN).flat_map(|wanted| [wanted; 300]) {
        let input = [b"1FFFFFFFFFF\n".to_vec(), input(&mut random, 6)].concat();
        let input = &input[random.pick(&[0, 12])..];
        let mut driver = Driver::of(&both, 0, quiet(&mut random, ones_wanted));
        driver.report.part = LinePart::default();
        driver.input(input, 400);
        driver.end(LONGEST_END);
        for line in driver.text().lines().filter(|line| !line.starts_with("end")) {
            if let Some(Ok(verdict)) = line.split(' ').nth(1).map(str::parse) {
                verdicts.seen([verdict]);
            }
        }
    }
    assert_seen(&[&verdicts]);
    both.at_least(41 * 300 * 6);
}

/// Lines with verdict 7 in a row at any waiting receiver: it waits after each.
#[test]
fn many_bad_stops() {
    let both = Both::of("many lines with verdict 7");
    let mut random = Random::new(352);
    for _ in 0..500 {
        let count = 1 + random.below(9) as usize;
        let mut input = String::new();
        let mut clocks = 0;
        for _ in 0..count {
            let frame = any_frame(&mut random, &EVERY_KIND);
            let (digits, bad) = (frame.kind().digits(), frame.number & !1);
            input += &format!("{bad:0digits$X}\n");
            clocks += u16::from(frame.length) + u16::from(RUN);
        }
        let before = report(&mut random).receiver;
        let (text, after) = said(&both, before, &input);
        both.same(&input, text.matches(" 7 0 -\n").count(), count);
        let counters = (before.core.counters, after.core.counters);
        both.same(&input, counters.1.bunch, (counters.0.bunch + clocks) % 4096);
        both.same(&input, after.held, Held::default());
    }
    both.at_least(500 * 8);
}
