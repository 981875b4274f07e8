//! The numbers of the line `end`: counters that stop at their tops, wrap or are cleared by RESET.

use crate::compare::{same, same_from_file, same_text};
use crate::program;
use ttcrx_host::model::Fields;
use ttcrx_host::testing::compare::Cases;
use ttcrx_host::testing::example;
use ttcrx_host::testing::frame::Frame;

const CLEAN: &str = "0001\n";
const CORRECTED: &str = "2097\n";
const EVEN_SYNDROME: &str = "304F\n";
const ODD_SYNDROME: &str = "0039\n";
const STOP_BIT: &str = "004E\n";
const FIXED_BIT: &str = "10000000001\n";

/// The line of a long frame.
fn line(frame: Frame) -> String {
    format!("{:011X}\n", frame.number)
}

/// RESET to this address.
fn reset(address: u16) -> Frame {
    Frame::long(Fields { address, e: 0, sub_address: 6, data: 0 })
}

/// The line `end` is this one, by hand; and the whole output is the model's.
#[track_caller]
fn ends(cases: &Cases, input: &str, end: &str) {
    let front: String = input.chars().take(60).collect();
    let output = program::piped(input.as_bytes()).output;
    let last = output.split_inclusive(|byte| *byte == b'\n').next_back();
    let expected = format!("{end}\n");
    same_text(cases, &front, last.unwrap_or_default(), expected.as_bytes());
    same_from_file(cases, &front, input.as_bytes());
}

/// The frames of this file are what their names say.
#[test]
fn frames_of_this_file() {
    assert_eq!(reset(5), example::RESET);
    assert_eq!(line(reset(0)), "1000106001D\n");
    assert_eq!(line(Frame::word(0)), FIXED_BIT);
}

/// The bunch number is that of the clocks: 2097 clears only the event counter, so that 65,536 lines
/// are a whole number of turns.
#[test]
fn single_errors_stop_at_the_top() {
    let cases = Cases::of("single errors up to their top");
    for (lines, end) in [
        (65_534, "end 65534 0 0 4064"),
        (65_535, "end 65535 0 0 4080"),
        (65_536, "end 65535 0 0 0"),
        (65_540, "end 65535 0 0 64"),
    ] {
        ends(&cases, &CORRECTED.repeat(lines), end);
    }
    let cleared = CORRECTED.repeat(65_537) + &line(reset(5));
    ends(&cases, &cleared, "end 0 0 0 0");
    ends(&cases, &(cleared + CORRECTED), "end 1 0 0 16");
    cases.at_least(3 * 6);
}

/// A line with verdict 7 is followed by 41 ones.
#[test]
fn double_errors_stop_at_the_top() {
    let cases = Cases::of("double errors up to their top");
    for (line, clocks) in
        [(EVEN_SYNDROME, 16), (ODD_SYNDROME, 16), (STOP_BIT, 16 + 41), (FIXED_BIT, 42)]
    {
        for (lines, double) in [(254, 254), (255, 255), (256, 255), (300, 255)] {
            let end = format!("end 0 {double} 0 {}", lines * clocks % 4096);
            ends(&cases, &line.repeat(lines), &end);
        }
    }
    let all = [EVEN_SYNDROME, STOP_BIT, ODD_SYNDROME, FIXED_BIT].concat().repeat(100);
    ends(&cases, &(all.clone() + CORRECTED), "end 1 255 0 828");
    let cleared = all + &line(reset(0)) + STOP_BIT;
    ends(&cases, &cleared, "end 0 1 0 57");
    cases.at_least(3 * 18);
}

#[test]
fn the_bunch_count_wraps() {
    let cases = Cases::of("bunch counts around 4096");
    let short = [(255, 4080), (256, 0), (257, 16), (512, 0), (1_000, 3712)];
    let long = [(97, 4074), (98, 20), (195, 4094), (196, 40)];
    for (line, counts) in [(CLEAN, &short[..]), ("10001023543\n", &long)] {
        for (lines, bunch) in counts {
            let end = format!("end 0 0 0 {bunch}");
            ends(&cases, &line.repeat(*lines), &end);
        }
    }
    cases.at_least(3 * 9);
}

/// 16 clocks of a line with stop bit 0 and 41 ones, the wrap in the line or in the ones.
#[test]
fn the_bunch_count_wraps_in_the_ones() {
    let cases = Cases::of("bunch counts around 4096 with verdict 7");
    for (lines, bunch) in [(71, 4047), (72, 8), (143, 4055), (144, 16)] {
        let input = STOP_BIT.repeat(lines);
        let double = lines.min(255);
        for input in [input.as_str(), input.trim_end()] {
            ends(&cases, input, &format!("end 0 {double} 0 {bunch}"));
        }
    }
    cases.at_least(3 * 8);
}

/// Refused lines send no bit: no counter moves.
#[test]
fn refused_lines_count_nothing() {
    let cases = Cases::of("refused lines between frames");
    for refused in ["\n", "0\n", "00010\n", "000G\n", "4000\n", "00000000000\n"] {
        let input = [CORRECTED, refused, STOP_BIT, refused, refused].concat();
        ends(&cases, &input, "end 1 1 0 73");
    }
    cases.at_least(3 * 6);
}

/// RESET clears the counters, its own correction too; a corrupted or foreign one clears nothing.
#[test]
fn resets() {
    let cases = Cases::of("RESET after errors");
    let before = [CORRECTED, EVEN_SYNDROME, STOP_BIT].concat();
    for reset in [reset(5), reset(0)] {
        for bits in [0, 1 << 1, 1 << 7, 1 << 8, 1 << 24, 1 << 39] {
            let input = before.clone() + &line(reset.flipped(bits));
            ends(&cases, &input, "end 0 0 0 0");
            ends(&cases, &(input + CORRECTED), "end 1 0 0 16");
        }
        for (bits, bunch) in [(1, 172), (3, 172), (1 << 8 | 1 << 9, 131), (1 << 2 | 1 << 30, 131)] {
            let input = before.clone() + &line(reset.flipped(bits));
            ends(&cases, &input, &format!("end 1 3 0 {bunch}"));
        }
    }
    ends(&cases, &(before + &line(reset(4))), "end 1 2 0 131");
    same(&cases, "RESET alone", line(reset(5)).as_bytes());
    cases.at_least(3 * 33 + 2);
}
