//! `room_wanted`: 0 where all was done, else the room with which the next call goes on.

use crate::driver::{untouched, Driver};
use crate::inputs::{any_report, every_kind, input};
use ttcrx_host::model::report::whole_output;
use ttcrx_host::sys::{Report, Reported, LONGEST_END, LONGEST_LINE};
use ttcrx_host::testing::compare::Both;
use ttcrx_host::testing::null;
use ttcrx_host::testing::random::Random;
use ttcrx_host::ttcrx::report_start;

/// A piece, and an end after it. The driver tests what the piece wants.
#[test]
fn every_length() {
    let both = Both::of("pieces and ends with buffers of every length");
    let mut random = Random::new(340);
    for length in 0..=140 {
        for call in 0..200 {
            let input = input(&mut random, 8);
            let report = every_kind(&mut random);
            let mut driver = Driver::of(&both, call, report);
            driver.input(&input, length);
            let end = driver.end(length);
            let wanted = if length < LONGEST_END { LONGEST_END } else { 0 };
            both.same(report, end.room_wanted, wanted);
        }
    }
    both.at_least(141 * 200 * 11);
}

/// Lines of which each has a text of so many bytes, counted from this number. The last has verdict
/// 10 and a place of two digits: no line is longer than its text.
const LINES: [(&str, usize, u64); 6] = [
    ("0001\n", 11, 0),
    ("100150235AD\n", 17, 0),
    ("100150235AD\n", LONGEST_LINE - 2, 10_000_000_000_000_000_000),
    ("100150235AF\n", LONGEST_LINE - 1, 10_000_000_000_000_000_000),
    ("1001500F387\n", LONGEST_LINE - 1, 10_000_000_000_000_000_000),
    ("1001500F385\n", LONGEST_LINE, 10_000_000_000_000_000_000),
];

/// So many lines are reported as begin with room for the longest.
#[test]
fn lines_that_fit() {
    let both = Both::of("lines that fit, by hand");
    for (line, text, lines) in LINES {
        let input = line.repeat(5);
        let report = Report { lines, ..report_start() };
        for length in 0..=LONGEST_LINE + 5 * text {
            let answer = Driver::of(&both, 0, report).input(input.as_bytes(), length);
            let fit = (0..5).take_while(|count| length >= count * text + LONGEST_LINE);
            let fit = fit.count();
            let wanted = if fit < 5 { LONGEST_LINE } else { 0 };
            let said = (answer.used, answer.written, answer.room_wanted);
            both.same(length, said, (fit * line.len(), fit * text, wanted));
        }
    }
    both.at_least((94 + 124 + 219 + 224 + 224 + 229) * 7);
}

/// An empty piece leaves the report and wants nothing, with any buffer or none. With no buffer
/// nothing is done.
#[test]
fn nothing_lent() {
    let both = Both::of("empty pieces, and null with length 0");
    let mut random = Random::new(323);
    for call in 0..5_000 {
        let report = random.pick(&[every_kind, any_report])(&mut random);
        let input = input(&mut random, 3);
        let nothing = untouched(report, 0);
        for length in [0, 1, 37, 38, 65, 66, 100] {
            let answer = Driver::of(&both, call, report).input(&[], length);
            both.same(report, answer, nothing);
        }
        let mut buffer = [0xA5; 100];
        both.same(report, null::report_no_input(report, &mut buffer), nothing);
        both.same(report, buffer, [0xA5; 100]);
        both.same(report, null::report_no_input_to_null(report), nothing);
        let wanted = if input.is_empty() { 0 } else { LONGEST_LINE };
        let no_line = null::report_input_to_null(report, &input);
        both.same(report, no_line, untouched(report, wanted));
        let no_end = null::report_end_to_null(report);
        both.same(report, no_end, untouched(report, LONGEST_END));
    }
    both.at_least(5_000 * 50);
}

/// Calls until no room is wanted, each with what the last one wanted. Every call but the first does
/// something, so that there are no more than so many.
#[track_caller]
fn until_done(room: &mut usize, most: usize, mut call: impl FnMut(usize) -> Reported) {
    for _ in 0..most {
        let answer = call(*room);
        if answer.room_wanted == 0 {
            return;
        }
        *room = answer.room_wanted;
    }
    panic!("it does not end");
}

/// An input by a loop that knows no length: it goes by what is wanted alone.
fn naive(driver: &mut Driver, pieces: &[&[u8]], mut room: usize) {
    for piece in pieces {
        let mut rest = *piece;
        until_done(&mut room, 1 + piece.len(), |room| {
            let answer = driver.input(rest, room);
            rest = &rest[answer.used..];
            answer
        });
        assert!(rest.is_empty(), "input is left");
    }
    until_done(&mut room, 2, |room| driver.end(room));
}

#[test]
fn a_naive_loop() {
    let both = Both::of("inputs by loops that follow the room wanted");
    let mut random = Random::new(342);
    for first_room in [0, 1, 37, 38, 39, 65, 66, 67, 100, 1_000] {
        for seed in 0..50 {
            let input = input(&mut random, 30);
            let most = random.pick(&[1, 5, 20, 100, 1_000]);
            let pieces = random.pieces(&input, most);
            let mut driver = Driver::of(&both, seed, report_start());
            naive(&mut driver, &pieces, first_room);
            let expected = whole_output(&input);
            both.same(&input, driver.text().as_bytes(), &expected);
        }
    }
    both.at_least(10 * 50 * 30);
}
