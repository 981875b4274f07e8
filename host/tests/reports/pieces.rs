//! An input in pieces, from its beginning: the bytes written in all are the whole output of the
//! program, and what a report keeps does not depend on the cuts.

use crate::driver::Driver;
use crate::inputs::input;
use ttcrx_host::model::report::whole_output;
use ttcrx_host::sys::{Report, LONGEST_END, LONGEST_LINE};
use ttcrx_host::testing::compare::Both;
use ttcrx_host::testing::lines::{lines, EVERY_KIND, MOSTLY_CLEAN};
use ttcrx_host::testing::random::Random;
use ttcrx_host::ttcrx::report_start;

/// More room than any input of these tests asks for at once.
const AMPLE: usize = 40_000;

/// Lengths of buffers that take a line, near the least one and others.
const LENGTHS: [usize; 9] = [38, 39, 40, 65, 66, 67, 100, 4_096, AMPLE];

/// Reports the pieces, with buffers of these lengths in turn, and the end. Gives what the report
/// kept before the end.
#[track_caller]
fn reported(both: &Both<'static>, pieces: &[&[u8]], lengths: &[usize]) -> Report {
    let whole = whole_output(&pieces.concat());
    let mut driver = Driver::of(both, whole.len() as u64, report_start());
    for (piece, length) in pieces.iter().zip(lengths.iter().cycle()) {
        driver.piece(piece, *length);
    }
    let kept = driver.report;
    driver.end(LONGEST_END);
    let expected = String::from_utf8_lossy(&whole);
    both.same(pieces, driver.text().as_str(), &expected);
    kept
}

/// The same with the pieces and with the whole input at once.
#[track_caller]
fn as_whole(both: &Both<'static>, pieces: &[&[u8]], lengths: &[usize]) {
    let kept = reported(both, pieces, lengths);
    let whole = reported(both, &[&pieces.concat()], &[AMPLE]);
    both.same(pieces, kept, whole);
}

#[test]
fn every_cut() {
    let both = Both::of("inputs cut in two everywhere");
    let mut random = Random::new(310);
    for _ in 0..150 {
        let input = input(&mut random, 25);
        let lengths = [random.pick(&LENGTHS), random.pick(&LENGTHS)];
        for cut in 0..=input.len() {
            let (front, back) = input.split_at(cut);
            as_whole(&both, &[front, back], &lengths);
        }
    }
    both.at_least(750_000);
}

#[test]
fn every_two_cuts() {
    let both = Both::of("inputs cut in three everywhere");
    let input = b"004F\n004E\n100150235AD\n\n1111\r\n11111111111111\n180150235AD\n004E";
    for first in 0..=input.len() {
        for second in first..=input.len() {
            let (front, back) = input.split_at(second);
            let (front, middle) = front.split_at(first);
            as_whole(&both, &[front, middle, back], &[LONGEST_LINE, LONGEST_END, AMPLE]);
        }
    }
    both.at_least(47_000);
}

#[test]
fn random_cuts() {
    let both = Both::of("inputs cut into many pieces");
    let mut random = Random::new(311);
    for _ in 0..1_500 {
        let input = input(&mut random, 60);
        let most = random.pick(&[1, 2, 6, 30, 400]);
        let pieces = random.pieces(&input, most);
        let lengths = [0; 5].map(|_| random.pick(&LENGTHS));
        as_whole(&both, &pieces, &lengths);
    }
    both.at_least(750_000);
}

/// Every single byte a piece, and every buffer length around the edges.
#[test]
fn single_bytes() {
    let both = Both::of("inputs byte by byte");
    let mut random = Random::new(312);
    for length in (LONGEST_LINE..73).chain([100, 1_000]) {
        let input = input(&mut random, 40);
        let pieces: Vec<&[u8]> = input.chunks(1).collect();
        as_whole(&both, &pieces, &[length]);
        as_whole(&both, &[&input], &[length]);
    }
    both.at_least(36_000);
}

/// Many lines at once, in buffers of the program's size and of others.
#[test]
fn many_lines() {
    let both = Both::of("20,000 lines in pieces of 4,096 bytes");
    let lengths = [(&EVERY_KIND, 4_096), (&MOSTLY_CLEAN, LONGEST_END), (&EVERY_KIND, LONGEST_LINE)];
    for (mix, length) in lengths {
        let input = lines(&mut Random::new(length as u64), mix, 20_000);
        let pieces: Vec<&[u8]> = input.chunks(4_096).collect();
        as_whole(&both, &pieces, &[length]);
    }
    both.at_least(139_000);
}

/// Lines longer than any piece: only their front is kept, then not even that.
#[test]
fn long_lines() {
    let both = Both::of("long lines in pieces");
    for length in [11, 12, 13, 255, 256, 259, 267, 4_096, 4_100, 65_536, 65_540] {
        let line = vec![b'1'; length];
        let input = [&line, &b"\n2097\n"[..], &line].concat();
        for piece in [1, 7, 11, 12, 255, 256, 4_096, input.len()] {
            if length / piece > 5_000 {
                continue;
            }
            let pieces: Vec<&[u8]> = input.chunks(piece).collect();
            reported(&both, &pieces, &[LONGEST_LINE, LONGEST_END]);
        }
    }
    both.at_least(130_000);
}
