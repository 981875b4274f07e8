//! The same input in other pieces: the output is the same.

use crate::compare::{same_end, same_from_file};
use crate::program;
use std::time::Duration;
use std::{fs, iter, thread};
use ttcrx_host::testing::compare::Cases;
use ttcrx_host::testing::lines::{lines, EVERY_KIND};
use ttcrx_host::testing::random::Random;

/// Random lines, of which the last has no line feed.
fn input(seed: u64, count: usize) -> Vec<u8> {
    let mut input = lines(&mut Random::new(seed), &EVERY_KIND, count);
    input.extend(b"100150235AD");
    input
}

/// Through a pipe in pieces of the lengths that the function gives.
#[track_caller]
fn fed(cases: &Cases, input: &[u8], mut length: impl FnMut() -> usize + Send) {
    let mut rest = input;
    let pieces = iter::from_fn(|| {
        let (piece, after) = rest.split_at(length().min(rest.len()));
        rest = after;
        (!piece.is_empty()).then_some(piece)
    });
    same_end(cases, "pieces", input, &program::fed(pieces));
}

/// As fast as they can be written, so that a read may bring many; and so slowly that it brings one.
#[test]
fn single_bytes() {
    let cases = Cases::of("inputs in pieces of 1 byte");
    let input = input(209, 3_000);
    fed(&cases, &input, || 1);
    fed(&cases, &input[..3_000], || {
        thread::sleep(Duration::from_micros(20));
        1
    });
    cases.at_least(2 * 2);
}

/// Often a few bytes, sometimes around the size of the program's buffer or of the pipe.
fn piece_length(random: &mut Random) -> usize {
    let length = match random.below(4) {
        0 => 1 + random.below(3),
        1 => 1 + random.below(30),
        2 => 4_090 + random.below(12),
        _ => 1 + random.below(70_000),
    };
    length as usize
}

#[test]
fn random_pieces() {
    let cases = Cases::of("inputs in pieces of random sizes");
    let input = input(210, 50_000);
    for seed in 0..10 {
        let mut random = Random::new(seed);
        fed(&cases, &input, || piece_length(&mut random));
    }
    cases.at_least(2 * 10);
}

/// The program finds its input empty now and then, and must wait.
#[test]
fn pauses() {
    let cases = Cases::of("inputs that come with pauses");
    for seed in 0..5 {
        let mut random = Random::new(seed);
        fed(&cases, &input(211 + seed, 150), || {
            thread::sleep(Duration::from_micros(random.below(3_000)));
            1 + random.below(40) as usize
        });
    }
    cases.at_least(2 * 5);
}

/// Files, a pipe into which nothing is written, and a device that is always empty.
#[test]
fn files_and_nothing() {
    let cases = Cases::of("inputs from files, and empty ones");
    same_from_file(&cases, "file", &input(220, 50_000));
    same_from_file(&cases, "empty file", b"");
    let nothing = program::fed(iter::empty());
    same_end(&cases, "closed pipe", b"", &nothing);
    let null = fs::File::open("/dev/null").expect("the null device");
    same_end(&cases, "/dev/null", b"", &program::reading(null));
    cases.at_least(2 * 4);
}
