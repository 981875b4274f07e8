//! Lines of every length that can go wrong, alone and among good lines.

use crate::compare::{same, same_from_file};
use ttcrx_host::testing::compare::Cases;
use ttcrx_host::testing::random::Random;

/// Lines that are good at a fresh receiver; none of them clears the bunch counter.
pub const GOOD: &[u8] = b"2097\n100150235AD\n3FC1\n180150235AD\n004e\n1001710aab7\n";

/// The lengths of stored lines and those beside them; of the program's buffer and those beside it,
/// those with 4 or 11 characters more than it, twice it; and a million.
pub const LENGTHS: [usize; 18] = [
    0, 1, 3, 4, 5, 10, 11, 12, 13, 4_095, 4_096, 4_097, 4_100, 4_107, 8_192, 8_196, 8_203,
    1_000_000,
];

/// What the characters of a line are.
#[derive(Clone, Copy, Debug)]
pub enum Content {
    /// Ones: every 4 or 11 of them in a row would be a good line.
    Ones,
    /// Digits of any kind.
    Digits,
    /// Bytes of any kind but the line feed.
    Bytes,
    /// Ones, and a last character that is no digit.
    BadLast,
}

pub const CONTENTS: [Content; 4] =
    [Content::Ones, Content::Digits, Content::Bytes, Content::BadLast];

impl Content {
    pub fn line(self, random: &mut Random, length: usize) -> Vec<u8> {
        let mut line = vec![b'1'; length];
        match self {
            Content::Ones => {}
            Content::Digits => line.fill_with(|| random.pick(b"0123456789ABCDEFabcdef")),
            Content::Bytes => line.fill_with(|| random.byte().max(b'\n' + 1)),
            Content::BadLast => line.iter_mut().rev().take(1).for_each(|last| *last = b'G'),
        }
        line
    }
}

#[test]
fn lines_alone_and_among_good_ones() {
    let cases = Cases::of("lines of chosen lengths");
    let mut random = Random::new(202);
    for length in LENGTHS {
        for content in CONTENTS {
            let line = content.line(&mut random, length);
            let name = format!("{length} characters, {content:?}");
            for input in [
                line.clone(),
                [&line, &b"\n"[..]].concat(),
                [&line, &b"\n"[..], GOOD].concat(),
                [&line, &b"\n"[..], &line, b"\n", GOOD, &line].concat(),
                [GOOD, &line, b"\n", GOOD, b"0001"].concat(),
            ] {
                same(&cases, &name, &input);
                same_from_file(&cases, &name, &input);
            }
        }
    }
    cases.at_least(18 * 4 * 5 * 4);
}

/// Lines of every length up to twice the program's buffer and beyond, each longer by one.
#[test]
fn every_length() {
    let cases = Cases::of("lines of every length");
    let mut random = Random::new(203);
    for (first, last) in [(0, 600), (3_900, 4_300), (8_000, 8_400), (12_200, 12_320)] {
        for content in [Content::Ones, Content::Bytes] {
            let mut input = Vec::new();
            for length in first..=last {
                input.extend(content.line(&mut random, length));
                input.extend(b"\n2097\n");
            }
            let name = format!("{first} to {last} characters, {content:?}");
            same_from_file(&cases, &name, &input);
        }
    }
    cases.at_least(2 * 4 * 2);
}
