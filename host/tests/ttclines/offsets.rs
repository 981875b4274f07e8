//! Lines that begin and end at every offset around the multiples of 4,096, the size of the
//! program's buffer. The input is a file, so that a read may fill the buffer.

use crate::compare::{same, same_from_file};
use crate::lengths::{Content, CONTENTS, GOOD, LENGTHS};
use ttcrx_host::testing::compare::Cases;
use ttcrx_host::testing::random::Random;

const BUFFER: usize = 4_096;

/// Of a line that the offset is given for.
#[derive(Clone, Copy, Debug)]
enum Edge {
    FirstCharacter,
    LineFeed,
}

/// Whole lines of so many bytes: good ones, and empty ones at the end.
fn filler(bytes: usize) -> Vec<u8> {
    let mut filler = Vec::with_capacity(bytes);
    for line in GOOD.split_inclusive(|byte| *byte == b'\n').cycle() {
        if filler.len() + line.len() > bytes {
            break;
        }
        filler.extend_from_slice(line);
    }
    filler.resize(bytes, b'\n');
    filler
}

/// Fills the input up so that the edge of the line after it lies at the offset from a multiple of
/// 4,096, and puts the line there.
fn place(input: &mut Vec<u8>, line: &[u8], edge: Edge, offset: isize) {
    let before = match edge {
        Edge::FirstCharacter => 0,
        Edge::LineFeed => line.len(),
    };
    let missing = (offset - (before + input.len()) as isize).rem_euclid(BUFFER as isize);
    input.extend(filler(missing as usize));
    let at = (input.len() + before) as isize;
    assert_eq!((at - offset) % BUFFER as isize, 0, "not at the offset");
    input.extend_from_slice(line);
    input.push(b'\n');
}

/// The offsets around a multiple: further than the longest good line reaches.
const OFFSETS: std::ops::RangeInclusive<isize> = -14..=14;

/// One line in the first buffer or across its end, alone in its input.
#[test]
fn at_the_end_of_the_first_buffer() {
    let cases = Cases::of("lines around the end of the first buffer");
    let mut random = Random::new(204);
    for length in [0, 1, 3, 4, 5, 10, 11, 12, 13] {
        for offset in OFFSETS {
            let content = random.pick(&[Content::Ones, Content::Digits]);
            let line = content.line(&mut random, length);
            let mut input = filler(BUFFER - 64);
            place(&mut input, &line, Edge::FirstCharacter, offset);
            input.extend(GOOD);
            let name = format!("{length} characters at 4096 + {offset}");
            same_from_file(&cases, &name, &input);
        }
    }
    cases.at_least(2 * 9 * 29);
}

/// The input ends around the end of the first and of the second buffer, with and without a last
/// line feed.
#[test]
fn inputs_that_end_with_a_buffer() {
    let cases = Cases::of("inputs that end around the end of a buffer");
    for end in [BUFFER, 2 * BUFFER] {
        for bytes in end - 13..=end + 13 {
            for line in [&b"2097"[..], b"100150235AD", b""] {
                let mut input = filler(bytes - line.len());
                input.extend(line);
                same_from_file(&cases, &format!("{bytes} bytes"), &input);
            }
        }
    }
    cases.at_least(2 * 2 * 27 * 3);
}

/// Lines of every length of the list at every offset, in one input for each length.
#[test]
fn at_every_multiple() {
    let cases = Cases::of("lines around multiples of 4,096");
    let mut random = Random::new(205);
    for length in LENGTHS {
        let far = if length > 10_000 { 2 } else { 14 };
        for content in CONTENTS {
            let mut input = Vec::new();
            for edge in [Edge::FirstCharacter, Edge::LineFeed] {
                for offset in OFFSETS.filter(|offset| offset.abs() <= far) {
                    let line = content.line(&mut random, length);
                    place(&mut input, &line, edge, offset);
                }
            }
            input.extend(GOOD);
            let name = format!("{length} characters, {content:?}");
            same_from_file(&cases, &name, &input);
            same(&cases, &name, &input);
        }
    }
    cases.at_least(4 * 18 * 4);
}
