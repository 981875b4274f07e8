//! Every byte value in a line, and lines of bytes that are no digits.

use crate::compare::same;
use ttcrx_host::testing::compare::Cases;
use ttcrx_host::testing::random::Random;

/// A line with each of its places taken by this byte in turn, each followed by a good line. Where
/// the byte is a line feed it ends the line.
fn in_every_place(line: &[u8], byte: u8) -> Vec<u8> {
    let mut input = Vec::new();
    for place in 0..line.len() {
        let mut changed = line.to_vec();
        changed[place] = byte;
        input.extend(changed);
        input.extend(b"\n0001\n");
    }
    input
}

#[test]
fn every_byte_in_every_place() {
    let cases = Cases::of("every byte in every place of a line");
    for byte in 0..=255 {
        let lines = [&b"004F"[..], b"100150235AD"];
        let input = lines.map(|line| in_every_place(line, byte)).concat();
        same(&cases, &format!("byte {byte}"), &input);
    }
    cases.at_least(2 * 256);
}

/// The byte before, after and in the middle of lines, and alone.
#[test]
fn foreign_bytes_around_lines() {
    let cases = Cases::of("foreign bytes around lines");
    for byte in (0..=255).filter(|byte| *byte != b'\n') {
        let mut input = Vec::new();
        for line in [&b"004F"[..], b"04F", b"100150235AD", b"00150235AD", b""] {
            let (front, back) = line.split_at(line.len() / 2);
            input.extend([&[byte], line, b"\n"].concat());
            input.extend([line, &[byte], b"\n"].concat());
            input.extend([front, &[byte], back, b"\n"].concat());
            input.extend([&[byte], line, &[byte], b"\n0001\n"].concat());
        }
        input.push(byte);
        same(&cases, &format!("byte {byte}"), &input);
    }
    cases.at_least(2 * 255);
}

/// Lines of one byte value, of 0 to 13 bytes.
#[test]
fn lines_of_one_byte() {
    let cases = Cases::of("lines of one byte value");
    for first in (0..=255).step_by(16) {
        let mut input = Vec::new();
        for byte in first..=first + 15 {
            for count in 0..=13 {
                input.extend(vec![byte; count]);
                input.extend(b"\n");
            }
            input.extend(b"0001\n");
        }
        same(&cases, &format!("16 bytes from {first}"), &input);
    }
    cases.at_least(2 * 16);
}

/// Random bytes, of which any may be a line feed.
#[test]
fn noise() {
    let cases = Cases::of("random bytes");
    let mut random = Random::new(200);
    for feeds in [0, 3, 5, 12, 100] {
        let mut input = vec![0; 100_000];
        random.fill(&mut input);
        for byte in input.iter_mut() {
            if feeds != 0 && random.once_in(feeds) {
                *byte = b'\n';
            }
        }
        same(&cases, "noise", &input);
    }
    cases.at_least(2 * 5);
}

/// Each digit small or a capital by chance.
#[test]
fn mixed_case() {
    let cases = Cases::of("capitals and small letters");
    let mut random = Random::new(201);
    let mut input = Vec::new();
    for _ in 0..20_000 {
        let (length, first) = random.pick(&[(4, &b"0123"[..]), (11, b"1")]);
        input.push(random.pick(first));
        input.extend((1..length).map(|_| random.pick(b"0123456789ABCDEFabcdef")));
        input.push(b'\n');
    }
    same(&cases, "all", &input);
    same(&cases, "small", &input.to_ascii_lowercase());
    same(&cases, "capitals", &input.to_ascii_uppercase());
    cases.at_least(2 * 3);
}
