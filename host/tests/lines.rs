//! Compares read_line, write_short and write_long with the model.

use ttcrx_host::model::Kind;
use ttcrx_host::sys::{Line, REFUSED_FRAME};
use ttcrx_host::testing::compare::Both;
use ttcrx_host::testing::convert::Answer;
use ttcrx_host::testing::library::{Library, Model};
use ttcrx_host::testing::null;
use ttcrx_host::testing::random::Random;
use ttcrx_host::testing::traffic::edge_numbers;

const DIGITS: &[u8] = b"0123456789ABCDEFabcdef";

/// The answer to the line of a frame.
fn line(kind: Kind, number: u64) -> Line {
    Line { refusal: 0, kind: kind.number(), number }
}

/// Good and bad characters, the neighbours of the digits among them.
#[test]
fn four_characters_of_an_alphabet() {
    let both = Both::of("4 characters of 16 good and bad ones");
    let alphabet = *b"01349AFaf:@G`g \0";
    for number in 0..=0xFFFF {
        let character = |place: usize| alphabet[number >> place & 0xF];
        both.read_line(&[12, 8, 4, 0].map(character));
    }
    both.at_least(65_536);
}

#[test]
fn all_short_numbers_in_both_cases() {
    let both = Both::of("4 digits, all numbers, capitals and small letters");
    for number in 0..=0xFFFF {
        let expected = match number < 1 << 14 {
            true => line(Kind::Short, number),
            false => Line::refused(REFUSED_FRAME),
        };
        for line in [format!("{number:04X}"), format!("{number:04x}")] {
            both.same(&line, both.read_line(line.as_bytes()), expected);
        }
    }
    both.at_least(4 * 65_536);
}

/// Each place of the line takes every byte value in turn.
fn every_byte_in_every_place(both: &Both, line: &[u8]) {
    for place in 0..line.len() {
        let mut changed = line.to_vec();
        for byte in 0..=255 {
            changed[place] = byte;
            both.read_line(&changed);
        }
    }
}

#[test]
fn every_byte_in_every_place_of_good_lines() {
    let both = Both::of("lines with one place of every byte value");
    let mut random = Random::new(11);
    for &first in DIGITS {
        for length in [4, 4, 4, 4, 11, 11, 11, 11] {
            let mut line = vec![first];
            line.extend((1..length).map(|_| random.pick(DIGITS)));
            every_byte_in_every_place(&both, &line);
        }
    }
    both.at_least(22 * 4 * (4 + 11) * 256);
}

#[test]
fn lines_of_one_byte_value() {
    let both = Both::of("lines of one byte value");
    for byte in 0..=255 {
        for length in 0..=20 {
            both.read_line(&vec![byte; length]);
        }
    }
    both.at_least(256 * 21);
}

/// A line of that length: often digits throughout, then often with a right first digit.
fn random_line(random: &mut Random, length: usize) -> Vec<u8> {
    let bad = if random.once_in(2) { 12 } else { u64::MAX };
    let mut character = || match random.once_in(bad) {
        true => random.byte(),
        false => random.pick(DIGITS),
    };
    let mut line: Vec<u8> = (0..length).map(|_| character()).collect();
    if length > 0 && !random.once_in(3) {
        line[0] = random.pick(if length == 11 { b"1" } else { b"0123" });
    }
    line
}

#[test]
fn random_lines() {
    let both = Both::of("random lines of 0 to 20 characters");
    let mut random = Random::new(12);
    let mut refusals = [0; 15];
    for _ in 0..20_000 {
        for length in (0..=20).chain([4, 11, 4, 11, 4, 11]) {
            let refusal = both.read_line(&random_line(&mut random, length)).refusal;
            refusals[usize::from(refusal)] += 1;
        }
    }
    for refusal in [0, 10, 11, 12] {
        assert!(refusals[refusal] > 10_000, "refusals {refusals:?}");
    }
    both.at_least(20_000 * 27);
}

#[test]
fn random_bytes() {
    let both = Both::of("lines of 4 and 11 random bytes");
    let mut random = Random::new(13);
    for _ in 0..100_000 {
        for length in [4, 11] {
            let mut line = vec![0; length];
            random.fill(&mut line);
            both.read_line(&line);
        }
    }
    both.at_least(200_000);
}

/// Lengths that would pass for 4 or 11 if a part of the length were lost.
#[test]
fn very_long_lines() {
    let both = Both::of("very long lines");
    for length in (0..=0x120).chain(0xFFF0..=0x1_0020).chain([0x100_0004]) {
        both.read_line(&vec![b'1'; length]);
    }
    both.at_least(0x121 + 0x31 + 1);
}

/// A line feed, a carriage return or a sign belongs to no line that is handed over.
#[test]
fn characters_around_a_line() {
    let both = Both::of("lines with foreign characters around");
    for line in [&b"004F"[..], b"100150235AD", b"04F", b"00150235AD"] {
        for foreign in 0..=255u8 {
            both.read_line(&[line, &[foreign]].concat());
            both.read_line(&[&[foreign], line].concat());
        }
    }
    both.at_least(4 * 2 * 256);
}

/// Bytes on both sides of the lent part, to be left alone.
const GUARD: usize = 24;

/// Lends a part of a filled array. A line that was written is read back.
fn write(both: &Both, random: &mut Random, kind: Kind, number: u64, length: usize) {
    let mut bytes = vec![0; GUARD + length + GUARD];
    random.fill(&mut bytes);
    let guards = |bytes: &[u8]| [&bytes[..GUARD], &bytes[GUARD + length..]].concat();
    let before = guards(&bytes);
    let lent = &mut bytes[GUARD..GUARD + length];
    let written = match kind {
        Kind::Short => both.write_short(number, lent),
        Kind::Long => both.write_long(number, lent),
    };
    if written.refusal == 0 {
        let (end, characters) = lent[..written.length.into()].split_last().expect("bytes");
        both.same(number, *end, b'\n');
        both.same(number, both.read_line(characters), line(kind, number));
    }
    both.same((number, length), guards(&bytes), before);
}

/// Too short, just enough and longer, for both kinds.
fn write_all_lengths(both: &Both, random: &mut Random, kind: Kind, number: u64) {
    for length in 0..=16 {
        write(both, random, kind, number, length);
    }
}

#[test]
fn write_short_all() {
    let both = Both::of("short lines written");
    let mut random = Random::new(14);
    for number in 0..1 << 14 {
        write_all_lengths(&both, &mut random, Kind::Short, number);
    }
    both.at_least((1 << 14) * (17 * 3 + 12 * 3));
}

#[test]
fn write_short_far() {
    let both = Both::of("short lines of far numbers");
    let mut random = Random::new(15);
    for number in edge_numbers() {
        write_all_lengths(&both, &mut random, Kind::Short, number);
    }
    for _ in 0..5_000 {
        let number = random.any_length();
        write_all_lengths(&both, &mut random, Kind::Short, number);
    }
    both.at_least((64 * 8 + 5_000) * 17 * 3);
}

#[test]
fn write_long_edges() {
    let both = Both::of("long lines of edge numbers");
    let mut random = Random::new(16);
    for number in edge_numbers() {
        write_all_lengths(&both, &mut random, Kind::Long, number);
    }
    both.at_least(64 * 8 * 17 * 3);
}

#[test]
fn write_long_random() {
    let both = Both::of("long lines of random numbers");
    let mut random = Random::new(17);
    for _ in 0..20_000 {
        let right = 1 << 40 | random.below(1 << 40);
        write_all_lengths(&both, &mut random, Kind::Long, right);
        let number = random.any_length();
        write_all_lengths(&both, &mut random, Kind::Long, number);
    }
    both.at_least(20_000 * (2 * 17 * 3 + 5 * 3));
}

/// Lengths that would pass for small ones if a part of the length were lost.
#[test]
fn write_to_large_buffers() {
    let both = Both::of("lines written to large buffers");
    let mut random = Random::new(18);
    let frames = [
        (Kind::Short, 0x004F),
        (Kind::Short, 0x4000),
        (Kind::Long, 0x100_1502_35AD),
        (Kind::Long, 0x200_0000_0000),
    ];
    for length in (17..=0x120).chain(0xFFF8..=0x1_0010) {
        for (kind, number) in frames {
            write(&both, &mut random, kind, number, length);
        }
    }
    both.at_least((0x110 + 0x19) * (4 * 3 + 2 * 3));
}

#[test]
fn nothing_lent_as_null() {
    let both = Both::of("null with length 0");
    both.same("line", null::read_line(), Model.read_line(&[]));
    for number in edge_numbers() {
        let short = Model.write_short(number, &mut []);
        both.same(number, null::write_short(number), short);
        let long = Model.write_long(number, &mut []);
        both.same(number, null::write_long(number), long);
    }
    both.at_least(1 + 2 * 64 * 8);
}
