//! Compares encode_short, encode_long, decode_short and decode_long with the model, and with what
//! document 01, and Q-8 of document 02, say of flipped bits.

use std::iter;
use ttcrx_host::model::{Columns, Kind};
use ttcrx_host::sys::*;
use ttcrx_host::testing::compare::Both;
use ttcrx_host::testing::convert::Answer;
use ttcrx_host::testing::coverage::{assert_seen, Tally};
use ttcrx_host::testing::example;
use ttcrx_host::testing::frame::{decode, Frame};
use ttcrx_host::testing::library::Library;
use ttcrx_host::testing::random::Random;
use ttcrx_host::testing::said::{dropped, said, short_numbers, FIXED};
use ttcrx_host::testing::traffic::{edge_numbers, storm};

/// Words at the edges and so many random ones, with the fixed bit as it comes.
fn words(seed: u64, count: u64) -> Vec<u32> {
    let mut words = vec![0, u32::MAX];
    words.extend((0..32).map(|place| 1 << place));
    words.extend((0..32).map(|place| !(1u32 << place)));
    for address in [0, 1, 5, 6, 8191, 8192, 16382, 16383] {
        for e_and_fixed in [FIXED, 1 << 17 | FIXED] {
            for sub_address in [0, 1, 2, 3, 4, 6, 7, 255] {
                let upper = address << 18 | e_and_fixed | sub_address << 8;
                words.extend([0, 1, 0x35, 0x80, 0xEF, 0xF0, 0xFF].map(|data| upper | data));
            }
        }
    }
    let mut random = Random::new(seed);
    words.extend((0..count).map(|_| random.number() as u32));
    words
}

/// A frame of this word, clean and with every one and two flips of protected bits, the first at
/// each place.
fn flip(both: &Both, frame: Frame, word: u32) {
    let kind = frame.kind();
    let expect = |flips: u64, expected: Decoded| {
        let answer = decode(both, frame.flipped(flips));
        both.same((frame, flips), answer, expected);
    };
    expect(0, said(kind, word, 0));
    for first in frame.places() {
        expect(frame.at(first), said(kind, word, first));
        for second in 1..first {
            let two = frame.at(first) | frame.at(second);
            expect(two, dropped(VERDICT_EVEN_SYNDROME));
        }
    }
}

/// Start, format and stop are not protected, also not beside a flip that could be corrected.
fn flip_unprotected(both: &Both, frame: Frame) {
    let places = [
        (frame.length - 1, Decoded::refused(REFUSED_FRAME)),
        (frame.length - 2, Decoded::refused(REFUSED_FRAME)),
        (0, dropped(VERDICT_STOP_BIT)),
    ];
    let protected = (1..=frame.kind().protected_bits()).map(|place| 1 << place);
    for other in iter::once(0).chain(protected) {
        for (place, expected) in places {
            let answer = decode(both, frame.flipped(other | 1 << place));
            both.same((frame, other, place), answer, expected);
        }
    }
}

#[test]
fn encode_long_corners() {
    let both = Both::of("encode_long corners");
    let bytes = [0, 1, 2, 3, 6, 7, 0x10, 0x35, 0x7F, 0x80, 0xAA, 0xFE, 0xFF];
    for place in 0..13 * 13 {
        let (sub_address, data) = (bytes[place / 13], bytes[place % 13]);
        for address in [0, 1, 5, 16382, 16383, 16384, 16385, 65535] {
            for e in [0, 1, 2, 255] {
                let refusal = both.encode_long(address, e, sub_address, data).refusal;
                let in_range = address <= 16383 && e <= 1;
                let expected = if in_range { 0 } else { REFUSED_FIELD };
                both.same((address, e), refusal, expected);
            }
        }
    }
    both.at_least(2 * 8 * 4 * 13 * 13);
}

#[test]
fn encode_long_random() {
    let both = Both::of("encode_long random");
    let mut random = Random::new(2);
    let mut refusals = 0;
    for _ in 0..500_000 {
        let narrow = !random.once_in(4);
        let address = random.number() as u16 >> if narrow { 2 } else { 0 };
        let e = random.byte() & if random.once_in(6) { 255 } else { 1 };
        let (sub_address, data) = (random.byte(), random.byte());
        let answer = both.encode_long(address, e, sub_address, data);
        refusals += u32::from(answer.refusal != 0);
    }
    assert!((100_000..400_000).contains(&refusals), "{refusals} refused");
    both.at_least(500_000);
}

/// Of the 32 syndromes one is clean, 13 belong to a bit, 15 others have an even number of ones; 26,
/// 28 and 31 have an odd number and belong to no bit.
#[test]
fn decode_short_numbers() {
    let both = Both::of("decode_short of all 16 bit numbers, and of far ones");
    let expected = short_numbers(Columns::own());
    let mut found = [[0; 2]; 12];
    for number in 0..=0xFFFF {
        let answer = both.decode_short(number);
        match expected.get(number as usize) {
            Some(expected) => {
                both.same(number, answer, *expected);
                found[usize::from(answer.verdict)][usize::from(answer.corrected)] += 1;
            }
            None => both.same(number, answer, Decoded::refused(REFUSED_FRAME)),
        }
    }
    assert_eq!((found[0], found[7]), ([256, 256 * 13], [1 << 13, 0]));
    assert_eq!((found[8], found[11]), ([256 * 15, 0], [256 * 3, 0]));
    let mut random = Random::new(3);
    for number in edge_numbers() {
        both.decode_short(number);
    }
    for _ in 0..200_000 {
        both.decode_short(random.number());
        both.decode_short(random.any_length());
    }
    both.at_least(2 * 65_536 + 8 * 64 + 400_000);
}

/// The places of some bits by hand, and of each by the words of Q-8 and of ttcrx.h: data bit i of n
/// and check bit j of w, each counted from the least significant.
#[test]
fn places_of_bits() {
    let both = Both::of("places of bits");
    let (short, long) = (Frame::short(0x5A), Frame::word(0x0015_0235));
    for (frame, bit, place) in [
        (short, 13, 1),
        (short, 6, 8),
        (short, 5, 9),
        (short, 1, 13),
        (long, 39, 1),
        (long, 8, 32),
        (long, 7, 33),
        (long, 1, 39),
    ] {
        let flip = 1u64 << bit;
        both.same(bit, decode(&both, frame.flipped(flip)).place, place);
        both.same(bit, (frame.place_of(flip), frame.at(place)), (place, flip));
    }
    for (frame, places) in [(short, PLACES_SHORT), (long, PLACES_LONG)] {
        let (n, w) = (frame.kind().data_bits(), frame.kind().check_bits());
        let data = (0..n).map(|i| (1 + w + i, n - i));
        let check = (0..w).map(|j| (1 + j, n + w - j));
        for (bit, place) in data.chain(check) {
            let arrived = frame.flipped(1 << bit);
            let found = decode(&both, arrived).place;
            both.same(bit, found, place);
            both.same(bit, arrived.flipped(1 << (places + 1 - found)), frame);
        }
    }
    both.at_least(8 * 3 + (13 + 39) * 3);
}

/// All broadcasts, as the library encodes them.
#[test]
fn broadcasts_flipped() {
    let both = Both::of("broadcasts with flips");
    for data in 0..=255 {
        let frame = Frame::of(Kind::Short, both.encode_short(data).number);
        flip(&both, frame, data.into());
        flip_unprotected(&both, frame);
    }
    both.at_least(256 * (1 + 2 * (1 + 13 + 78) + 2 * 14 * 3));
}

/// Words at the edges and so many random ones, all with this fixed bit.
fn flip_words(name: &'static str, seed: u64, count: u64, fixed: u32) {
    let both = Both::of(name);
    for word in words(seed, count) {
        let word = word & !FIXED | fixed;
        flip(&both, Frame::word(word), word);
    }
    both.at_least(count * 2 * (1 + 39 + 741));
}

#[test]
fn long_words_flipped() {
    let name = "long words, fixed bit 1, with one and two flips";
    flip_words(name, 4, 20_000, FIXED);
}

#[test]
fn long_words_without_fixed_bit_flipped() {
    let name = "long words, fixed bit 0, with one and two flips";
    flip_words(name, 5, 3_000, 0);
}

#[test]
fn long_words_with_unprotected_flips() {
    let both = Both::of("long words with start, format or stop flipped");
    for word in words(6, 2_000) {
        flip_unprotected(&both, Frame::word(word));
    }
    both.at_least(2_000 * 2 * 40 * 3);
}

/// Any number of flips. With an odd number the frame is corrected, or gets 11; with an even number
/// it is clean, or gets 8. One that is taken for another frame differs from it in no bit, or in the
/// bit at its place; without the fixed bit it gets 9. Gives the verdict.
fn flip_any(both: &Both, sent: Frame, flips: u64) -> u8 {
    let (kind, arrived) = (sent.kind(), sent.flipped(flips));
    let answer = decode(both, arrived);
    let (verdict, word) = (answer.verdict, answer.word);
    let wrong = arrived.number ^ Frame::encoded(kind, word).number;
    let has_word = matches!(verdict, DECODED_GOOD | VERDICT_FIXED_BIT);
    let expected = match (flips.count_ones() % 2, wrong.count_ones()) {
        (0, 0) if has_word => said(kind, word, 0),
        (1, 1) if has_word => said(kind, word, sent.place_of(wrong)),
        (0, _) => dropped(VERDICT_EVEN_SYNDROME),
        _ => dropped(VERDICT_ODD_SYNDROME),
    };
    both.same((sent, flips), answer, expected);
    verdict
}

/// Every set of flips of every broadcast: with two 8, with an odd number never 8, with an even number
/// never 11.
#[test]
fn broadcasts_with_every_set_of_flips() {
    let both = Both::of("broadcasts with every set of flips");
    let mut found = [[0u32; 12]; 14];
    for data in 0..=255 {
        let frame = Frame::of(Kind::Short, both.encode_short(data).number);
        for flips in (1..1 << 13).map(|flips: u64| flips << 1) {
            let verdict = flip_any(&both, frame, flips);
            found[flips.count_ones() as usize][usize::from(verdict)] += 1;
        }
    }
    for (count, found) in found.iter().enumerate() {
        let never = if count % 2 == 1 { VERDICT_EVEN_SYNDROME } else { VERDICT_ODD_SYNDROME };
        assert_eq!(found[usize::from(never)], 0, "{count} flips: {found:?}");
    }
    let of = |count: usize, verdict: u8| found[count][usize::from(verdict)];
    assert_eq!(of(1, DECODED_GOOD), 256 * 13);
    assert_eq!(of(2, VERDICT_EVEN_SYNDROME), 256 * 78);
    assert_eq!((of(3, DECODED_GOOD), of(3, VERDICT_ODD_SYNDROME)), (256 * 220, 256 * 66));
    assert_eq!((of(4, DECODED_GOOD), of(4, VERDICT_EVEN_SYNDROME)), (256 * 55, 256 * 660));
    both.at_least(256 * (1 + 8191 * 2));
}

/// Three to 39 flips of long words.
#[test]
fn long_words_with_many_flips() {
    let both = Both::of("long words with 3 to 39 flips");
    let mut random = Random::new(7);
    let mut counts = Tally::of([("flips", 3, 39)]);
    let mut fates = Tally::of([("odd", 0, 1), ("fate (another frame, fixed bit, dropped)", 0, 2)]);
    for _ in 0..600_000 {
        let frame = Frame::word(random.number() as u32 | FIXED);
        let flips = storm(&mut random, frame, 3);
        let count = flips.count_ones() as u8;
        let fate = match flip_any(&both, frame, flips) {
            DECODED_GOOD => 0,
            VERDICT_FIXED_BIT => 1,
            _ => 2,
        };
        counts.seen([count]);
        fates.seen([count % 2, fate]);
    }
    assert_seen(&[&counts, &fates]);
    both.at_least(2 * 600_000);
}

#[test]
fn decode_long_random() {
    let both = Both::of("decode_long of random numbers");
    let mut random = Random::new(8);
    let mut verdicts = [0; 12];
    for _ in 0..1_000_000 {
        both.decode_long(random.number());
        both.decode_long(random.any_length());
        let leading_right = 1 << 40 | random.below(1 << 40);
        let verdict = both.decode_long(leading_right).verdict;
        verdicts[usize::from(verdict)] += 1;
    }
    for verdict in [0, 7, 8, 9, 11] {
        assert!(verdicts[verdict] > 10_000, "verdicts {verdicts:?}");
    }
    both.at_least(3_000_000);
}

#[test]
fn decode_long_edges() {
    let both = Both::of("decode_long of edges");
    for frame in example::ODD_SYNDROMES {
        both.same(frame, decode(&both, frame), dropped(VERDICT_ODD_SYNDROME));
    }
    for number in edge_numbers() {
        both.decode_long(number);
        both.decode_long(1 << 40 | number);
        both.decode_long(1 << 40 ^ number);
    }
    both.at_least(2 * 2 + 3 * 8 * 64);
}

/// The library decodes what it has encoded.
#[test]
fn frames_are_read_back() {
    let both = Both::of("library's own frames read back by the library");
    let mut random = Random::new(9);
    for _ in 0..200_000 {
        let word = random.number() as u32 | FIXED;
        let expected = said(Kind::Long, word, 0);
        let fields = expected.fields;
        let frame = both.encode_long(fields.address, fields.e, fields.sub_address, fields.data);
        both.same(word, both.decode_long(frame.number), expected);
    }
    both.at_least(3 * 200_000);
}
