//! Encoders and decoders with lent columns, against the model and against what documents 01 and 02
//! say of check numbers, syndromes and flips.

use ttcrx_host::model::Kind;
use ttcrx_host::sys::*;
use ttcrx_host::testing::columns::{Table, OWN};
use ttcrx_host::testing::compare::Both;
use ttcrx_host::testing::convert::{columns, Answer};
use ttcrx_host::testing::flips::ways;
use ttcrx_host::testing::frame::{decode, Frame};
use ttcrx_host::testing::lending::Lending;
use ttcrx_host::testing::library::Library;
use ttcrx_host::testing::random::Random;
use ttcrx_host::testing::said::{dropped, flipped, said, short_numbers, FIXED};
use ttcrx_host::testing::traffic::{edge_numbers, protected};

/// The columns of a kind's data bits.
fn group(table: &Table, kind: Kind) -> &[u8] {
    let (short, long) = table.split_at(COLUMNS_SHORT);
    match kind {
        Kind::Short => short,
        Kind::Long => long,
    }
}

/// Start, format, data, check bits and stop: "the exclusive-or of the columns of the data bits that
/// are 1" is the check number.
fn frame(table: &Table, kind: Kind, data: u32) -> Frame {
    let columns = group(table, kind).iter().enumerate();
    let ones = columns.filter(|(bit, _)| data >> bit & 1 == 1);
    let check = ones.fold(0, |check, (_, column)| check ^ u64::from(*column));
    let format = u64::from(kind.number()) << kind.data_bits();
    let word = format | u64::from(data);
    Frame::of(kind, (word << kind.check_bits() | check) << 1 | 1)
}

/// The library with the next of so many tables lent, the own one first, each answer compared with the
/// model's.
fn each_table(
    both: &Both,
    seed: u64,
    count: u32,
    mut test: impl FnMut(&Lending, &Table, &mut Random),
) {
    let mut random = Random::new(seed);
    let lending = Lending::of(both);
    test(&lending, &OWN, &mut random);
    for _ in 1..count {
        let table = lending.any(&mut random);
        test(&lending, &table, &mut random);
    }
}

#[test]
fn every_broadcast() {
    let both = Both::of("broadcasts with lent columns");
    each_table(&both, 710, 300, |lending, table, _| {
        for data in 0..=255 {
            let expected = frame(table, Kind::Short, data);
            let answer = lending.encode_short(data as u8);
            both.same((table, data), (answer.refusal, answer.number), (0, expected.number));
        }
    });
    both.at_least(2 * 300 * 256);
}

/// All numbers under 2^14, and some that are no short frames: so each broadcast with every set of
/// flips.
#[test]
fn every_short_number() {
    let both = Both::of("short numbers with lent columns");
    each_table(&both, 711, 20, |lending, table, random| {
        for (number, expected) in (0..).zip(short_numbers(&columns(table))) {
            both.same((table, number), lending.decode_short(number), expected);
        }
        let far = [1 << 14, 1 << 40, u64::MAX, 1 << 14 | random.number()];
        for number in edge_numbers().into_iter().filter(|number| number >> 14 != 0).chain(far) {
            let refused = Decoded::refused(REFUSED_FRAME);
            both.same((table, number), lending.decode_short(number), refused);
        }
    });
    both.at_least(2 * 20 * (1 << 14));
}

/// A syndrome and what it does to a frame: the place that is told and the word; none if it belongs to
/// no bit. "A syndrome with one bit set: that check bit was wrong, the data stand. Equal to a column
/// in use: .. flip that data bit."
fn corrected(table: &Table, kind: Kind, word: u32, syndrome: u8) -> Option<(u8, u32)> {
    let data_bits = kind.data_bits();
    let column = group(table, kind).iter().position(|&column| column == syndrome);
    match (syndrome.count_ones(), column) {
        (0, _) => Some((0, word)),
        (1, _) => Some((data_bits + kind.check_bits() - syndrome.ilog2() as u8, word)),
        (_, Some(bit)) => Some((data_bits - bit as u8, word ^ 1 << bit)),
        _ => None,
    }
}

/// Every syndrome of a frame of this word. Gives how many are odd and belong to no bit.
fn syndromes(both: &Both, lending: &Lending, table: &Table, kind: Kind, word: u32) -> u32 {
    let sent = frame(table, kind, word);
    let mut odd = 0;
    for syndrome in 0..1u8 << kind.check_bits() {
        let expected = match corrected(table, kind, word, syndrome) {
            Some((place, word)) => said(kind, word, place),
            None if syndrome.count_ones() % 2 == 0 => dropped(VERDICT_EVEN_SYNDROME),
            None => dropped(VERDICT_ODD_SYNDROME),
        };
        let answer = decode(lending, sent.flipped(u64::from(syndrome) << 1));
        both.same((table, sent, syndrome), answer, expected);
        odd += u32::from(expected.verdict == VERDICT_ODD_SYNDROME);
    }
    odd
}

/// Of the 16 odd syndromes of a short frame 3 belong to no bit, of the 64 of a long one 25.
#[test]
fn every_syndrome() {
    let both = Both::of("every syndrome with lent columns");
    each_table(&both, 712, 1_000, |lending, table, random| {
        let word = random.number() as u32;
        let short = syndromes(&both, lending, table, Kind::Short, word % 256);
        let long = syndromes(&both, lending, table, Kind::Long, word);
        both.same(table, (short, long), (3, 25));
    });
    both.at_least(1_000 * 2 * (32 + 128));
}

/// A long frame of these fields, as the library encodes it, is decoded as these fields; with every
/// flip of a protected bit, and with some pairs.
fn long_frame(both: &Both, lending: &Lending, table: &Table, random: &mut Random) {
    let word = random.number() as u32 | FIXED;
    let Fields { address, e, sub_address, data } = said(Kind::Long, word, 0).fields;
    let answer = lending.encode_long(address, e, sub_address, data);
    let sent = frame(table, Kind::Long, word);
    both.same((table, word), answer, Encoded { refusal: 0, number: sent.number });
    flips(both, lending, random, sent, word);
    let without = word & !FIXED;
    flips(both, lending, random, frame(table, Kind::Long, without), without);
}

/// A frame of this word, clean, with every one flip, with 40 pairs of flips, and with a bad stop bit.
fn flips(both: &Both, lending: &Lending, random: &mut Random, sent: Frame, word: u32) {
    let mut all: Vec<u64> = ways(sent.kind(), 1).collect();
    all.push(0);
    all.extend((0..40).map(|_| protected(random, sent, 2)));
    for flips in all {
        let answer = decode(lending, sent.flipped(flips));
        both.same((sent, flips), answer, flipped(sent, word, flips));
        let stopped = decode(lending, sent.flipped(flips | 1));
        both.same((sent, flips), stopped, dropped(VERDICT_STOP_BIT));
    }
}

#[test]
fn long_frames_with_flips() {
    let both = Both::of("long frames with lent columns");
    each_table(&both, 713, 500, |lending, table, random| {
        for _ in 0..2 {
            long_frame(&both, lending, table, random);
        }
    });
    both.at_least(500 * 2 * 2 * 80 * 4);
}

/// Some frames with every pair of flips.
#[test]
fn every_pair_of_flips() {
    let both = Both::of("long frames with lent columns and every pair of flips");
    each_table(&both, 714, 60, |lending, table, random| {
        let word = random.number() as u32 | FIXED;
        let sent = frame(table, Kind::Long, word);
        for flips in ways(Kind::Long, 2) {
            let answer = decode(lending, sent.flipped(flips));
            both.same((table, sent, flips), answer, dropped(VERDICT_EVEN_SYNDROME));
        }
    });
    both.at_least(2 * 60 * 741);
}

/// Any numbers, most of them long frames; fields in and out of range.
#[test]
fn any_numbers_and_fields() {
    let both = Both::of("any numbers and fields with lent columns");
    let mut verdicts = [0u32; 12];
    let mut refusals = [0u32; 2];
    each_table(&both, 715, 400, |lending, _, random| {
        for _ in 0..300 {
            let leading_right = 1 << 40 | random.below(1 << 40);
            verdicts[usize::from(lending.decode_long(leading_right).verdict)] += 1;
            lending.decode_long(random.any_length());
            let (address, e) = (random.number() as u16 >> random.below(3), random.byte() % 3);
            let (sub_address, data) = (random.byte(), random.byte());
            let answer = lending.encode_long(address, e, sub_address, data);
            let refused = address > 16383 || e > 1;
            let expected = if refused { REFUSED_FIELD } else { ACCEPTED };
            both.same((address, e), answer.refusal, expected);
            refusals[usize::from(refused)] += 1;
        }
    });
    for verdict in [0, 7, 8, 9, 11] {
        assert!(verdicts[verdict] > 1_000, "verdicts {verdicts:?}");
    }
    assert!(refusals.iter().all(|&count| count > 10_000), "{refusals:?}");
    both.at_least(400 * 300 * 4);
}
