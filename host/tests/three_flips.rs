//! Damage that the code does not find. Three and four wrong protected bits: what the decoders answer
//! does not depend on the frame, and docs/AUDIT.md says so with the right numbers. Its examples of
//! four wrong bits, and of a wrong start bit.

use ttcrx_host::model::Kind;
use ttcrx_host::sys::{VERDICT_BROADCAST, VERDICT_EVEN_SYNDROME};
use ttcrx_host::testing::compare::Cases;
use ttcrx_host::testing::files::text;
use ttcrx_host::testing::flips::{count, Counts};
use ttcrx_host::testing::frame::{decode, Frame};
use ttcrx_host::testing::library::{Library, Model, Proved};
use ttcrx_host::testing::random::Random;

/// Three wrong bits: the frame is taken for another with one wrong bit, or gets 11 or 9.
const THREE_SHORT: Counts =
    Counts { ways: 286, clean: 0, corrected: 220, even: 0, odd: 66, fixed_bit: 0, as_sent: 0 };

const THREE_LONG: Counts = Counts {
    ways: 9_139,
    clean: 0,
    corrected: 4_948,
    even: 0,
    odd: 3_639,
    fixed_bit: 552,
    as_sent: 0,
};

/// Four wrong bits: the frame is taken for another that arrived clean, or gets 8 or 9.
const FOUR_SHORT: Counts =
    Counts { ways: 715, clean: 55, corrected: 0, even: 660, odd: 0, fixed_bit: 0, as_sent: 0 };

const FOUR_LONG: Counts = Counts {
    ways: 82_251,
    clean: 1_237,
    corrected: 0,
    even: 80_876,
    odd: 0,
    fixed_bit: 138,
    as_sent: 0,
};

/// So many wrong bits of each of these frames, decoded by library and model.
#[track_caller]
fn counted(cases: &Cases, flips: u32, frames: &[Frame], expected: Counts) {
    for &frame in frames {
        for library in [&Proved as &dyn Library, &Model] {
            cases.same((frame, flips), count(library, frame, flips), expected);
        }
    }
}

/// Broadcasts of every byte.
#[test]
fn counts_are_the_same_for_every_short_frame() {
    let cases = Cases::of("three and four flips of short frames");
    let frames: Vec<Frame> = (0..=255).map(Frame::short).collect();
    counted(&cases, 3, &frames, THREE_SHORT);
    counted(&cases, 4, &frames, FOUR_SHORT);
    cases.at_least(2 * 2 * 256);
}

/// Edge and random words with the fixed bit; four flips of some of them.
#[test]
fn counts_are_the_same_for_every_long_frame() {
    let cases = Cases::of("three and four flips of long frames");
    let mut random = Random::new(0x3F11);
    let edges = [0, 0x0015_0235, 0x0015_0600, u32::MAX];
    let words = edges.into_iter().chain((0..60).map(|_| random.number() as u32));
    let frames: Vec<Frame> = words.map(|word| Frame::word(word | 1 << 16)).collect();
    counted(&cases, 3, &frames, THREE_LONG);
    counted(&cases, 4, &frames[..10], FOUR_LONG);
    cases.at_least(2 * (64 + 10));
}

/// Four wrong bits can make another frame, without a correction.
#[test]
fn four_flips_of_the_document() {
    let sent = Frame::short(0x00);
    let flips = 1 << 6 | 0b111 << 1;
    assert_eq!((sent.number, sent.flipped(flips)), (0x0001, Frame::short(0x01)));
    assert_eq!(sent.flipped(flips).number, 0x004F);
}

/// A frame, four of its bits, and the verdict and the word with those flipped: an even syndrome, or
/// the frame of another word, clean. A data bit and the three check bits of its column are such.
const FOUR_FLIPS: [(Frame, u64, u8, u32); 6] = [
    (Frame::of(Kind::Short, 0x0001), 0b1111 << 1, VERDICT_EVEN_SYNDROME, 0),
    (Frame::of(Kind::Short, 0x0001), 0b1111 << 10, VERDICT_EVEN_SYNDROME, 0),
    (Frame::of(Kind::Short, 0x0001), 1 << 6 | 7 << 1, 0, 0x01),
    (Frame::of(Kind::Long, 0x100_1502_35AD), 0b1111 << 1, VERDICT_EVEN_SYNDROME, 0),
    (Frame::of(Kind::Long, 0x100_1502_35AD), 1 << 8 | 7 << 1, 0, 0x0015_0234),
    (Frame::of(Kind::Long, 0x100_1502_35AD), 1 << 39 | 98 << 1, 0, 0x8015_0235),
];

#[test]
fn four_flips_by_hand() {
    for (sent, flips, verdict, word) in FOUR_FLIPS {
        assert_eq!(flips.count_ones(), 4);
        let answer = decode(&Proved, sent.flipped(flips));
        let said = (answer.verdict, answer.corrected, answer.place, answer.word);
        assert_eq!(said, (verdict, 0, 0, word), "{sent:X?} {flips:X}");
    }
}

/// With a wrong start bit the receiver reads other bits as a frame: a broadcast that nobody sent.
#[test]
fn a_wrong_start_bit_of_the_document() {
    let sent = Frame::of(Kind::Long, 0x100_97FF_FF65);
    let decoded = Proved.decode_long(sent.number);
    assert_eq!((decoded.verdict, decoded.corrected, decoded.fields.address), (0, 0, 37));
    let mut receiver = Proved.fresh(5, 5).receiver;
    let mut executed = Vec::new();
    for bit in sent.flipped(1 << 41).bits() {
        let answer = Proved.clock(receiver, 0, bit);
        receiver = answer.receiver;
        if answer.outputs.verdict == VERDICT_BROADCAST {
            executed.push(answer.outputs.word);
        }
    }
    assert_eq!(executed, [0x02]);
}

/// A number as a page has it.
fn written(number: u32) -> String {
    match number / 1_000 {
        0 => format!("{number}"),
        thousands => format!("{thousands},{:03}", number % 1_000),
    }
}

#[test]
fn the_document_has_the_counts() {
    let document = text("../docs/AUDIT.md");
    for counts in [THREE_SHORT, THREE_LONG, FOUR_SHORT, FOUR_LONG] {
        let Counts { ways, clean, corrected, even, odd, fixed_bit, .. } = counts;
        let numbers = [ways, clean, corrected, even, odd, fixed_bit];
        for number in numbers.into_iter().filter(|&number| number != 0).map(written) {
            let said = document.contains(&format!(" {number} "));
            assert!(said, "docs/AUDIT.md does not have the number {number}");
        }
    }
}
