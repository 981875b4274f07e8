//! Q-8 of document 02, "Say what was wrong and which bit": clocks that finish frames with one wrong
//! bit, and frames that cannot be corrected. What is expected is written down without the model.

use crate::finishing::{double_error, effect, finishes, single_error, word};
use crate::finishing::{Row, ALL, ID, OTHER};
use crate::states::edge_cores;
use ttcrx_host::model::{Fields, Kind, COLUMNS};
use ttcrx_host::sys::*;
use ttcrx_host::testing::compare::Both;
use ttcrx_host::testing::coverage::{assert_seen, Tally};
use ttcrx_host::testing::frame::{send, Frame};
use ttcrx_host::testing::library::{Library, Model};
use ttcrx_host::testing::random::Random;
use ttcrx_host::testing::traffic::storm;

/// Long frames of every verdict that a corrected one may have.
const ROWS: [Row; 8] = [
    (ID, 0, 0, 239, VERDICT_STORED),
    (ALL, 0, 3, 0x92, VERDICT_STORED),
    (ID, 0, 6, 0, VERDICT_RESET),
    (ALL, 0, 6, 0xFF, VERDICT_RESET),
    (ID, 1, 2, 0x35, VERDICT_OUTSIDE),
    (OTHER, 0, 2, 0x35, VERDICT_OTHER_ADDRESS),
    (ALL, 0, 4, 0x35, VERDICT_OTHER_SUB_ADDRESS),
    (ID, 0, 1, 240, VERDICT_NO_SETTING),
];

/// Every place, at counters and sequences that the frame may clear, raise or end, with and without a
/// trigger. A corrected RESET shows its place, though its state is the fresh one.
#[test]
fn every_place_of_long_frames() {
    let both = Both::of("long frames with one flip, by verdict and place");
    let cores = edge_cores();
    for row in ROWS {
        let (address, e, sub_address, data, verdict) = row;
        let frame = Frame::long(Fields { address, e, sub_address, data });
        let word = word(address, e, sub_address, data);
        for place in frame.places() {
            let arrived = frame.flipped(frame.at(place));
            for (&core, trigger) in cores.iter().flat_map(|core| [(core, 0), (core, 1)]) {
                finishes(&both, (core, trigger), arrived, (verdict, place, word), |receiver| {
                    single_error(receiver);
                    effect(row, receiver);
                });
            }
        }
    }
    both.at_least(8 * 39 * 108 * 2 * 3);
}

#[test]
fn every_place_of_broadcasts() {
    let both = Both::of("broadcasts with one flip, by place");
    let cores = edge_cores();
    let mut states = cores.iter().flat_map(|&core| [(core, 0), (core, 1)]).cycle();
    for data in 0..=255 {
        let frame = Frame::short(data);
        for place in frame.places() {
            let arrived = frame.flipped(frame.at(place));
            let at = states.next().expect("an endless cycle");
            let said = (VERDICT_BROADCAST, place, data.into());
            finishes(&both, at, arrived, said, |receiver| {
                single_error(receiver);
                let counters = &mut receiver.core.counters;
                counters.bunch *= u16::from(data & 1 == 0);
                counters.event *= u32::from(data & 2 == 0);
            });
        }
    }
    both.at_least(256 * 13 * 3);
}

/// Fixed bit 0 after a correction: verdict 9, with flag and place 0.
#[test]
fn no_place_without_the_fixed_bit() {
    let both = Both::of("long frames without the fixed bit, with one flip");
    let cores = edge_cores();
    let mut states = cores.iter().flat_map(|&core| [(core, 0), (core, 1)]).cycle();
    for word in [0, 0x0014_0235, 0x0014_0600, 0x0014_00F3, 0xFFFE_FFFF] {
        let frame = Frame::word(word);
        for place in frame.places() {
            let arrived = frame.flipped(frame.at(place));
            let at = states.next().expect("an endless cycle");
            finishes(&both, at, arrived, (VERDICT_FIXED_BIT, 0, word), double_error);
        }
    }
    both.at_least(5 * 39 * 3);
}

/// Every syndrome that cannot be corrected, with its verdict: it has not one bit, and is no column in
/// use. There are 15 even and 3 odd ones of short frames, 63 and 25 of long ones.
fn syndromes(kind: Kind) -> Vec<(u64, u8)> {
    let columns = &COLUMNS[..kind.data_bits().into()];
    let all = 1..1u8 << kind.check_bits();
    let uncorrectable = all.filter(|syndrome| {
        let one_bit = syndrome.count_ones() == 1;
        !one_bit && !columns.contains(syndrome)
    });
    let verdict = |syndrome: u8| match syndrome.count_ones() % 2 {
        0 => VERDICT_EVEN_SYNDROME,
        _ => VERDICT_ODD_SYNDROME,
    };
    uncorrectable.map(|syndrome| (syndrome.into(), verdict(syndrome))).collect()
}

#[test]
fn numbers_of_syndromes() {
    let count = |kind, verdict| {
        let found = syndromes(kind).into_iter().filter(|(_, given)| *given == verdict);
        found.map(|(syndrome, _)| syndrome).collect::<Vec<u64>>()
    };
    assert_eq!(count(Kind::Short, VERDICT_ODD_SYNDROME), [26, 28, 31]);
    assert_eq!(count(Kind::Short, VERDICT_EVEN_SYNDROME).len(), 15);
    assert_eq!(count(Kind::Long, VERDICT_ODD_SYNDROME).len(), 25);
    assert_eq!(count(Kind::Long, VERDICT_EVEN_SYNDROME).len(), 63);
    assert!(count(Kind::Long, VERDICT_ODD_SYNDROME).contains(&124));
}

/// Every such syndrome of broadcasts and of long frames, those with fixed bit 0 too: the double error
/// counter goes up to 255, status bit 5 is set, all else is as on an idle clock, and the receiver
/// waits.
#[test]
fn every_syndrome_that_cannot_be_corrected() {
    let both = Both::of("frames that cannot be corrected, by syndrome");
    let cores = edge_cores();
    let words = [0x0001_0000, 0x0015_0235, 0x0015_0600, 0x0014_00F3, u32::MAX];
    let frames = [0x00, 0x03, 0x5A, 0xFF].map(Frame::short);
    for frame in frames.into_iter().chain(words.map(Frame::word)) {
        for (syndrome, verdict) in syndromes(frame.kind()) {
            let arrived = frame.flipped(syndrome << 1);
            for (&core, trigger) in cores.iter().flat_map(|core| [(core, 0), (core, 1)]) {
                finishes(&both, (core, trigger), arrived, (verdict, 0, 0), double_error);
            }
        }
    }
    both.at_least((4 * 18 + 5 * 88) * 108 * 2 * 3);
}

/// Verdict 11 again and again: the double error counter stops at its top, and a write clears it.
#[test]
fn many_odd_syndromes() {
    let both = Both::of("300 frames with verdict 11 in a row");
    let storms = [0x0035, 0x0039].map(|number| Frame::of(Kind::Short, number));
    let mut state = Model.fresh(ID, 5).receiver;
    for frames in 1..=300u16 {
        let answer = send(&both, state, storms[usize::from(frames % 2)]);
        state = answer.receiver;
        both.same(frames, answer.outputs.verdict, VERDICT_ODD_SYNDROME);
        both.same(frames, both.read(state, 10).byte, frames.min(255) as u8);
        both.same(frames, both.read(state, 22).byte, 0xE0);
        both.same(frames, state.held, Held::default());
    }
    let cleared = both.write(state, 10, 0).receiver;
    both.same("cleared", both.read(cleared, 10).byte, 0);
    both.at_least(300 * (16 + 6));
}

/// A frame follows at once after each other sort of frame, and its place is its own: no clock before
/// or after shows one.
#[test]
fn places_in_turn() {
    let both = Both::of("places of frames in a row");
    let mut random = Random::new(58);
    let mut seen = Tally::of([("sort before (clean, one flip, two, storm)", 0, 3), ("sort", 0, 3)]);
    let mut state = Model.fresh(ID, 5).receiver;
    let mut before = 0;
    for _ in 0..4_000 {
        let data = random.byte();
        let frame = random.pick(&[Frame::short(data), Frame::word(word(OTHER, 0, 2, data))]);
        let place = 1 + random.below(frame.kind().protected_bits().into()) as u8;
        let other = frame.at(if place == 1 { 2 } else { 1 });
        let sort = random.below(4) as u8;
        let flips = match sort {
            0 => 0,
            1 => frame.at(place),
            2 => frame.at(place) | other,
            _ => storm(&mut random, frame, 3),
        };
        let part = frame.flipped(flips).front(frame.length - 1);
        for bit in part.bits() {
            let answer = both.clock(state, 0, bit);
            both.same((state, bit), answer.outputs, Outputs::default());
            state = answer.receiver;
        }
        let last = both.clock(state, 0, 1);
        state = last.receiver;
        let Outputs { verdict, corrected, place: shown, .. } = last.outputs;
        match sort {
            0 => both.same((frame, flips), (corrected, shown), (0, 0)),
            1 => both.same((frame, flips), (corrected, shown), (1, place)),
            2 => both.same((frame, flips), (verdict, shown), (VERDICT_EVEN_SYNDROME, 0)),
            _ => both.same((frame, flips), shown != 0, corrected == 1),
        }
        let idle = both.clock(state, 0, 1);
        both.same((frame, flips), idle.outputs, Outputs::default());
        seen.seen([before, sort]);
        before = sort;
    }
    assert_seen(&[&seen]);
    both.at_least(4_000 * (2 * 15 + 3));
}
