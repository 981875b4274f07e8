//! Q-4 of document 02, "No delay byte without a setting": clocks that finish internal frames for
//! registers 0 and 1. What is expected is written down without the model.

use crate::finishing::{double_error, effect, finishes, nothing, single_error, word};
use crate::finishing::{Row, ALL, ID, OTHER};
use crate::states::edge_cores;
use ttcrx_host::model::{Fields, Kind};
use ttcrx_host::sys::*;
use ttcrx_host::testing::calls::MAP;
use ttcrx_host::testing::compare::Both;
use ttcrx_host::testing::coverage::{assert_seen, Tally};
use ttcrx_host::testing::frame::{send, wanting, Frame, RUN};
use ttcrx_host::testing::library::{Library, Model};

const ROWS: [Row; 42] = [
    // 239 is the last byte of a setting.
    (ID, 0, 0, 239, VERDICT_STORED),
    (ID, 0, 1, 239, VERDICT_STORED),
    (ALL, 0, 0, 239, VERDICT_STORED),
    (ALL, 0, 1, 239, VERDICT_STORED),
    (ID, 0, 0, 0, VERDICT_STORED),
    (ALL, 0, 1, 0, VERDICT_STORED),
    // 240 to 255 have none.
    (ID, 0, 0, 240, VERDICT_NO_SETTING),
    (ID, 0, 0, 241, VERDICT_NO_SETTING),
    (ID, 0, 0, 254, VERDICT_NO_SETTING),
    (ID, 0, 0, 255, VERDICT_NO_SETTING),
    (ID, 0, 1, 240, VERDICT_NO_SETTING),
    (ID, 0, 1, 247, VERDICT_NO_SETTING),
    (ID, 0, 1, 248, VERDICT_NO_SETTING),
    (ID, 0, 1, 255, VERDICT_NO_SETTING),
    (ALL, 0, 0, 240, VERDICT_NO_SETTING),
    (ALL, 0, 0, 255, VERDICT_NO_SETTING),
    (ALL, 0, 1, 240, VERDICT_NO_SETTING),
    (ALL, 0, 1, 255, VERDICT_NO_SETTING),
    // Coarse delay and control take every byte.
    (ID, 0, 2, 240, VERDICT_STORED),
    (ID, 0, 2, 255, VERDICT_STORED),
    (ALL, 0, 2, 240, VERDICT_STORED),
    (ID, 0, 3, 240, VERDICT_STORED),
    (ID, 0, 3, 255, VERDICT_STORED),
    (ALL, 0, 3, 255, VERDICT_STORED),
    // 5 and 4 come before 10.
    (OTHER, 0, 0, 240, VERDICT_OTHER_ADDRESS),
    (OTHER, 0, 1, 255, VERDICT_OTHER_ADDRESS),
    (16383, 0, 0, 255, VERDICT_OTHER_ADDRESS),
    (OTHER, 1, 0, 240, VERDICT_OTHER_ADDRESS),
    (OTHER, 1, 1, 255, VERDICT_OTHER_ADDRESS),
    (ID, 1, 0, 240, VERDICT_OUTSIDE),
    (ID, 1, 1, 255, VERDICT_OUTSIDE),
    (ALL, 1, 0, 255, VERDICT_OUTSIDE),
    (ALL, 1, 1, 240, VERDICT_OUTSIDE),
    // Other sub-addresses, those with 0 or 1 in their low bits too.
    (ID, 0, 4, 240, VERDICT_OTHER_SUB_ADDRESS),
    (ID, 0, 5, 255, VERDICT_OTHER_SUB_ADDRESS),
    (ID, 0, 7, 255, VERDICT_OTHER_SUB_ADDRESS),
    (ALL, 0, 8, 240, VERDICT_OTHER_SUB_ADDRESS),
    (ID, 0, 0x10, 255, VERDICT_OTHER_SUB_ADDRESS),
    (ALL, 0, 0x80, 240, VERDICT_OTHER_SUB_ADDRESS),
    (ID, 0, 0x81, 255, VERDICT_OTHER_SUB_ADDRESS),
    (ID, 0, 6, 240, VERDICT_RESET),
    (ALL, 0, 6, 255, VERDICT_RESET),
];

/// The frame of a row, clean, with a wrong check bit, with wrong data bits, and with a wrong bit of
/// the address.
fn finishes_row(both: &Both, at: (Core, u8), row: Row) {
    let (address, e, sub_address, data, verdict) = row;
    let frame = Frame::long(Fields { address, e, sub_address, data });
    let word = word(address, e, sub_address, data);
    finishes(both, at, frame, (verdict, 0, word), |receiver| effect(row, receiver));
    for place in [39, 28, 25, 1] {
        let arrived = frame.flipped(frame.at(place));
        finishes(both, at, arrived, (verdict, place, word), |receiver| {
            single_error(receiver);
            effect(row, receiver);
        });
    }
}

/// With and without a trigger, and with 0, 1 and 2 words left.
#[test]
fn rows_by_hand() {
    let both = Both::of("frames with fine delays of no setting, and others, by hand");
    let cores = edge_cores();
    for row in ROWS {
        for &core in &cores {
            finishes_row(&both, (core, 0), row);
            finishes_row(&both, (core, 1), row);
        }
    }
    both.at_least(42 * 108 * 2 * 5 * 3);
}

/// Every frame without a setting: its word, and the frame.
fn frames_without_a_setting() -> Vec<(u32, Frame)> {
    let mut frames = Vec::new();
    for address in [ALL, ID] {
        for register in [0, 1] {
            for data in 240..=255 {
                let word = word(address, 0, register, data);
                frames.push((word, Frame::word(word)));
            }
        }
    }
    frames
}

/// Every such frame with every one and every two flips of protected bits: 10 with the flag, and 8.
#[test]
fn every_flip() {
    let both = Both::of("frames without a setting with one and two flips");
    let cores = edge_cores();
    let mut states = cores.iter().flat_map(|&core| [(core, 0), (core, 1)]).cycle();
    for (word, frame) in frames_without_a_setting() {
        let mut at = || states.next().expect("an endless cycle");
        finishes(&both, at(), frame, (VERDICT_NO_SETTING, 0, word), nothing);
        for first in frame.places() {
            let one = frame.flipped(frame.at(first));
            finishes(&both, at(), one, (VERDICT_NO_SETTING, first, word), single_error);
            for second in 1..first {
                let two = one.flipped(frame.at(second));
                finishes(&both, at(), two, (VERDICT_EVEN_SYNDROME, 0, 0), double_error);
            }
        }
    }
    both.at_least(64 * (1 + 39 + 741) * 3);
}

/// Every byte for both registers with each of its bits wrong: not the data that were received
/// decide, but those that were sent.
#[test]
fn the_corrected_data_decide() {
    let both = Both::of("fine delays with one wrong data bit");
    let mut seen = Tally::of([("over 239 as sent", 0, 1), ("as received", 0, 1)]);
    let core = edge_cores()[0];
    for (register, data) in (0..=255).flat_map(|data| [(0, data), (1, data)]) {
        let verdict = match data < 240 {
            true => VERDICT_STORED,
            false => VERDICT_NO_SETTING,
        };
        let row = (ID, 0, register, data, verdict);
        let word = word(ID, 0, register, data);
        for bit in 0..8 {
            let arrived = Frame::word(word).flipped(1 << (8 + bit));
            finishes(&both, (core, 0), arrived, (verdict, 32 - bit, word), |receiver| {
                single_error(receiver);
                effect(row, receiver);
            });
            let received = data ^ 1 << bit;
            seen.seen([(data > 239).into(), (received > 239).into()]);
        }
    }
    assert_seen(&[&seen]);
    both.at_least(2 * 256 * 8 * 3);
}

/// 7 and 9 come before 10: a stop bit of 0, and fixed bit 0, each also with every protected bit wrong;
/// the flag is then 0. 8 is in `every_flip`.
#[test]
fn dropped_frames() {
    let both = Both::of("frames without a setting that are dropped");
    let cores = edge_cores();
    let mut states = cores.iter().flat_map(|&core| [(core, 0), (core, 1)]).cycle();
    for (word, frame) in frames_without_a_setting() {
        let without_fixed_bit = word & !(1 << 16);
        let unfixed = Frame::word(without_fixed_bit);
        for flip in (1..=Kind::Long.protected_bits()).map(|place| 1 << place).chain([0]) {
            let at = states.next().expect("an endless cycle");
            finishes(&both, at, frame.flipped(flip | 1), (VERDICT_STOP_BIT, 0, 0), |receiver| {
                double_error(receiver);
                receiver.core.errors.status5 = 0;
                receiver.held = wanting(RUN);
            });
            let said = (VERDICT_FIXED_BIT, 0, without_fixed_bit);
            finishes(&both, at, unfixed.flipped(flip), said, double_error);
        }
    }
    both.at_least(64 * 40 * 2 * 3);
}

/// The single error counter at every edge: it goes up by a corrected frame, and stops at its top.
#[test]
fn the_single_error_counter() {
    let both = Both::of("frames without a setting at tops of the single error counter");
    for (word, frame) in frames_without_a_setting() {
        for (before, after) in [(0, 1), (255, 256), (65534, 65535), (65535, 65535)] {
            let mut core = edge_cores()[0];
            core.errors = Errors { single_errors: before, double_errors: 255, status5: 0 };
            let said = |place| (VERDICT_NO_SETTING, place, word);
            finishes(&both, (core, 0), frame, said(0), nothing);
            finishes(&both, (core, 1), frame.flipped(2), said(39), |receiver| {
                receiver.core.errors.single_errors = after;
            });
        }
    }
    both.at_least(64 * 4 * 2 * 3);
}

/// All bytes that the registers hold.
fn bytes(both: &Both, state: Receiver) -> [u8; 19] {
    MAP.map(|number| both.read(state, number).byte)
}

/// A frame with stop bit 0 clears status bit 5, and 41 ones leave it; verdict 10 sets it. Registers
/// 0 to 3 hold what was written before, and the next bit may be a start bit.
#[test]
fn between_other_frames() {
    let both = Both::of("frames without a setting after a bad stop bit, before a good frame");
    let mut fresh = Model.fresh(ID, 5).receiver;
    for (number, value) in [(0, 239), (1, 14), (2, 0xF5), (3, 0x91)] {
        fresh = both.write(fresh, number, value).receiver;
    }
    for (flip, single) in [(0, 0), (1 << 12, 1)] {
        for (_, frame) in frames_without_a_setting() {
            let slipped = send(&both, fresh, frame.flipped(1)).receiver;
            let waiting = send(&both, slipped, Frame::ones(RUN)).receiver;
            both.same(frame, both.read(waiting, 22).byte, 0xC0);
            let after = send(&both, waiting, frame.flipped(flip)).receiver;
            let clocks = 42 + 41 + 42;
            let expected = [
                239, 14, 0xF5, 0x91, single, 0, 1, 0, 5, 0, 5, 0x85, 0xA7, 0xE0, clocks, 0, 0, 0, 0,
            ];
            both.same(frame, bytes(&both, after), expected);
            let stored = send(&both, after, Frame::word(word(ID, 0, 0, 0x1D)));
            both.same(frame, stored.outputs.verdict, VERDICT_STORED);
            both.same(frame, both.read(stored.receiver, 0).byte, 0x1D);
        }
    }
    both.at_least(2 * 64 * (42 + 41 + 42 + 42 + 20 + 4));
}
