//! Q-4 of document 02, "No delay byte without a setting", in blocks: records with verdict 10, and
//! receivers whose fine delays have no setting.

use crate::driver::Driver;
use ttcrx_host::model::Kind;
use ttcrx_host::sys::*;
use ttcrx_host::testing::frame::Frame;
use ttcrx_host::testing::traffic::{Traffic, LIVELY};
use ttcrx_host::ttcrx;

const NO_SETTING: u32 = VERDICT_NO_SETTING as u32;

/// Fine delay F3 for register 0 of ID 5, and for register 1; FF for register 1 of every receiver.
const FIRST: Frame = Frame::of(Kind::Long, 0x100_1500_F387);
const SECOND: Frame = Frame::of(Kind::Long, 0x100_1501_F3B3);
const ALL: Frame = Frame::of(Kind::Long, 0x100_0101_FF5B);

/// Fine delay EF, the last byte of a setting, for register 0 of ID 5.
const LAST: Frame = Frame::of(Kind::Long, 0x100_1500_EFA7);

/// The fine delays, and the error counters.
fn kept(driver: &Driver) -> (u8, u8, u16, u8) {
    let Core { settings, errors, .. } = driver.state.core;
    (settings.fine1, settings.fine2, errors.single_errors, errors.double_errors)
}

/// Clean, with a wrong bit of check or data, with triggers; and EF, which is received as FF.
#[test]
fn records_by_hand() {
    let mut driver = Driver::fresh("records with verdict 10, by hand", 490);
    let corrected = NO_SETTING + CODE_CORRECTED;
    let frames = [
        (FIRST, 0, [41, 41, 0, NO_SETTING, 0x0015_00F3]),
        (SECOND, 1, [41, 83, 0, NO_SETTING + CODE_TRIGGER, 0x0015_01F3]),
        (ALL, 0, [41, 125, 1, NO_SETTING, 0x0001_01FF]),
        (FIRST.flipped(1 << 1), 0, [41, 167, 1, corrected, 0x0015_00F3]),
        (SECOND.flipped(1 << 12), 1, [41, 209, 1, corrected + CODE_TRIGGER, 0x0015_01F3]),
        (LAST.flipped(1 << 12), 0, [41, 251, 2, 2 + CODE_CORRECTED, 0x0015_00EF]),
        (FIRST.flipped(6), 0, [41, 293, 2, 8, 0]),
        (FIRST.flipped(1 << 39), 0, [41, 335, 2, corrected, 0x0015_00F3]),
    ];
    for (frame, last_trigger, record) in frames {
        driver.says(&frame.block(last_trigger), &[record]);
    }
    driver.both.same("kept", kept(&driver), (0xEF, 0, 4, 1));
    driver.both.at_least(8 * 8 + 1);
}

/// A trigger on the last clock but one of a frame, and on the last, which is missed.
#[test]
fn missed_triggers() {
    let mut driver = Driver::fresh("verdict 10 with a missed trigger", 491);
    let mut block = FIRST.flipped(2).block(1);
    block[40] |= 1;
    let last = NO_SETTING + CODE_CORRECTED + CODE_TRIGGER + CODE_MISSED;
    let records = [[40, 40, 0, CODE_TRIGGER, 0], [41, 41, 1, last, 0x0015_00F3]];
    driver.says(&block, &records);
    driver.both.same("kept", kept(&driver), (0, 0, 1, 0));
    driver.both.at_least(9);
}

/// Every such frame, one after the other in one block: a record for each, and nothing stored.
#[test]
fn frames_in_a_row() {
    let mut driver = Driver::fresh("frames without a setting in a row", 492);
    let (mut block, mut expected) = (Vec::new(), Vec::new());
    for (register, data) in (240..=255).flat_map(|data| [(0, data), (1, data)]) {
        let word = 0x0015_0000 | register << 8 | data;
        block.extend(Frame::word(word).block(0));
        let place = block.len() as u32 - 1;
        expected.push([place, place, 0, NO_SETTING, word]);
    }
    driver.says(&block, &expected);
    driver.both.same("kept", kept(&driver), (0, 0, 0, 0));
    driver.both.at_least(9);
}

/// A frame cut by a block's end: its record is in the second block, placed there.
#[test]
fn every_cut() {
    let mut driver = Driver::fresh("a frame without a setting in two blocks", 493);
    let fresh = driver.state;
    let block = SECOND.flipped(1 << 15).block(0);
    for cut in 0..42 {
        driver.state = fresh;
        let (front, back) = block.split_at(cut);
        driver.says(front, &[]);
        let record = [41 - cut as u32, 41, 0, NO_SETTING + CODE_CORRECTED, 0x0015_01F3];
        driver.says(back, &[record]);
        driver.both.same(cut, kept(&driver), (0, 0, 1, 0));
    }
    driver.both.at_least(42 * 17);
}

/// Blocks with their room, and how each is refused at a well-formed state.
const BLOCKS: [(u8, &[u8], usize); 5] = [
    (ACCEPTED, &[3, 1], 10),
    (ACCEPTED, &[], 0),
    (REFUSED_BLOCK_LENGTH, &[4; 4_097], 0),
    (REFUSED_RECORD_BUFFER, &[4], 4),
    (REFUSED_BIT, &[4], 5),
];

/// A byte of no setting in either register or in both: 2, before 15, 16 and 1. 239 is accepted.
#[test]
fn ill_formed_receivers() {
    let mut driver = Driver::fresh("blocks on receivers with fine delays of no setting", 494);
    let mut state = driver.state;
    for byte in 239..=255 {
        for (first, second) in [(byte, 14), (14, byte), (byte, byte)] {
            state.core.settings.fine1 = first;
            state.core.settings.fine2 = second;
            for (alone, block, room) in BLOCKS {
                driver.state = state;
                let refusal = if byte < 240 { alone } else { REFUSED_STATE };
                driver.expect(refusal, block, room);
            }
        }
    }
    driver.both.at_least(17 * 3 * 5 * 7);
}

/// After every block of any traffic from fresh both registers hold the byte of a setting.
#[test]
fn long_runs() {
    let mut driver = Driver::fresh("fine delays after blocks", 495);
    let mut traffic = Traffic::new(496);
    let mut found = 0;
    traffic.start(5, LIVELY);
    for _ in 0..300 {
        let block = traffic.block(BLOCK_CLOCKS);
        let records = driver.expect(0, &block, RECORD_NUMBERS * BLOCK_CLOCKS);
        let verdicts = records.iter().map(|record| record.code & CODE_VERDICT);
        found += verdicts.filter(|&verdict| verdict == NO_SETTING).count();
        for number in [0, 1] {
            let byte = ttcrx::read(driver.state, number).byte;
            let setting = ttcrx::delay_setting(byte);
            driver.both.same((number, byte), setting.refusal, ACCEPTED);
        }
    }
    assert!(found > 100, "{found} frames without a setting");
    driver.both.at_least(300 * 9);
}
