//! Q-8 of document 02, "Say what was wrong and which bit", in blocks: verdict 11 is in the code of a
//! record like any other, and a record has no place of a flipped bit.

use crate::cuts::singly;
use crate::driver::Driver;
use ttcrx_host::model::Kind;
use ttcrx_host::sys::*;
use ttcrx_host::testing::coverage::{assert_seen, Tally};
use ttcrx_host::testing::example::ODD_SYNDROMES;
use ttcrx_host::testing::frame::Frame;
use ttcrx_host::testing::states;
use ttcrx_host::testing::traffic::{self, storm, LIVELY};

const EVEN: u32 = VERDICT_EVEN_SYNDROME as u32;
const ODD: u32 = VERDICT_ODD_SYNDROME as u32;

/// Frames that cannot be corrected, with and without a trigger; the next one follows at once.
#[test]
fn records_by_hand() {
    let mut driver = Driver::fresh("records with verdict 11, by hand", 500);
    let [short, long] = ODD_SYNDROMES;
    let two_flips = Frame::of(Kind::Short, 0x304F);
    let three_flips = Frame::of(Kind::Long, 0x100_1502_35AD).flipped(0b1101 << 1);
    let frames = [
        (short, 0, [15, 15, 0, ODD, 0]),
        (two_flips, 0, [15, 31, 0, EVEN, 0]),
        (long, 1, [41, 73, 0, ODD + CODE_TRIGGER, 0]),
        (two_flips, 1, [15, 89, 1, EVEN + CODE_TRIGGER, 0]),
        (three_flips, 0, [41, 131, 2, 2 + CODE_CORRECTED, 0x0015_0231]),
        (short, 0, [15, 147, 2, ODD, 0]),
    ];
    for (frame, last_trigger, record) in frames {
        driver.says(&frame.block(last_trigger), &[record]);
    }
    let Errors { single_errors, double_errors, status5 } = driver.state.core.errors;
    driver.both.same("errors", (single_errors, double_errors, status5), (1, 5, 1));
    driver.both.at_least(6 * 8 + 1);
}

/// A frame with verdict 11 on the clock of a missed trigger.
#[test]
fn a_missed_trigger() {
    let mut driver = Driver::fresh("verdict 11 with a missed trigger", 501);
    let mut block = ODD_SYNDROMES[0].block(1);
    block[14] |= 1;
    let last = ODD + CODE_TRIGGER + CODE_MISSED;
    driver.says(&block, &[[14, 14, 0, CODE_TRIGGER, 0], [15, 15, 1, last, 0]]);
    driver.both.at_least(8);
}

/// One wrong bit at every place, all in one block: the records differ in nothing but the place of
/// their clocks and the bunch number, which is the same number here.
#[test]
fn every_place() {
    let mut driver = Driver::fresh("records of corrected frames, by place", 502);
    for (frame, verdict) in [
        (Frame::short(0x54), VERDICT_BROADCAST),
        (Frame::word(0x0015_0235), VERDICT_STORED),
        (Frame::word(0x0015_00F3), VERDICT_NO_SETTING),
        (Frame::word(0x0019_0235), VERDICT_OTHER_ADDRESS),
    ] {
        let (mut block, mut expected) = (Vec::new(), Vec::new());
        let bunch = u32::from(driver.state.core.counters.bunch);
        for place in frame.places() {
            block.extend(frame.flipped(frame.at(place)).block(0));
            let last = block.len() as u32 - 1;
            let code = u32::from(verdict) + CODE_CORRECTED;
            expected.push([last, (bunch + last) % 4096, 0, code, frame.data()]);
        }
        driver.says(&block, &expected);
    }
    driver.both.at_least(4 * 8);
}

/// So many frames with verdict 11 in one block: the double error counter stops at 255.
#[test]
fn many_in_a_row() {
    let mut driver = Driver::fresh("256 frames with verdict 11 in a block", 503);
    let block = ODD_SYNDROMES[0].block(0).repeat(256);
    let record = |frame: u32| [16 * frame + 15, 16 * frame + 15, 0, ODD, 0];
    driver.says(&block, &(0..256).map(record).collect::<Vec<_>>());
    let errors = driver.state.core.errors;
    driver.both.same("errors", (errors.single_errors, errors.double_errors), (0, 255));
    driver.both.at_least(9);
}

/// A frame cut by a block's end: its record is in the second block.
#[test]
fn every_cut() {
    let mut driver = Driver::fresh("a frame with verdict 11 in two blocks", 504);
    let fresh = driver.state;
    let block = ODD_SYNDROMES[1].block(0);
    for cut in 0..42 {
        driver.state = fresh;
        let (front, back) = block.split_at(cut);
        driver.says(front, &[]);
        driver.says(back, &[[41 - cut as u32, 41, 0, ODD, 0]]);
    }
    driver.both.at_least(42 * 16);
}

/// Frames with any number of flips, one after the other, beside the library's own single clocks. No
/// code has another part than those of Q-3, which is under 128.
#[test]
fn storms_by_single_clocks() {
    let mut driver = Driver::of("blocks of frames with any number of flips", 505);
    let mut codes = Tally::of([("verdict (8, 11)", 0, 1), ("trigger", 0, 1)]);
    let mut corrected = 0;
    for _ in 0..500 {
        let mut state = states::well_formed(&mut driver.random);
        state.held = Held::default();
        let mut block = Vec::new();
        while block.len() < 1_000 {
            let random = &mut driver.random;
            let long = Frame::long(traffic::fields(random, state.core.ids.id, LIVELY));
            let short = traffic::short(random, LIVELY);
            let frame = random.pick(&[short, long]);
            let flips = storm(random, frame, 1);
            block.extend(frame.flipped(flips).block(random.byte() >> 7));
        }
        driver.state = state;
        let records = driver.expect(0, &block, RECORD_NUMBERS * block.len());
        let done = (driver.state, records);
        driver.both.same(state, &done, &singly(state, &block));
        for Record { code, .. } in done.1 {
            driver.both.same(state, code < 2 * CODE_MISSED, true);
            let trigger = (code & CODE_TRIGGER != 0).into();
            corrected += u32::from(code & CODE_CORRECTED != 0);
            match code & CODE_VERDICT {
                EVEN => codes.seen([0, trigger]),
                ODD => codes.seen([1, trigger]),
                _ => {}
            }
        }
    }
    assert_seen(&[&codes]);
    assert!(corrected > 1_000, "{corrected} corrected frames");
    driver.both.at_least(500 * (8 + 20));
}
