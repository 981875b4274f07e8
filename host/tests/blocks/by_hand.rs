//! Records by hand, of the examples of document 01.

use crate::driver::Driver;
use ttcrx_host::model::Kind;
use ttcrx_host::sys::{CODE_CORRECTED, CODE_MISSED, CODE_TRIGGER};
use ttcrx_host::testing::example::{CORRECTED, LONG_FRAMES, ODD_SYNDROMES, RESET};
use ttcrx_host::testing::frame::{Frame, RUN};

const MISSED: u32 = CODE_TRIGGER + CODE_MISSED;

/// "triggers on clocks 1, 2 and 4 from fresh": the second is missed.
#[test]
fn triggers() {
    let mut driver = Driver::fresh("triggers on clocks 1, 2 and 4", 470);
    let first = [[0, 0, 0, CODE_TRIGGER, 0], [1, 1, 1, MISSED, 0], [3, 3, 2, CODE_TRIGGER, 0]];
    driver.says(&[3, 3, 2, 3, 2], &first);
    // Two words are left after the trigger on clock 4, one after clock 5: clock 6 is missed.
    let second = [[0, 5, 3, MISSED, 0], [2, 7, 4, CODE_TRIGGER, 0]];
    driver.says(&[3, 2, 3], &second);
    driver.both.at_least(2 * 8);
}

/// Counts before the clock, though the frame clears them or RESETs, or the trigger raises them.
/// After the bad stop bit come 41 ones, which have no records.
#[test]
fn frames() {
    let mut driver = Driver::fresh("frames with their counts", 471);
    driver.state.core.counters.event = 7;
    let short = |number| Frame::of(Kind::Short, number);
    let outside = Frame::of(Kind::Long, LONG_FRAMES[2].1);
    let both = CODE_CORRECTED + CODE_TRIGGER;
    let frames = [
        // 02 corrected clears the event counter.
        (CORRECTED, 0, [15, 15, 7, 1 + CODE_CORRECTED, 2]),
        (CORRECTED, 1, [15, 31, 0, 1 + both, 2]),
        (ODD_SYNDROMES[0], 1, [15, 47, 0, 11 + CODE_TRIGGER, 0]),
        // 004E has stop bit 0.
        (short(0x004E), 0, [15, 63, 1, 7, 0]),
    ];
    let after_ones = [
        // 004F, which is 01, clears the bunch counter.
        (short(0x004F), 0, [15, 120, 1, 1, 1]),
        (outside, 0, [41, 41, 1, 4, 0x0017_10AA]),
        (RESET, 1, [41, 83, 1, 3 + CODE_TRIGGER, 0x0015_0600]),
    ];
    for (frame, last_trigger, record) in frames {
        driver.says(&frame.block(last_trigger), &[record]);
    }
    driver.says(&Frame::ones(RUN).block(0), &[]);
    for (frame, last_trigger, record) in after_ones {
        driver.says(&frame.block(last_trigger), &[record]);
    }
    driver.says(&[3], &[[0, 0, 0, CODE_TRIGGER, 0]]);
    driver.both.at_least(9 * 8);
}

/// A frame cut by a block's end: its record is in the second block, placed there.
#[test]
fn a_frame_in_two_blocks() {
    let mut driver = Driver::fresh("a frame in two blocks", 472);
    let fresh = driver.state;
    let block = Frame::of(Kind::Long, 0x180_1502_35AD).block(0);
    for cut in 0..42 {
        driver.state = fresh;
        let (front, back) = block.split_at(cut);
        driver.says(front, &[]);
        let record = [41 - cut as u32, 41, 0, 2 + CODE_CORRECTED, 0x0015_0235];
        driver.says(back, &[record]);
    }
    driver.both.at_least(42 * 16);
}

/// The numbers before the top of both counters, and the tops.
#[test]
fn tops() {
    let mut driver = Driver::fresh("triggers at the tops of the counters", 473);
    driver.state.core.settings.control = 0x90;
    driver.state.core.counters.bunch = 4094;
    driver.state.core.counters.event = 0x00FF_FFFE;
    let expected = [
        [0, 4094, 0x00FF_FFFE, CODE_TRIGGER, 0],
        [1, 4095, 0x00FF_FFFF, CODE_TRIGGER, 0],
        [2, 0, 0, CODE_TRIGGER, 0],
    ];
    driver.says(&[3, 3, 3], &expected);
    driver.both.at_least(8);
}
