//! Q-1 of document 02, "Quiet after a bad stop", in blocks: receivers that want ones, and bad stop
//! bits with what follows them.

use crate::driver::Driver;
use ttcrx_host::model::block::byte;
use ttcrx_host::model::Kind;
use ttcrx_host::sys::*;
use ttcrx_host::testing::coverage::{assert_seen, Tally};
use ttcrx_host::testing::frame::{wanting, Frame, RUN};
use ttcrx_host::testing::random::Random;
use ttcrx_host::testing::traffic::{self, LIVELY};
use ttcrx_host::testing::{example, states, verdict};
use ttcrx_host::ttcrx;

/// 004E has stop bit 0; 004F is the broadcast of 01, which clears the bunch counter. It ends with
/// four ones.
const BAD_STOP: Frame = Frame::of(Kind::Short, 0x004E);
const BROADCAST: Frame = Frame::of(Kind::Short, 0x004F);

/// A single 0.
const ZERO: Frame = Frame { number: 0, length: 1 };

/// These bits one after the other, without triggers.
fn block(parts: &[Frame]) -> Vec<u8> {
    let parts: Vec<Vec<u8>> = parts.iter().map(|part| part.block(0)).collect();
    parts.concat()
}

/// A block of the driver's receiver writes exactly these records, and leaves this of channel B.
#[track_caller]
fn says(driver: &mut Driver, block: &[u8], expected: &[[u32; RECORD_NUMBERS]], held: Held) {
    driver.says(block, expected);
    driver.both.same(block, driver.state.held, held);
}

/// A bad stop bit, ones, and a frame: it has a record from 41 ones on.
#[test]
fn every_run_of_ones() {
    let mut driver = Driver::of("a bad stop bit, ones, and a frame", 480);
    for ones in 0..=60 {
        driver.state = ttcrx::fresh(5, 5).receiver;
        let block = block(&[BAD_STOP, Frame::ones(ones), BROADCAST]);
        let last = 16 + u32::from(ones) + 15;
        let records = [[15, 15, 0, 7, 0], [last, last, 0, 1, 1]];
        match ones >= RUN {
            true => says(&mut driver, &block, &records, Held::default()),
            false => says(&mut driver, &block, &records[..1], wanting(RUN - 4)),
        }
    }
    driver.both.at_least(61 * 9);
}

/// The same cut in two everywhere: the second block begins with a receiver that wants ones, or
/// between other bits.
#[test]
fn every_cut_of_a_run() {
    let mut driver = Driver::of("a bad stop bit, 41 ones and a frame in two blocks", 481);
    let whole = block(&[BAD_STOP, Frame::ones(20), ZERO, Frame::ones(RUN), BROADCAST]);
    let (stop, last) = (15, whole.len() - 1);
    for cut in 0..=whole.len() {
        driver.state = ttcrx::fresh(5, 5).receiver;
        let mut found = Vec::new();
        for (first, part) in [(0, &whole[..cut]), (cut, &whole[cut..])] {
            let records = driver.expect(0, part, RECORD_NUMBERS * part.len());
            let placed = |record: &Record| (first + record.place as usize, record.code);
            found.extend(records.iter().map(placed));
        }
        driver.both.same(cut, &found[..], &[(stop, 7), (last, 1)]);
    }
    driver.both.at_least(95 * 15);
}

/// Every number of ones wanted, and every number of ones in a block before a 0: it is a start bit
/// exactly if they are enough.
#[test]
fn every_number_of_ones_wanted() {
    let mut driver = Driver::of("blocks on receivers that want ones", 482);
    for wanted in 1..=RUN {
        for ones in 0..=45 {
            let mut state = ttcrx::fresh(5, 5).receiver;
            state.held = wanting(wanted);
            let start_bit = Held { count: 1, ..Held::default() };
            let after_zero = if ones < wanted { wanting(RUN) } else { start_bit };
            for (block, held) in [
                (block(&[Frame::ones(ones)]), wanting(wanted.saturating_sub(ones))),
                (block(&[Frame::ones(ones), ZERO]), after_zero),
            ] {
                driver.state = state;
                says(&mut driver, &block, &[], held);
            }
        }
    }
    driver.both.at_least(41 * 46 * 2 * 9);
}

/// Triggers in a run of ones have their records, with verdict 0.
#[test]
fn triggers_in_a_run() {
    let mut driver = Driver::of("triggers in a run of ones", 483);
    driver.state = ttcrx::fresh(5, 5).receiver;
    driver.state.core.settings.control = 0x90;
    driver.state.held = wanting(RUN);
    let mut run = [byte(1, 1); 82];
    run[40] = byte(1, 0);
    let expected: Vec<_> = (0..82).map(|place| [place, place, place, CODE_TRIGGER, 0]).collect();
    says(&mut driver, &run, &expected, Held::default());
    driver.both.at_least(9);
}

/// Bits without 41 ones in a row, any triggers: zeros, frames, runs of up to 40 ones.
fn tail(random: &mut Random, length: usize) -> Vec<u8> {
    let mut tail: Vec<u8> = Vec::new();
    while tail.len() < length {
        let ones = Frame::ones(random.below(RUN.into()) as u8);
        let frame = traffic::frame(random, 5);
        let part = random.pick(&[ones, Frame::ones(RUN - 1), frame, ZERO]);
        tail.extend(part.bits());
        tail.push(0);
    }
    tail.truncate(length);
    let triggers = random.pick(&[0, 1, 3, 7]);
    let bits = |data: u8| byte((random.byte() % 8 < triggers).into(), data);
    tail.into_iter().map(bits).collect()
}

/// A bad stop bit at any place of a block, up to thousands of clocks after it, then 41 ones and a
/// frame. Between the two frames there is no verdict, and all counters go on.
#[test]
fn long_tails() {
    let mut driver = Driver::of("bad stop bits with long tails", 484);
    let mut verdicts = Tally::of([verdict::GOOD]);
    for _ in 0..3_000 {
        let random = &mut driver.random;
        let mut state = states::well_formed(random);
        state.held = Held::default();
        let id = state.core.ids.id;
        let stop = example::RESET.flipped(1).block(0);
        let long = Frame::long(traffic::fields(random, id, LIVELY));
        let short = traffic::short(random, LIVELY);
        let frame = random.pick(&[long, long, long, short]);
        let front = vec![byte(0, 1); random.below(300) as usize];
        let length = random.pick(&[0, 1, 100, 1_000, 3_600]);
        let tail = tail(random, length);
        let end = [ZERO.block(0), Frame::ones(RUN).block(0), frame.block(0)].concat();
        let block = [front, stop, tail, end].concat();
        driver.state = state;
        let records = driver.expect(0, &block, RECORD_NUMBERS * block.len());
        let codes = records.iter().map(|record| record.code & CODE_VERDICT);
        let found: Vec<u32> = codes.filter(|&code| code != 0).collect();
        driver.both.same(state, (found.len(), found[0]), (2, VERDICT_STOP_BIT.into()));
        verdicts.seen([verdict::of_good(found[1] as u8)]);
    }
    assert_seen(&[&verdicts]);
    driver.both.at_least(3_000 * 8);
}

/// Every block begins with a receiver that wants ones: short ones, of noise, of ones, of both.
#[test]
fn random_blocks() {
    let mut driver = Driver::of("random blocks on receivers that want ones", 485);
    let mut seen = Tally::of([("ones wanted", 1, RUN), ("after (waits, bits, ones)", 0, 2)]);
    for wanted in (1..=RUN).flat_map(|wanted| [wanted; 1_000]) {
        let random = &mut driver.random;
        let state = states::quiet(random, wanted);
        let ones = Frame::ones(random.pick(&[0, wanted - 1, wanted, wanted, RUN])).block(0);
        let frame = traffic::frame(random, state.core.ids.id).block(1);
        let length = random.below(60) as usize;
        let tail = tail(random, length);
        let parts = [ones, frame, tail];
        let count = random.below(4) as usize;
        let block = parts[..count].concat();
        driver.state = state;
        driver.expect(0, &block, RECORD_NUMBERS * block.len() + 3);
        let held = driver.state.held;
        let after = u8::from(held.count > 0) + 2 * u8::from(held.ones_wanted > 0);
        seen.seen([wanted, after]);
    }
    assert_seen(&[&seen]);
    driver.both.at_least(41 * 1_000 * 7);
}
