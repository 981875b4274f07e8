//! Short blocks from random well-formed states, from every number of held bits, and from every
//! number of ones wanted.

use crate::driver::{noise, Driver};
use crate::tallies::Records;
use ttcrx_host::model::Kind;
use ttcrx_host::sys::RECORD_NUMBERS;
use ttcrx_host::testing::frame::{Frame, RUN};
use ttcrx_host::testing::states;
use ttcrx_host::testing::traffic::{Traffic, LIVELY};

/// A block on the driver's state, with a little more room than it asks for, or none more.
#[track_caller]
fn run(driver: &mut Driver, block: &[u8], seen: &mut Records) {
    let room = RECORD_NUMBERS * block.len() + driver.random.pick(&[0, 0, 1, 5, 11]);
    seen.seen(&driver.expect(0, block, room));
}

#[test]
fn random_states() {
    let mut driver = Driver::of("short blocks from random well-formed states", 410);
    let mut traffic = Traffic::new(411);
    let mut seen = Records::default();
    for _ in 0..150_000 {
        driver.state = states::well_formed(&mut driver.random);
        let length = driver.random.below(100) as usize;
        let block = match driver.random.once_in(2) {
            true => noise(&mut driver.random, length),
            false => {
                traffic.start(driver.state.core.ids.id, LIVELY);
                traffic.block(length)
            }
        };
        run(&mut driver, &block, &mut seen);
    }
    traffic.assert_complete();
    seen.assert_complete();
    driver.both.at_least(7 * 150_000);
}

/// Every number of held bits of both frames, with any bits after them.
#[test]
fn every_number_of_held_bits() {
    let mut driver = Driver::of("short blocks with every number of held bits", 412);
    let mut seen = Records::default();
    for kind in Kind::BOTH {
        for count in (1..kind.length()).flat_map(|count| [count; 400]) {
            driver.state = states::holding(&mut driver.random, count, kind.number().into());
            let length = driver.random.below(50) as usize;
            let block = noise(&mut driver.random, length);
            run(&mut driver, &block, &mut seen);
        }
    }
    driver.both.at_least(7 * 56 * 400);
}

/// Every number of ones wanted, with any bits after them, often after as many ones.
#[test]
fn every_number_of_ones_wanted() {
    let mut driver = Driver::of("short blocks with every number of ones wanted", 414);
    let mut seen = Records::default();
    for wanted in (1..=RUN).flat_map(|wanted| [wanted; 400]) {
        driver.state = states::quiet(&mut driver.random, wanted);
        let ones = driver.random.pick(&[0, wanted - 1, wanted, RUN]);
        let length = driver.random.below(50) as usize;
        let noise = noise(&mut driver.random, length);
        let block = [Frame::ones(ones).block(0), noise].concat();
        run(&mut driver, &block, &mut seen);
    }
    driver.both.at_least(7 * 41 * 400);
}

/// Blocks of one clock: every byte that is right.
#[test]
fn single_clocks() {
    let mut driver = Driver::of("blocks of one clock", 413);
    let mut seen = Records::default();
    for _ in 0..150_000 {
        let start = states::well_formed(&mut driver.random);
        for bits in 0..=3 {
            driver.state = start;
            run(&mut driver, &[bits], &mut seen);
        }
    }
    seen.assert_complete();
    driver.both.at_least(7 * 4 * 150_000);
}
