//! Receivers that live long: block after block, with register writes between them.

use crate::driver::Driver;
use crate::tallies::{Blocks, Records};
use ttcrx_host::model::block::byte;
use ttcrx_host::sys::{Counters, Errors, Receiver, BLOCK_CLOCKS, RECORD_NUMBERS};
use ttcrx_host::testing::coverage::{assert_seen, Tally};
use ttcrx_host::testing::library::Library;
use ttcrx_host::testing::traffic::{Habit, Traffic, LIVELY, QUIET, RARE};
use ttcrx_host::ttcrx;

/// The control register, and those of the counters.
const CONTROL: u8 = 3;
const COUNTERS: [u8; 8] = [8, 9, 10, 24, 25, 26, 27, 28];

/// Room for the records of a full block.
const FULL: usize = RECORD_NUMBERS * BLOCK_CLOCKS;

struct Runs {
    driver: Driver,
    traffic: Traffic,
    records: Records,
    blocks: Blocks,
    modes: Tally<2>,
    cleared: Tally<1>,
    clocks: u64,
}

impl Runs {
    fn of(name: &'static str, seed: u64) -> Runs {
        let cleared = "counter cleared by a write to (8, 9, 10, 24 to 28)";
        Runs {
            driver: Driver::of(name, seed),
            traffic: Traffic::new(seed),
            records: Records::default(),
            blocks: Blocks::default(),
            modes: Tally::of([("mode written", 0, 3), ("words left", 0, 2)]),
            cleared: Tally::of([(cleared, 0, 7)]),
            clocks: 0,
        }
    }

    /// Often as long as a block may be; also none and a single clock. As much room as is asked for,
    /// a few numbers more, or that of a full block and more.
    fn length_and_room(&mut self) -> (usize, usize) {
        let random = &mut self.driver.random;
        let length = match random.below(8) {
            0 => 0,
            1 => 1,
            2 | 3 => random.below(BLOCK_CLOCKS as u64 + 1) as usize,
            _ => BLOCK_CLOCKS,
        };
        let exact = RECORD_NUMBERS * length;
        let few = exact + random.below(12) as usize;
        (length, random.pick(&[exact, few, FULL, FULL + 7]))
    }

    /// Traffic; seldom idle throughout, or with a trigger on every clock.
    fn bytes(&mut self, length: usize) -> Vec<u8> {
        let mut bytes = self.traffic.block(length);
        match self.driver.random.below(60) {
            0 => bytes.fill(byte(0, 1)),
            1 => bytes.iter_mut().for_each(|bits| *bits |= byte(1, 0)),
            _ => {}
        }
        bytes
    }

    fn block(&mut self) {
        let (length, room) = self.length_and_room();
        let bytes = self.bytes(length);
        let before = self.driver.state;
        let records = self.driver.expect(0, &bytes, room);
        let states = (&before, &self.driver.state);
        self.blocks.seen((length, room), states, &records);
        self.records.seen(&records);
        self.clocks += length as u64;
    }

    fn write(&mut self, number: u8, value: u8) {
        let Driver { both, state, .. } = &mut self.driver;
        let answer = both.write(*state, number, value);
        both.same((number, value), answer.refusal, 0);
        *state = answer.receiver;
    }

    /// Any mode, any counter cleared; often nothing.
    fn writes(&mut self) {
        let value = self.driver.random.byte();
        if self.driver.random.once_in(3) {
            let left = self.driver.state.core.sequence.left;
            self.modes.seen([value % 4, left]);
            self.write(CONTROL, value);
        }
        if self.driver.random.once_in(40) {
            let place = self.driver.random.below(COUNTERS.len() as u64) as u8;
            self.cleared.seen([place]);
            self.write(COUNTERS[usize::from(place)], value);
        }
    }

    /// At least so many clocks on one receiver.
    fn run(&mut self, start: Receiver, habit: Habit, clocks: u64) {
        self.driver.state = start;
        self.traffic.start(start.core.ids.id, habit);
        let end = self.clocks + clocks;
        while self.clocks < end {
            self.block();
            self.writes();
        }
    }
}

/// A fresh receiver but for its counters, which are at or near their tops.
fn near_the_tops(id: u16) -> Receiver {
    let mut state = ttcrx::fresh(id, 5).receiver;
    state.core.counters = Counters { bunch: 4000, event: (1 << 24) - 1 };
    state.core.errors = Errors { single_errors: 65_500, double_errors: 240, status5: 0 };
    state
}

/// The clocks on each receiver.
const CLOCKS: u64 = 13_000_000;

/// A fresh receiver with many clears, then one near its tops with fewer.
#[track_caller]
fn lively_and(mut runs: Runs, fresh: Receiver, id: u16, habit: Habit) {
    runs.run(fresh, LIVELY, CLOCKS);
    runs.run(near_the_tops(id), habit, CLOCKS);
    runs.traffic.assert_complete();
    runs.records.assert_complete();
    runs.blocks.assert_complete();
    assert_seen(&[&runs.modes, &runs.cleared]);
    println!("{} clocks", runs.clocks);
    assert!(runs.clocks >= 2 * CLOCKS, "too few clocks");
    runs.driver.both.at_least(50_000);
}

#[test]
fn lively_and_rare() {
    let runs = Runs::of("blocks of a receiver with many clears, then few", 400);
    lively_and(runs, ttcrx::fresh(5, 5).receiver, 16383, RARE);
}

#[test]
fn lively_and_quiet() {
    let name = "blocks of a receiver with many clears, then hardly any";
    let runs = Runs::of(name, 401);
    lively_and(runs, ttcrx::fresh(1, 63).receiver, 8191, QUIET);
}
