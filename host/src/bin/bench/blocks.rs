//! Blocks of clocks through the library beside the model's clocks in a loop, in this process.

use crate::clocks::{best, with, Run};
use crate::patterns::{Bits, PATTERNS, TRIGGERS};
use crate::table::{millions, ratio, Table};
use std::hint::black_box;
use std::time::Instant;
use ttcrx_host::model::block::{self, CLOCKS, NUMBERS};
use ttcrx_host::model::Receiver;
use ttcrx_host::testing::convert;
use ttcrx_host::ttcrx;

const ID: u16 = 5;

/// The clocks of the real chip in one second: 40.08 MHz.
const REAL_CLOCKS: f64 = 40.08e6;

/// Runs a block on the receiver that it keeps. Gives the number of records.
trait Kept {
    fn block(&mut self, block: &[u8], out: &mut [u32]) -> usize;
    fn state(&self) -> ttcrx::Receiver;
}

/// The library's receiver, lent for each block.
impl Kept for ttcrx::Receiver {
    fn block(&mut self, block: &[u8], out: &mut [u32]) -> usize {
        let answer = ttcrx::run_block(self, block, out);
        assert_eq!(answer.refusal, 0, "a block is refused");
        answer.records
    }

    fn state(&self) -> ttcrx::Receiver {
        *self
    }
}

/// The model's receiver, with its clock inlined in the loop over the block.
impl Kept for Receiver {
    fn block(&mut self, block: &[u8], out: &mut [u32]) -> usize {
        block::run(self, block, out).expect("no block is refused")
    }

    fn state(&self) -> ttcrx::Receiver {
        convert::state(self)
    }
}

/// The records of one more block in a checksum of all.
fn summed(sum: u64, records: &[u32]) -> u64 {
    let length = with(sum, records.len() as u64);
    let numbers = records.iter().map(|&number| u64::from(number));
    numbers.fold(length, with)
}

/// The whole trace in blocks on one receiver, with one buffer. Only the blocks are timed: the
/// checksum of their records would take longer than some of them.
fn measured(mut kept: impl Kept, trace: &[u8]) -> Run {
    let mut buffer = vec![0; NUMBERS * CLOCKS];
    let mut run = Run { seconds: 0.0, sum: 0, state: kept.state() };
    for block in trace.chunks(CLOCKS) {
        let begin = Instant::now();
        let records = kept.block(black_box(block), black_box(&mut buffer));
        run.seconds += begin.elapsed().as_secs_f64();
        run.sum = summed(run.sum, ttcrx::filled(&buffer, records));
    }
    run.state = kept.state();
    run
}

fn trace(clocks: &[Bits]) -> Vec<u8> {
    let byte = |bits: &Bits| block::byte(bits.trigger.into(), bits.data.into());
    clocks.iter().map(byte).collect()
}

/// How many times as fast as the real chip.
fn real_times(clocks: u64, seconds: f64) -> String {
    format!("{:.2}", clocks as f64 / seconds / REAL_CLOCKS)
}

/// Measures, and prints the table.
pub fn run() {
    println!(
        "Blocks: ttcrx_run_block with blocks of {CLOCKS} clocks of a long trace, beside the model's
clock in a plain loop that tests block and room once and writes the same records. Each side keeps
one receiver and one buffer of {NUMBERS} * {CLOCKS} numbers, which is not cleared between blocks.
Best of three runs; the checksum of all records is not timed. The real chip has 40.08 M clocks/s.
"
    );
    let mut table = Table::of(&[
        "blocks of clocks",
        "ttcrx_run_block M/s",
        "model M/s",
        "library's time / model's",
        "library / 40.08 MHz",
    ]);
    for pattern in PATTERNS.iter().chain(&TRIGGERS) {
        let trace = trace(&pattern.clocks());
        let (one, other) = best(
            || measured(ttcrx::fresh(ID, 5).receiver, &trace),
            || measured(Receiver::fresh(ID, 5).expect("IDs in range"), &trace),
        );
        let count = trace.len() as u64;
        table.row(vec![
            pattern.name.to_string(),
            millions(count, one),
            millions(count, other),
            ratio(one, other),
            real_times(count, one),
        ]);
    }
    table.print();
}
