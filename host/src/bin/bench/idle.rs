//! Blocks of an idle line through the library: on a receiver that waits, and on one that wants ones
//! after a bad stop bit, in this process.

use crate::table::{millions, ratio, Table};
use std::hint::black_box;
use std::time::Instant;
use ttcrx_host::model::block::{self, CLOCKS, NUMBERS};
use ttcrx_host::testing::frame::{wanting, RUN};
use ttcrx_host::ttcrx::{self, Receiver};

const BLOCKS: usize = 20_000;
const ROUNDS: usize = 5;

/// The seconds that the blocks take, each on a copy of the receiver.
fn measured(start: Receiver, trace: &[u8]) -> f64 {
    let mut buffer = vec![0; NUMBERS * CLOCKS];
    let begin = Instant::now();
    for _ in 0..BLOCKS {
        let mut receiver = black_box(start);
        let answer = ttcrx::run_block(&mut receiver, black_box(trace), &mut buffer);
        assert_eq!((answer.refusal, answer.records), (0, 0), "an idle block has no record");
        assert_eq!(receiver.held, wanting(0), "the receiver waits after an idle block");
    }
    begin.elapsed().as_secs_f64()
}

/// Measures, and prints the table.
pub fn run() {
    println!(
        "An idle line: ttcrx_run_block with blocks of {CLOCKS} idle clocks, each on a copy.\n"
    );
    let waits = ttcrx::fresh(5, 5).receiver;
    let wants = Receiver { held: wanting(RUN), ..waits };
    let trace = vec![block::byte(0, 1); CLOCKS];
    let mut best = (f64::INFINITY, f64::INFINITY);
    for _ in 0..ROUNDS {
        let (one, other) = (measured(waits, &trace), measured(wants, &trace));
        best = (best.0.min(one), best.1.min(other));
    }
    let mut table = Table::of(&["an idle line", "ttcrx_run_block M/s", "time / waiting's"]);
    let clocks = (BLOCKS * CLOCKS) as u64;
    for (name, seconds) in [("the receiver waits", best.0), ("it wants 41 ones", best.1)] {
        table.row(vec![name.to_string(), millions(clocks, seconds), ratio(seconds, best.0)]);
    }
    table.print();
}
