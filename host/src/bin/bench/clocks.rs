//! Single clocks of the library beside those of the model, in this process.

use crate::patterns::{Bits, PATTERNS};
use crate::table::{millions, ratio, Table};
use std::hint::black_box;
use std::time::Instant;
use ttcrx_host::model::{self, Receiver};
use ttcrx_host::testing::convert;
use ttcrx_host::ttcrx;

const ROUNDS: usize = 3;
const ID: u16 = 5;

/// One more clock's outputs in a checksum of all.
#[inline]
pub fn with(sum: u64, shown: u64) -> u64 {
    (sum ^ shown).wrapping_mul(0x9E37_79B9_7F4A_7C15).rotate_left(29)
}

/// All outputs of one clock of the library in one number.
#[inline]
pub fn of_library(outputs: &ttcrx::Outputs) -> u64 {
    u64::from(outputs.trigger)
        | u64::from(outputs.missed) << 1
        | u64::from(outputs.strobe) << 2
        | u64::from(outputs.corrected) << 4
        | u64::from(outputs.verdict) << 5
        | u64::from(outputs.place) << 9
        | u64::from(outputs.number) << 16
        | u64::from(outputs.word) << 32
}

/// All outputs of one clock of the model in the same number.
#[inline]
pub fn of_model(outputs: &model::Outputs) -> u64 {
    let (strobe, number) = outputs.bus.strobe();
    u64::from(outputs.trigger)
        | u64::from(outputs.missed) << 1
        | u64::from(strobe) << 2
        | u64::from(outputs.fate.corrected()) << 4
        | (outputs.fate.verdict as u64) << 5
        | u64::from(outputs.fate.place()) << 9
        | u64::from(number) << 16
        | u64::from(outputs.fate.word) << 32
}

/// What a run was: its time, the checksum of all outputs, and the state after it.
pub struct Run {
    pub seconds: f64,
    pub sum: u64,
    pub state: ttcrx::Receiver,
}

fn library(clocks: &[Bits]) -> Run {
    let begin = Instant::now();
    let mut state = ttcrx::fresh(ID, 5).receiver;
    let mut sum = 0;
    for bits in clocks {
        let answer = ttcrx::clock(state, bits.trigger.into(), bits.data.into());
        sum = with(sum, of_library(&answer.outputs));
        state = answer.receiver;
    }
    Run { seconds: begin.elapsed().as_secs_f64(), sum, state }
}

fn model(clocks: &[Bits]) -> Run {
    let begin = Instant::now();
    let mut receiver = Receiver::fresh(ID, 5).expect("IDs in range");
    let mut sum = 0;
    for bits in clocks {
        let outputs = receiver.clock(bits.trigger, bits.data);
        sum = with(sum, of_model(&outputs));
    }
    Run { seconds: begin.elapsed().as_secs_f64(), sum, state: convert::state(&receiver) }
}

/// The best times of both sides, which take turns. Outputs and states must be equal.
pub fn best(mut library: impl FnMut() -> Run, mut model: impl FnMut() -> Run) -> (f64, f64) {
    let mut best = (f64::INFINITY, f64::INFINITY);
    for _ in 0..ROUNDS {
        let (one, other) = (library(), model());
        assert_eq!(one.sum, other.sum, "the outputs differ");
        assert_eq!(one.state, other.state, "the states at the end differ");
        best = (best.0.min(one.seconds), best.1.min(other.seconds));
    }
    best
}

/// Measures, and prints the table.
pub fn run() {
    println!(
        "Clocks: best of three runs in this process. ttcrx_clock takes and returns the state by
value and tests it on every clock; the model keeps its own and tests nothing.
"
    );
    let mut table =
        Table::of(&["clocks", "ttcrx_clock M/s", "model M/s", "library's time / model's"]);
    for pattern in &PATTERNS {
        let clocks = pattern.clocks();
        let (one, other) = best(|| library(black_box(&clocks)), || model(black_box(&clocks)));
        let count = clocks.len() as u64;
        table.row(vec![
            pattern.name.to_string(),
            millions(count, one),
            millions(count, other),
            ratio(one, other),
        ]);
    }
    table.print();
}
