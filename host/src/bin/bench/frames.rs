//! Whole frames through the library beside single clocks of the model, in this process.

use crate::clocks::{best, of_library, of_model, with, Run};
use crate::patterns::after;
use crate::table::{millions, ratio, Table};
use std::hint::black_box;
use std::time::Instant;
use ttcrx_host::model::{Receiver, Verdict};
use ttcrx_host::testing::convert;
use ttcrx_host::testing::frame::{Frame, RUN};
use ttcrx_host::testing::lines::{any_frame, EVERY_KIND, MOSTLY_CLEAN};
use ttcrx_host::testing::random::Random;
use ttcrx_host::ttcrx;

const FRAMES: usize = 300_000;
const SEED: u64 = 102;
const ID: u16 = 5;

/// 41 clocks with a 1 on channel B, which follow each frame with verdict 7.
const ONES: [u8; RUN as usize] = [2; RUN as usize];

fn library(frames: &[Frame]) -> Run {
    let begin = Instant::now();
    let mut state = ttcrx::fresh(ID, 5).receiver;
    let mut records = [0; ttcrx::RECORD_NUMBERS * RUN as usize];
    let mut sum = 0;
    for frame in frames {
        let answer = ttcrx::receive(state, frame.kind().number(), frame.number);
        sum = with(sum, of_library(&answer.outputs));
        state = answer.receiver;
        if answer.outputs.verdict == ttcrx::VERDICT_STOP_BIT {
            let outcome = ttcrx::run_block(&mut state, &ONES, &mut records);
            sum = with(sum, outcome.records as u64);
        }
    }
    Run { seconds: begin.elapsed().as_secs_f64(), sum, state }
}

/// The outputs of a frame's last clock count; those before it show nothing.
fn model(frames: &[Frame]) -> Run {
    let begin = Instant::now();
    let mut receiver = Receiver::fresh(ID, 5).expect("IDs in range");
    let mut sum = 0;
    for frame in frames {
        let outputs = receiver.send(frame.number, frame.length);
        sum = with(sum, of_model(&outputs));
        if outputs.fate.verdict == Verdict::StopBit {
            receiver.idle(RUN);
            sum = with(sum, 0);
        }
    }
    Run { seconds: begin.elapsed().as_secs_f64(), sum, state: convert::state(&receiver) }
}

/// Measures, and prints the table.
pub fn run() {
    println!(
        "Whole frames: ttcrx_receive beside the model's clocks. After verdict 7 come 41 ones, as a
block of ttcrx_run_block and as clocks of the model.
"
    );
    let mut table = Table::of(&[
        "whole frames",
        "ttcrx_receive M frames/s",
        "model M frames/s",
        "library M clocks/s",
        "library's time / model's",
    ]);
    for (name, mix) in [("mostly clean", MOSTLY_CLEAN), ("often damaged", EVERY_KIND)] {
        let mut random = Random::new(SEED);
        let frames: Vec<Frame> = (0..FRAMES).map(|_| any_frame(&mut random, &mix)).collect();
        let (one, other) = best(|| library(black_box(&frames)), || model(black_box(&frames)));
        let clocks = |frame: &Frame| u64::from(frame.length + after(*frame).length);
        let clocks = frames.iter().map(clocks).sum();
        table.row(vec![
            name.to_string(),
            millions(FRAMES as u64, one),
            millions(FRAMES as u64, other),
            millions(clocks, one),
            ratio(one, other),
        ]);
    }
    table.print();
}
