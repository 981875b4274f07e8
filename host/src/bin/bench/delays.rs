//! The byte of a fine delay setting from the library beside the model's, in this process.

use crate::table::{millions, ratio, Table};
use std::hint::black_box;
use std::time::Instant;
use ttcrx_host::model;
use ttcrx_host::ttcrx;

const CALLS: u64 = 25_600_000;
const ROUNDS: usize = 3;

fn library(number: u8) -> u8 {
    ttcrx::delay_byte(number).byte
}

fn plain(number: u8) -> u8 {
    model::delay_byte(number).unwrap_or(0)
}

/// The numbers 0 to 255 over and over: no call waits for another. Those over 239 are refused.
fn in_turn(byte: impl Fn(u8) -> u8) -> u64 {
    (0..CALLS).map(|call| u64::from(byte(black_box(call as u8)))).sum()
}

/// From setting 0 on each byte is the next setting: each call waits for the one before.
fn in_a_chain(byte: impl Fn(u8) -> u8) -> u64 {
    (0..CALLS).fold(0, |setting, _| byte(setting)).into()
}

/// The seconds that the calls take, and what they give.
fn timed(calls: impl Fn() -> u64) -> (f64, u64) {
    let begin = Instant::now();
    let given = calls();
    (begin.elapsed().as_secs_f64(), given)
}

/// The best times of both sides, which take turns and must give the same.
fn best_times(of_library: impl Fn() -> u64, of_model: impl Fn() -> u64) -> (f64, f64) {
    let mut best = (f64::INFINITY, f64::INFINITY);
    for _ in 0..ROUNDS {
        let (one, other) = (timed(&of_library), timed(&of_model));
        assert_eq!(one.1, other.1, "the bytes differ");
        best = (best.0.min(one.0), best.1.min(other.0));
    }
    best
}

/// Measures, and prints the table.
pub fn run() {
    println!(
        "Fine delays: ttcrx_delay_byte beside the model's, which keeps the bytes it has found.\n"
    );
    for number in 0..=255 {
        assert_eq!(library(number), plain(number), "the bytes of {number} differ");
    }
    let mut table = Table::of(&[
        "fine delays",
        "ttcrx_delay_byte M/s",
        "model M/s",
        "library's time / model's",
    ]);
    let rows = [
        ("0 to 255 in turn", best_times(|| in_turn(library), || in_turn(plain))),
        ("each byte the next setting", best_times(|| in_a_chain(library), || in_a_chain(plain))),
    ];
    for (name, (one, other)) in rows {
        table.row(vec![
            name.to_string(),
            millions(CALLS, one),
            millions(CALLS, other),
            ratio(one, other),
        ]);
    }
    table.print();
}
