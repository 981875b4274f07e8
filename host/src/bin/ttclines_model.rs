//! `ttclines` of document 01, "Stored lines", as a plain Rust program over the independent model.
//! The proved program is measured against it.

use std::io::{self, BufReader, BufWriter};
use std::process::ExitCode;
use ttcrx_host::model::report;

/// Few system calls, and both buffers stay in the processor's cache.
const BUFFER: usize = 1 << 16;

/// After an error the output has no `end` line; what was reported before is written if it can be.
fn main() -> ExitCode {
    let mut input = BufReader::with_capacity(BUFFER, io::stdin().lock());
    let mut output = BufWriter::with_capacity(BUFFER, io::stdout().lock());
    match report::run(&mut input, &mut output) {
        Ok(()) => ExitCode::SUCCESS,
        Err(error) => {
            eprintln!("ttclines_model: {error}");
            ExitCode::FAILURE
        }
    }
}
