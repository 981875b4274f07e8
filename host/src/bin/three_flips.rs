//! Prints what becomes of frames with three and with four wrong protected bits, counted on the
//! proved library and on the independent model.

use ttcrx_host::testing::flips::count;
use ttcrx_host::testing::frame::Frame;
use ttcrx_host::testing::library::{Library, Model, Proved};

fn main() {
    println!("Frames with three and with four wrong protected bits: how many are decoded how.");
    println!("                                  another frame:");
    println!(
        "wrong bits, frame           ways  clean  corrected  verdict 8  verdict 11  verdict 9"
    );
    let libraries: [(&str, &dyn Library); 2] = [("library", &Proved), ("model", &Model)];
    let frames = [("short", Frame::short(0)), ("long", Frame::word(1 << 16))];
    for flips in [3, 4] {
        for (kind, frame) in frames {
            for (name, library) in libraries {
                let counts = count(library, frame, flips);
                println!(
                    "{:<24} {:>7} {:>6} {:>10} {:>10} {:>11} {:>10}",
                    format!("{flips}, {kind}, {name}"),
                    counts.ways,
                    counts.clean,
                    counts.corrected,
                    counts.even,
                    counts.odd,
                    counts.fixed_bit
                );
            }
        }
    }
}
