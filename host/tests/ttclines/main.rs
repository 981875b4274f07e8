//! The program `ttclines` of document 01, "Stored lines", with of document 02: its
//! whole output, byte for byte, beside that of the model. TTCLINES names the program, else it is
//! ../target/bin/ttclines.

mod by_hand;
mod characters;
mod compare;
mod counters;
mod endings;
mod feeding;
mod lengths;
mod model_streams;
mod offsets;
mod program;
mod random_lines;
