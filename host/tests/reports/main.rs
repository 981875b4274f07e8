//! `ttcrx_report_start`, `_input` and `_end` against the model. A report in pieces says what the
//! program `ttclines` of document 01, with of document 02, says of the whole input.

mod calls;
mod driver;
mod ends;
mod held_bits;
mod inputs;
mod no_setting;
mod pieces;
mod places;
mod quiet;
mod receivers;
mod rooms;
