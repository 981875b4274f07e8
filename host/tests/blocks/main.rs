//! `ttcrx_run_block` and `ttcrx_filled_length`, Q-3 of document 02, against the model's single
//! clocks: states, answers and whole buffers. are tried in blocks too, and blocks
//! with the lent columns of Q-11, `ttcrx_run_block_with_columns`.

mod by_hand;
mod columns;
mod cuts;
mod driver;
mod empty;
mod filled;
mod no_setting;
mod places;
mod quiet;
mod refusals;
mod runs;
mod states;
mod tallies;
