//! The functions of ttcrx.h with lent columns, Q-11 of document 02, "The encoder's own columns":
//! their check, frames, clocks and whole frames, against the model and against the papers' words.
//! Lists of calls with columns are in ../lists, blocks in ../blocks.

mod changes;
mod check;
mod clocks;
mod frames;
mod own;
mod refusals;
mod runs;
