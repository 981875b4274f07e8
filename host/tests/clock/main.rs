//! Compares clock with the model: single clocks from every kind of state, refusals, and long runs
//! with accesses between the clocks. States that are not well formed are given to read, write and
//! well_formed too.

mod finishing;
mod ill_formed;
mod no_setting;
mod places;
mod runs;
mod states;
