//! The library libttcrx.a for Rust, and an independent model of document 01 that it is compared
//! with.

pub mod model;
pub mod sys;
pub mod testing;
pub mod ttcrx;
