//! What the tests share: one trait for the library and the model, random cases, states, traffic
//! and lines, comparison, coverage, and the examples of document 01.

pub mod calls;
pub mod columns;
pub mod compare;
pub mod convert;
pub mod coverage;
pub mod example;
pub mod files;
pub mod flips;
pub mod frame;
pub mod lending;
pub mod lent;
pub mod library;
pub mod lines;
pub mod null;
pub mod printed;
pub mod random;
pub mod said;
pub mod states;
pub mod traffic;
pub mod verdict;
