//! A library whose frames, clocks and blocks are lent columns: tests that are written for the
//! functions of ttcrx.h without columns try those with columns.

use super::columns::{self, Table, OWN};
use super::library::{column_functions, other_functions, Library};
use super::random::Random;
use crate::sys::*;
use std::cell::Cell;

/// A library, and the columns that are lent to it.
pub struct Lending<'a> {
    library: &'a dyn Library,
    table: Cell<Table>,
}

impl<'a> Lending<'a> {
    /// The own columns are lent at first.
    pub fn of(library: &'a dyn Library) -> Lending<'a> {
        Lending::with(library, OWN)
    }

    /// These columns are lent, which are good.
    pub fn with(library: &'a dyn Library, table: Table) -> Lending<'a> {
        Lending { library, table: Cell::new(table) }
    }

    /// From now on any good columns are lent. Gives them.
    pub fn any(&self, random: &mut Random) -> Table {
        self.table.set(columns::any(random));
        self.table.get()
    }
}

/// The answer of the function without columns. No index is told: the columns are good.
#[track_caller]
#[inline]
fn plain<A>(answer: A, index: u8) -> A {
    assert_eq!(index, 0, "an index is told, though the columns are good");
    answer
}

/// A function that is lent no columns, or those of its caller.
macro_rules! forward {
    (fn $name:ident($($argument:ident: $type:ty),*) -> $answer:ty) => {
        #[track_caller]
        fn $name(&self, $($argument: $type),*) -> $answer {
            self.library.$name($($argument),*)
        }
    };
}

/// A function without columns by the one with columns, which takes them first, or after a receiver.
macro_rules! lend {
    (fn $name:ident($($argument:ident: $type:ty),*) -> $answer:ty, $lent:ident) => {
        #[track_caller]
        fn $name(&self, $($argument: $type),*) -> $answer {
            let done = self.library.$lent(&self.table.get(), $($argument),*);
            plain(done.answer, done.index)
        }
    };
    (fn $name:ident($state:ident; $($argument:ident: $type:ty),*) -> $answer:ty, $lent:ident) => {
        #[track_caller]
        fn $name(&self, $state: Receiver, $($argument: $type),*) -> $answer {
            let done = self.library.$lent($state, &self.table.get(), $($argument),*);
            plain(done.answer, done.index)
        }
    };
}

impl Library for Lending<'_> {
    other_functions! { forward }
    column_functions! { forward }
    forward! { fn write_short(number: u64, buffer: &mut [u8]) -> Written }
    forward! { fn write_long(number: u64, buffer: &mut [u8]) -> Written }
    forward! {
        fn run_block_with_columns(
            lent: &mut Receiver, columns: &[u8], block: &[u8], buffer: &mut [u32]
        ) -> BlockWithIndex
    }
    forward! { fn report_input(report: Report, input: &[u8], buffer: &mut [u8]) -> Reported }
    forward! { fn report_end(report: Report, buffer: &mut [u8]) -> Reported }

    lend! { fn encode_short(data: u8) -> Encoded, encode_short_with_columns }
    lend! {
        fn encode_long(address: u16, e: u8, sub_address: u8, data: u8) -> Encoded,
        encode_long_with_columns
    }
    lend! { fn decode_short(number: u64) -> Decoded, decode_short_with_columns }
    lend! { fn decode_long(number: u64) -> Decoded, decode_long_with_columns }
    lend! { fn clock(state; trigger: u8, data: u8) -> ClockAnswer, clock_with_columns }
    lend! { fn receive(state; kind: u8, number: u64) -> ClockAnswer, receive_with_columns }
    lend! { fn receive_short(state; number: u64) -> ClockAnswer, receive_short_with_columns }
    lend! { fn receive_long(state; number: u64) -> ClockAnswer, receive_long_with_columns }

    #[track_caller]
    fn run_block(&self, receiver: &mut Receiver, block: &[u8], buffer: &mut [u32]) -> BlockOutcome {
        let columns = self.table.get();
        let done = self.library.run_block_with_columns(receiver, &columns, block, buffer);
        plain(done.answer, done.index)
    }
}
