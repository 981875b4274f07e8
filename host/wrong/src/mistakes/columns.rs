//! Mistakes in Q-11 of document 02, "The encoder's own columns", that all functions with columns
//! have: other columns, and another index.

use crate::model::Columns;
use crate::sys::*;
use crate::testing::library::{column_functions, Library, Model};

/// The library's own columns, as 40 numbers.
pub fn own() -> Vec<u8> {
    Columns::own().numbers().to_vec()
}

/// All functions with columns take other columns than those that were lent.
pub struct Lent(pub fn(&[u8]) -> Vec<u8>);

/// A function of the model with other columns.
macro_rules! lent {
    (fn $name:ident(columns: &[u8] $(, $argument:ident: $type:ty)*) -> $answer:ty) => {
        fn $name(&self, columns: &[u8] $(, $argument: $type)*) -> $answer {
            Model.$name(&(self.0)(columns) $(, $argument)*)
        }
    };
    (fn $name:ident(receiver: Receiver, columns: &[u8], $($argument:ident: $type:ty),*)
        -> $answer:ty
    ) => {
        fn $name(&self, receiver: Receiver, columns: &[u8], $($argument: $type),*) -> $answer {
            Model.$name(receiver, &(self.0)(columns), $($argument),*)
        }
    };
}

impl Library for Lent {
    column_functions! { lent }

    fn run_block_with_columns(
        &self,
        receiver: &mut Receiver,
        columns: &[u8],
        block: &[u8],
        buffer: &mut [u32],
    ) -> BlockWithIndex {
        Model.run_block_with_columns(receiver, &(self.0)(columns), block, buffer)
    }
}

/// Columns that the model refuses by 28 with this index.
fn bad_at(index: usize) -> Vec<u8> {
    let mut columns = own();
    columns[index] = 0;
    columns
}

/// The columns that were lent, each that this test accepts made a good one. If all are good then,
/// they are the own ones.
fn accepting(columns: &[u8], accepted: impl Fn(&[u8], usize) -> bool) -> Vec<u8> {
    let mut left = columns.to_vec();
    while let ColumnsAnswer { refusal: REFUSED_BAD_COLUMN, index } = Model.check_columns(&left) {
        let index = usize::from(index);
        if !accepted(columns, index) {
            return bad_at(index);
        }
        left[index] = unused(&left, index);
    }
    match left == columns {
        true => left,
        false => own(),
    }
}

/// The columns of the group of this index, and its place there.
fn group(columns: &[u8], index: usize) -> (&[u8], usize) {
    match index < COLUMNS_SHORT {
        true => (&columns[..COLUMNS_SHORT], index),
        false => (&columns[COLUMNS_SHORT..], index - COLUMNS_SHORT),
    }
}

/// A good number for this index that its group has nowhere.
fn unused(columns: &[u8], index: usize) -> u8 {
    let (group, _) = group(columns, index);
    let width = if index < COLUMNS_SHORT { 5 } else { 7 };
    let mut good = (0..1u8 << width).filter(|number| matches!(number.count_ones(), 3 | 5 | 7));
    good.find(|number| !group.contains(number)).expect("there are more than columns")
}

/// Whether the column is equal to an earlier one of its group.
fn equal(columns: &[u8], index: usize) -> bool {
    let (group, place) = group(columns, index);
    group[..place].contains(&columns[index])
}

/// Whether the column has three, five or seven ones.
fn odd(columns: &[u8], index: usize) -> bool {
    matches!(columns[index].count_ones(), 3 | 5 | 7)
}

/// Whether the column is outside the 5 or 7 bits of its group.
fn wide(columns: &[u8], index: usize) -> bool {
    let bits = if index < COLUMNS_SHORT { 5 } else { 7 };
    columns[index] >> bits != 0
}

pub fn single_ones_accepted(columns: &[u8]) -> Vec<u8> {
    accepting(columns, |columns, index| columns[index].count_ones() == 1)
}

pub fn even_counts_accepted(columns: &[u8]) -> Vec<u8> {
    accepting(columns, |columns, index| matches!(columns[index].count_ones(), 2 | 4 | 6))
}

pub fn zero_accepted(columns: &[u8]) -> Vec<u8> {
    accepting(columns, |columns, index| columns[index] == 0)
}

pub fn wide_short_columns_accepted(columns: &[u8]) -> Vec<u8> {
    accepting(columns, |columns, index| {
        let seven_bits = index < COLUMNS_SHORT && columns[index] < 128;
        seven_bits && wide(columns, index) && odd(columns, index) && !equal(columns, index)
    })
}

pub fn wide_long_columns_accepted(columns: &[u8]) -> Vec<u8> {
    accepting(columns, |columns, index| {
        let long = index >= COLUMNS_SHORT;
        long && wide(columns, index) && odd(columns, index) && !equal(columns, index)
    })
}

pub fn equal_columns_accepted(columns: &[u8]) -> Vec<u8> {
    accepting(columns, |columns, index| {
        odd(columns, index) && !wide(columns, index) && equal(columns, index)
    })
}

pub fn neighbours_compared_only(columns: &[u8]) -> Vec<u8> {
    accepting(columns, |columns, index| {
        let beside = index > 0 && columns[index - 1] == columns[index];
        let good = odd(columns, index) && !wide(columns, index);
        good && equal(columns, index) && !beside
    })
}

pub fn five_ones_refused(columns: &[u8]) -> Vec<u8> {
    let five = columns.iter().position(|column| column.count_ones() == 5);
    match (Model.check_columns(columns).refusal, five) {
        (ACCEPTED, Some(index)) => bad_at(index),
        _ => columns.to_vec(),
    }
}

pub fn groups_compared(columns: &[u8]) -> Vec<u8> {
    let right = Model.check_columns(columns);
    let before = match right.refusal {
        ACCEPTED => COLUMNS,
        REFUSED_BAD_COLUMN => right.index.into(),
        _ => return columns.to_vec(),
    };
    let mut indices = COLUMNS_SHORT..before;
    let equal = |index: &usize| columns[..COLUMNS_SHORT].contains(&columns[*index]);
    indices.find(equal).map_or(columns.to_vec(), bad_at)
}

pub fn earlier_of_two_told(columns: &[u8]) -> Vec<u8> {
    let right = Model.check_columns(columns);
    let index = usize::from(right.index);
    if right.refusal != REFUSED_BAD_COLUMN || !equal(columns, index) {
        return columns.to_vec();
    }
    let (group, place) = group(columns, index);
    let earlier = group.iter().position(|column| *column == columns[index]);
    bad_at(index - place + earlier.expect("an equal one"))
}

pub fn last_bad_column_told(columns: &[u8]) -> Vec<u8> {
    if Model.check_columns(columns).refusal != REFUSED_BAD_COLUMN {
        return columns.to_vec();
    }
    let bad =
        |&index: &usize| !odd(columns, index) || wide(columns, index) || equal(columns, index);
    bad_at((0..COLUMNS).rev().find(bad).expect("a bad one"))
}

pub fn column_before_length(columns: &[u8]) -> Vec<u8> {
    let mut first = own();
    for (place, column) in first.iter_mut().zip(columns) {
        *place = *column;
    }
    match Model.check_columns(&first) {
        ColumnsAnswer { refusal: REFUSED_BAD_COLUMN, index }
            if usize::from(index) < columns.len() =>
        {
            bad_at(index.into())
        }
        _ => columns.to_vec(),
    }
}

pub fn more_than_40_accepted(columns: &[u8]) -> Vec<u8> {
    columns[..columns.len().min(COLUMNS)].to_vec()
}

pub fn length_in_one_byte(columns: &[u8]) -> Vec<u8> {
    columns[..columns.len() % 256].to_vec()
}

/// Good columns are exchanged for these.
pub fn exchanged(columns: &[u8], other: impl Fn(&mut [u8])) -> Vec<u8> {
    let mut columns = columns.to_vec();
    if Model.check_columns(&columns).refusal == ACCEPTED {
        other(&mut columns);
    }
    columns
}

pub fn own_columns_for_long_frames(columns: &[u8]) -> Vec<u8> {
    exchanged(columns, |columns| {
        columns[COLUMNS_SHORT..].copy_from_slice(&own()[COLUMNS_SHORT..]);
    })
}

pub fn own_columns_for_short_frames(columns: &[u8]) -> Vec<u8> {
    exchanged(columns, |columns| {
        columns[..COLUMNS_SHORT].copy_from_slice(&own()[..COLUMNS_SHORT]);
    })
}

pub fn columns_from_the_highest_bit(columns: &[u8]) -> Vec<u8> {
    exchanged(columns, |columns| {
        columns[..COLUMNS_SHORT].reverse();
        columns[COLUMNS_SHORT..].reverse();
    })
}

/// The index of each function with columns is another, by its refusal and by the index that the
/// check of its columns tells.
pub struct Index(pub fn(u8, u8) -> u8);

/// A function of the model with another index.
macro_rules! index {
    (fn check_columns(columns: &[u8]) -> ColumnsAnswer) => {
        fn check_columns(&self, columns: &[u8]) -> ColumnsAnswer {
            let right = Model.check_columns(columns);
            ColumnsAnswer { index: (self.0)(right.refusal, right.index), ..right }
        }
    };
    (fn $name:ident(columns: &[u8] $(, $argument:ident: $type:ty)*) -> $answer:ident) => {
        fn $name(&self, columns: &[u8] $(, $argument: $type)*) -> $answer {
            let right = Model.$name(columns $(, $argument)*);
            let told = Model.check_columns(columns).index;
            $answer { index: (self.0)(right.answer.refusal, told), ..right }
        }
    };
    (fn $name:ident(receiver: Receiver, columns: &[u8], $($argument:ident: $type:ty),*)
        -> $answer:ident
    ) => {
        fn $name(&self, receiver: Receiver, columns: &[u8], $($argument: $type),*) -> $answer {
            let right = Model.$name(receiver, columns, $($argument),*);
            let told = Model.check_columns(columns).index;
            $answer { index: (self.0)(right.answer.refusal, told), ..right }
        }
    };
}

impl Library for Index {
    column_functions! { index }

    fn run_block_with_columns(
        &self,
        receiver: &mut Receiver,
        columns: &[u8],
        block: &[u8],
        buffer: &mut [u32],
    ) -> BlockWithIndex {
        let right = Model.run_block_with_columns(receiver, columns, block, buffer);
        let told = Model.check_columns(columns).index;
        BlockWithIndex { index: (self.0)(right.answer.refusal, told), ..right }
    }
}

pub fn index_within_the_group(refusal: u8, told: u8) -> u8 {
    match refusal == REFUSED_BAD_COLUMN && told >= COLUMNS_SHORT as u8 {
        true => told - COLUMNS_SHORT as u8,
        false => told_with_28(refusal, told),
    }
}

/// The right index.
fn told_with_28(refusal: u8, told: u8) -> u8 {
    match refusal {
        REFUSED_BAD_COLUMN => told,
        _ => 0,
    }
}

pub fn indices_from_1(refusal: u8, told: u8) -> u8 {
    match refusal {
        REFUSED_BAD_COLUMN => told + 1,
        _ => 0,
    }
}

pub fn index_beside_refusal_2(refusal: u8, told: u8) -> u8 {
    match refusal {
        REFUSED_STATE => told,
        _ => told_with_28(refusal, told),
    }
}

pub fn index_40_with_27(refusal: u8, told: u8) -> u8 {
    match refusal {
        REFUSED_COLUMN_COUNT => COLUMNS as u8,
        _ => told_with_28(refusal, told),
    }
}
