//! Tables of column numbers to lend, good and bad: Q-11 of document 02, "The encoder's own columns".

use super::random::Random;
use std::ops::Range;

/// "40 column numbers from bit 0 on, eight for short, then 32 for long frames".
pub type Table = [u8; 40];

/// The library's own columns, as ttcrx.h lists them.
pub const OWN: Table = [
    7, 11, 13, 14, 19, 21, 22, 25, // short
    7, 11, 13, 14, 19, 21, 22, 25, 26, 28, 35, 37, 38, 41, 42, 44, // long
    49, 50, 52, 56, 67, 69, 70, 73, 74, 76, 81, 82, 84, 88, 97, 98,
];

/// Where a test takes the columns of its next case from.
pub type Tables<'a> = &'a dyn Fn(&mut Random) -> Table;

/// The library's own columns every time.
pub fn own(_: &mut Random) -> Table {
    OWN
}

/// The indices of the group that this one belongs to.
pub fn group(index: usize) -> Range<usize> {
    match index {
        0..8 => 0..8,
        _ => 8..40,
    }
}

/// The bits that a column at this index is inside.
fn bits(index: usize) -> u32 {
    match index {
        0..8 => 5,
        _ => 7,
    }
}

/// "An odd count of ones, three or more, inside 5 or 7 bits": all such numbers for this index.
pub fn good_numbers(index: usize) -> Vec<u8> {
    let good = |number: &u8| matches!(number.count_ones(), 3 | 5 | 7);
    (0..1 << bits(index)).filter(good).collect()
}

/// Any good table. Each group has any of its good numbers, in any order.
pub fn any(random: &mut Random) -> Table {
    let mut table = [0; 40];
    let (short, long) = table.split_at_mut(8);
    choose(random, good_numbers(0), short);
    choose(random, good_numbers(8), long);
    table
}

/// As many of these numbers as there is room for, in any order.
fn choose(random: &mut Random, mut from: Vec<u8>, room: &mut [u8]) {
    for place in room {
        let chosen = random.below(from.len() as u64) as usize;
        *place = from.swap_remove(chosen);
    }
}

/// The table with another number at this index.
pub fn with(table: &Table, index: usize, number: u8) -> Table {
    let mut other = *table;
    other[index] = number;
    other
}

/// What is wrong with a column, as a tally counts it.
pub const FAULT: (&str, u8, u8) = ("fault (0, 1, 2, 4, 6, 8 ones; odd but too wide; equal)", 0, 7);

/// What is wrong with this number at this index of a table; none if it is good there. "Of two equal
/// columns the later is bad": a number is compared with those before it in its group.
pub fn fault(table: &Table, index: usize, number: u8) -> Option<u8> {
    let earlier = &table[group(index).start..index];
    match number.count_ones() {
        few @ 0..=2 => Some(few as u8),
        4 => Some(3),
        6 => Some(4),
        8 => Some(5),
        _ if number >> bits(index) != 0 => Some(6),
        _ => earlier.contains(&number).then_some(7),
    }
}

/// The numbers that are bad at this index of a good table.
pub fn bad_numbers(table: &Table, index: usize) -> Vec<u8> {
    let bad = |&number: &u8| fault(table, index, number).is_some();
    (0..=255).filter(bad).collect()
}

/// A number that is bad at this index of a table. All faults are about as frequent.
pub fn bad_number(random: &mut Random, table: &Table, index: usize) -> u8 {
    let sort = random.below(8) as u8;
    let bad = bad_numbers(table, index);
    let of_sort = |number: &u8| fault(table, index, *number) == Some(sort);
    let chosen: Vec<u8> = bad.iter().copied().filter(of_sort).collect();
    random.pick(if chosen.is_empty() { &bad } else { &chosen })
}

/// A good table in which one column was made bad, and its index.
pub fn bad(random: &mut Random) -> (Table, usize) {
    let table = any(random);
    let index = random.below(40) as usize;
    let number = bad_number(random, &table, index);
    (with(&table, index, number), index)
}

/// Columns to lend: as many as are right or not, good or with one made bad, and the index of that. It
/// stands among the columns that are too few only if it comes early enough.
pub fn lent(random: &mut Random, wrong_length: bool, one_bad: bool) -> (Vec<u8>, u8) {
    let (table, index) = match one_bad {
        true => bad(random),
        false => (any(random), 0),
    };
    let length = match wrong_length {
        true => random.pick(&[0, 1, 7, 8, 32, 39, 39, 41, 41, 48, 80, 296]),
        false => table.len(),
    };
    (table.into_iter().cycle().take(length).collect(), index as u8)
}
