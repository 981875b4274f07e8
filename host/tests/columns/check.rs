//! "27 not 40 numbers; 28 first bad column, its index told": `ttcrx_check_columns`. What is expected
//! is worked out from each number alone, and from those before it in its group.

use ttcrx_host::sys::{ColumnsAnswer, ACCEPTED, REFUSED_BAD_COLUMN, REFUSED_COLUMN_COUNT};
use ttcrx_host::testing::columns::{
    any, bad_number, bad_numbers, fault, good_numbers, group, with,
};
use ttcrx_host::testing::columns::{Table, FAULT, OWN};
use ttcrx_host::testing::compare::Both;
use ttcrx_host::testing::coverage::{assert_seen, Tally};
use ttcrx_host::testing::library::Library;
use ttcrx_host::testing::null;
use ttcrx_host::testing::random::Random;

const GOOD: ColumnsAnswer = ColumnsAnswer { refusal: ACCEPTED, index: 0 };
const NOT_40: ColumnsAnswer = ColumnsAnswer { refusal: REFUSED_COLUMN_COUNT, index: 0 };

/// Refusal 28, the first bad column at this index.
fn bad_at(index: usize) -> ColumnsAnswer {
    ColumnsAnswer { refusal: REFUSED_BAD_COLUMN, index: index as u8 }
}

#[track_caller]
fn expect(both: &Both, columns: &[u8], expected: ColumnsAnswer) {
    both.same(columns, both.check_columns(columns), expected);
}

/// The library's own columns, and so many other good ones.
fn tables(random: &mut Random, others: usize) -> Vec<Table> {
    let mut tables = vec![OWN];
    tables.extend((0..others).map(|_| any(random)));
    tables
}

/// Good tables have each good number at each index, of 3, 5 and 7 ones, and both orders of any two.
#[test]
fn good_tables() {
    let both = Both::of("good columns");
    let mut random = Random::new(700);
    let mut seen = vec![[0u32; 256]; 40];
    let mut orders = vec![[0u32; 40]; 40];
    for table in tables(&mut random, 20_000) {
        expect(&both, &table, GOOD);
        for index in 0..40 {
            seen[index][usize::from(table[index])] += 1;
            for earlier in group(index).start..index {
                let falls = table[earlier] > table[index];
                orders[index][earlier] |= 1 << u32::from(falls);
            }
        }
    }
    for index in 0..40 {
        for number in good_numbers(index) {
            assert!(seen[index][usize::from(number)] > 100, "{number} at {index}");
        }
        let earlier = &orders[index][group(index).start..index];
        assert!(earlier.iter().all(|&orders| orders == 3), "{index}: {earlier:?}");
    }
    both.at_least(2 * 20_001);
}

/// Every fault at every index: all numbers that are bad there, in many tables. Each sort of fault
/// that can be at an index is seen there: a column has an earlier one only after the first of its
/// group.
#[test]
fn every_fault_at_every_index() {
    let both = Both::of("one bad column");
    let mut random = Random::new(701);
    let mut seen = Tally::of([("long", 0, 1), FAULT]);
    for table in tables(&mut random, 30) {
        for index in 0..40 {
            let mut sorts = [0; 8];
            for number in bad_numbers(&table, index) {
                expect(&both, &with(&table, index, number), bad_at(index));
                let sort = fault(&table, index, number).expect("a fault");
                seen.seen([(index >= 8).into(), sort]);
                sorts[usize::from(sort)] += 1;
            }
            let earlier = index - group(index).start;
            assert_eq!(sorts[7], earlier, "{index}: each earlier one once");
            assert_eq!(sorts[..6], [1, 8, 28, 70, 28, 1], "{index}: even ones, and single ones");
        }
    }
    assert_seen(&[&seen]);
    both.at_least(2 * 31 * 40 * 199);
}

/// What is due for a table that is good but for this number at this index: it is bad itself, or makes
/// a later one bad that is equal to it.
fn due(table: &Table, index: usize, number: u8) -> ColumnsAnswer {
    let mut later = index + 1..group(index).end;
    match fault(table, index, number) {
        Some(_) => bad_at(index),
        None => later.find(|&place| table[place] == number).map_or(GOOD, bad_at),
    }
}

#[test]
fn every_value_at_every_index() {
    let both = Both::of("every value at every index");
    let mut random = Random::new(702);
    let mut found = [0u32; 3];
    for table in tables(&mut random, 30) {
        for (index, number) in
            (0..40).flat_map(|index| (0..=255).map(move |number| (index, number)))
        {
            let due = due(&table, index, number);
            expect(&both, &with(&table, index, number), due);
            let later = due.refusal == REFUSED_BAD_COLUMN && usize::from(due.index) > index;
            found[usize::from(due.refusal == REFUSED_BAD_COLUMN) + usize::from(later)] += 1;
        }
    }
    assert!(found.iter().all(|&count| count > 10_000), "good, bad, later bad: {found:?}");
    both.at_least(2 * 31 * 40 * 256);
}

/// "Of two equal columns the later is bad": each pair of a group, the first copied and the second.
#[test]
fn every_pair_of_equal_columns() {
    let both = Both::of("two equal columns");
    let mut random = Random::new(703);
    for table in tables(&mut random, 50) {
        for later in 0..40 {
            for earlier in group(later).start..later {
                expect(&both, &with(&table, later, table[earlier]), bad_at(later));
                expect(&both, &with(&table, earlier, table[later]), bad_at(later));
            }
        }
    }
    both.at_least(2 * 51 * 2 * (28 + 496));
}

/// Two bad columns at every pair of indices, each with any fault: the lesser index is told.
#[test]
fn every_pair_of_faults() {
    let both = Both::of("two bad columns");
    let mut random = Random::new(704);
    let mut seen = Tally::of([FAULT, FAULT, ("groups (short, both, long)", 0, 2)]);
    for table in tables(&mut random, 30) {
        for second in 1..40 {
            for first in 0..second {
                let one = bad_number(&mut random, &table, first);
                let changed = with(&table, first, one);
                let other = bad_number(&mut random, &changed, second);
                expect(&both, &with(&changed, second, other), bad_at(first));
                let one = fault(&table, first, one).expect("a fault");
                let other = fault(&changed, second, other).expect("a fault");
                let groups = u8::from(first >= 8) + u8::from(second >= 8);
                seen.seen([one, other, groups]);
            }
        }
    }
    assert_seen(&[&seen]);
    both.at_least(2 * 31 * 780);
}

/// Any bytes, and good tables with many bad columns.
#[test]
fn many_faults() {
    let both = Both::of("many bad columns");
    let mut random = Random::new(705);
    let mut indices = [0u32; 40];
    for _ in 0..100_000 {
        let mut table = any(&mut random);
        let from = random.below(40) as usize;
        match random.once_in(8) {
            true => random.fill(&mut table),
            false => random.fill(&mut table[from..]),
        }
        let first = (0..40).find(|&index| fault(&table, index, table[index]).is_some());
        expect(&both, &table, first.map_or(GOOD, bad_at));
        if let Some(first) = first {
            indices[first] += 1;
        }
    }
    assert!(indices.iter().all(|&count| count > 100), "{indices:?}");
    for (number, index) in [(0, 0), (1, 0), (3, 0), (7, 1), (31, 1), (32, 0), (127, 0), (255, 0)] {
        expect(&both, &[number; 40], bad_at(index));
    }
    both.at_least(2 * 100_008);
}

/// Lengths of 0 to 100, and such as are 40 in their low bits; with good numbers and with bad ones.
#[test]
fn lengths() {
    let both = Both::of("columns of every length");
    let mut random = Random::new(706);
    let far = [256 + 40, 512 + 40, 65_536 + 40, 0x0010_0028];
    for length in (0..=100).chain(far) {
        let table = any(&mut random);
        let good: Vec<u8> = table.iter().copied().cycle().take(length).collect();
        let mut bad = good.clone();
        random.fill(&mut bad);
        if length == 40 {
            expect(&both, &good, GOOD);
            expect(&both, &[0; 40], bad_at(0));
            continue;
        }
        for columns in [good, bad, vec![0; length], vec![255; length]] {
            expect(&both, &columns, NOT_40);
        }
    }
    both.same("null", null::check_columns(), NOT_40);
    both.at_least(2 * (104 * 4 + 2) + 1);
}

/// "Each group must be distinct numbers": all 8 short columns among the long ones, at every place,
/// and none of them there.
#[test]
fn columns_of_both_groups() {
    let both = Both::of("columns that are equal to one of the other group");
    let mut random = Random::new(707);
    for _ in 0..200 {
        let mut table = any(&mut random);
        let (short, long) = table.split_at_mut(8);
        let others = good_numbers(8).into_iter().filter(|number| !short.contains(number));
        let others: Vec<u8> = others.collect();
        long.copy_from_slice(&others[random.below(18) as usize..][..32]);
        expect(&both, &table, GOOD);
        table.copy_within(0..8, 8);
        for _ in 0..32 {
            table[8..].rotate_left(1);
            expect(&both, &table, GOOD);
        }
    }
    both.at_least(2 * 200 * 33);
}
