//! "a second call takes buffer and number and hands back the filled part of the caller's own
//! buffer, or its empty front where the number doesn't fit".

use crate::driver::{numbers, Driver};
use ttcrx_host::sys::{BLOCK_CLOCKS, RECORD_NUMBERS};
use ttcrx_host::testing::compare::{Both, Cases};
use ttcrx_host::testing::library::Library;
use ttcrx_host::testing::random::Random;
use ttcrx_host::testing::states;
use ttcrx_host::testing::traffic::{Traffic, LIVELY};
use ttcrx_host::ttcrx::{filled, records};

/// By hand: length, records, numbers filled.
const BY_HAND: [(usize, usize, usize); 16] = [
    (0, 0, 0),
    (100, 0, 0),
    (usize::MAX, 0, 0),
    (0, 1, 0),
    (4, 1, 0),
    (5, 1, 5),
    (9, 1, 5),
    (9, 2, 0),
    (10, 2, 10),
    (20_480, 4_096, 20_480),
    (20_479, 4_096, 0),
    (20_480, 4_097, 0),
    (usize::MAX, usize::MAX / 5, usize::MAX),
    (usize::MAX - 1, usize::MAX / 5, 0),
    (usize::MAX, usize::MAX / 5 + 1, 0),
    (usize::MAX, usize::MAX, 0),
];

/// Five for each record where they fit, else 0.
#[track_caller]
fn filled_length(both: &Both, length: usize, records: usize) -> usize {
    let answer = both.filled_length(length, records);
    let numbers = RECORD_NUMBERS.checked_mul(records);
    let fitting = numbers.filter(|&numbers| numbers <= length);
    both.same((length, records), answer, fitting.unwrap_or(0));
    answer
}

#[test]
fn by_hand() {
    let both = Both::of("filled lengths by hand");
    for (length, records, expected) in BY_HAND {
        let answer = filled_length(&both, length, records);
        both.same((length, records), answer, expected);
    }
    both.at_least(3 * 16);
}

#[test]
fn small_ones() {
    let both = Both::of("every length and number up to hundreds");
    for length in 0..800 {
        for records in 0..400 {
            filled_length(&both, length, records);
        }
    }
    both.at_least(2 * 800 * 400);
}

/// Five times such a number of records is a multiple of 2^64 and a little more or less: as a number
/// of 64 bits it is small, and would fit.
#[test]
fn wrapped_products() {
    let both = Both::of("numbers of records at multiples of 2^64 / 5");
    for k in 1..=4u128 {
        let quotient = ((k << usize::BITS) / 5) as usize;
        for records in quotient - 20..=quotient + 20 {
            let wrapped = RECORD_NUMBERS.wrapping_mul(records);
            let around = [wrapped.wrapping_sub(1), wrapped, wrapped.wrapping_add(1)];
            let chosen = [0, 1, 4, 5, 99, 100, 101, 20_480, usize::MAX - 1, usize::MAX];
            for length in around.into_iter().chain(chosen) {
                filled_length(&both, length, records);
            }
        }
    }
    both.at_least(2 * 4 * 41 * 13);
}

/// Numbers of every size, in all 64 bits, and such that they just fit or just do not.
#[test]
fn random_ones() {
    let both = Both::of("lengths and numbers of every size");
    let mut random = Random::new(460);
    let mut fitting = [0u32; 2];
    for _ in 0..1_000_000 {
        let length = random.any_length() as usize;
        let near = (length / RECORD_NUMBERS).saturating_sub(1) + random.below(4) as usize;
        for records in [random.any_length() as usize, near] {
            let answer = filled_length(&both, length, records);
            fitting[usize::from(answer > 0)] += 1;
        }
    }
    assert!(fitting.iter().all(|&count| count > 100_000), "{fitting:?}");
    both.at_least(4_000_000);
}

/// The filled part of a buffer begins where the buffer does. There are as many records in it.
#[track_caller]
fn front(cases: &Cases, buffer: &[u32], count: usize, expected: usize) {
    let part = filled(buffer, count);
    let own = part.as_ptr() == buffer.as_ptr();
    cases.same(count, (part.len(), own), (expected, true));
    let found = records(buffer, count);
    cases.same(count, RECORD_NUMBERS * found.len(), expected);
    let found: Vec<u32> = found.flat_map(|record| numbers(&record)).collect();
    cases.same_buffers(count, &found, part);
}

/// The records that a block wrote are found again, and none where the number does not fit.
#[test]
fn written_records() {
    let mut driver = Driver::of("records of a block found in its buffer", 461);
    let mut traffic = Traffic::new(462);
    for _ in 0..400 {
        driver.state = states::well_formed(&mut driver.random);
        traffic.start(driver.state.core.ids.id, LIVELY);
        let length = driver.random.below(BLOCK_CLOCKS as u64 + 1) as usize;
        let block = traffic.block(length);
        let (answer, records) = driver.block(&block, RECORD_NUMBERS * length + 3);
        let cases = &driver.both.cases;
        cases.same(length, records.len(), answer.records);
        let buffer: Vec<u32> = records.iter().flat_map(numbers).collect();
        front(cases, &buffer, answer.records, buffer.len());
        for too_many in [answer.records + 1, usize::MAX, usize::MAX / 5 + 1] {
            front(cases, &buffer, too_many, 0);
        }
    }
    driver.both.at_least(400 * 19);
}
