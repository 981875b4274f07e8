//! Q-11 of document 02, "The encoder's own columns", in blocks: against the model, and against the
//! library's own single clocks with the same columns.

use crate::cuts::singly_by;
use crate::driver::{noise, numbers, Driver};
use crate::refusals::{faulty, ill_formed, spoil, BYTE, LENGTH, ROOM, STATE};
use crate::tallies::Records;
use ttcrx_host::sys::*;
use ttcrx_host::testing::columns::{self, any, OWN};
use ttcrx_host::testing::convert;
use ttcrx_host::testing::coverage::{assert_seen, Tally};
use ttcrx_host::testing::frame::Frame;
use ttcrx_host::testing::lending::Lending;
use ttcrx_host::testing::library::Proved;
use ttcrx_host::testing::traffic::{frame_with, Traffic, LIVELY};
use ttcrx_host::testing::{null, states};

/// Blocks of up to so many clocks from random states, with frames of the columns that are lent.
fn blocks(driver: &mut Driver, seed: u64, (blocks, longest): (u32, u64)) {
    let mut traffic = Traffic::new(seed);
    let mut seen = Records::default();
    for _ in 0..blocks {
        let table = any(&mut driver.random);
        let columns = convert::columns(&table);
        let start = states::well_formed_with(&mut driver.random, &columns);
        traffic.encode_with(columns);
        traffic.start(start.core.ids.id, LIVELY);
        let length = driver.random.below(longest + 1) as usize;
        let block = traffic.block(length);
        (driver.state, driver.columns) = (start, Some(table.to_vec()));
        let records = driver.expect(ACCEPTED, &block, RECORD_NUMBERS * length + 3);
        let singly = singly_by(&Lending::with(&Proved, table), start, &block);
        driver.both.same((start, table, length), &(driver.state, records), &singly);
        driver.both.same(table, driver.index, 0);
        seen.seen(&singly.1);
    }
    traffic.assert_complete();
    seen.assert_complete();
}

#[test]
fn short_blocks_with_columns() {
    let mut driver = Driver::of("short blocks with columns", 520);
    blocks(&mut driver, 521, (20_000, 100));
    driver.both.at_least(20_000 * 8);
}

#[test]
fn long_blocks_with_columns() {
    let mut driver = Driver::of("long blocks with columns", 522);
    blocks(&mut driver, 523, (400, BLOCK_CLOCKS as u64));
    driver.both.at_least(400 * 8);
}

/// A frame in two blocks with other columns, cut at any place: the columns of the block with its last
/// clock decide. Its record is that of the whole frame in one block with these columns.
#[test]
fn columns_change_between_blocks() {
    let mut driver = Driver::of("a frame in two blocks with other columns", 524);
    let mut differ = 0;
    for _ in 0..300 {
        let tables = [any(&mut driver.random), any(&mut driver.random)];
        let encoding = convert::columns(&tables[0]);
        let mut start = states::well_formed(&mut driver.random);
        start.held = Held::default();
        let frame = frame_with(&mut driver.random, &encoding, start.core.ids.id);
        let first = whole(&mut driver, start, &tables[0], frame);
        let second = whole(&mut driver, start, &tables[1], frame);
        differ += u32::from(first != second);
        let cut = 1 + driver.random.below(u64::from(frame.length) - 1) as usize;
        in_two(&mut driver, start, [&tables[1], &tables[0]], (frame, cut), first);
        in_two(&mut driver, start, [&tables[0], &tables[1]], (frame, cut), second);
        in_two(&mut driver, start, [&OWN, &tables[1]], (frame, cut), second);
    }
    assert!(differ > 100, "{differ} frames with other records");
    driver.both.at_least(300 * 59);
}

/// The state after a block, and the numbers of its only record but for its place.
type End = (Receiver, [u32; 4]);

fn end(driver: &mut Driver, table: &[u8; COLUMNS], block: &[u8]) -> Option<End> {
    driver.columns = Some(table.to_vec());
    let records = driver.expect(ACCEPTED, block, RECORD_NUMBERS * block.len());
    let last = records.last()?;
    let [_, rest @ ..] = numbers(last);
    Some((driver.state, rest))
}

/// The frame in one block.
fn whole(driver: &mut Driver, start: Receiver, table: &[u8; COLUMNS], frame: Frame) -> End {
    driver.state = start;
    end(driver, table, &frame.block(0)).expect("a record")
}

/// The frame in two blocks, each with its columns: it ends like this.
fn in_two(
    driver: &mut Driver,
    start: Receiver,
    [front_table, back_table]: [&[u8; COLUMNS]; 2],
    (frame, cut): (Frame, usize),
    expected: End,
) {
    let block = frame.block(0);
    let (front, back) = block.split_at(cut);
    driver.state = start;
    let nothing = end(driver, front_table, front);
    let done = end(driver, back_table, back);
    driver.both.same((start, frame, cut), (nothing, done), (None, Some(expected)));
}

/// Faults of the columns, each a bit after those of the block.
const COLUMNS_LENGTH: u8 = 16;
const COLUMN: u8 = 32;
const COUNTED: &str =
    "faults (1 ill-formed, 2 long block, 4 small room, 8 byte over 3, 16 not 40, 32 bad column)";

/// 2, 27, 28, 15, 16, 1: the first that fits, and the index with 28 alone.
fn due(faults: u8, index: u8) -> (u8, u8) {
    let order = [
        (STATE, REFUSED_STATE, 0),
        (COLUMNS_LENGTH, REFUSED_COLUMN_COUNT, 0),
        (COLUMN, REFUSED_BAD_COLUMN, index),
        (LENGTH, REFUSED_BLOCK_LENGTH, 0),
        (ROOM, REFUSED_RECORD_BUFFER, 0),
        (BYTE, REFUSED_BIT, 0),
    ];
    let first = order.iter().find(|(fault, _, _)| faults & fault != 0);
    first.map_or((ACCEPTED, 0), |&(_, refusal, index)| (refusal, index))
}

/// Receiver, buffer and guards stay with each refusal.
#[test]
fn every_combination_with_columns() {
    let mut driver = Driver::of("every combination of faults with columns", 525);
    let ill_formed = ill_formed(&mut driver.random);
    let mut seen = Tally::of([(COUNTED, 0, 63)]);
    for faults in (0..64).flat_map(|faults| [faults; 40]) {
        let (mut block, room) = faulty(&mut driver, &ill_formed, faults);
        if faults & BYTE != 0 {
            spoil(&mut driver.random, &mut block);
        }
        let (wrong_length, one_bad) = (faults & COLUMNS_LENGTH != 0, faults & COLUMN != 0);
        let (columns, index) = columns::lent(&mut driver.random, wrong_length, one_bad);
        driver.columns = Some(columns);
        let (refusal, index) = due(faults, index);
        driver.expect(refusal, &block, room);
        driver.both.same(faults, driver.index, index);
        seen.seen([faults]);
    }
    assert_seen(&[&seen]);
    driver.both.at_least(64 * 40 * 8);
}

/// The columns of an empty block are checked too. Null pointers stand for what is empty.
#[test]
fn empty_blocks_with_columns() {
    let mut driver = Driver::of("empty blocks with columns", 526);
    for _ in 0..2_000 {
        let (bad, index) = columns::bad(&mut driver.random);
        let lent = [
            (OWN.to_vec(), ACCEPTED, 0),
            (bad.to_vec(), REFUSED_BAD_COLUMN, index as u8),
            (bad[1..].to_vec(), REFUSED_COLUMN_COUNT, 0),
        ];
        for (columns, refusal, index) in lent {
            driver.state = states::well_formed(&mut driver.random);
            let room = driver.random.below(3) as usize;
            driver.columns = Some(columns.clone());
            driver.expect(refusal, &[], room);
            driver.both.same(&columns, driver.index, index);
            let done = null::run_no_block_with_columns(&mut driver.state.clone(), &columns);
            driver.both.same(&columns, (done.answer.refusal, done.index), (refusal, index));
        }
        let mut state = driver.state;
        let done = null::run_no_block_without_columns(&mut state);
        driver.both.same(state, (done.answer.refusal, done.index), (REFUSED_COLUMN_COUNT, 0));
        driver.both.same("the state stays", state, driver.state);
    }
    driver.both.at_least(2_000 * 3 * 8);
}

/// Any clocks with columns from states of which some are not well formed.
#[test]
fn any_states_with_columns() {
    let mut driver = Driver::of("blocks with columns from any states", 527);
    let mut refusals = [0u32; 3];
    for _ in 0..20_000 {
        let table = any(&mut driver.random);
        driver.state = states::any_with(&mut driver.random, &convert::columns(&table));
        driver.columns = Some(table.to_vec());
        let length = driver.random.below(60) as usize;
        let mut block = noise(&mut driver.random, length + 1);
        if driver.random.once_in(4) {
            spoil(&mut driver.random, &mut block);
        }
        let (answer, _) = driver.block(&block, RECORD_NUMBERS * block.len());
        refusals[usize::from(answer.refusal)] += 1;
    }
    assert!(refusals.iter().all(|&count| count > 1_000), "{refusals:?}");
    driver.both.at_least(20_000 * 6);
}
