//! "Refusals, in this order after 2: 15 block over 4,096 bytes; 16 fewer than five numbers of room
//! per byte; 1 any byte over 3": each at its edge, and all combinations.

use crate::driver::{noise, Driver};
use ttcrx_host::sys::*;
use ttcrx_host::testing::coverage::{assert_seen, Tally};
use ttcrx_host::testing::random::Random;
use ttcrx_host::testing::states;
use ttcrx_host::testing::states::edges::{self, Edge};
use ttcrx_host::ttcrx;

/// Room for the records of a full block.
const FULL: usize = RECORD_NUMBERS * BLOCK_CLOCKS;

/// Refusal 15 comes with any room, and with room for the whole block.
#[test]
fn lengths_around_4096() {
    let mut driver = Driver::of("blocks of about 4,096 clocks", 440);
    let far = [0, 1, 8_191, 8_192, 65_535, 65_536, 65_537, 69_632, 1 << 20];
    for length in (4_080..4_112).chain(far) {
        let block = noise(&mut driver.random, length);
        let exact = RECORD_NUMBERS * length;
        for room in [exact, FULL, 0] {
            driver.state = states::well_formed(&mut driver.random);
            let refusal = match (length > BLOCK_CLOCKS, room < exact) {
                (true, _) => REFUSED_BLOCK_LENGTH,
                (false, true) => REFUSED_RECORD_BUFFER,
                (false, false) => ACCEPTED,
            };
            driver.expect(refusal, &block, room);
        }
    }
    driver.both.at_least(41 * 3 * 7);
}

/// Every room for short blocks, and the edges for a block of 4096.
#[test]
fn rooms() {
    let mut driver = Driver::of("blocks with every room", 441);
    for length in 0..48 {
        let block = noise(&mut driver.random, length);
        let exact = RECORD_NUMBERS * length;
        for room in 0..exact + 12 {
            driver.state = states::well_formed(&mut driver.random);
            let refusal = match room < exact {
                true => REFUSED_RECORD_BUFFER,
                false => ACCEPTED,
            };
            driver.expect(refusal, &block, room);
        }
    }
    let block = [1; BLOCK_CLOCKS];
    for room in [0, 1, 4_096, 16_384, 20_475, 20_478, 20_479] {
        driver.state = states::well_formed(&mut driver.random);
        driver.expect(REFUSED_RECORD_BUFFER, &block, room);
        driver.expect(ACCEPTED, &block, FULL + room % 3);
    }
    driver.both.at_least(48 * 12 * 7);
}

/// Every byte in these places of a block of right ones.
fn every_byte(driver: &mut Driver, length: usize, places: impl IntoIterator<Item = usize>) {
    for place in places {
        for bits in 0..=255 {
            let mut block = noise(&mut driver.random, length);
            block[place] = bits;
            driver.state = states::well_formed(&mut driver.random);
            let refusal = if bits > 3 { REFUSED_BIT } else { ACCEPTED };
            driver.expect(refusal, &block, RECORD_NUMBERS * length);
        }
    }
}

#[test]
fn bytes() {
    let mut driver = Driver::of("blocks with every byte", 442);
    for length in [1, 2, 3, 7, 8, 9, 16, 17, 64, 65] {
        every_byte(&mut driver, length, 0..length);
    }
    every_byte(&mut driver, BLOCK_CLOCKS, [0, 1, 2_047, 4_094, 4_095]);
    driver.both.at_least((192 + 5) * 256 * 7);
}

/// A byte with one bit too many in every place of a full block.
#[test]
fn a_bad_byte_in_every_place() {
    let mut driver = Driver::of("a bad byte in every place of a full block", 445);
    driver.state = ttcrx::fresh(5, 5).receiver;
    let mut block = [1; BLOCK_CLOCKS];
    for place in 0..BLOCK_CLOCKS {
        block[place] |= 4 << (place % 6);
        driver.expect(REFUSED_BIT, &block, FULL);
        block[place] = 1;
    }
    driver.expect(ACCEPTED, &block, FULL);
    driver.both.at_least(4_096 * 8);
}

/// The bad byte comes after clocks that would have changed the state and written records.
#[test]
fn nothing_is_done_before_a_bad_byte() {
    let mut driver = Driver::of("bad bytes after clocks with triggers", 444);
    for length in [2, 17, 43, 500, BLOCK_CLOCKS] {
        let mut block = vec![1; length];
        block[length - 1] = 4;
        let fresh = ttcrx::fresh(5, 5).receiver;
        driver.state = fresh;
        driver.expect(REFUSED_BIT, &block, RECORD_NUMBERS * length);
        driver.both.same(length, driver.state, fresh);
        block[length - 1] = 1;
        let records = driver.expect(ACCEPTED, &block, RECORD_NUMBERS * length);
        driver.both.same(length, records.len(), length);
    }
    driver.both.at_least(5 * 16);
}

/// Blocks with their room: right, empty, and refused at a well-formed state.
const AT_EDGES: [(u8, &[u8], usize); 5] = [
    (ACCEPTED, &[3, 1, 2, 0], 20),
    (ACCEPTED, &[], 0),
    (REFUSED_RECORD_BUFFER, &[3, 1, 2, 0], 19),
    (REFUSED_BIT, &[3, 4], 10),
    (REFUSED_RECORD_BUFFER, &[255], 0),
];

#[test]
fn ill_formed_states() {
    let mut driver = Driver::of("blocks at every edge of well formed", 443);
    for edge in edges::all(&mut driver.random) {
        for (refusal, block, room) in AT_EDGES {
            driver.state = edge.state;
            let refusal = if edge.good { refusal } else { REFUSED_STATE };
            driver.expect(refusal, block, room);
        }
    }
    driver.both.at_least(edges::STATES * 5 * 7);
}

/// What is wrong with a call, each a bit, and its refusal, in the order of the refusals.
pub const STATE: u8 = 1;
pub const LENGTH: u8 = 2;
pub const ROOM: u8 = 4;
pub const BYTE: u8 = 8;
const FAULTS: [(u8, u8); 4] = [
    (STATE, REFUSED_STATE),
    (LENGTH, REFUSED_BLOCK_LENGTH),
    (ROOM, REFUSED_RECORD_BUFFER),
    (BYTE, REFUSED_BIT),
];
const COUNTED: &str = "faults (1 ill-formed, 2 long block, 4 small room, 8 byte over 3)";
const PLACE: &str = "byte over 3 in the place (first, middle, last)";

/// Lengths that are right, and lengths over 4096; some are right in their low 16 bits.
const RIGHT: [usize; 8] = [1, 2, 3, 10, 100, 2_000, 4_095, 4_096];
const LONG: [usize; 9] = [4_097, 4_098, 4_101, 5_000, 8_191, 8_192, 65_536, 65_537, 69_632];

/// Bytes over 3; many of them are right in their low 2 bits.
const BYTES: [u8; 12] = [4, 5, 6, 7, 8, 11, 16, 64, 128, 131, 254, 255];

/// Room for so many clocks; or too small by one, by more, none.
fn room(random: &mut Random, faults: u8, length: usize) -> usize {
    let exact = RECORD_NUMBERS * length;
    match faults & ROOM != 0 {
        true => random.pick(&[exact - 1, exact - RECORD_NUMBERS, 4 * length, length, 0]),
        false => exact + random.pick(&[0, 0, 1, RECORD_NUMBERS, 100]),
    }
}

/// Puts a byte over 3 into the block. Gives its place: 0 first, 1 between, 2 last.
pub fn spoil(random: &mut Random, block: &mut [u8]) -> u8 {
    let last = block.len() - 1;
    let any = random.below(block.len() as u64) as usize;
    let place = random.pick(&[0, any, block.len() / 2, last]);
    block[place] = random.pick(&BYTES);
    match place {
        _ if place == last => 2,
        0 => 0,
        _ => 1,
    }
}

/// States that are not well formed, each at an edge.
pub fn ill_formed(random: &mut Random) -> Vec<Edge> {
    let mut edges = edges::all(random);
    edges.retain(|edge| !edge.good);
    edges
}

/// A block with these faults, and its room; the driver's state becomes one that is right or not.
pub fn faulty(driver: &mut Driver, ill_formed: &[Edge], faults: u8) -> (Vec<u8>, usize) {
    let random = &mut driver.random;
    let length = match faults & LENGTH != 0 {
        true => random.pick(&LONG),
        false => random.pick(&RIGHT),
    };
    let room = room(random, faults, length);
    let block = noise(random, length);
    driver.state = match faults & STATE != 0 {
        true => random.pick(ill_formed).state,
        false => states::well_formed(random),
    };
    (block, room)
}

#[test]
fn every_combination() {
    let mut driver = Driver::of("every combination of faults", 430);
    let ill_formed = ill_formed(&mut driver.random);
    let mut seen = Tally::of([(COUNTED, 0, 15)]);
    let mut places = Tally::of([(PLACE, 0, 2), ("the only fault", 0, 1)]);
    for call in 0..16 * 400u32 {
        let faults = (call % 16) as u8;
        let (mut block, room) = faulty(&mut driver, &ill_formed, faults);
        if faults & BYTE != 0 {
            let place = spoil(&mut driver.random, &mut block);
            places.seen([place, (faults == BYTE).into()]);
        }
        let first = FAULTS.iter().find(|(fault, _)| faults & fault != 0);
        driver.expect(first.map_or(ACCEPTED, |fault| fault.1), &block, room);
        seen.seen([faults]);
    }
    assert_seen(&[&seen, &places]);
    driver.both.at_least(16 * 400 * 7);
}
