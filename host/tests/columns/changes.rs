//! "No state keeps them. So if the clocks of one frame are lent different columns, those of its last
//! clock decide what becomes of it."

use ttcrx_host::model::Kind;
use ttcrx_host::sys::*;
use ttcrx_host::testing::columns::{any, Table, OWN};
use ttcrx_host::testing::compare::Both;
use ttcrx_host::testing::convert::columns;
use ttcrx_host::testing::coverage::{assert_seen, Tally};
use ttcrx_host::testing::frame::{decode, send, Frame};
use ttcrx_host::testing::lending::Lending;
use ttcrx_host::testing::library::Library;
use ttcrx_host::testing::random::Random;
use ttcrx_host::testing::said::FIXED;
use ttcrx_host::testing::{states, traffic, verdict};

/// A clock: without columns, or with these.
fn clock(both: &Both, state: Receiver, table: Option<Table>, bits: (u8, u8)) -> ClockAnswer {
    let (trigger, data) = bits;
    match table {
        None => both.clock(state, trigger, data),
        Some(table) => both.clock_with_columns(state, &table, trigger, data).answer,
    }
}

/// No columns, or one of these tables, or any other.
fn next_table(random: &mut Random, tables: [Table; 2]) -> Option<Table> {
    let other = any(random);
    random.pick(&[None, Some(tables[0]), Some(tables[1]), Some(other)])
}

/// The state after these bits, with other columns on each clock. No frame finishes.
fn before_the_last(
    both: &Both,
    random: &mut Random,
    start: Receiver,
    front: Frame,
    tables: [Table; 2],
) -> Receiver {
    let mut state = start;
    for bit in front.bits() {
        let table = next_table(random, tables);
        let answer = clock(both, state, table, (0, bit));
        both.same((state, table), answer.outputs.verdict, VERDICT_NONE);
        state = answer.receiver;
    }
    both.same(start, state, send(both, start, front).receiver);
    state
}

/// What the last clock shows of a frame is what decoding it with the same columns says.
fn last_clock(both: &Both, state: Receiver, table: Option<Table>, frame: Frame) -> u8 {
    let last = (frame.number & 1) as u8;
    let shown = clock(both, state, table, (0, last)).outputs;
    let said = decode(&Lending::with(both, table.unwrap_or(OWN)), frame);
    let input = (state, table, frame);
    both.same(input, (shown.place, shown.word), (said.place, said.word));
    if said.verdict != DECODED_GOOD {
        both.same(input, shown.verdict, said.verdict);
    }
    shown.verdict
}

/// Each frame is encoded with the first table. Its last clock is lent this one, another, or none.
#[test]
fn the_last_clock_decides() {
    let both = Both::of("columns that change within a frame");
    let mut random = Random::new(750);
    let mut seen =
        Tally::of([("last clock (as encoded, other columns, none)", 0, 2), ("dropped", 0, 1)]);
    let mut differ = 0;
    for _ in 0..4_000 {
        let tables = [any(&mut random), any(&mut random)];
        let mut start = states::well_formed(&mut random);
        start.held = Held::default();
        let frame = traffic::frame_with(&mut random, &columns(&tables[0]), start.core.ids.id);
        let front = frame.front(frame.length - 1);
        let state = before_the_last(&both, &mut random, start, front, tables);
        let last = [Some(tables[0]), Some(tables[1]), None];
        let verdicts = last.map(|table| last_clock(&both, state, table, frame));
        for (place, verdict) in (0..).zip(verdicts) {
            seen.seen([place, verdict::is_dropped(verdict).into()]);
        }
        differ += u32::from(verdicts[0] != verdicts[1]);
    }
    assert_seen(&[&seen]);
    assert!(differ > 1_000, "{differ} frames with other verdicts");
    both.at_least(4_000 * 100);
}

/// The front of a long frame comes on clocks, its last 16 bits as a whole frame: with data under 64
/// these are a short number.
#[test]
fn the_rest_as_a_whole_frame() {
    let both = Both::of("the rest of a frame with other columns");
    let mut random = Random::new(751);
    for _ in 0..4_000 {
        let tables = [any(&mut random), any(&mut random)];
        let mut start = states::well_formed(&mut random);
        start.held = Held::default();
        let word = random.number() as u32 & !0xC0 | FIXED;
        let frame = Frame::encoded_with(&columns(&tables[0]), Kind::Long, word);
        let (front, rest) = (frame.front(26), frame.back(16));
        let state = before_the_last(&both, &mut random, start, front, tables);
        for table in tables {
            let whole = both.receive_short_with_columns(state, &table, rest.number).answer;
            let singly = send(&Lending::with(&both, table), state, rest);
            both.same((state, table, rest), whole, singly);
            last_clock(&both, send(&both, state, rest.front(15)).receiver, Some(table), frame);
        }
    }
    both.at_least(4_000 * 150);
}
