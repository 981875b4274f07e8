//! Clocks and whole frames with lent columns, on random states: against the model, and whole frames
//! against the library's own single clocks.

use ttcrx_host::model::Kind;
use ttcrx_host::sys::*;
use ttcrx_host::tallies;
use ttcrx_host::testing::columns::any;
use ttcrx_host::testing::compare::Both;
use ttcrx_host::testing::convert::columns;
use ttcrx_host::testing::coverage::{assert_seen, Tally};
use ttcrx_host::testing::frame::{send, Frame};
use ttcrx_host::testing::lending::Lending;
use ttcrx_host::testing::library::{Library, Proved};
use ttcrx_host::testing::random::Random;
use ttcrx_host::testing::{states, traffic, verdict};

tallies! {
    /// What was seen of finished frames.
    struct Seen {
        verdicts: [verdict::ANY, ("trigger", 0, 1), ("words left", 0, 2)],
        short: [("place in a short frame", 1, PLACES_SHORT)],
        long: [("place in a long frame", 1, PLACES_LONG)],
    }
}

impl Seen {
    fn clock(&mut self, before: &Receiver, shown: &Outputs) {
        let left = before.core.sequence.left;
        self.verdicts.seen([shown.verdict, shown.trigger, left]);
        match (shown.corrected, before.held.count > 15) {
            (1, false) => self.short.seen([shown.place]),
            (1, true) => self.long.seen([shown.place]),
            _ => {}
        }
    }
}

/// Well-formed states, mostly with all of a frame but its last bit, encoded with the columns that
/// are lent.
#[test]
fn well_formed_states() {
    let both = Both::of("clocks with columns from well-formed states");
    let mut random = Random::new(730);
    let mut seen = Seen::default();
    for _ in 0..20_000 {
        let table = any(&mut random);
        let columns = columns(&table);
        for _ in 0..10 {
            let state = states::well_formed_with(&mut random, &columns);
            let (trigger, data) = (random.byte() >> 7, u8::from(!random.once_in(4)));
            let done = both.clock_with_columns(state, &table, trigger, data);
            both.same(state, (done.answer.refusal, done.index), (ACCEPTED, 0));
            seen.clock(&state, &done.answer.outputs);
        }
    }
    seen.assert_complete();
    both.at_least(2 * 200_000);
}

/// States of which some are not well formed, with bits of which some are over 1.
#[test]
fn any_states() {
    let both = Both::of("clocks with columns from any states");
    let mut random = Random::new(731);
    let mut refusals = [0u32; 3];
    for _ in 0..20_000 {
        let table = any(&mut random);
        let columns = columns(&table);
        for _ in 0..10 {
            let state = states::any_with(&mut random, &columns);
            let (trigger, data) = (random.byte() % 3, random.byte() % 3);
            let done = both.clock_with_columns(state, &table, trigger, data);
            refusals[usize::from(done.answer.refusal)] += 1;
        }
    }
    assert!(refusals.iter().all(|&count| count > 5_000), "{refusals:?}");
    both.at_least(200_000);
}

/// A whole frame by its kind, by the function for this kind, and by the library's own single clocks.
fn whole_frame(both: &Both, table: &[u8; COLUMNS], state: Receiver, frame: Frame) -> ClockAnswer {
    let kind = frame.kind();
    let done = both.receive_with_columns(state, table, kind.number(), frame.number);
    let of_kind = match kind {
        Kind::Short => both.receive_short_with_columns(state, table, frame.number),
        Kind::Long => both.receive_long_with_columns(state, table, frame.number),
    };
    both.same((state, table, frame), of_kind, done);
    let singly = send(&Lending::with(&Proved, *table), state, frame);
    both.same((state, table, frame), done.answer, singly);
    done.answer
}

/// Whole frames of every fate, at receivers that wait, hold bits or want ones.
#[test]
fn whole_frames() {
    let both = Both::of("whole frames with columns");
    let mut random = Random::new(732);
    let mut verdicts = Tally::of([verdict::ANY]);
    let mut corrected = Tally::of([("long", 0, 1), ("corrected", 0, 1)]);
    for _ in 0..15_000 {
        let table = any(&mut random);
        let columns = columns(&table);
        let mut state = states::well_formed_with(&mut random, &columns);
        if !random.once_in(3) {
            state.held = Held::default();
        }
        let frame = traffic::frame_with(&mut random, &columns, state.core.ids.id);
        let shown = whole_frame(&both, &table, state, frame).outputs;
        verdicts.seen([shown.verdict]);
        corrected.seen([frame.kind().number(), shown.corrected]);
    }
    assert_seen(&[&verdicts, &corrected]);
    both.at_least(15_000 * 4);
}
