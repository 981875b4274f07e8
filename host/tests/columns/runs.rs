//! Long runs of clocks, whole frames, reads and writes with lent columns, which change now and then,
//! also in the middle of a frame. The library's state is fed back from its own last answer, the model
//! keeps its own.

use ttcrx_host::model::{self, Columns};
use ttcrx_host::sys::*;
use ttcrx_host::tallies;
use ttcrx_host::testing::calls::{call, expected, no_clock, Call};
use ttcrx_host::testing::columns::{self, Table};
use ttcrx_host::testing::compare::Cases;
use ttcrx_host::testing::coverage::{kind, KINDS};
use ttcrx_host::testing::lending::Lending;
use ttcrx_host::testing::library::Proved;
use ttcrx_host::testing::random::Random;
use ttcrx_host::testing::traffic::{frame_with, Habit, Traffic, LIVELY, RARE};
use ttcrx_host::testing::{convert, states, verdict};
use ttcrx_host::ttcrx;

tallies! {
    struct Seen {
        calls: [KINDS, ("held bits (none, of a short frame, of a long one)", 0, 2)],
        verdicts: [verdict::FINISHED],
        changed: [("columns changed within the frame", 0, 1), ("dropped", 0, 1)],
        short: [("place in a short frame", 1, PLACES_SHORT)],
        long: [("place in a long frame", 1, PLACES_LONG)],
        refused: [("refused (27, 28)", 0, 1), ("within a frame", 0, 1)],
        whole: [("whole frame, verdict", 0, 11)],
    }
}

/// A receiver of the library, and the model's.
struct Pair {
    state: Receiver,
    model: model::Receiver,
}

struct Runs<'a> {
    cases: Cases,
    lending: Lending<'a>,
    table: Table,
    columns: Columns,
    /// The columns were changed after the frame's start bit.
    changed: bool,
    traffic: Traffic,
    random: Random,
    seen: Seen,
}

impl Runs<'_> {
    /// Other columns, in the middle of a frame if one has begun. The next frames are encoded with
    /// them.
    fn change(&mut self) {
        self.table = self.lending.any(&mut self.random);
        self.columns = convert::columns(&self.table);
        self.traffic.encode_with(self.columns.clone());
        self.changed = true;
    }

    /// A call of both; all answers and the states after it must be equal.
    fn call(&mut self, pair: &mut Pair, made: Call) {
        let before = pair.state;
        self.changed &= before.held.count > 0;
        let shown = call(&self.lending, &mut pair.state, made);
        let due = (expected(&mut pair.model, &self.columns, made), convert::state(&pair.model));
        self.cases.same((before, self.table, made), (shown, pair.state), due);
        let long = before.held.count > 15;
        let held = u8::from(before.held.count > 0) + u8::from(long);
        self.seen.calls.seen([kind(made), held]);
        let out = shown.outputs;
        if verdict::is_finished(out.verdict) {
            self.seen.verdicts.seen([out.verdict]);
            let dropped = verdict::is_dropped(out.verdict);
            self.seen.changed.seen([self.changed.into(), dropped.into()]);
        }
        match (out.corrected, long) {
            (1, false) => self.seen.short.seen([out.place]),
            (1, true) => self.seen.long.seen([out.place]),
            _ => {}
        }
    }

    /// Columns that are not 40 or of which one is bad: the state stays.
    fn refused(&mut self, pair: &Pair) {
        let one_bad = self.random.once_in(2);
        let (columns, index) = columns::lent(&mut self.random, !one_bad, one_bad);
        let refusal = if one_bad { REFUSED_BAD_COLUMN } else { REFUSED_COLUMN_COUNT };
        let (trigger, data) = (self.random.byte(), self.random.byte());
        let done = ttcrx::clock_with_columns(pair.state, &columns, trigger, data);
        let answer = convert::refused_clock(refusal, pair.state);
        self.cases.same((pair.state, &columns), done, ClockWithIndex { answer, index });
        let within = (pair.state.held.count > 0).into();
        self.seen.refused.seen([one_bad.into(), within]);
    }

    /// A whole frame with the same columns.
    fn whole_frame(&mut self, pair: &mut Pair) {
        let before = pair.state;
        let frame = frame_with(&mut self.random, &self.columns, before.core.ids.id);
        let kind = frame.kind().number();
        let done = ttcrx::receive_with_columns(before, &self.table, kind, frame.number);
        let shown = pair.model.receive_with(&self.columns, kind, frame.number);
        let answer = convert::clock_done(&pair.model, shown.expect("a frame"));
        self.cases.same((before, self.table, frame), done, ClockWithIndex { answer, index: 0 });
        self.seen.whole.seen([done.answer.outputs.verdict]);
        pair.state = done.answer.receiver;
    }

    /// So many clocks from this state.
    fn run(&mut self, start: Receiver, habit: Habit, clocks: u32) {
        let model = convert::receiver(&start).expect("well formed");
        let mut pair = Pair { state: start, model };
        self.traffic.start(start.core.ids.id, habit);
        for _ in 0..clocks {
            let (trigger, data) = self.traffic.clock();
            self.call(&mut pair, Call::Clock { trigger, data });
            match self.random.below(200) {
                0 => self.change(),
                1 => self.refused(&pair),
                2 => self.whole_frame(&mut pair),
                3..40 => {
                    let other = no_clock(&mut self.random);
                    self.call(&mut pair, other);
                }
                _ => {}
            }
        }
    }
}

#[test]
fn long_runs() {
    let mut runs = Runs {
        cases: Cases::of("clocks, whole frames, reads and writes with columns in long runs"),
        lending: Lending::of(&Proved),
        table: columns::OWN,
        columns: Columns::own().clone(),
        changed: false,
        traffic: Traffic::new(760),
        random: Random::new(761),
        seen: Seen::default(),
    };
    for habit in [LIVELY, RARE] {
        runs.run(ttcrx::fresh(5, 5).receiver, habit, 300_000);
    }
    for _ in 0..100 {
        let start = states::well_formed(&mut runs.random);
        runs.run(start, LIVELY, 4_000);
    }
    runs.traffic.assert_complete();
    runs.seen.assert_complete();
    runs.cases.at_least(1_190_000);
}
