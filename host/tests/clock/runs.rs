//! Long runs of clocks, reads and writes. The library's state is fed back from its own last answer,
//! the model keeps its own.

use ttcrx_host::model::{self, Columns};
use ttcrx_host::sys::{ClockAnswer, Receiver, REFUSED_STATE};
use ttcrx_host::testing::calls::{access, call, expected, no_clock, refused_clock, Call, Shown};
use ttcrx_host::testing::compare::Both;
use ttcrx_host::testing::coverage::{Accesses, Coverage, Quiet};
use ttcrx_host::testing::library::{Library, Proved};
use ttcrx_host::testing::random::Random;
use ttcrx_host::testing::traffic::{Habit, Traffic, LIVELY, QUIET, RARE};
use ttcrx_host::testing::{convert, states};

struct Runs {
    both: Both<'static>,
    coverage: Coverage,
    accesses: Accesses,
    quiet: Quiet,
    traffic: Traffic,
    random: Random,
}

impl Runs {
    /// So many clocks from this state. Another call comes once in so many clocks; never with 0.
    fn run(&mut self, start: Receiver, habit: Habit, others: u64, clocks: u32) {
        let mut state = start;
        let mut receiver = convert::receiver(&start).expect("well formed");
        self.traffic.start(start.core.ids.id, habit);
        self.coverage.run();
        self.quiet.run();
        for _ in 0..clocks {
            let (trigger, data) = self.traffic.clock();
            self.call(&mut state, &mut receiver, Call::Clock { trigger, data });
            while others != 0 && self.random.once_in(others) {
                let other = no_clock(&mut self.random);
                self.call(&mut state, &mut receiver, other);
            }
            if self.random.once_in(1_000) {
                self.ill_formed(state);
            }
        }
    }

    /// A call of both; all answers and the states after it must be equal.
    fn call(&mut self, state: &mut Receiver, receiver: &mut model::Receiver, made: Call) {
        let before = *state;
        let shown = call(&Proved, state, made);
        let shown_there = expected(receiver, Columns::own(), made);
        let expected = (shown_there, convert::state(receiver));
        self.both.same((before, made), (shown, *state), expected);
        self.accesses.call(&before, made, state);
        self.quiet.call(&before, made);
        match made {
            Call::Clock { data, .. } if made.is_clock() => {
                let answer = ClockAnswer {
                    refusal: shown.refusal,
                    receiver: *state,
                    outputs: shown.outputs,
                };
                self.coverage.clock(&before, data, &answer);
            }
            _ => self.coverage.refusal(shown.refusal),
        }
    }

    /// Calls with an ill-formed state, right ones among them: refused, and the state as it came.
    fn ill_formed(&mut self, mut state: Receiver) {
        let settings = &mut state.core.settings;
        match self.random.below(3) {
            0 => state.core.ids.i2c |= 64,
            1 => settings.fine1 |= 0xF0,
            _ => settings.fine2 |= 0xF0,
        }
        let right = Call::Clock { trigger: 1, data: 0 };
        let over = refused_clock(&mut self.random);
        for made in [right, over, access(&mut self.random)] {
            let mut after = state;
            let shown = call(&Proved, &mut after, made);
            let expected = Shown { refusal: REFUSED_STATE, ..Shown::default() };
            self.both.same((state, made), (shown, after), (expected, state));
            self.coverage.refusal(shown.refusal);
        }
    }

    /// A fresh state of the library, after two that it refuses.
    fn fresh(&mut self) -> Receiver {
        for (id, i2c) in [(16384, 64), (5, 64)] {
            let refusal = self.both.fresh(id, i2c).refusal;
            self.coverage.refusal(refusal);
        }
        let id = 1 + self.random.below(16383) as u16;
        let i2c = self.random.byte() % 64;
        self.both.fresh(id, i2c).receiver
    }
}

#[test]
fn long_runs() {
    let mut runs = Runs {
        both: Both::of("clocks, reads and writes in long runs"),
        coverage: Coverage::default(),
        accesses: Accesses::default(),
        quiet: Quiet::default(),
        traffic: Traffic::new(60),
        random: Random::new(61),
    };
    for (habit, others) in [(LIVELY, 2), (RARE, 20), (QUIET, 1_000), (QUIET, 0)] {
        let fresh = runs.fresh();
        runs.run(fresh, habit, others, 2_500_000);
    }
    for run in 0..1_000 {
        let state = states::well_formed(&mut runs.random);
        let others = [0, 1_000, 50, 3][run % 4];
        runs.run(state, [LIVELY, RARE, QUIET][run % 3], others, 10_000);
    }
    runs.traffic.assert_complete();
    runs.coverage.assert_complete();
    runs.accesses.assert_complete();
    runs.quiet.assert_complete();
    runs.both.at_least(23_500_000);
}
