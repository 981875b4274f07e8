//! Makes lists of calls.

use ttcrx_host::sys::{Outputs, Receiver};
use ttcrx_host::testing::calls::{call, Call, Shown};
use ttcrx_host::testing::compare::Cases;
use ttcrx_host::testing::coverage::{Accesses, Quiet};
use ttcrx_host::testing::library::Library;

/// A library and what was compared and seen of it.
pub struct Runner<'a> {
    pub library: &'a dyn Library,
    pub cases: Cases,
    pub accesses: Accesses,
    pub quiet: Quiet,
}

/// What a list has answered.
pub struct Run {
    pub start: Receiver,
    /// What each call has shown, and the state after it.
    pub shown: Vec<Shown>,
    pub states: Vec<Receiver>,
    /// The state before the last call.
    pub before_last: Receiver,
    pub end: Receiver,
}

impl Run {
    /// Outputs, bytes read and refusals before the last call.
    pub fn before(&self) -> &[Shown] {
        &self.shown[..self.shown.len() - 1]
    }

    /// The outputs of the last call.
    pub fn last(&self) -> Outputs {
        self.shown.last().expect("a call").outputs
    }

    pub fn verdicts(&self) -> impl Iterator<Item = u8> + '_ {
        self.shown.iter().map(|shown| shown.outputs.verdict)
    }
}

impl<'a> Runner<'a> {
    pub fn new(library: &'a dyn Library, name: &'static str) -> Runner<'a> {
        Runner {
            library,
            cases: Cases::of(name),
            accesses: Accesses::default(),
            quiet: Quiet::default(),
        }
    }

    /// "The first gets the starting state, each later one the state as the call before returned or
    /// left it."
    pub fn run(&mut self, start: Receiver, calls: &[Call]) -> Run {
        self.quiet.run();
        self.go_on(start, calls)
    }

    /// The same from the state that the last list has left.
    pub fn go_on(&mut self, start: Receiver, calls: &[Call]) -> Run {
        let (shown, states) = (Vec::with_capacity(calls.len()), Vec::with_capacity(calls.len()));
        let mut run = Run { start, shown, states, before_last: start, end: start };
        for &each in calls {
            run.before_last = run.end;
            let shown = call(self.library, &mut run.end, each);
            self.refuses(each, shown, &run);
            self.accesses.call(&run.before_last, each, &run.end);
            self.quiet.call(&run.before_last, each);
            run.shown.push(shown);
            run.states.push(run.end);
        }
        run
    }

    /// "Each call ... refuses, exactly as ... the table of refusals say": a refused call shows
    /// nothing else and leaves the state.
    fn refuses(&self, call: Call, shown: Shown, run: &Run) {
        let refusal = call.refusal();
        let input = (call, run.before_last);
        self.cases.same(input, shown.refusal, refusal);
        if refusal != 0 {
            let nothing = Shown { refusal, ..Shown::default() };
            let left = (nothing, run.before_last);
            self.cases.same(input, (shown, run.end), left);
        }
    }
}
