//! Counts what a test has seen of receivers that want ones: Q-1 of document 02, "Quiet after a bad
//! stop".

use super::accesses::{kind, KINDS};
use crate::sys::Receiver;
use crate::tallies;
use crate::testing::calls::Call;
use crate::testing::frame::RUN;

/// Of the 41 ones in a row.
const SEEN: (&str, u8, u8) = ("ones in a row so far", 0, RUN - 1);

tallies! {
    struct Tallies {
        clocks: [SEEN, ("data bit", 0, 1), ("trigger", 0, 1)],
        left: [SEEN, ("words left", 0, 2)],
        calls: [KINDS, SEEN],
        registers: [("while ones are wanted, write", 0, 1), ("register", 0, 255)],
        refused: [("data bit of a refused clock while ones are wanted (0, 1, over 1)", 0, 2)],
        next: [("data bit on the clock after the 41st one", 0, 1)],
    }
}

/// What was seen of calls while ones were wanted, and of the clock after.
#[derive(Default)]
pub struct Quiet {
    tallies: Tallies,
    /// The last clock brought the 41st one.
    ended: bool,
}

impl Quiet {
    /// A run begins at another state: the clock before was not of it.
    pub fn run(&mut self) {
        self.ended = false;
    }

    /// A call with a well-formed state.
    #[inline]
    pub fn call(&mut self, before: &Receiver, call: Call) {
        let wanted = before.held.ones_wanted;
        if wanted > 0 {
            self.wanting(before, call, RUN - wanted);
        }
        if let (Call::Clock { data, .. }, true) = (call, call.is_clock()) {
            if self.ended {
                self.tallies.next.seen([data]);
            }
            self.ended = wanted == 1 && data == 1;
        }
    }

    /// A call after so many ones in a row.
    fn wanting(&mut self, before: &Receiver, call: Call, seen: u8) {
        self.tallies.calls.seen([kind(call), seen]);
        match call {
            Call::Clock { trigger, data } if call.is_clock() => {
                self.tallies.clocks.seen([seen, data, trigger]);
                self.tallies.left.seen([seen, before.core.sequence.left]);
            }
            Call::Clock { data, .. } => self.tallies.refused.seen([data.min(2)]),
            Call::Read { number } => self.tallies.registers.seen([0, number]),
            Call::Write { number, .. } => self.tallies.registers.seen([1, number]),
        }
    }

    /// Fails and names what was not seen.
    #[track_caller]
    pub fn assert_complete(&self) {
        self.tallies.assert_complete();
    }
}
