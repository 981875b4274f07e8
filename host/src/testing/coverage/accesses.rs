//! Counts the calls of a test: where in a frame and in a sequence they came, which registers they
//! named and what they changed.

use crate::sys::{Core, Receiver};
use crate::tallies;
use crate::testing::calls::Call;

/// The kinds of calls, refused ones by their numbers of refusal.
pub const KINDS: (&str, u8, u8) =
    ("call (clock, clock 1, read, read 5, write, write 5, write 6, write 7, write 17)", 0, 8);

/// The kind of a call with a well-formed state.
pub fn kind(call: Call) -> u8 {
    match (call, call.refusal()) {
        (Call::Read { .. }, 0) => 2,
        (Call::Read { .. }, _) => 3,
        (Call::Write { .. }, 0) => 4,
        (_, 17) => 8,
        (_, refusal) => refusal,
    }
}

const WITHIN: (&str, u8, u8) = ("within a frame", 0, 1);
const LEFT: (&str, u8, u8) = ("words left", 0, 2);

tallies! {
    /// What was seen of calls with well-formed states.
    pub struct Accesses {
        held: [KINDS, ("held bits", 0, 41)],
        left: [KINDS, LEFT],
        numbers: [("write", 0, 1), ("register", 0, 255), WITHIN],
        cleared: [("whole counter cleared by a write to (8, 9, 10, 24 to 28)", 0, 7), WITHIN],
        config: [("Config", 2, 3), ("bit 7 before", 0, 1), ("after", 0, 1)],
        modes: [("mode written", 0, 3), LEFT],
        delays: [("fine delay register", 0, 1), ("byte (under 239, 239, 240, over)", 0, 3), WITHIN],
    }
}

impl Accesses {
    /// A call, and the states before and after it. `Quiet` counts those with ones wanted.
    #[inline]
    pub fn call(&mut self, before: &Receiver, call: Call, after: &Receiver) {
        let left = before.core.sequence.left;
        if before.held.ones_wanted == 0 {
            self.held.seen([kind(call), before.held.count]);
        }
        self.left.seen([kind(call), left]);
        let within = (before.held.count > 0).into();
        match call {
            Call::Clock { .. } => {}
            Call::Read { number } => self.numbers.seen([0, number, within]),
            Call::Write { number, value } => {
                self.numbers.seen([1, number, within]);
                self.cleared(number, &before.core, within);
                self.settings(number, &before.core, &after.core);
                self.delays(number, value, within);
            }
        }
    }

    /// A write that clears a counter none of whose bytes is 0.
    fn cleared(&mut self, number: u8, before: &Core, within: u8) {
        let [low, high] = before.errors.single_errors.to_le_bytes();
        let [bunch_low, bunch_high] = before.counters.bunch.to_le_bytes();
        let [first, second, third, _] = before.counters.event.to_le_bytes();
        let (place, bytes) = match number {
            8 | 9 => (number - 8, [low, high, high]),
            10 => (2, [before.errors.double_errors; 3]),
            24 | 25 => (number - 21, [bunch_low, bunch_high, bunch_high]),
            26..=28 => (number - 21, [first, second, third]),
            _ => return,
        };
        if !bytes.contains(&0) {
            self.cleared.seen([place, within]);
        }
    }

    /// A write to a fine delay register, the byte at the edge of those that belong to a setting.
    fn delays(&mut self, number: u8, value: u8, within: u8) {
        let byte = match value {
            0..=238 => 0,
            239 => 1,
            240 => 2,
            _ => 3,
        };
        if number < 2 {
            self.delays.seen([number, byte, within]);
        }
    }

    /// A write to the control register or to a Config register, the last with what became of bit 7.
    fn settings(&mut self, number: u8, before: &Core, after: &Core) {
        let (old, new) = (&before.settings, &after.settings);
        let left = before.sequence.left;
        match number {
            3 => self.modes.seen([new.control % 4, left]),
            20 => self.config.seen([2, old.config2 >> 7, new.config2 >> 7]),
            21 => self.config.seen([3, old.config3 >> 7, new.config3 >> 7]),
            _ => {}
        }
    }
}
