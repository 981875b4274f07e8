//! Counts what the clocks of a test have shown, so that the test can name what it did not see.

mod accesses;
mod quiet;
mod tally;

use super::verdict;
use crate::sys::{ClockAnswer, Receiver, PLACES_LONG, PLACES_SHORT, REFUSED_NO_SETTING};
use crate::tallies;
pub use accesses::{kind, Accesses, KINDS};
pub use quiet::Quiet;
pub use tally::{assert_seen, Seen, Tally};

tallies! {
    struct Tallies {
        refusals: [("refusal (8 for 17)", 0, 8)],
        verdicts: [verdict::ANY, ("trigger", 0, 1), ("words left", 0, 2)],
        corrected: [verdict::GOOD, ("corrected flag", 0, 1)],
        kinds: [("long", 0, 1), ("error verdict (7, 8, 11)", 0, 2)],
        short_places: [("place in a short frame", 1, PLACES_SHORT)],
        long_places: [("place in a long frame", 1, PLACES_LONG)],
        next_bits: [verdict::FINISHED, ("next data bit", 0, 1)],
        strobes: [("strobe kind", 0, 3)],
        modes: [("trigger in mode", 0, 3)],
        flags: [("flag (trigger, missed, corrected)", 0, 2), ("value", 0, 1)],
        status5: [("status bit 5 before", 0, 1), ("after", 0, 1)],
        single_top: [("corrected at 65535 single errors, last digit of the verdict", 0, 6)],
        double_top: [("double errors stay at 255, verdict (10 for 11)", 7, 10)],
        top_resets: [("RESET clears the top of (single, double)", 0, 1)],
        wraps: [("wrap of (bunch, event)", 0, 1), ("words left", 0, 2)],
        registers: [("register", 0, 3), ("own address", 0, 1)],
        no_setting: [("no setting, register", 0, 1), ("own address", 0, 1), ("corrected", 0, 1)],
        received: [("verdict 10, not 2", 0, 1), ("fine delay data over 239 as received", 0, 1)],
        control: [("mode written, trigger", 0, 1), ("words left", 0, 2)],
        starts: [("mode written on the trigger of mode", 0, 3)],
        clears: [("broadcast bits", 0, 3), ("trigger", 0, 1), ("left", 0, 2)],
    }
}

/// What was seen of "Numbers of refusal", "Fate of a finished frame" and "One clock".
#[derive(Default)]
pub struct Coverage {
    tallies: Tallies,
    last_verdict: u8,
}

impl Coverage {
    pub fn refusal(&mut self, refusal: u8) {
        let place = match refusal {
            REFUSED_NO_SETTING => 8,
            _ => refusal,
        };
        self.tallies.refusals.seen([place]);
    }

    /// A run begins at another state: the clock before was not of it.
    pub fn run(&mut self) {
        self.last_verdict = 0;
    }

    /// A clock that was not refused: the state before, the data bit and the answer.
    #[inline]
    pub fn clock(&mut self, before: &Receiver, data: u8, answer: &ClockAnswer) {
        self.refusal(answer.refusal);
        self.outputs(before, answer);
        self.wraps(before, answer);
        if verdict::is_finished(self.last_verdict) {
            self.tallies.next_bits.seen([self.last_verdict, data]);
        }
        self.last_verdict = answer.outputs.verdict;
        if verdict::is_finished(answer.outputs.verdict) {
            self.frame(before, answer);
        }
    }

    fn outputs(&mut self, before: &Receiver, answer: &ClockAnswer) {
        let out = &answer.outputs;
        let left = before.core.sequence.left;
        self.tallies.verdicts.seen([out.verdict, out.trigger, left]);
        self.tallies.strobes.seen([out.strobe]);
        if out.trigger == 1 && left == 0 {
            self.tallies.modes.seen([before.core.settings.control % 4]);
        }
        for (place, value) in (0..).zip([out.trigger, out.missed, out.corrected]) {
            self.tallies.flags.seen([place, value]);
        }
        let after = answer.receiver.core.errors.status5;
        self.tallies.status5.seen([before.core.errors.status5, after]);
    }

    /// A counter that was at its last number and is 0 without having been cleared by a frame.
    fn wraps(&mut self, before: &Receiver, answer: &ClockAnswer) {
        let out = &answer.outputs;
        let (counters, left) = (&before.core.counters, before.core.sequence.left);
        let after = &answer.receiver.core.counters;
        let clears = |bit| out.verdict == 3 || out.verdict == 1 && out.word & bit != 0;
        if counters.bunch == 4095 && after.bunch == 0 && !clears(1) {
            self.tallies.wraps.seen([0, left]);
        }
        if counters.event == (1 << 24) - 1 && after.event == 0 && !clears(2) {
            self.tallies.wraps.seen([1, left]);
        }
    }

    fn frame(&mut self, before: &Receiver, answer: &ClockAnswer) {
        let out = &answer.outputs;
        if verdict::is_good(out.verdict) {
            let digit = verdict::of_good(out.verdict);
            self.tallies.corrected.seen([digit, out.corrected]);
        }
        let long = before.held.count > 15;
        if let Some(error) = [7, 8, 11].iter().position(|verdict| *verdict == out.verdict) {
            self.tallies.kinds.seen([long.into(), error as u8]);
        }
        match (out.corrected, long) {
            (1, false) => self.tallies.short_places.seen([out.place]),
            (1, true) => self.tallies.long_places.seen([out.place]),
            _ => {}
        }
        match out.verdict {
            1 => {
                let left = before.core.sequence.left;
                self.tallies.clears.seen([out.word as u8 % 4, out.trigger, left]);
            }
            2 => self.write(before, answer),
            10 => self.no_setting(answer),
            _ => {}
        }
        self.received_data(before, answer);
        self.tops(before, answer);
    }

    /// A frame of which nothing was stored.
    fn no_setting(&mut self, answer: &ClockAnswer) {
        let out = &answer.outputs;
        let register = (out.word >> 8) as u8;
        let own = out.word >> 18 != 0;
        self.tallies.no_setting.seen([register, own.into(), out.corrected]);
    }

    /// Data for a fine delay, stored or not, as they came before any correction: they stand before
    /// the 7 check bits.
    fn received_data(&mut self, before: &Receiver, answer: &ClockAnswer) {
        let out = &answer.outputs;
        let fine = matches!(out.word >> 8 & 0xFF, 0 | 1);
        if fine && matches!(out.verdict, 2 | 10) {
            let over = before.held.bits >> 7 & 0xFF > 239;
            self.tallies.received.seen([(out.verdict == 10).into(), over.into()]);
        }
    }

    /// The error counters that were at their tops before a frame: they stay there, or RESET clears
    /// them.
    fn tops(&mut self, before: &Receiver, answer: &ClockAnswer) {
        let (verdict, corrected) = (answer.outputs.verdict, answer.outputs.corrected);
        let (errors, after) = (&before.core.errors, &answer.receiver.core.errors);
        let reset = verdict == 3;
        if errors.single_errors == 65535 {
            assert_eq!(after.single_errors, if reset { 0 } else { 65535 });
            if corrected == 1 {
                self.tallies.single_top.seen([verdict::of_good(verdict)]);
            }
            if reset {
                self.tallies.top_resets.seen([0]);
            }
        }
        if errors.double_errors == 255 {
            assert_eq!(after.double_errors, if reset { 0 } else { 255 });
            if verdict::is_dropped(verdict) {
                self.tallies.double_top.seen([verdict::of_dropped(verdict)]);
            }
            if reset {
                self.tallies.top_resets.seen([1]);
            }
        }
    }

    fn write(&mut self, before: &Receiver, answer: &ClockAnswer) {
        let out = &answer.outputs;
        let register = (out.word >> 8) as u8;
        let own = out.word >> 18 != 0;
        self.tallies.registers.seen([register, own.into()]);
        let mode = |receiver: &Receiver| receiver.core.settings.control % 4;
        if mode(before) != mode(&answer.receiver) {
            let left = before.core.sequence.left;
            self.tallies.control.seen([out.trigger, left]);
            if out.trigger == 1 && left == 0 {
                self.tallies.starts.seen([mode(before)]);
            }
        }
    }

    /// Fails and names what was not seen.
    #[track_caller]
    pub fn assert_complete(&self) {
        self.tallies.assert_complete();
    }
}
