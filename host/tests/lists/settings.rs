//! Q-4 of document 02, "No delay byte without a setting", over lists of calls from fresh: after every
//! call registers 0 and 1 hold a byte that belongs to a setting.

use crate::runner::Runner;
use ttcrx_host::sys::*;
use ttcrx_host::tallies;
use ttcrx_host::testing::calls::{call, Call, Mix, Shown};
use ttcrx_host::testing::frame::{Frame, RUN};
use ttcrx_host::testing::library::Library;
use ttcrx_host::testing::random::Random;
use ttcrx_host::testing::traffic::frame;

const REGISTER: (&str, u8, u8) = ("fine delay register", 0, 1);

tallies! {
    /// What was sent or written to the fine delay registers.
    struct Tallies {
        frames: [("frame with verdict 10, not 2", 0, 1), REGISTER, ("corrected", 0, 1)],
        writes: [("write refused by 17", 0, 1), REGISTER],
        resets: [("fine delays before a RESET (0, others)", 0, 1)],
    }
}

impl Tallies {
    /// A call, what it has shown, and the fine delays before it.
    fn call(&mut self, made: Call, shown: Shown, before: [u8; 2]) {
        let out = shown.outputs;
        let register = (out.word >> 8) as u8;
        match (made, out.verdict) {
            (Call::Write { number: number @ (0 | 1), .. }, _) => {
                let refused = shown.refusal == REFUSED_NO_SETTING;
                self.writes.seen([refused.into(), number]);
            }
            (_, VERDICT_STORED | VERDICT_NO_SETTING) if register < 2 => {
                let no_setting = out.verdict == VERDICT_NO_SETTING;
                self.frames.seen([no_setting.into(), register, out.corrected]);
            }
            (_, VERDICT_RESET) => self.resets.seen([(before != [0, 0]).into()]),
            _ => {}
        }
    }
}

/// The fine delays after a call: an accepted write, verdict 2 or RESET changes them, nothing else.
fn fine_delays(made: Call, shown: Shown, before: [u8; 2]) -> [u8; 2] {
    let [data, register, _, _] = shown.outputs.word.to_le_bytes();
    let (register, byte) = match (made, shown.outputs.verdict) {
        (_, VERDICT_RESET) => return [0, 0],
        (_, VERDICT_STORED) => (register, data),
        (Call::Write { number, value }, _) if shown.refusal == ACCEPTED => (number, value),
        _ => return before,
    };
    let mut after = before;
    if let Some(fine_delay) = after.get_mut(usize::from(register)) {
        *fine_delay = byte;
    }
    after
}

/// Up to six frames of any fate at this ID, with ones after each: 41 after a bad stop bit.
fn bits(random: &mut Random, id: u16) -> Vec<u8> {
    let mut bits = Vec::new();
    for _ in 0..random.below(7) {
        let frame = frame(random, id);
        let few = random.below(4) as u8;
        let ones = if frame.stops_badly() { RUN } else { few };
        bits.extend(frame.bits().chain(Frame::ones(ones).bits()));
    }
    bits
}

/// Clocks that carry such bits, with other calls between them.
fn list(random: &mut Random, id: u16) -> Vec<Call> {
    let mix = Mix::any(random);
    let mut calls = Vec::new();
    for data in bits(random, id) {
        mix.clock(random, data, &mut calls);
    }
    mix.others(random, &mut calls);
    calls
}

/// The registers hold these bytes, and each has a setting.
fn hold(runner: &Runner, state: Receiver, expected: [u8; 2]) {
    for (number, byte) in (0..).zip(expected) {
        let read = call(runner.library, &mut state.clone(), Call::Read { number });
        runner.cases.same((state, number), (read.refusal, read.byte), (ACCEPTED, byte));
        let setting = runner.library.delay_setting(read.byte);
        runner.cases.same((state, number), setting.refusal, ACCEPTED);
    }
}

pub fn check(library: &dyn Library, seed: u64, lists: u64) {
    let mut runner = Runner::new(library, "lists from fresh");
    let mut tallies = Tallies::default();
    let mut random = Random::new(seed);
    for _ in 0..lists {
        let id = 1 + random.below(16383) as u16;
        let start = library.fresh(id, 5).receiver;
        let calls = list(&mut random, id);
        let run = runner.run(start, &calls);
        let mut expected = [0, 0];
        for (place, &made) in calls.iter().enumerate() {
            let shown = run.shown[place];
            tallies.call(made, shown, expected);
            expected = fine_delays(made, shown, expected);
            hold(&runner, run.states[place], expected);
        }
    }
    tallies.assert_complete();
    runner.cases.at_least(lists * 100 * 5);
}
