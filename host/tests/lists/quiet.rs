//! Q-1 of document 02, "Quiet after a bad stop", over lists of calls: what follows a clock with
//! verdict 7.

use crate::frames::{Frames, List};
use crate::runner::{Run, Runner};
use ttcrx_host::sys::{Held, Receiver, VERDICT_NONE, VERDICT_STOP_BIT};
use ttcrx_host::tallies;
use ttcrx_host::testing::calls::{call, Call, Mix, MAP};
use ttcrx_host::testing::columns::OWN;
use ttcrx_host::testing::frame::{wanting, Frame, RUN};
use ttcrx_host::testing::library::Library;
use ttcrx_host::testing::random::Random;
use ttcrx_host::testing::traffic::{frame, protected};
use ttcrx_host::testing::{states, verdict};

tallies! {
    struct Tallies {
        stops: [("long frame with a bad stop bit", 0, 1), ("trigger", 0, 1)],
        parts: [("runs and frames before 41 ones", 0, 5)],
        after: [verdict::GOOD],
    }
}

/// Lists that begin right after a clock with verdict 7.
struct Lists<'a> {
    runner: Runner<'a>,
    frames: Frames<'a>,
    tallies: Tallies,
    random: Random,
}

/// Calls whose clocks have these bits on channel B, with others between them and at the end.
fn calls(random: &mut Random, mix: Mix, bits: &[u8]) -> Vec<Call> {
    let mut calls = Vec::new();
    for &bit in bits {
        mix.clock(random, bit, &mut calls);
    }
    mix.others(random, &mut calls);
    calls
}

/// The same calls with channel B at 1 on every clock; "a refused call is no clock".
fn idle(calls: &[Call]) -> Vec<Call> {
    let idle = |call: &Call| match *call {
        Call::Clock { trigger, .. } if call.is_clock() => Call::Clock { trigger, data: 1 },
        other => other,
    };
    calls.iter().map(idle).collect()
}

/// The ones at the end of channel B's bits after each of these calls.
fn ones_so_far(calls: &[Call]) -> Vec<u8> {
    let mut ones = 0;
    let after = |call: &Call| {
        match *call {
            Call::Clock { data: 1, .. } if call.is_clock() => ones += 1,
            Call::Clock { .. } if call.is_clock() => ones = 0,
            _ => {}
        }
        ones
    };
    calls.iter().map(after).collect()
}

impl<'a> Lists<'a> {
    fn new(library: &'a dyn Library, seed: u64) -> Lists<'a> {
        Lists {
            runner: Runner::new(library, "lists after a bad stop bit"),
            frames: Frames::new(library, "frames after a bad stop bit and 41 ones"),
            tallies: Tallies::default(),
            random: Random::new(seed),
        }
    }

    /// The state after a clock with the bad stop bit of any frame, with or without a trigger.
    fn after_a_bad_stop(&mut self) -> Receiver {
        let mut before = states::well_formed(&mut self.random);
        let frame = frame(&mut self.random, before.core.ids.id);
        before.held = frame.front(frame.length - 1).held();
        let trigger = self.random.byte() >> 7;
        let run = self.runner.run(before, &[Call::Clock { trigger, data: 0 }]);
        let shown = (run.last().verdict, run.end.held);
        self.runner.cases.same(before, shown, (VERDICT_STOP_BIT, wanting(RUN)));
        self.tallies.stops.seen([frame.kind().number(), trigger]);
        run.end
    }

    /// Bits of channel B of which only the last 41 are all ones. Before them are up to five runs of
    /// fewer ones, often none or 40, and frames for this ID, with a 0 after each.
    fn bits(&mut self, id: u16) -> Vec<u8> {
        let random = &mut self.random;
        let mut bits = Vec::new();
        let parts = random.below(6);
        for _ in 0..parts {
            let any = Frame::ones(random.below(RUN.into()) as u8);
            let frame = frame(random, id);
            let part = random.pick(&[Frame::ones(0), any, any, Frame::ones(RUN - 1), frame]);
            bits.extend(part.bits());
            bits.push(0);
        }
        bits.extend(Frame::ones(RUN).bits());
        self.tallies.parts.seen([parts as u8]);
        bits
    }

    /// Until the 41st one in a row every verdict is 0, no bit is held, and the ones at the end
    /// count; all else is as with channel B idle. Then it waits.
    fn same_as_idle(&self, calls: &[Call], heard: &Run, idle: &Run) {
        let cases = &self.runner.cases;
        for (place, ones) in ones_so_far(calls).into_iter().enumerate() {
            let input = (heard.start, &calls[..=place]);
            let (shown, state) = (heard.shown[place], heard.states[place]);
            cases.same(input, shown.outputs.verdict, VERDICT_NONE);
            cases.same(input, shown, idle.shown[place]);
            cases.same(input, state.core, idle.states[place].core);
            cases.same(input, state.held, wanting(RUN.saturating_sub(ones)));
        }
    }

    /// Every register holds the same byte.
    fn same_registers(&self, heard: Receiver, idle: Receiver) {
        for number in MAP {
            let bytes = [heard, idle].map(|mut state| {
                let read = Call::Read { number };
                call(self.runner.library, &mut state, read)
            });
            self.runner.cases.same((heard, number), bytes[0], bytes[1]);
        }
    }

    /// "Before a 0 counts as a start": now it does, and a 1 is idle.
    fn next_bit(&mut self, state: Receiver) {
        let (trigger, data) = (self.random.byte() >> 7, self.random.byte() >> 7);
        let run = self.runner.go_on(state, &[Call::Clock { trigger, data }]);
        let held = Held { count: 1 - data, ..Held::default() };
        let shown = (run.last().verdict, run.end.held);
        self.runner.cases.same(state, shown, (VERDICT_NONE, held));
    }

    /// A frame is received as on any receiver that waits.
    fn frame_after(&mut self, state: Receiver) {
        let list = List::from(&mut self.random, OWN, state);
        let frame = list.frame();
        let flips = [1, 2].map(|count| protected(&mut self.random, frame, count));
        let row = self.frames.list(&list, &flips);
        self.tallies.after.seen([verdict::of_good(row)]);
    }

    fn list(&mut self) {
        let start = self.after_a_bad_stop();
        let mix = Mix::any(&mut self.random);
        let bits = self.bits(start.core.ids.id);
        let calls = calls(&mut self.random, mix, &bits);
        let idle = self.runner.run(start, &idle(&calls));
        let heard = self.runner.run(start, &calls);
        self.same_as_idle(&calls, &heard, &idle);
        self.same_registers(heard.end, idle.end);
        self.next_bit(heard.end);
        self.frame_after(heard.end);
    }
}

pub fn check(library: &dyn Library, seed: u64, count: u64) {
    let mut lists = Lists::new(library, seed);
    for _ in 0..count {
        lists.list();
    }
    lists.tallies.assert_complete();
    lists.runner.quiet.assert_complete();
    lists.runner.cases.at_least(count * 800);
    lists.frames.at_least(count * 4 * 50);
}

/// States in which 40 ones are not enough: with a start bit held, and right after verdict 7.
fn nearly(lists: &mut Lists) -> [(Receiver, Held); 2] {
    let mut started = states::well_formed(&mut lists.random);
    started.held = Held { count: 1, ..Held::default() };
    let long = Held { count: 41, bits: (1 << 40) - 1, ..Held::default() };
    [(started, long), (lists.after_a_bad_stop(), wanting(1))]
}

/// After 40 ones neither waits: a 0 is no start bit, and 41 ones are wanted after it. With the 41st
/// one both wait.
pub fn check_40_ones(library: &dyn Library, seed: u64, count: u64) {
    let mut lists = Lists::new(library, seed);
    for _ in 0..count {
        for (start, held) in nearly(&mut lists) {
            let mix = Mix::any(&mut lists.random);
            let calls = calls(&mut lists.random, mix, &[1; 40]);
            let run = lists.runner.run(start, &calls);
            let cases = &lists.runner.cases;
            let finished = run.verdicts().any(verdict::is_finished);
            cases.same((start, &calls), (finished, run.end.held), (false, held));
            for (data, after) in [(0, wanting(RUN)), (1, Held::default())] {
                let mut state = run.end;
                call(library, &mut state, Call::Clock { trigger: 0, data });
                cases.same((start, &calls, data), state.held, after);
            }
        }
    }
    lists.runner.cases.at_least(count * (2 * 40 + 2 + 3 + 3));
}
