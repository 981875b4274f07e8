//! "If channel B was 1 on its last 41 clocks, the receiver then waits for a start bit."

use crate::runner::{Run, Runner};
use ttcrx_host::sys::Held;
use ttcrx_host::tallies;
use ttcrx_host::testing::calls::{call, Call, Mix};
use ttcrx_host::testing::columns::Tables;
use ttcrx_host::testing::convert::columns;
use ttcrx_host::testing::coverage::{kind, Accesses, Quiet, KINDS};
use ttcrx_host::testing::library::Library;
use ttcrx_host::testing::random::Random;
use ttcrx_host::testing::traffic::{Traffic, LIVELY};
use ttcrx_host::testing::{states, verdict};

const ONES: usize = 41;
const MORE: (&str, u8, u8) = ("more than 41 clocks", 0, 1);

tallies! {
    /// What the lists did to channel B before they ended.
    struct Ends {
        starts: [("held bits at first", 0, 41), MORE],
        wanted: [("ones wanted at first", 0, 41), MORE],
        verdicts: [verdict::ANY],
        finishes: [("of the last 41 clocks a frame ended on (0: on none)", 0, 41)],
        zeros: [("refused clocks with a 0 among the last 41", 0, 3)],
        ends: [KINDS],
    }
}

impl Ends {
    fn list(&mut self, calls: &[Call], run: &Run) {
        let answered = calls.iter().zip(run.verdicts());
        let clocks: Vec<u8> = answered
            .inspect(|(_, verdict)| self.verdicts.seen([*verdict]))
            .filter_map(|(call, verdict)| call.is_clock().then_some(verdict))
            .collect();
        let (front, last) = clocks.split_at(clocks.len() - ONES);
        let more = !front.is_empty();
        self.starts.seen([run.start.held.count, more.into()]);
        self.wanted.seen([run.start.held.ones_wanted, more.into()]);
        let finish = last.iter().position(|&verdict| verdict != 0);
        let finish = finish.map_or(0, |place| place as u8 + 1);
        self.finishes.seen([finish]);
        self.zeros.seen([refused_zeros(calls)]);
        self.ends.seen([kind(*calls.last().expect("a call"))]);
    }
}

/// How many refused clocks with a 0 on channel B stand among the last 41 clocks; 3 stands for more.
fn refused_zeros(calls: &[Call]) -> u8 {
    let mut clocks = 0;
    let mut zeros = 0;
    for call in calls.iter().rev() {
        clocks += usize::from(call.is_clock());
        if clocks == ONES {
            break;
        }
        let zero = matches!(call, Call::Clock { data: 0, .. });
        zeros += u8::from(zero && !call.is_clock());
    }
    zeros.min(3)
}

/// No clock or up to 120 of any traffic, then 41 ones; other calls between, and at the end.
fn list(random: &mut Random, traffic: &mut Traffic) -> Vec<Call> {
    let mix = Mix::any(random);
    let mut calls = Vec::new();
    let front = random.below(2) * random.below(121);
    for _ in 0..front {
        let (_, data) = traffic.clock();
        mix.clock(random, data, &mut calls);
    }
    for _ in 0..ONES {
        mix.clock(random, 1, &mut calls);
    }
    mix.others(random, &mut calls);
    calls
}

/// On how many clocks at the end of a list channel B was 1. "A refused call is no clock."
fn ones_at_the_end(calls: &[Call]) -> usize {
    let clocks = calls.iter().rev().filter(|call| call.is_clock());
    clocks.take_while(|call| matches!(call, Call::Clock { data: 1, .. })).count()
}

/// "A receiver waits when it holds no frame bit and a 0 on the next clock would be a start bit."
fn waits(runner: &Runner, calls: &[Call], run: &Run, trigger: u8) {
    let input = (run.start, calls);
    let mut state = run.end;
    runner.cases.same(input, state.held, Held::default());
    let shown = call(runner.library, &mut state, Call::Clock { trigger, data: 0 });
    let start_bit = Held { count: 1, ..Held::default() };
    let answer = (shown.refusal, shown.outputs.verdict, state.held);
    runner.cases.same(input, answer, (0, 0, start_bit));
}

/// Each list with frames of the next of these columns. Gives what was seen of all calls.
pub fn check(library: &dyn Library, tables: Tables, seed: u64, lists: u64) -> (Accesses, Quiet) {
    let mut runner = Runner::new(library, "lists that end on 41 ones");
    let mut tallies = Ends::default();
    let mut random = Random::new(seed);
    let mut traffic = Traffic::new(seed);
    for _ in 0..lists {
        let columns = columns(&tables(&mut random));
        let start = states::well_formed_with(&mut random, &columns);
        traffic.encode_with(columns);
        traffic.start(start.core.ids.id, LIVELY);
        let calls = list(&mut random, &mut traffic);
        assert!(ones_at_the_end(&calls) >= ONES);
        let run = runner.run(start, &calls);
        waits(&runner, &calls, &run, random.byte() >> 7);
        tallies.list(&calls, &run);
    }
    tallies.assert_complete();
    runner.cases.at_least(lists * 100);
    (runner.accesses, runner.quiet)
}
