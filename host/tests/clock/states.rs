//! Single clocks from chosen and random well-formed states.

use ttcrx_host::model::Fields;
use ttcrx_host::sys::{ClockAnswer, Core, Counters, Errors, Held, Receiver, Sequence};
use ttcrx_host::sys::{VERDICT_NONE, VERDICT_STOP_BIT};
use ttcrx_host::testing::compare::Both;
use ttcrx_host::testing::coverage::{assert_seen, Tally};
use ttcrx_host::testing::frame::{wanting, Frame, RUN};
use ttcrx_host::testing::library::{Library, Model};
use ttcrx_host::testing::random::Random;
use ttcrx_host::testing::{states, verdict};

const ID: u16 = 5;
const BITS: [(u8, u8); 4] = [(0, 0), (0, 1), (1, 0), (1, 1)];
const EVENTS: u32 = 1 << 24;

#[test]
fn random_states_with_random_bits() {
    let both = Both::of("clocks from random well-formed states");
    let mut random = Random::new(40);
    let mut verdicts = [0; 12];
    for _ in 0..2_000_000 {
        let state = states::well_formed(&mut random);
        both.same(state, both.well_formed(state), 1);
        let (trigger, data) = random.pick(&BITS);
        let answer = both.clock(state, trigger, data);
        assert_eq!(answer.refusal, 0);
        verdicts[usize::from(answer.outputs.verdict)] += 1;
    }
    assert!(verdicts.iter().all(|&count| count > 5_000), "{verdicts:?}");
    both.at_least(6_000_000);
}

/// Every number of held bits, both frames, any bits after start and format.
#[test]
fn every_number_of_held_bits() {
    let both = Both::of("clocks with every number of held bits");
    let mut random = Random::new(41);
    let shorts = (1..=15).map(|count| (count, 0));
    let longs = (1..=41).map(|count| (count, 1));
    for (count, format) in shorts.chain(longs) {
        for _ in 0..2_000 {
            let state = states::holding(&mut random, count, format);
            for (trigger, data) in BITS {
                both.same(state, both.clock(state, trigger, data).refusal, 0);
            }
        }
    }
    both.at_least((15 + 41) * 2_000 * 4 * 2);
}

/// Every number of ones wanted: a 1 is one of them, a 0 begins the run again. All else is as on a
/// receiver that waits, with channel B idle.
#[test]
fn every_number_of_ones_wanted() {
    let both = Both::of("clocks with every number of ones wanted");
    let mut random = Random::new(43);
    for ones_wanted in (1..=RUN).flat_map(|wanted| [wanted; 2_000]) {
        let state = states::quiet(&mut random, ones_wanted);
        let waiting = Receiver { held: Held::default(), ..state };
        for (trigger, data) in BITS {
            let wanted = if data == 1 { ones_wanted - 1 } else { RUN };
            let idle = both.clock(waiting, trigger, 1);
            let receiver = Receiver { held: wanting(wanted), ..idle.receiver };
            let answer = both.clock(state, trigger, data);
            both.same((state, trigger, data), answer, ClockAnswer { receiver, ..idle });
            both.same(state, answer.outputs.verdict, VERDICT_NONE);
        }
    }
    both.at_least(41 * 2_000 * 4 * 4);
}

/// Frames of every fate at ID 5, clean.
fn frames() -> Vec<Frame> {
    let broadcasts = (0..8).chain([0xFF]).map(Frame::short);
    let mut frames: Vec<Frame> = broadcasts.collect();
    for address in [0, ID, 4, 6, 16383] {
        for (e, data) in [(0, 0x6C), (1, 0x6C), (0, 0xF3), (1, 0xF3)] {
            let long = |sub_address| Fields { address, e, sub_address, data };
            let sub_addresses = [0, 1, 2, 3, 4, 5, 6, 7, 0x86, 255];
            frames.extend(sub_addresses.map(long).map(Frame::long));
        }
    }
    frames.extend([0x0014_0600, 0xFFFE_FFFF].map(Frame::word));
    frames
}

/// Counters and sequences that a frame or a trigger may clear, raise or end.
pub fn edge_cores() -> Vec<Core> {
    let mut cores = Vec::new();
    for control in [0x90, 0x91, 0x92, 0x93] {
        for (left, kept) in [(0, 0), (1, 0x0012_3456), (2, 0x0012_3456)] {
            for (bunch, event) in [(7, 0x00AB_CDEF), (4095, EVENTS - 1), (4094, EVENTS - 2)] {
                let mut core = Model.fresh(ID, 5).receiver.core;
                core.settings.control = control;
                core.counters = Counters { bunch, event };
                core.sequence = Sequence { left, event: kept };
                cores.extend(error_tops(core, (event % 2) as u8));
            }
        }
    }
    cores
}

/// The error counters at 0, before their tops and at them.
fn error_tops(core: Core, status5: u8) -> [Core; 3] {
    [(0, 0), (65534, 254), (65535, 255)].map(|(single_errors, double_errors)| Core {
        errors: Errors { single_errors, double_errors, status5 },
        ..core
    })
}

/// All but the last bit of each frame, clean, with one, with two and with all flips, and with
/// those of syndrome 31, which belongs to no bit.
fn held_bits() -> Vec<Held> {
    let mut held = Vec::new();
    for frame in frames() {
        let (first, last) = (1 << (frame.length - 3), 2);
        let flips = [0, last, first, first | last, 2 * first - 2, 31 << 1];
        held.extend(flips.map(|bits| frame.flipped(bits).front(frame.length - 1).held()));
    }
    held
}

/// Only verdict 7 makes the receiver want ones, and then 41.
#[test]
fn last_bits_at_the_edges() {
    let both = Both::of("last bits of frames of every fate at the edges");
    let cores = edge_cores();
    let mut verdicts = [0; 12];
    for held in held_bits() {
        for &core in &cores {
            for (trigger, data) in BITS {
                let answer = both.clock(Receiver { core, held }, trigger, data);
                let verdict = answer.outputs.verdict;
                let wanted = if verdict == VERDICT_STOP_BIT { RUN } else { 0 };
                both.same((core, held), answer.receiver.held, wanting(wanted));
                verdicts[usize::from(verdict)] += 1;
            }
        }
    }
    assert!(verdicts[1..].iter().all(|&count| count > 0), "{verdicts:?}");
    both.at_least(2 * 211 * 6 * 108 * 4);
}

/// After 41 ones the receiver waits. It has finished one frame on the way if it held a bit, else
/// none. Gives the clock on which that was, or 0.
fn finished_by_ones(both: &Both, random: &mut Random, start: Receiver, triggers: u64) -> usize {
    let mut state = start;
    let mut finished = Vec::new();
    for clock in 1..=41 {
        let answer = both.clock(state, random.once_in(triggers).into(), 1);
        state = answer.receiver;
        if verdict::is_finished(answer.outputs.verdict) {
            finished.push(clock);
        }
    }
    both.same(start, state.held, Held::default());
    both.same(start, finished.len(), (start.held.count > 0).into());
    finished.pop().unwrap_or(0)
}

#[test]
fn it_waits_after_41_ones() {
    let both = Both::of("41 ones from random states");
    let mut clocks = [0; 42];
    let mut wanted = Tally::of([("ones wanted at first", 0, RUN)]);
    for (seed, triggers) in [(30, 2), (42, 3)] {
        let mut random = Random::new(seed);
        for _ in 0..20_000 {
            let start = states::well_formed(&mut random);
            clocks[finished_by_ones(&both, &mut random, start, triggers)] += 1;
            wanted.seen([start.held.ones_wanted]);
        }
    }
    assert!(clocks.iter().all(|&count| count > 0), "{clocks:?}");
    assert_seen(&[&wanted]);
    both.at_least(2 * 20_000 * 43);
}
