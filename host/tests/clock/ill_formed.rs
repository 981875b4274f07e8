//! Bits over 1, and states that are not well formed, which clock, read and write refuse alike.

use ttcrx_host::sys::{Held, Receiver, Sequence, REFUSED_STATE};
use ttcrx_host::testing::calls::{call, Call, Shown};
use ttcrx_host::testing::compare::Both;
use ttcrx_host::testing::frame::{wanting, Frame};
use ttcrx_host::testing::library::{Library, Model};
use ttcrx_host::testing::random::Random;
use ttcrx_host::testing::states::edges::{self, Edge};
use ttcrx_host::testing::{example, states, traffic};

/// 2 comes first; with a good state a call is refused by its arguments alone. A refused call leaves
/// the state, and all else is 0.
fn expect_call(both: &Both, edge: Edge, made: Call) {
    let mut after = edge.state;
    let shown = call(both, &mut after, made);
    let refusal = match edge.good {
        true => made.refusal(),
        false => REFUSED_STATE,
    };
    both.same((edge, made), shown.refusal, refusal);
    if refusal != 0 {
        let refused = Shown { refusal, ..Shown::default() };
        both.same((edge, made), (shown, after), (refused, edge.state));
    }
}

/// A state at an edge, in calls that are right and in others.
fn expect(both: &Both, edge: Edge) {
    both.same(edge, both.well_formed(edge.state), edge.good.into());
    for trigger in [0, 1, 2, 255] {
        for data in [0, 1, 2, 255] {
            expect_call(both, edge, Call::Clock { trigger, data });
        }
    }
    for (number, value) in [(2, 0), (8, 1), (4, 2), (17, 3), (21, 0x26), (255, 255), (1, 240)] {
        expect_call(both, edge, Call::Read { number });
        expect_call(both, edge, Call::Write { number, value });
    }
}

/// At the least: `expect` compares well_formed twice, each of the 16 clocks, 7 reads and 7 writes
/// twice, and the 12 clocks with a bit over 1 once more.
const COMPARISONS: u64 = 2 * (1 + 16 + 7 + 7) + 12;

/// The edges of a clause of "Well formed": so many times, and so many states each time.
fn expect_edges(
    name: &'static str,
    (seed, times, states): (u64, u64, u64),
    edges: fn(&mut Random) -> Vec<Edge>,
) {
    let both = Both::of(name);
    let mut random = Random::new(seed);
    for _ in 0..times {
        for edge in edges(&mut random) {
            expect(&both, edge);
        }
    }
    both.at_least(times * states * COMPARISONS);
}

#[test]
fn edges_of_ids_and_numbers() {
    let name = "states with an ID or a number at its edge";
    expect_edges(name, (50, 200, 23), edges::numbers);
}

#[test]
fn every_config_byte() {
    let name = "states with every Config byte";
    expect_edges(name, (51, 10, 2 * 256), edges::config_bytes);
}

#[test]
fn every_fine_delay() {
    let name = "states with every byte in the fine delay registers";
    expect_edges(name, (57, 10, 3 * 256), edges::fine_delays);
}

#[test]
fn every_number_of_words_left() {
    let name = "states with every number of words left";
    expect_edges(name, (52, 5, 8 * 256), edges::words_left);
}

#[test]
fn every_number_of_held_bits() {
    let name = "states with every number of held bits";
    expect_edges(name, (54, 1, 193 * 256), edges::held_bits);
}

#[test]
fn every_number_of_ones_wanted() {
    let name = "states with every number of ones wanted";
    expect_edges(name, (56, 10, 10 * 256), edges::ones_wanted);
}

/// Fronts of frames: good while a bit is missing, bad with start 1, or with any bit beyond.
fn fronts(both: &Both, state: Receiver, frame: Frame) {
    let expect_held = |name, held, good| {
        let state = Receiver { held, ..state };
        expect(both, Edge { name, good, state });
    };
    for count in 1..=frame.length {
        let held = frame.front(count).held();
        expect_held("front of a frame", held, count < frame.length);
        for place in count - 1..64 {
            let bits = held.bits | 1 << place;
            expect_held("start 1, or a bit beyond", Held { bits, ..held }, false);
        }
    }
}

#[test]
fn held_bits_of_frames() {
    let both = Both::of("states with the front of a frame, and bits beyond");
    let mut random = Random::new(53);
    let mut kinds = [0; 2];
    for _ in 0..60 {
        let state = states::well_formed(&mut random);
        let frame = traffic::frame(&mut random, state.core.ids.id);
        kinds[usize::from(frame.kind().number())] += 1;
        fronts(&both, state, frame);
    }
    assert!(kinds.iter().all(|&count| count > 9), "{kinds:?}");
    both.at_least(7_700_000);
}

#[test]
fn random_garbage() {
    let both = Both::of("random states, some well formed");
    let mut random = Random::new(55);
    let mut seen = [0u32; 2];
    for _ in 0..1_000_000 {
        let garbage = states::garbage(&mut random);
        let good = states::well_formed(&mut random);
        for state in [garbage, states::mixed(&mut random, good, &garbage)] {
            seen[usize::from(both.well_formed(state))] += 1;
            let (trigger, data) = (random.byte() % 3, random.byte() % 3);
            both.clock(state, trigger, data);
        }
    }
    assert!(seen.iter().all(|&count| count > 100_000), "{seen:?}");
    both.at_least(4_000_000);
}

/// The bits of a state that is not well formed are not looked at.
#[test]
fn every_combination_of_bits() {
    let both = Both::of("every trigger byte with every data byte");
    let fresh = Model.fresh(5, 5).receiver;
    let mut running = fresh;
    running.core.sequence = Sequence { left: 2, event: 7 };
    running.held = example::frames()[4].front(41).held();
    let quiet = Receiver { held: wanting(41), ..running };
    let mut ill_formed = running;
    ill_formed.core.errors.status5 = 2;
    let states = [
        ("fresh", true, fresh),
        ("in a frame", true, running),
        ("wants ones", true, quiet),
        ("ill-formed", false, ill_formed),
    ];
    for (name, good, state) in states {
        for trigger in 0..=255 {
            for data in 0..=255 {
                let call = Call::Clock { trigger, data };
                expect_call(&both, Edge { name, good, state }, call);
            }
        }
    }
    both.at_least(65536 * 12 - 12);
}
