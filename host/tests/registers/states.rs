//! Every register of random states.

use ttcrx_host::sys::{ReadAnswer, Receiver, REFUSED_STATE};
use ttcrx_host::testing::compare::Both;
use ttcrx_host::testing::convert::{refused_write, Answer};
use ttcrx_host::testing::library::{Library, Model};
use ttcrx_host::testing::random::Random;
use ttcrx_host::testing::states;

/// Every register number with every value.
fn write_all(both: &Both, state: Receiver) {
    for number in 0..=255 {
        for value in 0..=255 {
            both.write(state, number, value);
        }
    }
}

#[test]
fn reads_of_well_formed_states() {
    let both = Both::of("reads of all registers from well-formed states");
    let mut random = Random::new(70);
    for _ in 0..20_000 {
        let state = states::well_formed(&mut random);
        for number in 0..=255 {
            both.read(state, number);
        }
    }
    both.at_least(20_000 * 256);
}

#[test]
fn writes_to_well_formed_states() {
    let both = Both::of("writes of all values to all registers of well-formed states");
    let mut random = Random::new(71);
    for _ in 0..100 {
        write_all(&both, states::well_formed(&mut random));
    }
    both.at_least(100 * 65_536);
}

/// A random state that is not well formed: fields right by chance alone, or a few parts wrong.
fn ill_formed(random: &mut Random) -> Receiver {
    loop {
        let garbage = states::garbage(random);
        let good = states::well_formed(random);
        let mixed = states::mixed(random, good, &garbage);
        let state = random.pick(&[garbage, mixed, mixed]);
        if Model.well_formed(state) == 0 {
            return state;
        }
    }
}

/// 2 comes before all others: neither number nor value is looked at.
#[test]
fn reads_of_ill_formed_states() {
    let both = Both::of("reads of all registers from ill-formed states");
    let mut random = Random::new(72);
    let refused = ReadAnswer::refused(REFUSED_STATE);
    for _ in 0..10_000 {
        let state = ill_formed(&mut random);
        for number in 0..=255 {
            both.same((state, number), both.read(state, number), refused);
        }
    }
    both.at_least(10_000 * 256 * 2);
}

#[test]
fn writes_to_ill_formed_states() {
    let both = Both::of("writes of all values to all registers of ill-formed states");
    let mut random = Random::new(73);
    for _ in 0..30 {
        write_all(&both, ill_formed(&mut random));
    }
    for _ in 0..1_000_000 {
        let state = ill_formed(&mut random);
        let (number, value) = (random.byte(), random.byte());
        let answer = both.write(state, number, value);
        let expected = refused_write(REFUSED_STATE, state);
        both.same((state, number, value), answer, expected);
    }
    both.at_least(30 * 65_536 + 2 * 1_000_000);
}

/// States of every kind, with a number and a value that change from state to state.
#[test]
fn single_accesses_to_many_states() {
    let both = Both::of("single accesses to random states");
    let mut random = Random::new(74);
    let mut seen = [0; 18];
    for _ in 0..1_000_000 {
        let garbage = states::garbage(&mut random);
        let good = states::well_formed(&mut random);
        let mixed = states::mixed(&mut random, good, &garbage);
        let number = random.byte() % 32;
        let value = match number {
            0 | 1 => random.pick(&[0, 239, 240, 255]),
            _ => random.pick(&[0x05, 0x85, 0x27, 0xA7, number ^ 0xA5]),
        };
        for state in [garbage, good, mixed] {
            both.read(state, number);
            seen[usize::from(both.write(state, number, value).refusal)] += 1;
        }
    }
    for (refusal, least) in
        [(0, 50_000), (2, 50_000), (5, 50_000), (6, 50_000), (7, 40_000), (17, 30_000)]
    {
        assert!(seen[refusal] > least, "refusals {seen:?}");
    }
    both.at_least(6_000_000);
}
