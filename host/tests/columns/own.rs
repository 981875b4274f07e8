//! "With the library's own columns .. these functions answer what those without columns do, with
//! index 0": each function of the library beside the one without columns, on random arguments.

use ttcrx_host::sys::*;
use ttcrx_host::testing::columns::OWN;
use ttcrx_host::testing::compare::Cases;
use ttcrx_host::testing::lending::Lending;
use ttcrx_host::testing::library::{Library, Proved};
use ttcrx_host::testing::random::Random;
use ttcrx_host::testing::states;
use ttcrx_host::testing::traffic::{self, Traffic, LIVELY};
use ttcrx_host::ttcrx;

/// Any number, or one with the leading bits of a short or of a long frame.
fn number(random: &mut Random) -> u64 {
    let (short, long) = (random.below(1 << 14), 1 << 40 | random.below(1 << 40));
    let any = random.any_length();
    random.pick(&[short, long, any])
}

#[test]
fn frames() {
    let cases = Cases::of("frames with the own columns");
    let lending = Lending::of(&Proved);
    let mut random = Random::new(740);
    cases.same("own", ttcrx::check_columns(&OWN), ColumnsAnswer { refusal: 0, index: 0 });
    for data in 0..=255 {
        cases.same(data, lending.encode_short(data), ttcrx::encode_short(data));
    }
    for _ in 0..100_000 {
        let (address, e) = (random.number() as u16 >> random.below(4), random.byte() % 3);
        let (sub_address, data) = (random.byte(), random.byte());
        let expected = ttcrx::encode_long(address, e, sub_address, data);
        cases.same((address, e), lending.encode_long(address, e, sub_address, data), expected);
        let number = number(&mut random);
        cases.same(number, lending.decode_short(number), ttcrx::decode_short(number));
        cases.same(number, lending.decode_long(number), ttcrx::decode_long(number));
    }
    cases.at_least(257 + 300_000);
}

/// From states of which some are not well formed, with arguments of which some are refused.
#[test]
fn clocks_and_whole_frames() {
    let cases = Cases::of("clocks and whole frames with the own columns");
    let lending = Lending::of(&Proved);
    let mut random = Random::new(741);
    let mut accepted = [0u32; 2];
    for _ in 0..60_000 {
        let good = states::well_formed(&mut random);
        let any = states::any(&mut random);
        let state = random.pick(&[good, any]);
        let (trigger, data) = (random.byte() % 3, random.byte() % 3);
        let clock = lending.clock(state, trigger, data);
        cases.same((state, trigger, data), clock, ttcrx::clock(state, trigger, data));
        accepted[usize::from(clock.refusal == ACCEPTED)] += 1;
        let frame = traffic::frame(&mut random, state.core.ids.id & 16383);
        let (kind, right) = (frame.kind().number(), frame.number);
        let wrong = number(&mut random);
        let (kind, number) = random.pick(&[(kind, right), (kind, wrong), (2, right)]);
        let expected = ttcrx::receive(state, kind, number);
        cases.same((state, kind, number), lending.receive(state, kind, number), expected);
        let expected = ttcrx::receive_short(state, number);
        cases.same((state, number), lending.receive_short(state, number), expected);
        let expected = ttcrx::receive_long(state, number);
        cases.same((state, number), lending.receive_long(state, number), expected);
    }
    assert!(accepted.iter().all(|&count| count > 10_000), "{accepted:?}");
    cases.at_least(4 * 60_000);
}

#[test]
fn blocks() {
    let cases = Cases::of("blocks with the own columns");
    let lending = Lending::of(&Proved);
    let (mut random, mut traffic) = (Random::new(742), Traffic::new(743));
    for _ in 0..1_000 {
        let start = match random.once_in(8) {
            true => states::any(&mut random),
            false => states::well_formed(&mut random),
        };
        traffic.start(start.core.ids.id & 16383, LIVELY);
        let length = random.below(BLOCK_CLOCKS as u64 + 2) as usize;
        let mut block = traffic.block(length);
        if let (Some(first), true) = (block.first_mut(), random.once_in(8)) {
            *first |= 4;
        }
        let exact = RECORD_NUMBERS * length;
        let room = random.pick(&[exact, exact, exact + 9, exact.saturating_sub(1)]);
        let mut buffers = [vec![7; room], vec![7; room]];
        let mut states = [start; 2];
        let answer = lending.run_block(&mut states[0], &block, &mut buffers[0]);
        let expected = ttcrx::run_block(&mut states[1], &block, &mut buffers[1]);
        cases.same((start, length, room), (answer, states[0]), (expected, states[1]));
        cases.same_buffers((start, length, room), &buffers[0], &buffers[1]);
    }
    cases.at_least(2 * 1_000);
}
