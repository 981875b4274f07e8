//! Empty blocks and empty buffers, as slices and as null pointers.

use ttcrx_host::sys::*;
use ttcrx_host::testing::compare::Cases;
use ttcrx_host::testing::convert::Answer;
use ttcrx_host::testing::random::Random;
use ttcrx_host::testing::{null, states};
use ttcrx_host::ttcrx::{run_block, well_formed};

/// How a call is refused at a well-formed state, and the call. A buffer is at hand.
type Call = (u8, fn(&mut Receiver, &mut [u32]) -> BlockOutcome);

/// No clock is done; or there is no room for any: 16, after 15 and before 1.
const CALLS: [Call; 8] = [
    (ACCEPTED, |lent, _| run_block(lent, &[], &mut [])),
    (ACCEPTED, |lent, buffer| run_block(lent, &[], buffer)),
    (ACCEPTED, null::run_no_block),
    (ACCEPTED, |lent, _| null::run_block_to_null(lent, &[])),
    (ACCEPTED, |lent, _| null::run_no_block_to_null(lent)),
    (REFUSED_RECORD_BUFFER, |lent, _| null::run_block_to_null(lent, &[3])),
    (REFUSED_RECORD_BUFFER, |lent, _| null::run_block_to_null(lent, &[255, 3])),
    (REFUSED_BLOCK_LENGTH, |lent, _| null::run_block_to_null(lent, &[1; BLOCK_CLOCKS + 1])),
];

/// Every call leaves the state and the buffer. Refusal 2 comes first.
fn calls(cases: &Cases, state: Receiver, good: bool) {
    let mut buffer = [0xA5A5_A5A5; 7];
    for (refusal, call) in CALLS {
        let refusal = if good { refusal } else { REFUSED_STATE };
        let mut after = state;
        let answer = call(&mut after, &mut buffer);
        cases.same(state, answer, BlockOutcome::refused(refusal));
        cases.same(state, after, state);
    }
    cases.same(state, buffer, [0xA5A5_A5A5; 7]);
}

#[test]
fn slices_and_null() {
    let cases = Cases::of("empty blocks and empty buffers");
    let mut random = Random::new(450);
    let mut seen = [0u32; 2];
    for _ in 0..20_000 {
        let garbage = states::garbage(&mut random);
        let good = states::well_formed(&mut random);
        for state in [good, states::mixed(&mut random, good, &garbage), garbage] {
            let good = well_formed(state) == 1;
            seen[usize::from(good)] += 1;
            calls(&cases, state, good);
        }
    }
    assert!(seen.iter().all(|&count| count > 10_000), "{seen:?}");
    cases.at_least(20_000 * 3 * 17);
}
