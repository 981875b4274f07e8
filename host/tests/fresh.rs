//! Compares fresh and well_formed with the model.

use ttcrx_host::sys::{FreshAnswer, Ids, REFUSED_I2C_ID, REFUSED_ID};
use ttcrx_host::testing::compare::Both;
use ttcrx_host::testing::convert::{self, Answer};
use ttcrx_host::testing::library::Library;
use ttcrx_host::testing::random::Random;
use ttcrx_host::testing::states::{self, edges};

#[test]
fn every_id_with_every_i2c_id() {
    let both = Both::of("fresh states of every ID and I2C ID");
    let mut refusals = [0u64; 5];
    for id in 0..=65535 {
        for i2c in 0..=255 {
            refusals[usize::from(both.fresh(id, i2c).refusal)] += 1;
        }
    }
    let ids = 16383;
    let expected = [ids * 64, 0, 0, (65536 - ids) * 256, ids * 192];
    assert_eq!(refusals, expected);
    both.at_least(65536 * 256);
}

/// 3 comes before 4, and the state of a refused call is 0 throughout: it is not well formed.
#[test]
fn refused_ids() {
    let both = Both::of("refused IDs");
    let refused = [
        (0, 0, REFUSED_ID),
        (0, 64, REFUSED_ID),
        (16384, 63, REFUSED_ID),
        (65535, 255, REFUSED_ID),
        (1, 64, REFUSED_I2C_ID),
        (16383, 64, REFUSED_I2C_ID),
        (16383, 255, REFUSED_I2C_ID),
    ];
    for (id, i2c, refusal) in refused {
        let answer = both.fresh(id, i2c);
        both.same((id, i2c), answer, FreshAnswer::refused(refusal));
        both.same((id, i2c), both.well_formed(answer.receiver), 0);
    }
    both.at_least(7 * 4);
}

#[test]
fn ids_at_their_edges() {
    let both = Both::of("IDs at their edges");
    for (id, i2c) in [(1, 0), (1, 63), (16383, 0), (16383, 63)] {
        let FreshAnswer { refusal, receiver } = both.fresh(id, i2c);
        both.same((id, i2c), refusal, 0);
        both.same((id, i2c), receiver.core.ids, Ids { id, i2c });
        both.same((id, i2c), both.well_formed(receiver), 1);
    }
    both.at_least(4 * 5);
}

/// Random well-formed states; and the model's receiver of each has that state.
#[test]
fn well_formed_states() {
    let both = Both::of("well-formed states");
    let mut random = Random::new(31);
    for _ in 0..1_000_000 {
        let state = states::well_formed(&mut random);
        both.same(state, both.well_formed(state), 1);
        let receiver = convert::receiver(&state).expect("well formed");
        both.same(state, convert::state(&receiver), state);
    }
    both.at_least(3_000_000);
}

#[test]
fn edges_of_well_formed() {
    let both = Both::of("states at the edges of well formed");
    let mut random = Random::new(32);
    for _ in 0..10 {
        for edge in edges::all(&mut random) {
            let answer = both.well_formed(edge.state);
            both.same(edge, answer, edge.good.into());
        }
    }
    both.at_least(10 * 2 * edges::STATES);
}
