//! Q-4 of document 02, "No delay byte without a setting": writes to registers 0 and 1, and 17 beside
//! the other refusals.

use ttcrx_host::sys::{Receiver, ACCEPTED, REFUSED_CONFIG, REFUSED_NO_SETTING};
use ttcrx_host::sys::{REFUSED_READ_ONLY, REFUSED_REGISTER, REFUSED_STATE};
use ttcrx_host::testing::compare::Both;
use ttcrx_host::testing::convert::refused_write;
use ttcrx_host::testing::library::{Library, Model};
use ttcrx_host::testing::random::Random;
use ttcrx_host::testing::states;

/// The bytes of registers 0 to 3.
fn stored(both: &Both, state: Receiver) -> [u8; 4] {
    [0, 1, 2, 3].map(|number| both.read(state, number).byte)
}

/// A byte is stored in the register or refused, and the other registers stay. What registers 0 and 1
/// then hold has a setting.
fn write(both: &Both, state: Receiver, number: u8, value: u8) {
    let refused = number < 2 && value >= 240;
    let refusal = if refused { REFUSED_NO_SETTING } else { ACCEPTED };
    let mut expected = stored(both, state);
    if !refused {
        expected[usize::from(number)] = value;
    }
    let answer = both.write(state, number, value);
    let input = (state, number, value);
    both.same(input, answer.refusal, refusal);
    let after = stored(both, answer.receiver);
    both.same(input, after, expected);
    let settings = [after[0], after[1]].map(|byte| both.delay_setting(byte).refusal);
    both.same(input, settings, [ACCEPTED; 2]);
}

#[test]
fn every_byte() {
    let both = Both::of("every byte to registers 0 to 3");
    let mut random = Random::new(76);
    for number in [0, 1, 2, 3].repeat(10) {
        let state = states::well_formed(&mut random);
        for value in 0..=255 {
            write(&both, state, number, value);
        }
    }
    both.at_least(10 * 4 * 256 * (2 * 4 + 1 + 1 + 1 + 2 + 1));
}

/// A refused write leaves the state as it came, however often it is made.
#[test]
fn refused_again_and_again() {
    let both = Both::of("writes of F3 to register 0, one after the other");
    let start = Model.fresh(5, 5).receiver;
    let mut state = start;
    for _ in 0..20 {
        let answer = both.write(state, 0, 0xF3);
        both.same(state, answer, refused_write(REFUSED_NO_SETTING, start));
        state = answer.receiver;
    }
    both.at_least(2 * 20);
}

/// Register, byte, and the refusal at a well-formed state.
const WRITES: [(u8, u8, u8); 22] = [
    (0, 239, ACCEPTED),
    (1, 239, ACCEPTED),
    (2, 240, ACCEPTED),
    (3, 255, ACCEPTED),
    (8, 250, ACCEPTED),
    (11, 255, ACCEPTED),
    (0, 240, REFUSED_NO_SETTING),
    (0, 250, REFUSED_NO_SETTING),
    (0, 255, REFUSED_NO_SETTING),
    (1, 240, REFUSED_NO_SETTING),
    (1, 250, REFUSED_NO_SETTING),
    (1, 255, REFUSED_NO_SETTING),
    // 5 and 6 whatever the byte; 7 for bytes of no setting and for others.
    (4, 250, REFUSED_REGISTER),
    (19, 240, REFUSED_REGISTER),
    (255, 255, REFUSED_REGISTER),
    (16, 240, REFUSED_READ_ONLY),
    (17, 250, REFUSED_READ_ONLY),
    (18, 255, REFUSED_READ_ONLY),
    (22, 0xE0, REFUSED_READ_ONLY),
    (20, 250, REFUSED_CONFIG),
    (21, 240, REFUSED_CONFIG),
    (21, 0x28, REFUSED_CONFIG),
];

/// Ill-formed states: by another number, and by this byte in either register and in both.
fn ill_formed(good: Receiver, byte: u8) -> [Receiver; 4] {
    let [mut i2c, mut first, mut second, mut both] = [good; 4];
    i2c.core.ids.i2c = 64;
    first.core.settings.fine1 = byte;
    second.core.settings.fine2 = byte;
    both.core.settings.fine1 = byte;
    both.core.settings.fine2 = byte;
    [i2c, first, second, both]
}

/// 2 comes before 5, 6, 7 and 17, with every byte of no setting in the state.
#[test]
fn refusals_in_order() {
    let both = Both::of("writes with 2, 5, 6, 7 and 17 in every combination");
    let mut random = Random::new(77);
    for byte in 240..=255 {
        let good = states::well_formed(&mut random);
        for (number, value, refusal) in WRITES {
            let alone = both.write(good, number, value);
            both.same((good, number, value), alone.refusal, refusal);
            for state in ill_formed(good, byte) {
                let answer = both.write(state, number, value);
                let expected = refused_write(REFUSED_STATE, state);
                both.same((state, number, value), answer, expected);
            }
        }
    }
    both.at_least(16 * 22 * 5 * 2);
}
