//! The table "Registers" of document 01, row by row over the structs of ttcrx.h.

use ttcrx_host::sys::{Core, Counters, Errors, Held, Ids, Sequence, Settings};
use ttcrx_host::sys::{ReadAnswer, Receiver, WriteAnswer};
use ttcrx_host::sys::{REFUSED_CONFIG, REFUSED_NO_SETTING};
use ttcrx_host::sys::{REFUSED_READ_ONLY, REFUSED_REGISTER, REFUSED_STATE};
use ttcrx_host::testing::compare::Both;
use ttcrx_host::testing::convert::{refused_clock, refused_write, Answer};
use ttcrx_host::testing::frame::wanting;
use ttcrx_host::testing::library::{Library, Model};
use ttcrx_host::testing::random::Random;
use ttcrx_host::testing::states;

/// A state in the middle of a frame and of a sequence, in which no two registers hold the same byte.
const STATE: Receiver = Receiver {
    core: Core {
        ids: Ids { id: 0x2A1B, i2c: 0x3C },
        settings: Settings {
            fine1: 0x4D,
            fine2: 0xE5,
            coarse: 0x6E,
            control: 0x7F,
            config2: 0x05,
            config3: 0xA7,
        },
        errors: Errors { single_errors: 0x9081, double_errors: 0xA2, status5: 1 },
        counters: Counters { bunch: 0x0DC4, event: 0xE8_D7F6 },
        sequence: Sequence { left: 2, event: 0x12_3456 },
    },
    held: Held { count: 20, ones_wanted: 0, bits: 0x4_5678 },
};

/// The registers, the bytes of this state, and those of the fresh one of its IDs. Low byte first.
/// The ID has 14 bits and the bunch counter 12: their high bytes have 6 and 4.
const HOLDS: [(u8, u8, u8); 19] = [
    (0, 0x4D, 0x00),
    (1, 0xE5, 0x00),
    (2, 0x6E, 0x00),
    (3, 0x7F, 0x93),
    (8, 0x81, 0x00),
    (9, 0x90, 0x00),
    (10, 0xA2, 0x00),
    (11, 0x00, 0x00),
    (16, 0x1B, 0x1B),
    (17, 0x2A, 0x2A),
    (18, 0x3C, 0x3C),
    (20, 0x05, 0x85),
    (21, 0xA7, 0xA7),
    (22, 0xE0, 0xE0),
    (24, 0xC4, 0x00),
    (25, 0x0D, 0x00),
    (26, 0xF6, 0x00),
    (27, 0xD7, 0x00),
    (28, 0xE8, 0x00),
];

fn read_is(byte: u8) -> ReadAnswer {
    ReadAnswer { refusal: 0, byte }
}

#[test]
fn reads() {
    let both = Both::of("bytes of the table");
    let fresh = Model.fresh(0x2A1B, 0x3C).receiver;
    for number in 0..=255 {
        let row = HOLDS.iter().find(|row| row.0 == number);
        let expected = match row {
            Some((_, held, at_fresh)) => [*held, *at_fresh].map(read_is),
            None => [ReadAnswer::refused(REFUSED_REGISTER); 2],
        };
        let answers = [STATE, fresh].map(|state| both.read(state, number));
        both.same(number, answers[0], expected[0]);
        both.same(number, answers[1], expected[1]);
    }
    let mut slipped = STATE;
    slipped.core.errors.status5 = 0;
    both.same("status", both.read(slipped, 22), read_is(0xC0));
    both.at_least(2 * 513);
}

/// Numbers of registers, and what a write makes of the state: of any value, but in the first two
/// rows only of one under 240.
type Row = (&'static [u8], fn(&mut Core, u8));

const ACCEPTED: [Row; 9] = [
    (&[0], |core, value| core.settings.fine1 = value),
    (&[1], |core, value| core.settings.fine2 = value),
    (&[2], |core, value| core.settings.coarse = value),
    (&[3], |core, value| core.settings.control = value),
    (&[8, 9], |core, _| core.errors.single_errors = 0),
    (&[10], |core, _| core.errors.double_errors = 0),
    (&[11], |_, _| {}),
    (&[24, 25], |core, _| core.counters.bunch = 0),
    (&[26, 27, 28], |core, _| core.counters.event = 0),
];

/// What the table says of a write: the refusal, and the state.
fn written(state: Receiver, number: u8, value: u8) -> WriteAnswer {
    let mut receiver = state;
    let settings = &mut receiver.core.settings;
    let mut refusal = 0;
    match (number, value) {
        (20, 0x85 | 0x05) => settings.config2 = value,
        (21, 0xA7 | 0x27) => settings.config3 = value,
        (20 | 21, _) => refusal = REFUSED_CONFIG,
        (0 | 1, 240..) => refusal = REFUSED_NO_SETTING,
        (16 | 17 | 18 | 22, _) => refusal = REFUSED_READ_ONLY,
        _ => match ACCEPTED.iter().find(|row| row.0.contains(&number)) {
            Some((_, change)) => change(&mut receiver.core, value),
            None => refusal = REFUSED_REGISTER,
        },
    }
    WriteAnswer { refusal, receiver }
}

#[test]
fn writes() {
    let both = Both::of("writes of the table");
    let mut random = Random::new(75);
    let random_states = (0..20).map(|_| states::well_formed(&mut random));
    let quiet = Receiver { held: wanting(17), ..STATE };
    for state in [STATE, quiet].into_iter().chain(random_states) {
        for number in 0..=255 {
            for value in 0..=255 {
                let answer = both.write(state, number, value);
                let expected = written(state, number, value);
                both.same((state, number, value), answer, expected);
            }
        }
    }
    both.at_least(2 * 22 * 65_536);
}

/// A stored byte is read back, but none over 239 in a fine delay register; a cleared counter is 0 in
/// each of its bytes; the rest stays.
fn reads_after_a_write(both: &Both, counter: &[u8], number: u8, value: u8) {
    let after = both.write(STATE, number, value).receiver;
    for (other, held, _) in HOLDS {
        let expected = match other {
            0 | 1 if other == number && value > 239 => held,
            0..=3 if other == number => value,
            _ if counter.contains(&other) => 0,
            _ => held,
        };
        let answer = both.read(after, other);
        both.same((number, value, other), answer, read_is(expected));
    }
}

#[test]
fn reads_after_writes() {
    let both = Both::of("reads after writes of the table");
    for (numbers, _) in ACCEPTED {
        for &number in numbers {
            for value in 0..=255 {
                reads_after_a_write(&both, numbers, number, value);
            }
        }
    }
    both.at_least(2 * 13 * 256 * 19);
}

/// "First, in clock, read, write": 2 comes before 1, 5, 6, 7 and 17, and before success.
#[test]
fn ill_formed() {
    let both = Both::of("calls with an ill-formed state");
    let mut state = STATE;
    state.core.counters.bunch = 4096;
    let refused = ReadAnswer::refused(REFUSED_STATE);
    for number in 0..=255 {
        both.same(number, both.read(state, number), refused);
        for value in 0..=255 {
            let answer = both.write(state, number, value);
            both.same((number, value), answer, refused_write(REFUSED_STATE, state));
        }
    }
    for (trigger, data) in [(0, 0), (1, 1), (2, 0), (0, 2), (255, 255)] {
        let answer = both.clock(state, trigger, data);
        both.same((trigger, data), answer, refused_clock(REFUSED_STATE, state));
    }
    both.at_least(2 * (256 * 257 + 5));
}
