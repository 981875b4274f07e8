//! Random states of ttcrx.h.

pub mod edges;

use super::calls::LAST_DELAY_BYTE;
use super::frame::{wanting, RUN};
use super::random::Random;
use super::traffic;
use crate::model::Columns;
use crate::sys::{Core, Counters, Errors, Held, Ids, Receiver, Sequence, Settings};

/// 0 to limit - 1; often at the first or at the last of them.
fn below(random: &mut Random, limit: u64) -> u64 {
    let near = random.below(limit.min(3));
    match random.below(4) {
        0 => near,
        1 => limit - 1 - near,
        _ => random.below(limit),
    }
}

/// It waits, or wants ones, or mostly holds the bits of a frame that has not arrived whole; often
/// all but the last.
fn held(random: &mut Random, columns: &Columns, id: u16) -> Held {
    match random.below(5) {
        0 => return Held::default(),
        1 => return wanting(1 + below(random, RUN.into()) as u8),
        _ => {}
    }
    let frame = traffic::frame_with(random, columns, id);
    let missing = match random.once_in(2) {
        true => 1,
        false => 1 + random.below(u64::from(frame.length) - 1) as u8,
    };
    frame.front(frame.length - missing).held()
}

fn sequence(random: &mut Random) -> Sequence {
    let event = below(random, 1 << 24) as u32;
    match random.below(3) as u8 {
        0 => Sequence::default(),
        left => Sequence { left, event },
    }
}

/// Fine delays are bytes of a setting.
fn settings(random: &mut Random) -> Settings {
    let mut fine = || below(random, u64::from(LAST_DELAY_BYTE) + 1) as u8;
    let (fine1, fine2) = (fine(), fine());
    Settings {
        fine1,
        fine2,
        coarse: random.byte(),
        control: random.byte(),
        config2: random.byte() & 0x80 | 0x05,
        config3: random.byte() & 0x80 | 0x27,
    }
}

/// A well-formed state. Its unfinished frame may have any fate at this receiver.
pub fn well_formed(random: &mut Random) -> Receiver {
    well_formed_with(random, Columns::own())
}

/// The same, the unfinished frame with these columns.
pub fn well_formed_with(random: &mut Random, columns: &Columns) -> Receiver {
    let id = 1 + below(random, 16383) as u16;
    Receiver {
        core: Core {
            ids: Ids { id, i2c: below(random, 64) as u8 },
            settings: settings(random),
            errors: Errors {
                single_errors: below(random, 1 << 16) as u16,
                double_errors: below(random, 256) as u8,
                status5: random.below(2) as u8,
            },
            counters: Counters {
                bunch: below(random, 4096) as u16,
                event: below(random, 1 << 24) as u32,
            },
            sequence: sequence(random),
        },
        held: held(random, columns, id),
    }
}

/// A well-formed state that holds so many bits, the second of them the format.
pub fn holding(random: &mut Random, count: u8, format: u64) -> Receiver {
    let mut state = well_formed(random);
    let after = random.below(1 << (count - 1)) >> 1;
    let bits = match count {
        1 => 0,
        _ => format << (count - 2) | after,
    };
    state.held = Held { count, bits, ..Held::default() };
    state
}

/// A well-formed state that wants so many ones.
pub fn quiet(random: &mut Random, ones_wanted: u8) -> Receiver {
    let held = wanting(ones_wanted);
    Receiver { held, ..well_formed(random) }
}

/// Any values in all fields, small ones among them.
pub fn garbage(random: &mut Random) -> Receiver {
    let mut byte = || random.any_length() as u8;
    let settings = Settings {
        fine1: byte(),
        fine2: byte(),
        coarse: byte(),
        control: byte(),
        config2: byte(),
        config3: byte(),
    };
    let (i2c, double_errors, status5, left) = (byte(), byte(), byte(), byte());
    let (count, ones_wanted) = (byte(), byte());
    Receiver {
        core: Core {
            ids: Ids { id: random.any_length() as u16, i2c },
            settings,
            errors: Errors { single_errors: random.any_length() as u16, double_errors, status5 },
            counters: Counters {
                bunch: random.any_length() as u16,
                event: random.any_length() as u32,
            },
            sequence: Sequence { left, event: random.any_length() as u32 },
        },
        held: Held { count, ones_wanted, bits: random.any_length() },
    }
}

/// A state that is garbage, or well formed with some of it.
pub fn any(random: &mut Random) -> Receiver {
    any_with(random, Columns::own())
}

/// The same, an unfinished frame of a well-formed state with these columns.
pub fn any_with(random: &mut Random, columns: &Columns) -> Receiver {
    let garbage = garbage(random);
    let good = well_formed_with(random, columns);
    match random.once_in(4) {
        true => garbage,
        false => mixed(random, good, &garbage),
    }
}

/// A byte that belongs to no fine delay setting.
fn no_setting(random: &mut Random) -> u8 {
    LAST_DELAY_BYTE + 1 + random.byte() % 16
}

/// The first state with some parts exchanged for those of the second, and sometimes with fine delays
/// of no setting.
pub fn mixed(random: &mut Random, mut first: Receiver, second: &Receiver) -> Receiver {
    let mut seldom = || random.once_in(6);
    let (core, other) = (&mut first.core, &second.core);
    if seldom() {
        core.ids = other.ids;
    }
    if seldom() {
        core.settings = other.settings;
    }
    if seldom() {
        core.errors = other.errors;
    }
    if seldom() {
        core.counters = other.counters;
    }
    if seldom() {
        core.sequence = other.sequence;
    }
    if seldom() {
        first.held = second.held;
    }
    if random.once_in(12) {
        first.held.ones_wanted = second.held.ones_wanted;
    }
    if random.once_in(16) {
        first.core.settings.fine1 = no_setting(random);
    }
    if random.once_in(16) {
        first.core.settings.fine2 = no_setting(random);
    }
    first
}
