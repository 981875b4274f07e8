//! Calls of a receiver's clock, reads and writes, and random lists of them.

use super::convert;
use super::frame::Frame;
use super::library::Library;
use super::random::Random;
use crate::model::{self, Columns, Refusal};
use crate::sys::{Outputs, Receiver};

/// A call with its arguments, all but the state.
#[derive(Clone, Copy, Debug, PartialEq, Eq)]
pub enum Call {
    Clock { trigger: u8, data: u8 },
    Read { number: u8 },
    Write { number: u8, value: u8 },
}

/// "Registers": the numbers of the map, and the fresh bytes of registers 20 and 21.
pub const MAP: [u8; 19] = [0, 1, 2, 3, 8, 9, 10, 11, 16, 17, 18, 20, 21, 22, 24, 25, 26, 27, 28];
pub const CONFIG_2: u8 = 0x85;
pub const CONFIG_3: u8 = 0xA7;

/// "Bytes 240..255 belong to no setting": this is the last byte that does.
pub const LAST_DELAY_BYTE: u8 = 239;

impl Call {
    /// "Numbers of refusal", and 17 of Q-4 of document 02: a call with a well-formed state is refused
    /// by its arguments alone.
    pub fn refusal(self) -> u8 {
        let beyond = |number| !MAP.contains(&number);
        match self {
            Call::Clock { trigger, data } if trigger > 1 || data > 1 => 1,
            Call::Read { number } | Call::Write { number, .. } if beyond(number) => 5,
            Call::Write { number, .. } if [16, 17, 18, 22].contains(&number) => 6,
            Call::Write { number: 0 | 1, value } if value > LAST_DELAY_BYTE => 17,
            Call::Write { number: 20, value } if value % 128 != CONFIG_2 % 128 => 7,
            Call::Write { number: 21, value } if value % 128 != CONFIG_3 % 128 => 7,
            _ => 0,
        }
    }

    /// "A clock is a clock call that isn't refused."
    pub fn is_clock(self) -> bool {
        matches!(self, Call::Clock { .. }) && self.refusal() == 0
    }
}

/// What a call answers beside the state; 0 where it has no such field.
#[derive(Clone, Copy, Debug, Default, PartialEq, Eq)]
pub struct Shown {
    pub refusal: u8,
    pub byte: u8,
    pub outputs: Outputs,
}

/// Makes a call. The state becomes the one that the call returns, or that a read leaves.
pub fn call(library: &dyn Library, state: &mut Receiver, call: Call) -> Shown {
    let mut shown = Shown::default();
    match call {
        Call::Clock { trigger, data } => {
            let answer = library.clock(*state, trigger, data);
            *state = answer.receiver;
            shown.refusal = answer.refusal;
            shown.outputs = answer.outputs;
        }
        Call::Read { number } => {
            let answer = library.read(*state, number);
            shown.refusal = answer.refusal;
            shown.byte = answer.byte;
        }
        Call::Write { number, value } => {
            let answer = library.write(*state, number, value);
            *state = answer.receiver;
            shown.refusal = answer.refusal;
        }
    }
    shown
}

/// What the model's receiver answers to a call, beside its state, if clocks are lent these columns.
pub fn expected(receiver: &mut model::Receiver, columns: &Columns, call: Call) -> Shown {
    let mut shown = Shown::default();
    let done = match call {
        Call::Clock { trigger, data } if call.is_clock() => {
            let outputs = receiver.clock_with(columns, trigger == 1, data == 1);
            shown.outputs = convert::outputs(outputs);
            Ok(())
        }
        Call::Clock { .. } => Err(Refusal::Bit),
        Call::Read { number } => receiver.read(number).map(|byte| shown.byte = byte),
        Call::Write { number, value } => receiver.write(number, value),
    };
    shown.refusal = done.map_or_else(|refusal| refusal as u8, |()| 0);
    shown
}

/// The same calls in the same order; the clocks carry the bits of the frame, of which there are as
/// many.
pub fn carrying(calls: &[Call], frame: Frame) -> Vec<Call> {
    let mut calls = calls.to_vec();
    let mut bits = frame.bits();
    for call in calls.iter_mut().filter(|call| call.is_clock()) {
        if let Call::Clock { data, .. } = call {
            *data = bits.next().expect("a bit for each clock");
        }
    }
    assert_eq!(bits.next(), None, "bits without a clock");
    calls
}

/// A clock call with a bit over 1; the other may be right.
pub fn refused_clock(random: &mut Random) -> Call {
    let over = 2 + random.byte() % 254;
    let bit = random.byte() >> 7;
    let (trigger, data) = random.pick(&[(over, bit), (bit, over), (over, over)]);
    Call::Clock { trigger, data }
}

/// A byte for a fine delay register: mostly one that belongs to no setting, or the last that does.
pub fn fine_delay(random: &mut Random) -> u8 {
    let any = random.byte();
    let over = LAST_DELAY_BYTE + 1 + any % 16;
    random.pick(&[any, LAST_DELAY_BYTE, LAST_DELAY_BYTE + 1, u8::MAX, over, over])
}

/// A byte to write; to a Config register mostly one that differs from the fresh one in at most a
/// single bit.
fn value(random: &mut Random, number: u8) -> u8 {
    let fresh = match number {
        0 | 1 => return fine_delay(random),
        20 => CONFIG_2,
        21 => CONFIG_3,
        _ => return random.byte(),
    };
    let one_bit = fresh ^ 1 << random.below(8);
    let any = random.byte();
    random.pick(&[fresh, fresh ^ 0x80, one_bit, any])
}

/// A read or a write, mostly of a register of the map.
pub fn access(random: &mut Random) -> Call {
    let number = match random.once_in(4) {
        true => random.byte(),
        false => random.pick(&MAP),
    };
    match random.once_in(2) {
        true => Call::Read { number },
        false => Call::Write { number, value: value(random, number) },
    }
}

/// A call that is no clock.
pub fn no_clock(random: &mut Random) -> Call {
    match random.once_in(5) {
        true => refused_clock(random),
        false => access(random),
    }
}

/// The chances in 8 of a trigger on a clock, and of one more call that is no clock beside it.
#[derive(Clone, Copy, Debug)]
pub struct Mix {
    triggers: u64,
    others: u64,
}

impl Mix {
    pub fn any(random: &mut Random) -> Mix {
        Mix { triggers: random.pick(&[0, 1, 4, 8]), others: random.pick(&[0, 0, 1, 3, 6]) }
    }

    /// A clock, after calls that are none.
    pub fn clock(self, random: &mut Random, data: u8, calls: &mut Vec<Call>) {
        self.others(random, calls);
        let trigger = (random.below(8) < self.triggers).into();
        calls.push(Call::Clock { trigger, data });
    }

    pub fn others(self, random: &mut Random, calls: &mut Vec<Call>) {
        while random.below(8) < self.others {
            calls.push(no_clock(random));
        }
    }
}
