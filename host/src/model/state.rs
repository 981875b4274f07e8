//! "Well formed" of document 01, clause by clause, with what of document 02 add: plain
//! numbers as the model's receiver, and the way back. No clause speaks of registers 2 and 3 or of
//! the error counters: every value is one of them.

use super::frame::bits;
use super::receiver::{ids_in_range, Bits, ChannelB, Event, LastBits, Left};
use super::receiver::{BUNCHES, EVENTS, FRESH_CONFIG, LONGEST, RUN};
use super::stored::Stored;
use super::Receiver;

/// A state as plain numbers, well formed or not.
#[derive(Clone, Copy, Debug, Default, PartialEq, Eq)]
pub struct State {
    pub id: u16,
    pub i2c: u8,
    /// Registers 0 to 3: fine delays, coarse delay, control.
    pub registers: [u8; 4],
    /// Config 2 and Config 3.
    pub config: [u8; 2],
    pub single_errors: u16,
    pub double_errors: u8,
    pub status5: u8,
    pub bunch: u16,
    pub event: u32,
    /// Words that a sequence has left, and its kept event number.
    pub left: u8,
    pub kept: u32,
    /// "the ones still wanted, 0 when waiting".
    pub ones_wanted: u8,
    /// How many bits of an unfinished frame are held, and they as a number.
    pub held: u8,
    pub bits: u64,
}

/// "Config bytes as 7 asks": no difference from the fresh byte in bits 6..0. Gives bit 7.
pub(super) fn config_bit_7(byte: u8, fresh: u8) -> Option<bool> {
    ((byte ^ fresh) & 0x7F == 0).then_some(byte >> 7 == 1)
}

/// "bunch under 4096"
fn bunch(number: u16) -> Option<u16> {
    (number < BUNCHES).then_some(number)
}

/// "event numbers under 2^24": the event counter and the kept number.
fn event(number: u32) -> Option<u32> {
    (number < EVENTS).then_some(number)
}

/// "the sequence has 0, 1 or 2 words left, at 0 with kept number 0"
fn sequence(left: u8, kept: u32) -> Option<Left> {
    let kept = event(kept)?;
    match left {
        0 if kept == 0 => Some(Left::Nothing),
        1 => Some(Left::High(Event::of(kept))),
        2 => Some(Left::LowAndHigh(Event::of(kept))),
        _ => None,
    }
}

/// "status bit 5 is a flag"
fn flag(byte: u8) -> Option<bool> {
    match byte {
        0 => Some(false),
        1 => Some(true),
        _ => None,
    }
}

/// "the receiver is waiting, or holds 1 to 15 bits of a short or 1 to 41 of a long frame, start and
/// format as required, and no bits beyond"
fn frame_bits(count: u8, number: u64) -> Option<Bits> {
    let length = usize::from(count);
    if length >= LONGEST || number >> length != 0 {
        return None;
    }
    let mut held = Bits::NONE;
    held.length = length;
    for (place, bit) in held.received.iter_mut().zip(bits(number, count)) {
        *place = bit;
    }
    let start_right = held.so_far().first() != Some(&true);
    let unfinished = held.kind().is_none_or(|kind| count < kind.length());
    (start_right && unfinished).then_some(held)
}

/// Q-1: "the ones still wanted, 0 when waiting; over 41, or over 0 beside held frame bits, is not
/// well formed". Those of the 41 that are not wanted have been seen, in a row.
fn channel_b(held: Bits, ones_wanted: u8) -> Option<ChannelB> {
    if ones_wanted == 0 {
        return Some(ChannelB::Listening(held));
    }
    let seen = RUN.checked_sub(ones_wanted)?;
    held.so_far().is_empty().then_some(ChannelB::Quiet(LastBits::after(seen)))
}

impl Receiver {
    /// The receiver of a state; none if it is not well formed.
    pub fn from_state(state: &State) -> Option<Receiver> {
        ids_in_range(state.id, state.i2c).ok()?;
        Some(Receiver {
            id: state.id,
            i2c: state.i2c,
            stored: Stored::of(state.registers)?,
            config_bit_7: [
                config_bit_7(state.config[0], FRESH_CONFIG[0])?,
                config_bit_7(state.config[1], FRESH_CONFIG[1])?,
            ],
            single_errors: state.single_errors,
            double_errors: state.double_errors,
            status_bit_5: flag(state.status5)?,
            bunch: bunch(state.bunch)?,
            event: event(state.event)?,
            left: sequence(state.left, state.kept)?,
            channel_b: channel_b(frame_bits(state.held, state.bits)?, state.ones_wanted)?,
        })
    }

    /// The state as plain numbers.
    pub fn state(&self) -> State {
        let (left, kept) = self.sequence();
        let (bits, ones_wanted) = self.bits_and_ones_wanted();
        State {
            id: self.id,
            i2c: self.i2c,
            registers: self.stored.bytes(),
            config: [self.config(0), self.config(1)],
            single_errors: self.single_errors,
            double_errors: self.double_errors,
            status5: self.status_bit_5.into(),
            bunch: self.bunch,
            event: self.event,
            left,
            kept,
            ones_wanted,
            held: bits.length as u8,
            bits: bits.number(),
        }
    }

    /// Config 2 or Config 3: bit 7, and the other bits of the fresh byte.
    pub(super) fn config(&self, place: usize) -> u8 {
        let bit_7 = u8::from(self.config_bit_7[place]) << 7;
        bit_7 | (FRESH_CONFIG[place] & 0x7F)
    }

    /// The bits of an unfinished frame, and the ones that a run of 41 has still to come to.
    fn bits_and_ones_wanted(&self) -> (Bits, u8) {
        match self.channel_b {
            ChannelB::Listening(bits) => (bits, 0),
            ChannelB::Quiet(last) => (Bits::NONE, RUN - last.run()),
        }
    }

    /// The words left, and the kept event number.
    fn sequence(&self) -> (u8, u32) {
        let kept = |event: Event| 4096 * u32::from(event.high) + u32::from(event.low);
        match self.left {
            Left::Nothing => (0, 0),
            Left::High(event) => (1, kept(event)),
            Left::LowAndHigh(event) => (2, kept(event)),
        }
    }
}
