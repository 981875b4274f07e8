//! Frames as bits to be sent, the one way to send them, and the one to decode them.

use super::library::Library;
use crate::model::{self, block, Columns, Fields, Kind};
use crate::sys::{ClockAnswer, Decoded, Held, Receiver};
use std::ops::RangeInclusive;

/// Q-1 of document 02: so many ones in a row, after which any receiver waits.
pub const RUN: u8 = 41;

/// What a receiver keeps of channel B that wants so many ones; it waits if it wants none.
pub fn wanting(ones_wanted: u8) -> Held {
    Held { ones_wanted, ..Held::default() }
}

/// The bits of a frame, of a part of it, or of a run of ones, as a number of that many bits.
#[derive(Clone, Copy, Debug, PartialEq, Eq)]
pub struct Frame {
    pub number: u64,
    pub length: u8,
}

impl Frame {
    /// A frame of this kind, right or not.
    pub const fn of(kind: Kind, number: u64) -> Frame {
        Frame { number, length: kind.length() }
    }

    /// The broadcast of a byte.
    pub fn short(data: u8) -> Frame {
        Frame::encoded(Kind::Short, data.into())
    }

    /// The long frame of these fields, which are in range.
    pub fn long(fields: Fields) -> Frame {
        Frame::long_with(Columns::own(), fields)
    }

    /// The same with these columns.
    pub fn long_with(columns: &Columns, fields: Fields) -> Frame {
        let number = model::encode_long_with(columns, fields).expect("in range");
        Frame::of(Kind::Long, number)
    }

    /// The long frame of any 32 word bits, the fixed bit as it is in them.
    pub fn word(word: u32) -> Frame {
        Frame::encoded(Kind::Long, word)
    }

    /// The frame of this kind with these data or word bits.
    pub fn encoded(kind: Kind, data: u32) -> Frame {
        Frame::encoded_with(Columns::own(), kind, data)
    }

    /// The same with these columns.
    pub fn encoded_with(columns: &Columns, kind: Kind, data: u32) -> Frame {
        let number = match kind {
            Kind::Short => model::encode_short_with(columns, data as u8),
            Kind::Long => model::encode_word_with(columns, data),
        };
        Frame::of(kind, number)
    }

    /// The data or word bits of a whole frame as they are in it.
    pub fn data(self) -> u32 {
        let kind = self.kind();
        let after_check = self.number >> kind.check_bits() >> 1;
        (after_check & ((1 << kind.data_bits()) - 1)) as u32
    }

    /// So many ones, which are idle; no frame.
    pub const fn ones(count: u8) -> Frame {
        Frame { number: (1u64 << count) - 1, length: count }
    }

    /// Whether the stop bit of a whole frame is 0.
    pub fn stops_badly(self) -> bool {
        self.number & 1 == 0
    }

    /// The kind of a whole frame, by its length.
    #[inline]
    pub fn kind(self) -> Kind {
        match self.length == Kind::Short.length() {
            true => Kind::Short,
            false => Kind::Long,
        }
    }

    /// With these bits flipped.
    pub fn flipped(self, bits: u64) -> Frame {
        Frame { number: self.number ^ bits, ..self }
    }

    /// Q-8 of document 02: the places of the protected bits of a whole frame. They count "the
    /// frame's bits after the format bit, in the order sent".
    pub fn places(self) -> RangeInclusive<u8> {
        1..=self.kind().protected_bits()
    }

    /// The protected bit at this place, to be flipped.
    pub fn at(self, place: u8) -> u64 {
        1 << (self.length - 2 - place)
    }

    /// The place of the first bit of these in the order sent, which is a protected one.
    pub fn place_of(self, bits: u64) -> u8 {
        let sent = Frame { number: bits, ..self };
        let after_format = sent.bits().skip(2);
        1 + after_format.take_while(|&bit| bit == 0).count() as u8
    }

    /// The first bits, so many.
    pub fn front(self, count: u8) -> Frame {
        Frame { number: self.number >> (self.length - count), length: count }
    }

    /// The last bits, so many.
    pub fn back(self, count: u8) -> Frame {
        Frame { number: self.number & ((1 << count) - 1), length: count }
    }

    /// The bits as a receiver holds them, which has received them and none more.
    pub fn held(self) -> Held {
        Held { count: self.length, bits: self.number, ..Held::default() }
    }

    /// The bits in the order sent.
    #[inline]
    pub fn bits(self) -> impl Iterator<Item = u8> {
        model::bits(self.number, self.length).map(u8::from)
    }

    /// The bits as a block of Q-3, without triggers but for this bit on the last clock.
    pub fn block(self, last_trigger: u8) -> Vec<u8> {
        let mut block: Vec<u8> = self.bits().map(|bit| block::byte(0, bit)).collect();
        if let Some(last) = block.last_mut() {
            *last |= block::byte(last_trigger, 0);
        }
        block
    }
}

/// What a library says of a whole frame without a receiver.
#[track_caller]
pub fn decode(library: &dyn Library, frame: Frame) -> Decoded {
    match frame.kind() {
        Kind::Short => library.decode_short(frame.number),
        Kind::Long => library.decode_long(frame.number),
    }
}

/// Clocks with these bits and without triggers, from this state. Gives the answer of the last; of
/// no clock, an answer with the state alone.
pub fn send(library: &dyn Library, state: Receiver, frame: Frame) -> ClockAnswer {
    let before = ClockAnswer { receiver: state, ..ClockAnswer::default() };
    frame.bits().fold(before, |last, bit| library.clock(last.receiver, 0, bit))
}
