//! Mistakes in frames and fine delays.

use crate::model::{self, Decoded, Kind, Verdict};
use crate::sys::{self, *};
use crate::testing::convert::Answer;
use crate::testing::frame::Frame;
use crate::testing::library::{Library, Model};

/// A finished frame is taken for another, by the decoders and by the clock.
pub struct Taken(pub fn(Frame) -> Frame);

impl Taken {
    fn decode(&self, kind: Kind, number: u64) -> u64 {
        match model::decode(kind, number) {
            Ok(_) => (self.0)(Frame::of(kind, number)).number,
            Err(_) => number,
        }
    }
}

impl Library for Taken {
    fn decode_short(&self, number: u64) -> sys::Decoded {
        Model.decode_short(self.decode(Kind::Short, number))
    }

    fn decode_long(&self, number: u64) -> sys::Decoded {
        Model.decode_long(self.decode(Kind::Long, number))
    }

    fn clock(&self, receiver: Receiver, trigger: u8, data: u8) -> ClockAnswer {
        let right = Model.clock(receiver, trigger, data);
        if right.outputs.verdict == VERDICT_NONE {
            return right;
        }
        let taken = (self.0)(finished(&receiver, data));
        let held = taken.front(taken.length - 1).held();
        let last = (taken.number & 1) as u8;
        Model.clock(Receiver { held, ..receiver }, trigger, last)
    }
}

/// The frame that a clock with this data bit finishes.
pub fn finished(receiver: &Receiver, data: u8) -> Frame {
    let Held { count, bits, .. } = receiver.held;
    Frame { number: bits << 1 | u64::from(data), length: count + 1 }
}

/// What the frame says with a stop bit of 1.
fn stopped(frame: Frame) -> (Frame, Decoded) {
    let number = frame.number | 1;
    let said = model::decode(frame.kind(), number).expect("start and format are right");
    (Frame { number, ..frame }, said)
}

pub fn stop_bit_tested_last(frame: Frame) -> Frame {
    match stopped(frame) {
        (stopped, said) if said.flipped.is_some() => stopped,
        _ => frame,
    }
}

pub fn stop_bit_protected(frame: Frame) -> Frame {
    let (stopped, said) = stopped(frame);
    let clean = said.verdict == Verdict::None && said.flipped.is_none();
    match clean && stopped != frame {
        true => stopped.flipped(2),
        false => frame,
    }
}

pub fn every_odd_syndrome_is_one_flip(frame: Frame) -> Frame {
    let (stopped, said) = stopped(frame);
    match stopped == frame && said.verdict == Verdict::OddSyndrome {
        true => Frame::encoded(frame.kind(), frame.data()).flipped(2),
        false => frame,
    }
}

/// Both encoders send another frame.
pub struct Sent(pub fn(Frame) -> Frame);

impl Sent {
    fn encoded(&self, kind: Kind, right: Encoded) -> Encoded {
        match right.refusal {
            ACCEPTED => Encoded { number: (self.0)(Frame::of(kind, right.number)).number, ..right },
            _ => right,
        }
    }
}

impl Library for Sent {
    fn encode_short(&self, data: u8) -> Encoded {
        self.encoded(Kind::Short, Model.encode_short(data))
    }

    fn encode_long(&self, address: u16, e: u8, sub_address: u8, data: u8) -> Encoded {
        let right = Model.encode_long(address, e, sub_address, data);
        self.encoded(Kind::Long, right)
    }
}

pub fn check_bits_reversed(frame: Frame) -> Frame {
    let width = frame.kind().check_bits();
    let check = frame.number >> 1 & ((1 << width) - 1);
    let reversed = check.reverse_bits() >> (64 - width);
    frame.flipped((check ^ reversed) << 1)
}

pub fn version_one_too_low() -> u32 {
    VERSION - 1
}

pub fn delay_difference_cut_off(setting: u8) -> Byte {
    let k = i32::from(setting);
    let m = ((k / 15 - k % 15).max(0) + 14) % 16;
    match Model.delay_byte(setting) {
        Byte { refusal: 0, .. } => Byte { refusal: 0, byte: (16 * (k % 15) + m) as u8 },
        refused => refused,
    }
}

pub fn delay_byte_240_accepted(byte: u8) -> Setting {
    match byte {
        240 => Setting::refused(ACCEPTED),
        _ => Model.delay_setting(byte),
    }
}
