//! Mistakes in register accesses.

use crate::sys::*;
use crate::testing::convert::{self, Answer};
use crate::testing::library::{Library, Model};

pub fn register_before_state(receiver: Receiver, number: u8) -> ReadAnswer {
    let fresh = Model.fresh(1, 0).receiver;
    match Model.read(fresh, number).refusal {
        ACCEPTED => Model.read(receiver, number),
        refusal => ReadAnswer::refused(refusal),
    }
}

pub fn bunch_high_byte_is_the_low_one(receiver: Receiver, number: u8) -> ReadAnswer {
    match (Model.read(receiver, number), number) {
        (right, 25) if right.refusal == ACCEPTED => Model.read(receiver, 24),
        (right, _) => right,
    }
}

pub fn write_9_clears_high_byte(receiver: Receiver, number: u8, value: u8) -> WriteAnswer {
    let mut answer = Model.write(receiver, number, value);
    if answer.refusal == ACCEPTED && number == 9 {
        answer.receiver.core.errors.single_errors = receiver.core.errors.single_errors % 256;
    }
    answer
}

pub fn register_19_read_only(receiver: Receiver, number: u8, value: u8) -> WriteAnswer {
    match (Model.write(receiver, number, value), number) {
        (answer, 19) if answer.refusal == REFUSED_REGISTER => {
            convert::refused_write(REFUSED_READ_ONLY, receiver)
        }
        (answer, _) => answer,
    }
}

pub fn config_3_takes_any_byte(receiver: Receiver, number: u8, value: u8) -> WriteAnswer {
    let mut answer = Model.write(receiver, number, value);
    if answer.refusal == REFUSED_CONFIG && number == 21 {
        answer.refusal = ACCEPTED;
        answer.receiver.core.settings.config3 = value;
    }
    answer
}

pub fn event_write_ends_sequence(receiver: Receiver, number: u8, value: u8) -> WriteAnswer {
    let mut answer = Model.write(receiver, number, value);
    if answer.refusal == ACCEPTED && matches!(number, 26..=28) {
        answer.receiver.core.sequence = Sequence::default();
    }
    answer
}

pub fn refused_write_stores(receiver: Receiver, number: u8, value: u8) -> WriteAnswer {
    let mut answer = Model.write(receiver, number, value);
    if answer.refusal == REFUSED_CONFIG {
        answer.receiver.core.settings.control = value;
    }
    answer
}
