//! Mistakes in Q-11 of document 02, "The encoder's own columns", that one function has.

use super::columns::{exchanged, own};
use crate::sys::*;
use crate::testing::convert::{refused_clock, Answer};
use crate::testing::library::{Library, Model};
use std::cell::Cell;
use std::ops::Range;

/// An answer with index 0.
fn refused(refusal: u8, receiver: Receiver) -> ClockWithIndex {
    ClockWithIndex { answer: refused_clock(refusal, receiver), index: 0 }
}

pub fn length_before_state(
    receiver: Receiver,
    columns: &[u8],
    trigger: u8,
    data: u8,
) -> ClockWithIndex {
    match Model.check_columns(columns).refusal {
        REFUSED_COLUMN_COUNT => refused(REFUSED_COLUMN_COUNT, receiver),
        _ => Model.clock_with_columns(receiver, columns, trigger, data),
    }
}

pub fn column_before_state(
    receiver: Receiver,
    columns: &[u8],
    kind: u8,
    number: u64,
) -> ClockWithIndex {
    match Model.check_columns(columns) {
        ColumnsAnswer { refusal: REFUSED_BAD_COLUMN, index } => {
            ClockWithIndex { index, ..refused(REFUSED_BAD_COLUMN, receiver) }
        }
        _ => Model.receive_with_columns(receiver, columns, kind, number),
    }
}

/// A clock with a bit over 1 is refused by 1 instead of this number.
fn bit_before(refusal: u8, right: ClockWithIndex, trigger: u8, data: u8) -> ClockWithIndex {
    match right.answer.refusal == refusal && (trigger > 1 || data > 1) {
        true => refused(REFUSED_BIT, right.answer.receiver),
        false => right,
    }
}

pub fn bit_before_column(
    receiver: Receiver,
    columns: &[u8],
    trigger: u8,
    data: u8,
) -> ClockWithIndex {
    let right = Model.clock_with_columns(receiver, columns, trigger, data);
    bit_before(REFUSED_BAD_COLUMN, right, trigger, data)
}

pub fn bit_before_length(
    receiver: Receiver,
    columns: &[u8],
    trigger: u8,
    data: u8,
) -> ClockWithIndex {
    let right = Model.clock_with_columns(receiver, columns, trigger, data);
    bit_before(REFUSED_COLUMN_COUNT, right, trigger, data)
}

pub fn kind_before_column(
    receiver: Receiver,
    columns: &[u8],
    kind: u8,
    number: u64,
) -> ClockWithIndex {
    let right = Model.receive_with_columns(receiver, columns, kind, number);
    match right.answer.refusal == REFUSED_BAD_COLUMN && kind > 1 {
        true => refused(REFUSED_FRAME, receiver),
        false => right,
    }
}

pub fn frame_before_column(columns: &[u8], number: u64) -> DecodedWithIndex {
    match number >> 40 {
        1 => Model.decode_long_with_columns(columns, number),
        _ => DecodedWithIndex { answer: Decoded::refused(REFUSED_FRAME), index: 0 },
    }
}

pub fn field_before_column(
    columns: &[u8],
    address: u16,
    e: u8,
    sub_address: u8,
    data: u8,
) -> EncodedWithIndex {
    let plain = Model.encode_long(address, e, sub_address, data);
    match plain.refusal {
        ACCEPTED => Model.encode_long_with_columns(columns, address, e, sub_address, data),
        _ => EncodedWithIndex { answer: plain, index: 0 },
    }
}

/// The own columns for one group, if what was lent has so many numbers.
fn with_own(columns: &[u8], places: Range<usize>) -> Vec<u8> {
    let mut columns = columns.to_vec();
    if columns.len() == COLUMNS {
        columns[places.clone()].copy_from_slice(&own()[places]);
    }
    columns
}

pub fn long_columns_not_checked(columns: &[u8], data: u8) -> EncodedWithIndex {
    let columns = with_own(columns, COLUMNS_SHORT..COLUMNS);
    Model.encode_short_with_columns(&columns, data)
}

pub fn short_columns_not_checked(columns: &[u8], number: u64) -> DecodedWithIndex {
    Model.decode_long_with_columns(&with_own(columns, 0..COLUMNS_SHORT), number)
}

pub fn columns_checked_with_a_frame_only(
    receiver: Receiver,
    columns: &[u8],
    trigger: u8,
    data: u8,
) -> ClockWithIndex {
    let plain = Model.clock(receiver, trigger, data);
    match plain.outputs.verdict {
        VERDICT_NONE => ClockWithIndex { answer: plain, index: 0 },
        _ => Model.clock_with_columns(receiver, columns, trigger, data),
    }
}

pub fn refused_columns_count_a_clock(
    receiver: Receiver,
    columns: &[u8],
    trigger: u8,
    data: u8,
) -> ClockWithIndex {
    let mut answer = Model.clock_with_columns(receiver, columns, trigger, data);
    if matches!(answer.answer.refusal, REFUSED_COLUMN_COUNT | REFUSED_BAD_COLUMN) {
        answer.answer.receiver.core.counters.bunch ^= 1;
    }
    answer
}

pub fn outputs_of_a_refused_clock(
    receiver: Receiver,
    columns: &[u8],
    trigger: u8,
    data: u8,
) -> ClockWithIndex {
    let mut answer = Model.clock_with_columns(receiver, columns, trigger, data);
    if answer.answer.refusal == REFUSED_BAD_COLUMN {
        answer.answer.outputs.trigger = trigger.min(1);
    }
    answer
}

thread_local! {
    /// The columns of the last clock that began a frame, or of any last clock.
    static KEPT: Cell<[u8; COLUMNS]> = const { Cell::new([0; COLUMNS]) };
}

/// The kept columns if they are good, else these.
fn kept(columns: &[u8]) -> Vec<u8> {
    let kept = KEPT.get();
    match Model.check_columns(&kept).refusal {
        ACCEPTED => kept.to_vec(),
        _ => columns.to_vec(),
    }
}

/// From now on these columns are kept, if they are good.
fn keep(columns: &[u8]) {
    if let (Ok(columns), ACCEPTED) = (columns.try_into(), Model.check_columns(columns).refusal) {
        KEPT.set(columns);
    }
}

pub fn first_clock_decides(
    receiver: Receiver,
    columns: &[u8],
    trigger: u8,
    data: u8,
) -> ClockWithIndex {
    if receiver.held.count == 0 {
        keep(columns);
    }
    let right = Model.clock_with_columns(receiver, columns, trigger, data);
    match right.answer.outputs.verdict {
        VERDICT_NONE => right,
        _ => Model.clock_with_columns(receiver, &kept(columns), trigger, data),
    }
}

/// The clock without columns is another, which is given the columns that were lent last.
pub struct Keeping(pub fn(Receiver, &[u8], u8, u8) -> ClockAnswer);

impl Library for Keeping {
    fn clock_with_columns(
        &self,
        receiver: Receiver,
        columns: &[u8],
        trigger: u8,
        data: u8,
    ) -> ClockWithIndex {
        keep(columns);
        Model.clock_with_columns(receiver, columns, trigger, data)
    }

    fn clock(&self, receiver: Receiver, trigger: u8, data: u8) -> ClockAnswer {
        (self.0)(receiver, &kept(&own()), trigger, data)
    }
}

pub fn lent_columns_stay(receiver: Receiver, last: &[u8], trigger: u8, data: u8) -> ClockAnswer {
    Model.clock_with_columns(receiver, last, trigger, data).answer
}

pub fn own_columns_in_blocks(
    receiver: &mut Receiver,
    columns: &[u8],
    block: &[u8],
    buffer: &mut [u32],
) -> BlockWithIndex {
    let columns = exchanged(columns, |columns| columns.copy_from_slice(&own()));
    Model.run_block_with_columns(receiver, &columns, block, buffer)
}

pub fn block_length_before_columns(
    receiver: &mut Receiver,
    columns: &[u8],
    block: &[u8],
    buffer: &mut [u32],
) -> BlockWithIndex {
    let right = Model.run_block_with_columns(receiver, columns, block, buffer);
    let by_columns = matches!(right.answer.refusal, REFUSED_COLUMN_COUNT | REFUSED_BAD_COLUMN);
    match by_columns && block.len() > BLOCK_CLOCKS {
        true => BlockWithIndex { answer: BlockOutcome::refused(REFUSED_BLOCK_LENGTH), index: 0 },
        false => right,
    }
}

pub fn empty_block_takes_any_columns(
    receiver: &mut Receiver,
    columns: &[u8],
    block: &[u8],
    buffer: &mut [u32],
) -> BlockWithIndex {
    let columns = if block.is_empty() { &own() } else { columns };
    Model.run_block_with_columns(receiver, columns, block, buffer)
}

pub fn refused_columns_clear_the_buffer(
    receiver: &mut Receiver,
    columns: &[u8],
    block: &[u8],
    buffer: &mut [u32],
) -> BlockWithIndex {
    let right = Model.run_block_with_columns(receiver, columns, block, buffer);
    if right.answer.refusal == REFUSED_BAD_COLUMN {
        buffer.fill(0);
    }
    right
}

pub fn refused_columns_run_the_block(
    receiver: &mut Receiver,
    columns: &[u8],
    block: &[u8],
    buffer: &mut [u32],
) -> BlockWithIndex {
    let right = Model.run_block_with_columns(receiver, columns, block, buffer);
    if right.answer.refusal == REFUSED_BAD_COLUMN {
        let mut records = vec![0; buffer.len()];
        Model.run_block(receiver, block, &mut records);
    }
    right
}
