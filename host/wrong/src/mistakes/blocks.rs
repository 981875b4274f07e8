//! Mistakes in blocks of clocks and their records.

use crate::sys::*;
use crate::testing::convert::Answer;
use crate::testing::library::{Library, Model};

pub fn room_before_block_length(
    receiver: &mut Receiver,
    block: &[u8],
    buffer: &mut [u32],
) -> BlockOutcome {
    let few = buffer.len() < RECORD_NUMBERS * block.len();
    let right = Model.run_block(receiver, block, buffer);
    match right.refusal == REFUSED_BLOCK_LENGTH && few {
        true => BlockOutcome::refused(REFUSED_RECORD_BUFFER),
        false => right,
    }
}

pub fn clocks_before_a_bad_byte(
    receiver: &mut Receiver,
    block: &[u8],
    buffer: &mut [u32],
) -> BlockOutcome {
    let right = Model.run_block(receiver, block, buffer);
    if right.refusal == REFUSED_BIT {
        let good = block.iter().take_while(|&&byte| byte <= 3).count();
        let mut records = vec![0; RECORD_NUMBERS * good];
        Model.run_block(receiver, &block[..good], &mut records);
    }
    right
}

pub fn empty_block_wants_room(
    receiver: &mut Receiver,
    block: &[u8],
    buffer: &mut [u32],
) -> BlockOutcome {
    let right = Model.run_block(receiver, block, buffer);
    match right.refusal == ACCEPTED && buffer.is_empty() {
        true => BlockOutcome::refused(REFUSED_RECORD_BUFFER),
        false => right,
    }
}

pub fn channels_swapped(receiver: &mut Receiver, block: &[u8], buffer: &mut [u32]) -> BlockOutcome {
    let swap = |&byte: &u8| match byte {
        1 => 2,
        2 => 1,
        _ => byte,
    };
    let swapped: Vec<u8> = block.iter().map(swap).collect();
    Model.run_block(receiver, &swapped, buffer)
}

/// Each record is changed.
fn changed(
    (receiver, block, buffer): (&mut Receiver, &[u8], &mut [u32]),
    change: impl Fn(&mut [u32]),
) -> BlockOutcome {
    let right = Model.run_block(receiver, block, buffer);
    let records = buffer.chunks_exact_mut(RECORD_NUMBERS);
    records.take(right.records).for_each(change);
    right
}

/// The verdict of a record's code.
fn verdict(record: &[u32]) -> u8 {
    (record[3] & CODE_VERDICT) as u8
}

pub fn bunch_after_the_clock(
    receiver: &mut Receiver,
    block: &[u8],
    buffer: &mut [u32],
) -> BlockOutcome {
    changed((receiver, block, buffer), |record| {
        let cleared = match verdict(record) {
            VERDICT_BROADCAST => record[4] & 1 == 1,
            verdict => verdict == VERDICT_RESET,
        };
        record[1] = if cleared { 0 } else { (record[1] + 1) % 4096 };
    })
}

pub fn missed_not_in_code(
    receiver: &mut Receiver,
    block: &[u8],
    buffer: &mut [u32],
) -> BlockOutcome {
    changed((receiver, block, buffer), |record| {
        record[3] &= !CODE_MISSED;
    })
}

pub fn places_from_1(receiver: &mut Receiver, block: &[u8], buffer: &mut [u32]) -> BlockOutcome {
    changed((receiver, block, buffer), |record| record[0] += 1)
}

pub fn no_record_for_5(receiver: &mut Receiver, block: &[u8], buffer: &mut [u32]) -> BlockOutcome {
    let mut all = buffer.to_vec();
    let right = Model.run_block(receiver, block, &mut all);
    let mut records = 0;
    for record in all.chunks_exact(RECORD_NUMBERS).take(right.records) {
        let trigger = record[3] & CODE_TRIGGER != 0;
        if trigger || verdict(record) != VERDICT_OTHER_ADDRESS {
            let place = RECORD_NUMBERS * records;
            buffer[place..place + RECORD_NUMBERS].copy_from_slice(record);
            records += 1;
        }
    }
    BlockOutcome { records, ..right }
}

pub fn filled_length_wraps(buffer_length: usize, records: usize) -> usize {
    match RECORD_NUMBERS.wrapping_mul(records) {
        numbers if numbers <= buffer_length => numbers,
        _ => 0,
    }
}
