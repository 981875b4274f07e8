//! Q-3 of document 02, "A whole captured trace in one call": single clocks of the receiver, and a
//! record of each that has one. Q-11: the same with columns that are given.

use super::{Columns, Outputs, Receiver, Refusal, Verdict};

/// "blocks of up to 4,096 clocks".
pub const CLOCKS: usize = 4096;

/// "five 32-bit numbers".
pub const NUMBERS: usize = 5;

/// "a byte each: bit 0 the trigger, bit 1 channel B".
#[inline]
pub fn byte(trigger: u8, data: u8) -> u8 {
    trigger | data << 1
}

/// Q-3: "15 block over 4,096 bytes; 16 fewer than five numbers of room per byte; 1 any byte over
/// 3", in this order. The last is tested by the greatest byte: a loop without a way out is faster.
fn check(block: &[u8], room: usize) -> Result<(), Refusal> {
    if block.len() > CLOCKS {
        return Err(Refusal::BlockLength);
    }
    if room < NUMBERS * block.len() {
        return Err(Refusal::RecordBuffer);
    }
    if block.iter().copied().fold(0, u8::max) > 3 {
        return Err(Refusal::Bit);
    }
    Ok(())
}

/// "a code (verdict + 16 corrected + 32 trigger + 64 missed)".
#[inline]
fn code(outputs: &Outputs) -> u32 {
    outputs.fate.verdict as u32
        + 16 * u32::from(outputs.fate.corrected())
        + 32 * u32::from(outputs.trigger)
        + 64 * u32::from(outputs.missed)
}

/// Q-3: "For each clock with a trigger or a verdict other than 0, write five 32-bit numbers: place
/// in the block (from 0), bunch and event counts before the clock, a code .., the word."
#[inline]
fn clock(
    columns: &Columns,
    receiver: &mut Receiver,
    place: u32,
    byte: u8,
) -> Option<[u32; NUMBERS]> {
    let (bunch, event) = (receiver.bunch(), receiver.event());
    let outputs = receiver.clock_with(columns, byte & 1 == 1, byte & 2 == 2);
    if !outputs.trigger && outputs.fate.verdict == Verdict::None {
        return None;
    }
    let code = code(&outputs);
    Some([place, bunch.into(), event, code, outputs.fate.word])
}

/// A block on a receiver. Gives the number of records: "Each record goes behind the last in the
/// lent buffer, and the numbers after the last record stay." Refusals 15, 16 and 1.
#[inline]
pub fn run_with(
    columns: &Columns,
    receiver: &mut Receiver,
    block: &[u8],
    buffer: &mut [u32],
) -> Result<usize, Refusal> {
    check(block, buffer.len())?;
    let mut end = 0;
    for (place, &byte) in (0..).zip(block) {
        if let Some(record) = clock(columns, receiver, place, byte) {
            buffer[end..end + NUMBERS].copy_from_slice(&record);
            end += NUMBERS;
        }
    }
    Ok(end / NUMBERS)
}

/// `run_with` the own columns. Refusals 15, 16 and 1.
#[inline]
pub fn run(receiver: &mut Receiver, block: &[u8], buffer: &mut [u32]) -> Result<usize, Refusal> {
    run_with(Columns::own(), receiver, block, buffer)
}

/// Q-3: "the filled part of the caller's own buffer, or its empty front where the number doesn't
/// fit", as a length. No product of two lengths is too great for 128 bits.
pub fn filled_length(buffer_length: usize, records: usize) -> usize {
    let numbers = NUMBERS as u128 * records as u128;
    match usize::try_from(numbers) {
        Ok(numbers) if numbers <= buffer_length => numbers,
        _ => 0,
    }
}
