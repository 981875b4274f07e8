//! The library libttcrx.a as safe functions: a slice stands for pointer and length. Every function
//! takes every value of its arguments; include/ttcrx.h says what each refuses.

use crate::sys;
pub use crate::sys::{
    BlockOutcome, Byte, ClockAnswer, Core, Counters, Decoded, Encoded, Errors, Fields, FreshAnswer,
    Held, Ids, Line, LinePart, Outputs, ReadAnswer, Receiver, Record, Report, Reported, Sequence,
    Setting, Settings, WriteAnswer, Written,
};
pub use crate::sys::{
    BlockWithIndex, ClockWithIndex, ColumnsAnswer, DecodedWithIndex, EncodedWithIndex,
};
pub use crate::sys::{
    ACCEPTED, ADDRESS_ALL, BLOCK_CLOCKS, COLUMNS, COLUMNS_SHORT, DECODED_GOOD, LONG, LONGEST_END,
    LONGEST_LINE, PLACES_LONG, PLACES_SHORT, RECORD_NUMBERS, SHORT, SUB_ADDRESS_RESET, VERSION,
};
pub use crate::sys::{
    CODE_CORRECTED, CODE_MISSED, CODE_TRIGGER, CODE_VERDICT, STROBE_BUNCH, STROBE_EVENT_HIGH,
    STROBE_EVENT_LOW, STROBE_NONE,
};
pub use crate::sys::{
    REFUSED_BAD_COLUMN, REFUSED_BIT, REFUSED_BLOCK_LENGTH, REFUSED_CHARACTER, REFUSED_COLUMN_COUNT,
    REFUSED_CONFIG, REFUSED_DELAY_BYTE, REFUSED_FIELD, REFUSED_FRAME, REFUSED_I2C_ID, REFUSED_ID,
    REFUSED_LINE_BUFFER, REFUSED_LINE_LENGTH, REFUSED_NO_SETTING, REFUSED_READ_ONLY,
    REFUSED_RECORD_BUFFER, REFUSED_REGISTER, REFUSED_SETTING, REFUSED_STATE,
};
pub use crate::sys::{
    VERDICT_BROADCAST, VERDICT_EVEN_SYNDROME, VERDICT_FIXED_BIT, VERDICT_NONE, VERDICT_NO_SETTING,
    VERDICT_ODD_SYNDROME, VERDICT_OTHER_ADDRESS, VERDICT_OTHER_SUB_ADDRESS, VERDICT_OUTSIDE,
    VERDICT_RESET, VERDICT_STOP_BIT, VERDICT_STORED,
};

/// The version of the archive. It is to be equal to `VERSION`, that of these declarations.
pub fn version() -> u32 {
    // SAFETY: takes nothing.
    unsafe { sys::ttcrx_version() }
}

/// The short frame of a byte.
pub fn encode_short(data: u8) -> Encoded {
    // SAFETY: takes every value and no pointer.
    unsafe { sys::ttcrx_encode_short(data) }
}

/// The long frame of these fields. Refusal 13.
pub fn encode_long(address: u16, e: u8, sub_address: u8, data: u8) -> Encoded {
    // SAFETY: takes every value and no pointer.
    unsafe { sys::ttcrx_encode_long(address, e, sub_address, data) }
}

/// What a number says as a short frame. Refusal 12.
pub fn decode_short(number: u64) -> Decoded {
    // SAFETY: takes every value and no pointer.
    unsafe { sys::ttcrx_decode_short(number) }
}

/// What a number says as a long frame. Refusal 12.
pub fn decode_long(number: u64) -> Decoded {
    // SAFETY: takes every value and no pointer.
    unsafe { sys::ttcrx_decode_long(number) }
}

/// The frame of a stored line, without its line feed. Refusals 10, 11 and 12.
pub fn read_line(characters: &[u8]) -> Line {
    // SAFETY: a shared slice is valid for reading its length, and unchanged meanwhile.
    unsafe { sys::ttcrx_read_line(characters.as_ptr(), characters.len()) }
}

/// Writes the line of a short frame, 5 bytes, to the front of the buffer. Refusals 12 and 14.
pub fn write_short(number: u64, buffer: &mut [u8]) -> Written {
    // SAFETY: an exclusive slice is valid for its length, and nobody else's meanwhile.
    unsafe { sys::ttcrx_write_short(number, buffer.as_mut_ptr(), buffer.len()) }
}

/// Writes the line of a long frame, 12 bytes, to the front of the buffer. Refusals 12 and 14.
pub fn write_long(number: u64, buffer: &mut [u8]) -> Written {
    // SAFETY: an exclusive slice is valid for its length, and nobody else's meanwhile.
    unsafe { sys::ttcrx_write_long(number, buffer.as_mut_ptr(), buffer.len()) }
}

/// The byte of a fine delay setting. Refusal 8.
pub fn delay_byte(setting: u8) -> Byte {
    // SAFETY: takes every value and no pointer.
    unsafe { sys::ttcrx_delay_byte(setting) }
}

/// The setting of a fine delay byte. Refusal 9.
pub fn delay_setting(byte: u8) -> Setting {
    // SAFETY: takes every value and no pointer.
    unsafe { sys::ttcrx_delay_setting(byte) }
}

/// Whether a state is well formed: 1 or 0.
pub fn well_formed(receiver: Receiver) -> u8 {
    // SAFETY: takes every value and no pointer.
    unsafe { sys::ttcrx_well_formed(receiver) }
}

/// The fresh state of a receiver. Refusals 3 and 4.
pub fn fresh(id: u16, i2c: u8) -> FreshAnswer {
    // SAFETY: takes every value and no pointer.
    unsafe { sys::ttcrx_fresh(id, i2c) }
}

/// One clock with a trigger bit and a bit of channel B. Refusals 2 and 1.
pub fn clock(receiver: Receiver, trigger: u8, data: u8) -> ClockAnswer {
    // SAFETY: takes every value and no pointer.
    unsafe { sys::ttcrx_clock(receiver, trigger, data) }
}

/// The byte that a register holds. Refusals 2 and 5.
pub fn read(receiver: Receiver, number: u8) -> ReadAnswer {
    // SAFETY: takes every value and no pointer.
    unsafe { sys::ttcrx_read(receiver, number) }
}

/// Writes a byte to a register. Refusals 2, 5, 6, and 17 or 7.
pub fn write(receiver: Receiver, number: u8, value: u8) -> WriteAnswer {
    // SAFETY: takes every value and no pointer.
    unsafe { sys::ttcrx_write(receiver, number, value) }
}

/// Feeds a whole frame of this kind, `SHORT` or `LONG`, without triggers. The answer is that of its
/// last clock. Refusals 2 and 12.
pub fn receive(receiver: Receiver, kind: u8, number: u64) -> ClockAnswer {
    // SAFETY: takes every value and no pointer.
    unsafe { sys::ttcrx_receive(receiver, kind, number) }
}

/// The same with kind `SHORT`.
pub fn receive_short(receiver: Receiver, number: u64) -> ClockAnswer {
    // SAFETY: takes every value and no pointer.
    unsafe { sys::ttcrx_receive_short(receiver, number) }
}

/// The same with kind `LONG`.
pub fn receive_long(receiver: Receiver, number: u64) -> ClockAnswer {
    // SAFETY: takes every value and no pointer.
    unsafe { sys::ttcrx_receive_long(receiver, number) }
}

/// The clocks of a whole block, one byte each, on the receiver that is lent; `records` reads what
/// it has written to the buffer. Refusals 2, 15, 16 and 1.
pub fn run_block(receiver: &mut Receiver, block: &[u8], buffer: &mut [u32]) -> BlockOutcome {
    // SAFETY: a shared slice is valid for reading its length, and unchanged meanwhile; an exclusive
    // reference or slice is valid for its length, and nobody else's meanwhile; so no two overlap.
    unsafe {
        sys::ttcrx_run_block(
            receiver,
            block.as_ptr(),
            block.len(),
            buffer.as_mut_ptr(),
            buffer.len(),
        )
    }
}

/// How many numbers so many records take up in a buffer of this length; 0 where they do not fit.
pub fn filled_length(buffer_length: usize, records: usize) -> usize {
    // SAFETY: takes every value and no pointer.
    unsafe { sys::ttcrx_filled_length(buffer_length, records) }
}

/// The numbers of so many records at the front of the buffer; its empty front where they do not
/// fit.
pub fn filled(buffer: &[u32], records: usize) -> &[u32] {
    &buffer[..filled_length(buffer.len(), records)]
}

/// So many records from the front of the buffer; none where they do not fit.
pub fn records(buffer: &[u32], records: usize) -> impl ExactSizeIterator<Item = Record> + '_ {
    let numbers = filled(buffer, records).chunks_exact(RECORD_NUMBERS);
    numbers.map(|numbers| Record {
        place: numbers[0],
        bunch: numbers[1],
        event: numbers[2],
        code: numbers[3],
        word: numbers[4],
    })
}

/// Checks lent columns, as each function with columns does. Refusals 27 and 28.
pub fn check_columns(columns: &[u8]) -> ColumnsAnswer {
    // SAFETY: a shared slice is valid for reading its length, and unchanged meanwhile.
    unsafe { sys::ttcrx_check_columns(columns.as_ptr(), columns.len()) }
}

/// The short frame of a byte with lent columns. Refusals 27 and 28.
pub fn encode_short_with_columns(columns: &[u8], data: u8) -> EncodedWithIndex {
    // SAFETY: a shared slice is valid for reading its length, and unchanged meanwhile.
    unsafe { sys::ttcrx_encode_short_with_columns(columns.as_ptr(), columns.len(), data) }
}

/// The long frame of these fields with lent columns. Refusals 27, 28 and 13.
pub fn encode_long_with_columns(
    columns: &[u8],
    address: u16,
    e: u8,
    sub_address: u8,
    data: u8,
) -> EncodedWithIndex {
    // SAFETY: a shared slice is valid for reading its length, and unchanged meanwhile.
    unsafe {
        sys::ttcrx_encode_long_with_columns(
            columns.as_ptr(),
            columns.len(),
            address,
            e,
            sub_address,
            data,
        )
    }
}

/// What a number says as a short frame with lent columns. Refusals 27, 28 and 12.
pub fn decode_short_with_columns(columns: &[u8], number: u64) -> DecodedWithIndex {
    // SAFETY: a shared slice is valid for reading its length, and unchanged meanwhile.
    unsafe { sys::ttcrx_decode_short_with_columns(columns.as_ptr(), columns.len(), number) }
}

/// What a number says as a long frame with lent columns. Refusals 27, 28 and 12.
pub fn decode_long_with_columns(columns: &[u8], number: u64) -> DecodedWithIndex {
    // SAFETY: a shared slice is valid for reading its length, and unchanged meanwhile.
    unsafe { sys::ttcrx_decode_long_with_columns(columns.as_ptr(), columns.len(), number) }
}

/// One clock with lent columns. Refusals 2, 27, 28 and 1.
pub fn clock_with_columns(
    receiver: Receiver,
    columns: &[u8],
    trigger: u8,
    data: u8,
) -> ClockWithIndex {
    let (pointer, length) = (columns.as_ptr(), columns.len());
    // SAFETY: a shared slice is valid for reading its length, and unchanged meanwhile.
    unsafe { sys::ttcrx_clock_with_columns(receiver, pointer, length, trigger, data) }
}

/// Feeds a whole frame with lent columns. Refusals 2, 27, 28 and 12.
pub fn receive_with_columns(
    receiver: Receiver,
    columns: &[u8],
    kind: u8,
    number: u64,
) -> ClockWithIndex {
    let (pointer, length) = (columns.as_ptr(), columns.len());
    // SAFETY: a shared slice is valid for reading its length, and unchanged meanwhile.
    unsafe { sys::ttcrx_receive_with_columns(receiver, pointer, length, kind, number) }
}

/// The same with kind `SHORT`.
pub fn receive_short_with_columns(
    receiver: Receiver,
    columns: &[u8],
    number: u64,
) -> ClockWithIndex {
    let (pointer, length) = (columns.as_ptr(), columns.len());
    // SAFETY: a shared slice is valid for reading its length, and unchanged meanwhile.
    unsafe { sys::ttcrx_receive_short_with_columns(receiver, pointer, length, number) }
}

/// The same with kind `LONG`.
pub fn receive_long_with_columns(
    receiver: Receiver,
    columns: &[u8],
    number: u64,
) -> ClockWithIndex {
    let (pointer, length) = (columns.as_ptr(), columns.len());
    // SAFETY: a shared slice is valid for reading its length, and unchanged meanwhile.
    unsafe { sys::ttcrx_receive_long_with_columns(receiver, pointer, length, number) }
}

/// The clocks of a whole block with lent columns, on the receiver that is lent; `records` reads what
/// it has written to the buffer. Refusals 2, 27, 28, 15, 16 and 1.
pub fn run_block_with_columns(
    receiver: &mut Receiver,
    columns: &[u8],
    block: &[u8],
    buffer: &mut [u32],
) -> BlockWithIndex {
    // SAFETY: a shared slice is valid for reading its length, and unchanged meanwhile; an exclusive
    // reference or slice is valid for its length, and nobody else's meanwhile; so nothing that is
    // lent for writing overlaps anything else.
    unsafe {
        sys::ttcrx_run_block_with_columns(
            receiver,
            columns.as_ptr(),
            columns.len(),
            block.as_ptr(),
            block.len(),
            buffer.as_mut_ptr(),
            buffer.len(),
        )
    }
}

/// A report of stored lines at the beginning of its input.
pub fn report_start() -> Report {
    // SAFETY: takes nothing.
    unsafe { sys::ttcrx_report_start() }
}

/// Reports the lines that end in a piece of the input.
pub fn report_input(report: Report, input: &[u8], buffer: &mut [u8]) -> Reported {
    // SAFETY: a shared slice is valid for reading its length, and unchanged meanwhile; an exclusive
    // slice is valid for its length, and nobody else's meanwhile; so the two do not overlap.
    unsafe {
        sys::ttcrx_report_input(
            report,
            input.as_ptr(),
            input.len(),
            buffer.as_mut_ptr(),
            buffer.len(),
        )
    }
}

/// Reports a last line without line feed, and writes the line `end`.
pub fn report_end(report: Report, buffer: &mut [u8]) -> Reported {
    // SAFETY: an exclusive slice is valid for its length, and nobody else's meanwhile.
    unsafe { sys::ttcrx_report_end(report, buffer.as_mut_ptr(), buffer.len()) }
}
