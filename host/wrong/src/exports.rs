//! The functions of ttcrx.h, as C finds them in libttcrx.so.

use crate::chosen;
use crate::sys::*;
use std::slice;

/// Functions without pointers.
macro_rules! plain {
    ($($symbol:ident: $function:ident($($argument:ident: $type:ty),*) -> $answer:ty;)*) => {$(
        #[no_mangle]
        extern "C" fn $symbol($($argument: $type),*) -> $answer {
            chosen().$function($($argument),*)
        }
    )*};
}

plain! {
    ttcrx_version: version() -> u32;
    ttcrx_encode_short: encode_short(data: u8) -> Encoded;
    ttcrx_encode_long: encode_long(address: u16, e: u8, sub_address: u8, data: u8) -> Encoded;
    ttcrx_decode_short: decode_short(number: u64) -> Decoded;
    ttcrx_decode_long: decode_long(number: u64) -> Decoded;
    ttcrx_delay_byte: delay_byte(setting: u8) -> Byte;
    ttcrx_delay_setting: delay_setting(byte: u8) -> Setting;
    ttcrx_well_formed: well_formed(receiver: Receiver) -> u8;
    ttcrx_fresh: fresh(id: u16, i2c: u8) -> FreshAnswer;
    ttcrx_clock: clock(receiver: Receiver, trigger: u8, data: u8) -> ClockAnswer;
    ttcrx_read: read(receiver: Receiver, number: u8) -> ReadAnswer;
    ttcrx_write: write(receiver: Receiver, number: u8, value: u8) -> WriteAnswer;
    ttcrx_receive: receive(receiver: Receiver, kind: u8, number: u64) -> ClockAnswer;
    ttcrx_receive_short: receive_short(receiver: Receiver, number: u64) -> ClockAnswer;
    ttcrx_receive_long: receive_long(receiver: Receiver, number: u64) -> ClockAnswer;
    ttcrx_filled_length: filled_length(buffer_length: usize, records: usize) -> usize;
    ttcrx_report_start: report_start() -> Report;
}

/// What was lent for reading.
///
/// # Safety
/// The pointer is valid for the length, or the length is 0.
unsafe fn lent<'a, T>(pointer: *const T, length: usize) -> &'a [T] {
    match length {
        0 => &[],
        _ => slice::from_raw_parts(pointer, length),
    }
}

/// What was lent for writing.
///
/// # Safety
/// The pointer is valid for the length and nobody else's, or the length is 0.
unsafe fn lent_for_writing<'a, T>(pointer: *mut T, length: usize) -> &'a mut [T] {
    match length {
        0 => &mut [],
        _ => slice::from_raw_parts_mut(pointer, length),
    }
}

#[no_mangle]
unsafe extern "C" fn ttcrx_read_line(characters: *const u8, length: usize) -> Line {
    chosen().read_line(lent(characters, length))
}

#[no_mangle]
unsafe extern "C" fn ttcrx_write_short(number: u64, buffer: *mut u8, length: usize) -> Written {
    chosen().write_short(number, lent_for_writing(buffer, length))
}

#[no_mangle]
unsafe extern "C" fn ttcrx_write_long(number: u64, buffer: *mut u8, length: usize) -> Written {
    chosen().write_long(number, lent_for_writing(buffer, length))
}

#[no_mangle]
unsafe extern "C" fn ttcrx_run_block(
    receiver: *mut Receiver,
    block: *const u8,
    block_length: usize,
    buffer: *mut u32,
    buffer_length: usize,
) -> BlockOutcome {
    let block = lent(block, block_length);
    let buffer = lent_for_writing(buffer, buffer_length);
    chosen().run_block(&mut *receiver, block, buffer)
}

/// Functions that are lent columns: what comes before these, and what comes after.
macro_rules! lent_columns {
    ($($symbol:ident: $function:ident(
        $($before:ident: $early:ty)?; $($after:ident: $late:ty),*
    ) -> $answer:ty;)*) => {$(
        #[no_mangle]
        unsafe extern "C" fn $symbol(
            $($before: $early,)?
            columns: *const u8,
            columns_length: usize,
            $($after: $late),*
        ) -> $answer {
            chosen().$function($($before,)? lent(columns, columns_length), $($after),*)
        }
    )*};
}

lent_columns! {
    ttcrx_check_columns: check_columns(;) -> ColumnsAnswer;
    ttcrx_encode_short_with_columns:
        encode_short_with_columns(; data: u8) -> EncodedWithIndex;
    ttcrx_encode_long_with_columns:
        encode_long_with_columns(; address: u16, e: u8, sub: u8, data: u8) -> EncodedWithIndex;
    ttcrx_decode_short_with_columns:
        decode_short_with_columns(; number: u64) -> DecodedWithIndex;
    ttcrx_decode_long_with_columns:
        decode_long_with_columns(; number: u64) -> DecodedWithIndex;
    ttcrx_clock_with_columns:
        clock_with_columns(receiver: Receiver; trigger: u8, data: u8) -> ClockWithIndex;
    ttcrx_receive_with_columns:
        receive_with_columns(receiver: Receiver; kind: u8, number: u64) -> ClockWithIndex;
    ttcrx_receive_short_with_columns:
        receive_short_with_columns(receiver: Receiver; number: u64) -> ClockWithIndex;
    ttcrx_receive_long_with_columns:
        receive_long_with_columns(receiver: Receiver; number: u64) -> ClockWithIndex;
}

#[no_mangle]
unsafe extern "C" fn ttcrx_run_block_with_columns(
    receiver: *mut Receiver,
    columns: *const u8,
    columns_length: usize,
    block: *const u8,
    block_length: usize,
    buffer: *mut u32,
    buffer_length: usize,
) -> BlockWithIndex {
    let columns = lent(columns, columns_length);
    let block = lent(block, block_length);
    let buffer = lent_for_writing(buffer, buffer_length);
    chosen().run_block_with_columns(&mut *receiver, columns, block, buffer)
}

#[no_mangle]
unsafe extern "C" fn ttcrx_report_input(
    report: Report,
    input: *const u8,
    input_length: usize,
    buffer: *mut u8,
    buffer_length: usize,
) -> Reported {
    let input = lent(input, input_length);
    let buffer = lent_for_writing(buffer, buffer_length);
    chosen().report_input(report, input, buffer)
}

#[no_mangle]
unsafe extern "C" fn ttcrx_report_end(
    report: Report,
    buffer: *mut u8,
    buffer_length: usize,
) -> Reported {
    chosen().report_end(report, lent_for_writing(buffer, buffer_length))
}
