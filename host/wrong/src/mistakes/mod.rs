//! The mistakes. Most are a plain function that stands for one of ttcrx.h and has its arguments and
//! its answer; all other functions are the model's.

pub mod blocks;
pub mod clock;
pub mod columns;
pub mod frames;
pub mod lending;
pub mod lines;
pub mod no_setting;
pub mod places;
pub mod quiet;
pub mod registers;
pub mod reports;

use crate::sys::*;
use crate::testing::library::Library;

/// For each function a library in which another stands for it.
macro_rules! instead {
    ($($library:ident: $function:ident($($argument:ident: $type:ty),*) -> $answer:ty;)*) => {$(
        pub struct $library(pub fn($($type),*) -> $answer);

        impl Library for $library {
            fn $function(&self, $($argument: $type),*) -> $answer {
                (self.0)($($argument),*)
            }
        }
    )*};
}

instead! {
    Version: version() -> u32;
    ReadLine: read_line(characters: &[u8]) -> Line;
    WriteShort: write_short(number: u64, buffer: &mut [u8]) -> Written;
    WriteLong: write_long(number: u64, buffer: &mut [u8]) -> Written;
    DelayByte: delay_byte(setting: u8) -> Byte;
    DelaySetting: delay_setting(byte: u8) -> Setting;
    WellFormed: well_formed(receiver: Receiver) -> u8;
    Fresh: fresh(id: u16, i2c: u8) -> FreshAnswer;
    Clock: clock(receiver: Receiver, trigger: u8, data: u8) -> ClockAnswer;
    Read: read(receiver: Receiver, number: u8) -> ReadAnswer;
    Write: write(receiver: Receiver, number: u8, value: u8) -> WriteAnswer;
    Receive: receive(receiver: Receiver, kind: u8, number: u64) -> ClockAnswer;
    ReceiveShort: receive_short(receiver: Receiver, number: u64) -> ClockAnswer;
    ReceiveLong: receive_long(receiver: Receiver, number: u64) -> ClockAnswer;
    RunBlock: run_block(lent: &mut Receiver, block: &[u8], buffer: &mut [u32]) -> BlockOutcome;
    FilledLength: filled_length(buffer_length: usize, records: usize) -> usize;
    EncodeShortWithColumns:
        encode_short_with_columns(columns: &[u8], data: u8) -> EncodedWithIndex;
    EncodeLongWithColumns:
        encode_long_with_columns(columns: &[u8], address: u16, e: u8, sub: u8, data: u8)
            -> EncodedWithIndex;
    DecodeLongWithColumns:
        decode_long_with_columns(columns: &[u8], number: u64) -> DecodedWithIndex;
    ClockWithColumns:
        clock_with_columns(receiver: Receiver, columns: &[u8], trigger: u8, data: u8)
            -> ClockWithIndex;
    ReceiveWithColumns:
        receive_with_columns(receiver: Receiver, columns: &[u8], kind: u8, number: u64)
            -> ClockWithIndex;
    RunBlockWithColumns:
        run_block_with_columns(
            lent: &mut Receiver, columns: &[u8], block: &[u8], buffer: &mut [u32]
        ) -> BlockWithIndex;
    ReportStart: report_start() -> Report;
    ReportInput: report_input(report: Report, input: &[u8], buffer: &mut [u8]) -> Reported;
    ReportEnd: report_end(report: Report, buffer: &mut [u8]) -> Reported;
}
