//! All declarations of ttcrx.h: its constants, its structs with their layouts asserted, and its
//! functions. `crate::ttcrx` has a safe function for each.

use core::mem::{align_of, offset_of, size_of};

pub const VERSION: u32 = 4;

pub const ACCEPTED: u8 = 0;
pub const REFUSED_BIT: u8 = 1;
pub const REFUSED_STATE: u8 = 2;
pub const REFUSED_ID: u8 = 3;
pub const REFUSED_I2C_ID: u8 = 4;
pub const REFUSED_REGISTER: u8 = 5;
pub const REFUSED_READ_ONLY: u8 = 6;
pub const REFUSED_CONFIG: u8 = 7;
pub const REFUSED_SETTING: u8 = 8;
pub const REFUSED_DELAY_BYTE: u8 = 9;
pub const REFUSED_LINE_LENGTH: u8 = 10;
pub const REFUSED_CHARACTER: u8 = 11;
pub const REFUSED_FRAME: u8 = 12;
pub const REFUSED_FIELD: u8 = 13;
pub const REFUSED_LINE_BUFFER: u8 = 14;
pub const REFUSED_BLOCK_LENGTH: u8 = 15;
pub const REFUSED_RECORD_BUFFER: u8 = 16;
pub const REFUSED_NO_SETTING: u8 = 17;
pub const REFUSED_COLUMN_COUNT: u8 = 27;
pub const REFUSED_BAD_COLUMN: u8 = 28;

pub const VERDICT_NONE: u8 = 0;
pub const VERDICT_BROADCAST: u8 = 1;
pub const VERDICT_STORED: u8 = 2;
pub const VERDICT_RESET: u8 = 3;
pub const VERDICT_OUTSIDE: u8 = 4;
pub const VERDICT_OTHER_ADDRESS: u8 = 5;
pub const VERDICT_OTHER_SUB_ADDRESS: u8 = 6;
pub const VERDICT_STOP_BIT: u8 = 7;
pub const VERDICT_EVEN_SYNDROME: u8 = 8;
pub const VERDICT_FIXED_BIT: u8 = 9;
pub const VERDICT_NO_SETTING: u8 = 10;
pub const VERDICT_ODD_SYNDROME: u8 = 11;

pub const DECODED_GOOD: u8 = 0;

pub const COLUMNS: usize = 40;
pub const COLUMNS_SHORT: usize = 8;

pub const SHORT: u8 = 0;
pub const LONG: u8 = 1;

pub const PLACES_SHORT: u8 = 13;
pub const PLACES_LONG: u8 = 39;

pub const ADDRESS_ALL: u16 = 0;
pub const SUB_ADDRESS_RESET: u8 = 6;

pub const STROBE_NONE: u8 = 0;
pub const STROBE_BUNCH: u8 = 1;
pub const STROBE_EVENT_LOW: u8 = 2;
pub const STROBE_EVENT_HIGH: u8 = 3;

pub const CODE_VERDICT: u32 = 15;
pub const CODE_CORRECTED: u32 = 16;
pub const CODE_TRIGGER: u32 = 32;
pub const CODE_MISSED: u32 = 64;

pub const BLOCK_CLOCKS: usize = 4096;
pub const RECORD_NUMBERS: usize = 5;

pub const LONGEST_LINE: usize = 38;
pub const LONGEST_END: usize = 66;

/// Structs of ttcrx.h: size and alignment in bytes, and each field with its offset. All are
/// asserted at compile time.
macro_rules! layouts {
    ($(
        #[doc = $c_name:literal]
        $name:ident: $size:literal, $align:literal {
            $($offset:literal $field:ident: $type:ty,)*
        }
    )*) => {$(
        #[doc = $c_name]
        #[repr(C)]
        #[derive(Clone, Copy, Debug, Default, PartialEq, Eq)]
        pub struct $name {
            $(pub $field: $type,)*
        }

        const _: () = {
            assert!(size_of::<$name>() == $size && align_of::<$name>() == $align);
            $(assert!(offset_of!($name, $field) == $offset);)*
        };
    )*};
}

layouts! {
    /// `ttcrx_encoded`
    Encoded: 16, 8 {
        0 refusal: u8,
        8 number: u64,
    }

    /// `ttcrx_fields`
    Fields: 6, 2 {
        0 address: u16,
        2 e: u8,
        3 sub_address: u8,
        4 data: u8,
    }

    /// `ttcrx_decoded`
    Decoded: 16, 4 {
        0 refusal: u8,
        1 verdict: u8,
        2 corrected: u8,
        3 place: u8,
        4 word: u32,
        8 fields: Fields,
    }

    /// `ttcrx_line`
    Line: 16, 8 {
        0 refusal: u8,
        1 kind: u8,
        8 number: u64,
    }

    /// `ttcrx_written`
    Written: 2, 1 {
        0 refusal: u8,
        1 length: u8,
    }

    /// `ttcrx_byte_answer`
    Byte: 2, 1 {
        0 refusal: u8,
        1 byte: u8,
    }

    /// `ttcrx_setting_answer`
    Setting: 2, 1 {
        0 refusal: u8,
        1 setting: u8,
    }

    /// `ttcrx_ids`
    Ids: 4, 2 {
        0 id: u16,
        2 i2c: u8,
    }

    /// `ttcrx_settings`
    Settings: 6, 1 {
        0 fine1: u8,
        1 fine2: u8,
        2 coarse: u8,
        3 control: u8,
        4 config2: u8,
        5 config3: u8,
    }

    /// `ttcrx_errors`
    Errors: 4, 2 {
        0 single_errors: u16,
        2 double_errors: u8,
        3 status5: u8,
    }

    /// `ttcrx_counters`
    Counters: 8, 4 {
        0 bunch: u16,
        4 event: u32,
    }

    /// `ttcrx_sequence`
    Sequence: 8, 4 {
        0 left: u8,
        4 event: u32,
    }

    /// `ttcrx_core`
    Core: 32, 4 {
        0 ids: Ids,
        4 settings: Settings,
        10 errors: Errors,
        16 counters: Counters,
        24 sequence: Sequence,
    }

    /// `ttcrx_held`
    Held: 16, 8 {
        0 count: u8,
        1 ones_wanted: u8,
        8 bits: u64,
    }

    /// `ttcrx_receiver`
    Receiver: 48, 8 {
        0 core: Core,
        32 held: Held,
    }

    /// `ttcrx_fresh_answer`
    FreshAnswer: 56, 8 {
        0 refusal: u8,
        8 receiver: Receiver,
    }

    /// `ttcrx_outputs`
    Outputs: 12, 4 {
        0 trigger: u8,
        1 missed: u8,
        2 number: u16,
        4 strobe: u8,
        5 verdict: u8,
        6 corrected: u8,
        7 place: u8,
        8 word: u32,
    }

    /// `ttcrx_clock_answer`
    ClockAnswer: 72, 8 {
        0 refusal: u8,
        8 receiver: Receiver,
        56 outputs: Outputs,
    }

    /// `ttcrx_read_answer`
    ReadAnswer: 2, 1 {
        0 refusal: u8,
        1 byte: u8,
    }

    /// `ttcrx_write_answer`
    WriteAnswer: 56, 8 {
        0 refusal: u8,
        8 receiver: Receiver,
    }

    /// `ttcrx_record`
    Record: 20, 4 {
        0 place: u32,
        4 bunch: u32,
        8 event: u32,
        12 code: u32,
        16 word: u32,
    }

    /// `ttcrx_block_outcome`
    BlockOutcome: 16, 8 {
        0 refusal: u8,
        8 records: usize,
    }

    /// `ttcrx_line_part`
    LinePart: 12, 1 {
        0 count: u8,
        1 characters: [u8; 11],
    }

    /// `ttcrx_report`
    Report: 72, 8 {
        0 receiver: Receiver,
        48 lines: u64,
        56 part: LinePart,
    }

    /// `ttcrx_reported`
    Reported: 96, 8 {
        0 report: Report,
        72 used: usize,
        80 written: usize,
        88 room_wanted: usize,
    }

    /// `ttcrx_columns_answer`
    ColumnsAnswer: 2, 1 {
        0 refusal: u8,
        1 index: u8,
    }

    /// `ttcrx_encoded_with_index`
    EncodedWithIndex: 24, 8 {
        0 answer: Encoded,
        16 index: u8,
    }

    /// `ttcrx_decoded_with_index`
    DecodedWithIndex: 20, 4 {
        0 answer: Decoded,
        16 index: u8,
    }

    /// `ttcrx_clock_with_index`
    ClockWithIndex: 80, 8 {
        0 answer: ClockAnswer,
        72 index: u8,
    }

    /// `ttcrx_block_with_index`
    BlockWithIndex: 24, 8 {
        0 answer: BlockOutcome,
        16 index: u8,
    }
}

extern "C" {
    pub fn ttcrx_version() -> u32;
    pub fn ttcrx_encode_short(data: u8) -> Encoded;
    pub fn ttcrx_encode_long(address: u16, e: u8, sub_address: u8, data: u8) -> Encoded;
    pub fn ttcrx_decode_short(number: u64) -> Decoded;
    pub fn ttcrx_decode_long(number: u64) -> Decoded;
    pub fn ttcrx_read_line(characters: *const u8, length: usize) -> Line;
    pub fn ttcrx_write_short(number: u64, buffer: *mut u8, length: usize) -> Written;
    pub fn ttcrx_write_long(number: u64, buffer: *mut u8, length: usize) -> Written;
    pub fn ttcrx_delay_byte(setting: u8) -> Byte;
    pub fn ttcrx_delay_setting(byte: u8) -> Setting;
    pub fn ttcrx_well_formed(receiver: Receiver) -> u8;
    pub fn ttcrx_fresh(id: u16, i2c: u8) -> FreshAnswer;
    pub fn ttcrx_clock(receiver: Receiver, trigger: u8, data: u8) -> ClockAnswer;
    pub fn ttcrx_read(receiver: Receiver, number: u8) -> ReadAnswer;
    pub fn ttcrx_write(receiver: Receiver, number: u8, value: u8) -> WriteAnswer;
    pub fn ttcrx_receive(receiver: Receiver, kind: u8, number: u64) -> ClockAnswer;
    pub fn ttcrx_receive_short(receiver: Receiver, number: u64) -> ClockAnswer;
    pub fn ttcrx_receive_long(receiver: Receiver, number: u64) -> ClockAnswer;
    pub fn ttcrx_run_block(
        receiver: *mut Receiver,
        block: *const u8,
        block_length: usize,
        buffer: *mut u32,
        buffer_length: usize,
    ) -> BlockOutcome;
    pub fn ttcrx_filled_length(buffer_length: usize, records: usize) -> usize;
    pub fn ttcrx_check_columns(columns: *const u8, columns_length: usize) -> ColumnsAnswer;
    pub fn ttcrx_encode_short_with_columns(
        columns: *const u8,
        columns_length: usize,
        data: u8,
    ) -> EncodedWithIndex;
    pub fn ttcrx_encode_long_with_columns(
        columns: *const u8,
        columns_length: usize,
        address: u16,
        e: u8,
        sub_address: u8,
        data: u8,
    ) -> EncodedWithIndex;
    pub fn ttcrx_decode_short_with_columns(
        columns: *const u8,
        columns_length: usize,
        number: u64,
    ) -> DecodedWithIndex;
    pub fn ttcrx_decode_long_with_columns(
        columns: *const u8,
        columns_length: usize,
        number: u64,
    ) -> DecodedWithIndex;
    pub fn ttcrx_clock_with_columns(
        receiver: Receiver,
        columns: *const u8,
        columns_length: usize,
        trigger: u8,
        data: u8,
    ) -> ClockWithIndex;
    pub fn ttcrx_receive_with_columns(
        receiver: Receiver,
        columns: *const u8,
        columns_length: usize,
        kind: u8,
        number: u64,
    ) -> ClockWithIndex;
    pub fn ttcrx_receive_short_with_columns(
        receiver: Receiver,
        columns: *const u8,
        columns_length: usize,
        number: u64,
    ) -> ClockWithIndex;
    pub fn ttcrx_receive_long_with_columns(
        receiver: Receiver,
        columns: *const u8,
        columns_length: usize,
        number: u64,
    ) -> ClockWithIndex;
    pub fn ttcrx_run_block_with_columns(
        receiver: *mut Receiver,
        columns: *const u8,
        columns_length: usize,
        block: *const u8,
        block_length: usize,
        buffer: *mut u32,
        buffer_length: usize,
    ) -> BlockWithIndex;
    pub fn ttcrx_report_start() -> Report;
    pub fn ttcrx_report_input(
        report: Report,
        input: *const u8,
        input_length: usize,
        buffer: *mut u8,
        buffer_length: usize,
    ) -> Reported;
    pub fn ttcrx_report_end(report: Report, buffer: *mut u8, buffer_length: usize) -> Reported;
}
