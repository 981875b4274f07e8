//! An independent model of document 01, and of of document 02: frames and
//! their columns, stored lines, fine delays, the receiver, blocks of clocks, and the program
//! `ttclines`.
//!
//! It works differently. A received frame is decoded by a search for the nearest codeword, over its
//! bits in the order sent, which also gives the place of a flipped bit. Where none is found, verdict
//! 8 or 11 goes by the number of ones received; no syndrome is worked out. Both ways hold for all
//! good columns. Of lent columns all faults of each are collected, from the places of its ones and
//! the columns before it, and the least index with a fault is told. The bits of an unfinished frame
//! are kept one by one in the order received, a running sequence as the two words of its event
//! number, and of a Config byte only the bit that may change. After a bad stop bit the last 41 bits
//! of channel B are kept, and compared with 41 ones; the ones still wanted are worked out only for
//! the plain state. A fine delay byte is found by a search with the formula of the way back, a
//! setting by one with the formula of the byte. Of registers 0 and 1 the settings are kept, not the
//! bytes: a byte is refused there if no setting is found for it. The model depends on nothing else
//! of this package.

pub mod block;
mod columns;
mod delay;
mod frame;
mod line;
mod receiver;
mod registers;
pub mod report;
mod state;
mod stored;
mod text;

pub use columns::{BadColumns, Columns, COLUMNS};
pub use delay::{delay_byte, delay_setting};
pub use frame::{bits, decode, decode_long, decode_short, encode_long, encode_short, encode_word};
pub use frame::{decode_long_with, decode_short_with, decode_with};
pub use frame::{encode_long_with, encode_short_with, encode_word_with};
pub use frame::{Decoded, Fields, Kind, Verdict};
pub use line::{read_line, write_line};
pub use receiver::{Bus, Fate, Outputs, Receiver};
pub use state::State;

/// "Numbers of refusal", and those of.
#[derive(Clone, Copy, Debug, PartialEq, Eq)]
pub enum Refusal {
    Bit = 1,
    State = 2,
    Id = 3,
    I2cId = 4,
    Register = 5,
    ReadOnly = 6,
    Config = 7,
    Setting = 8,
    DelayByte = 9,
    LineLength = 10,
    Character = 11,
    Frame = 12,
    Field = 13,
    LineBuffer = 14,
    BlockLength = 15,
    RecordBuffer = 16,
    FineDelay = 17,
    Columns = 27,
    Column = 28,
}
