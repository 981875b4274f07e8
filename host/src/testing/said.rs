//! What documents 01 and 02 say of the number of a frame, written down without a decoder.

use super::frame::Frame;
use crate::model::{Columns, Kind};
use crate::sys::*;

/// The fixed bit of a long word.
pub const FIXED: u32 = 1 << 16;

/// What is said of a frame with this word, if the bit at this place was corrected; none with 0.
pub fn said(kind: Kind, word: u32, place: u8) -> Decoded {
    let [data, sub_address, _, _] = word.to_le_bytes();
    let without_fixed_bit = Decoded { word, ..dropped(VERDICT_FIXED_BIT) };
    let fields = match kind {
        Kind::Short => Fields { data, ..Fields::default() },
        Kind::Long if word & FIXED == 0 => return without_fixed_bit,
        Kind::Long => {
            Fields { address: (word >> 18) as u16, e: (word >> 17 & 1) as u8, sub_address, data }
        }
    };
    let corrected = (place != 0).into();
    Decoded { corrected, place, word, fields, ..Decoded::default() }
}

/// A verdict without a word.
pub fn dropped(verdict: u8) -> Decoded {
    Decoded { verdict, ..Decoded::default() }
}

/// What is said of a frame with this word of which these bits arrive flipped: none, or one or two
/// protected ones.
pub fn flipped(frame: Frame, word: u32, flips: u64) -> Decoded {
    match flips.count_ones() {
        0 => said(frame.kind(), word, 0),
        1 => said(frame.kind(), word, frame.place_of(flips)),
        _ => dropped(VERDICT_EVEN_SYNDROME),
    }
}

/// What is said of every short number under 2^14. All broadcasts with these columns are listed, clean
/// and with each single flip. Of the numbers that are none of these, with stop bit 1, those that are
/// an even number of flips away from the broadcast of 00 get 8, the others 11.
pub fn short_numbers(columns: &Columns) -> Vec<Decoded> {
    let broadcast = |data| Frame::encoded_with(columns, Kind::Short, data);
    let zero = broadcast(0).number;
    let rest = |number: u64| match (number & 1, (number ^ zero).count_ones() % 2) {
        (0, _) => dropped(VERDICT_STOP_BIT),
        (_, 0) => dropped(VERDICT_EVEN_SYNDROME),
        _ => dropped(VERDICT_ODD_SYNDROME),
    };
    let mut numbers: Vec<Decoded> = (0..1 << 14).map(rest).collect();
    for data in 0..=255 {
        let frame = broadcast(data);
        numbers[frame.number as usize] = said(Kind::Short, data, 0);
        for place in frame.places() {
            let flipped = frame.flipped(frame.at(place));
            numbers[flipped.number as usize] = said(Kind::Short, data, place);
        }
    }
    numbers
}
