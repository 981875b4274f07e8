//! "Frames on channel B" of document 01, with what Q-8 and Q-11 of document 02 add, "Say what was
//! wrong and which bit" and "The encoder's own columns".
//!
//! A frame is encoded as bits in the order sent. A received frame is decoded by a search for the
//! nearest codeword among itself and its single flips of a protected bit, in the order sent; each
//! one is tried by encoding its data afresh and comparing the check bits. No syndrome is worked out.
//!
//! A function whose name ends in `_with` uses the columns that it is given; the same name without
//! that is the function with document 01's own.

use super::{Columns, Refusal};

/// The two frames, and their widths.
#[derive(Clone, Copy, Debug, PartialEq, Eq)]
pub enum Kind {
    Short = 0,
    Long = 1,
}

impl Kind {
    pub const BOTH: [Kind; 2] = [Kind::Short, Kind::Long];

    /// The kind of this number, if it is one.
    pub fn of_number(number: u8) -> Option<Kind> {
        Kind::BOTH.into_iter().find(|kind| kind.number() == number)
    }

    /// The kind as a number: 0 or 1.
    pub const fn number(self) -> u8 {
        self as u8
    }

    /// "8 data bits", "32 word bits"
    #[inline]
    pub const fn data_bits(self) -> u8 {
        match self {
            Kind::Short => 8,
            Kind::Long => 32,
        }
    }

    /// "5 check bits", "7 check bits"
    #[inline]
    pub const fn check_bits(self) -> u8 {
        match self {
            Kind::Short => 5,
            Kind::Long => 7,
        }
    }

    /// "Protected bits are data and check bits": they stand between format and stop.
    #[inline]
    pub const fn protected_bits(self) -> u8 {
        self.data_bits() + self.check_bits()
    }

    /// The bits of a whole frame, 16 or 42: start, format, protected bits, stop.
    #[inline]
    pub const fn length(self) -> u8 {
        1 + 1 + self.protected_bits() + 1
    }

    /// "Stored lines": 4 or 11 hexadecimal digits.
    pub const fn digits(self) -> usize {
        self.length().div_ceil(4) as usize
    }

    /// "Stored lines": the word is reported with 2 or 8 digits.
    pub const fn word_digits(self) -> usize {
        (self.data_bits() / 4) as usize
    }
}

/// What a long word holds beside the fixed bit. A short one has data alone.
#[derive(Clone, Copy, Debug, Default, PartialEq, Eq)]
pub struct Fields {
    pub address: u16,
    pub e: u8,
    pub sub_address: u8,
    pub data: u8,
}

/// "Fate of a finished frame": the verdicts, and those of. 0 is a clock on which no
/// frame finished, and a frame that was decoded well without a receiver.
#[derive(Clone, Copy, Debug, Default, PartialEq, Eq)]
pub enum Verdict {
    #[default]
    None = 0,
    Broadcast = 1,
    Stored = 2,
    Reset = 3,
    Outside = 4,
    OtherAddress = 5,
    OtherSubAddress = 6,
    StopBit = 7,
    EvenSyndrome = 8,
    FixedBit = 9,
    NoSetting = 10,
    OddSyndrome = 11,
}

/// The answer to a frame number without a receiver: verdict 7, 8, 9 or 11; else 0, and the fields.
#[derive(Clone, Copy, Debug, PartialEq, Eq)]
pub struct Decoded {
    pub verdict: Verdict,
    /// The place of the flipped bit of a corrected frame. The corrected flag is 1 where it has one.
    pub flipped: Option<u8>,
    pub word: u32,
    pub fields: Fields,
}

/// The fixed bit of a long word.
const FIXED: u32 = 1 << 16;

/// "First bit sent = most significant": so many bits of a number in the order sent.
#[inline]
pub fn bits(number: u64, length: u8) -> impl Iterator<Item = bool> {
    let places = (0..u32::from(length)).rev();
    places.map(move |place| number >> place & 1 == 1)
}

/// So many bits of a value go out after those already sent.
fn send(sent: u64, value: u32, length: u8) -> u64 {
    let after = |sent, bit| 2 * sent + u64::from(bit);
    bits(value.into(), length).fold(sent, after)
}

/// Start 0, the format bit, data bits, check bits, stop 1.
fn send_frame(columns: &Columns, kind: Kind, data: u32) -> u64 {
    let start = send(0, 0, 1);
    let head = send(start, kind.number().into(), 1);
    let body = send(head, data, kind.data_bits());
    let check = columns.check_number(kind, data);
    let checked = send(body, check.into(), kind.check_bits());
    send(checked, 1, 1)
}

/// The short frame of a byte.
pub fn encode_short_with(columns: &Columns, data: u8) -> u64 {
    send_frame(columns, Kind::Short, data.into())
}

/// The long frame of any 32 word bits, the fixed bit as it is in them.
pub fn encode_word_with(columns: &Columns, word: u32) -> u64 {
    send_frame(columns, Kind::Long, word)
}

/// The long frame of these fields, its fixed bit 1. Refusal 13.
pub fn encode_long_with(columns: &Columns, fields: Fields) -> Result<u64, Refusal> {
    if fields.address > 16383 || fields.e > 1 {
        return Err(Refusal::Field);
    }
    let address = send(0, fields.address.into(), 14);
    let e = send(address, fields.e.into(), 1);
    let fixed = send(e, 1, 1);
    let sub_address = send(fixed, fields.sub_address.into(), 8);
    let word = send(sub_address, fields.data.into(), 8);
    Ok(encode_word_with(columns, word as u32))
}

/// `encode_short_with` the own columns.
pub fn encode_short(data: u8) -> u64 {
    encode_short_with(Columns::own(), data)
}

/// `encode_word_with` the own columns.
pub fn encode_word(word: u32) -> u64 {
    encode_word_with(Columns::own(), word)
}

/// `encode_long_with` the own columns. Refusal 13.
pub fn encode_long(fields: Fields) -> Result<u64, Refusal> {
    encode_long_with(Columns::own(), fields)
}

/// "Stored lines" and refusal 12: a short number is under 2^14; a long one has bit 40 set and none
/// above.
#[inline]
pub(super) fn leading(kind: Kind, number: u64) -> Result<(), Refusal> {
    let right = match kind {
        Kind::Short => number < 1 << 14,
        Kind::Long => number >> 40 == 1,
    };
    match right {
        true => Ok(()),
        false => Err(Refusal::Frame),
    }
}

/// The data bits of a frame number.
#[inline]
fn data_of(kind: Kind, number: u64) -> u32 {
    ((number >> (1 + kind.check_bits())) & ((1 << kind.data_bits()) - 1)) as u32
}

/// Are the check bits those of the data bits? No other bit is looked at.
#[inline]
fn is_codeword(columns: &Columns, kind: Kind, number: u64) -> bool {
    let check = (number >> 1) & ((1 << kind.check_bits()) - 1);
    u64::from(columns.quick_check_number(kind, data_of(kind, number))) == check
}

/// "counts the frame's bits after the format bit, in the order sent": the bit at this place,
/// from 1. Start and format are sent before it.
#[inline]
const fn bit_at(kind: Kind, place: u8) -> u64 {
    let start = 1 << (kind.length() - 1);
    start >> 1 >> place
}

/// The number itself if it is a codeword, else that with one protected bit flipped which is, and
/// the place of that bit; none if there is none.
///
/// There is never a choice. Two of these numbers differ in one or two protected bits. If both were
/// codewords, then a column would be 0, or have a single one, or be equal to another of its group.
#[inline]
fn nearest(columns: &Columns, kind: Kind, number: u64) -> Option<(u64, Option<u8>)> {
    if is_codeword(columns, kind, number) {
        return Some((number, None));
    }
    (1..=kind.protected_bits())
        .map(|place| (number ^ bit_at(kind, place), Some(place)))
        .find(|&(flipped, _)| is_codeword(columns, kind, flipped))
}

/// Q-8: "Verdict 8 is kept for an even number of ones in the syndrome; verdict 11 is given for an
/// odd number that belongs to no bit."
///
/// Here the ones of data and check bits as received are counted instead, whatever the columns are.
/// Each good column has an odd number of ones, so that the check number of any data has an odd
/// number of ones exactly if the data have. The syndrome is the received check number xor that of
/// the received data: the number of its ones is odd exactly if that of the received check and data
/// bits together is.
fn uncorrectable(kind: Kind, number: u64) -> Verdict {
    let after_format = bits(number, kind.length()).skip(2);
    let protected = after_format.take(kind.protected_bits().into());
    match protected.filter(|&bit| bit).count() % 2 {
        0 => Verdict::EvenSyndrome,
        _ => Verdict::OddSyndrome,
    }
}

/// "Address (bits 31..18), E (17), a fixed 1 (16), sub-address (15..8), data (7..0)" of a long word;
/// none if the fixed bit is 0. A short word is the data.
#[inline]
fn fields_of(kind: Kind, word: u32) -> Option<Fields> {
    let [data, sub_address, _, _] = word.to_le_bytes();
    match kind {
        Kind::Short => Some(Fields { data, ..Fields::default() }),
        Kind::Long => (word & FIXED != 0).then_some(Fields {
            address: (word >> 18) as u16,
            e: (word >> 17 & 1) as u8,
            sub_address,
            data,
        }),
    }
}

/// "Fate of a finished frame", verdicts 7, 8, 9 and 11: flag and place 0, and here no fields.
fn bad(verdict: Verdict, word: u32) -> Decoded {
    Decoded { verdict, flipped: None, word, fields: Fields::default() }
}

/// "Fate of a finished frame": verdicts 7, then 8 or 11, then 9; else the corrected frame. With the
/// widths of one kind as constants the search is faster.
#[inline(always)]
fn received(columns: &Columns, kind: Kind, number: u64) -> Decoded {
    if number & 1 == 0 {
        return bad(Verdict::StopBit, 0);
    }
    let Some((right, flipped)) = nearest(columns, kind, number) else {
        return bad(uncorrectable(kind, number), 0);
    };
    let word = data_of(kind, right);
    let Some(fields) = fields_of(kind, word) else {
        return bad(Verdict::FixedBit, word);
    };
    Decoded { verdict: Verdict::None, flipped, word, fields }
}

/// What a number says as a short frame. Refusal 12.
pub fn decode_short_with(columns: &Columns, number: u64) -> Result<Decoded, Refusal> {
    leading(Kind::Short, number)?;
    Ok(received(columns, Kind::Short, number))
}

/// What a number says as a long frame. Refusal 12.
pub fn decode_long_with(columns: &Columns, number: u64) -> Result<Decoded, Refusal> {
    leading(Kind::Long, number)?;
    Ok(received(columns, Kind::Long, number))
}

/// What a number says as a frame of this kind. Refusal 12.
pub fn decode_with(columns: &Columns, kind: Kind, number: u64) -> Result<Decoded, Refusal> {
    match kind {
        Kind::Short => decode_short_with(columns, number),
        Kind::Long => decode_long_with(columns, number),
    }
}

/// `decode_short_with` the own columns. Refusal 12.
pub fn decode_short(number: u64) -> Result<Decoded, Refusal> {
    decode_short_with(Columns::own(), number)
}

/// `decode_long_with` the own columns. Refusal 12.
pub fn decode_long(number: u64) -> Result<Decoded, Refusal> {
    decode_long_with(Columns::own(), number)
}

/// `decode_with` the own columns. Refusal 12.
pub fn decode(kind: Kind, number: u64) -> Result<Decoded, Refusal> {
    decode_with(Columns::own(), kind, number)
}
