//! Q-11 of document 02, "The encoder's own columns": the columns over which frames are encoded and
//! decoded, and their check.
//!
//! Each of the 40 columns is checked by itself: all that is wrong with it is collected, from the
//! places of its ones and from the columns before it in its group. The least index with a fault is
//! told.

use super::{Kind, Refusal};

/// "Frames on channel B": document 01's columns of data bits 0 to 31; "the short frame uses the
/// first eight".
pub const COLUMNS: [u8; 32] = [
    7, 11, 13, 14, 19, 21, 22, 25, 26, 28, 35, 37, 38, 41, 42, 44, 49, 50, 52, 56, 67, 69, 70, 73,
    74, 76, 81, 82, 84, 88, 97, 98,
];

/// "eight for short, then 32 for long frames".
const SHORT: usize = Kind::Short.data_bits() as usize;
const LONG: usize = Kind::Long.data_bits() as usize;

/// "40 column numbers from bit 0 on".
const COUNT: usize = SHORT + LONG;

/// The bytes of data that have the columns: one of a short frame, then four of a long one.
const BYTES: usize = COUNT / 8;

/// Good columns for both groups.
#[derive(Clone, Debug, PartialEq, Eq)]
pub struct Columns {
    numbers: [u8; COUNT],
    /// The check number of every value of each byte, with all other data bits 0.
    byte_checks: [[u8; 256]; BYTES],
}

/// Why lent columns are refused: 27, or 28 with the index of the first bad column. It is 0 with 27.
#[derive(Clone, Copy, Debug, PartialEq, Eq)]
pub struct BadColumns {
    pub refusal: Refusal,
    pub index: u8,
}

static OWN: Columns = Columns::of(own_numbers());

/// The columns of document 01 as 40 numbers.
const fn own_numbers() -> [u8; COUNT] {
    let mut numbers = [0; COUNT];
    let mut bit = 0;
    while bit < LONG {
        if bit < SHORT {
            numbers[bit] = COLUMNS[bit];
        }
        numbers[SHORT + bit] = COLUMNS[bit];
        bit += 1;
    }
    numbers
}

/// The check numbers of all values of each byte. Each column is that of a bit of its byte. A value
/// with this bit 1 and none above has the check number of the value without it, xor the column.
const fn byte_checks(numbers: &[u8; COUNT]) -> [[u8; 256]; BYTES] {
    let mut checks = [[0; 256]; BYTES];
    let mut index = 0;
    while index < COUNT {
        let (byte, bit) = (index / 8, 1 << (index % 8));
        let mut below = 0;
        while below < bit {
            checks[byte][bit + below] = checks[byte][below] ^ numbers[index];
            below += 1;
        }
        index += 1;
    }
    checks
}

impl Columns {
    /// Document 01's columns for both groups.
    #[inline]
    pub fn own() -> &'static Columns {
        &OWN
    }

    /// The columns that a caller lends: "27 not 40 numbers; 28 first bad column, its index told".
    pub fn lent(numbers: &[u8]) -> Result<Columns, BadColumns> {
        let Ok(numbers) = numbers.try_into() else {
            return Err(BadColumns { refusal: Refusal::Columns, index: 0 });
        };
        let bad = (0..COUNT).filter(|&index| !faults(&numbers, index).is_empty());
        match bad.min() {
            None => Ok(Columns::of(numbers)),
            Some(first) => Err(BadColumns { refusal: Refusal::Column, index: first as u8 }),
        }
    }

    /// The columns with these numbers, which are good.
    const fn of(numbers: [u8; COUNT]) -> Columns {
        Columns { byte_checks: byte_checks(&numbers), numbers }
    }

    /// The 40 numbers, as they would be lent.
    pub fn numbers(&self) -> &[u8] {
        &self.numbers
    }

    /// The columns of a kind's data bits, from bit 0 on.
    fn group(&self, kind: Kind) -> &[u8] {
        match kind {
            Kind::Short => &self.numbers[..SHORT],
            Kind::Long => &self.numbers[SHORT..],
        }
    }

    /// "The exclusive-or of the columns of the data bits that are 1."
    pub(super) fn check_number(&self, kind: Kind, data: u32) -> u8 {
        let columns = (0..).zip(self.group(kind));
        let in_use = columns.filter(|(bit, _)| data >> bit & 1 == 1);
        in_use.fold(0, |check, (_, column)| check ^ column)
    }

    /// `check_number`, put together from the bytes of the data.
    #[inline]
    pub(super) fn quick_check_number(&self, kind: Kind, data: u32) -> u8 {
        let [a, b, c, d] = data.to_le_bytes().map(usize::from);
        let [short, byte_0, byte_1, byte_2, byte_3] = &self.byte_checks;
        match kind {
            Kind::Short => short[a],
            Kind::Long => byte_0[a] ^ byte_1[b] ^ byte_2[c] ^ byte_3[d],
        }
    }
}

/// What can be wrong with a column.
enum Fault {
    EvenCount,
    UnderThree,
    Outside,
    EqualToEarlier,
}

/// The kind that the column at this index belongs to, and the index of its group's first column.
fn group_of(index: usize) -> (Kind, usize) {
    match index < SHORT {
        true => (Kind::Short, 0),
        false => (Kind::Long, SHORT),
    }
}

/// All that is wrong with the column at this index. Q-11: "Each group must be distinct numbers with
/// an odd count of ones, three or more, inside 5 or 7 bits." "Of two equal columns the later is
/// bad." A group's columns are inside as many bits as its frames have check bits.
fn faults(numbers: &[u8; COUNT], index: usize) -> Vec<Fault> {
    let (kind, first) = group_of(index);
    let (earlier, column) = (&numbers[first..index], numbers[index]);
    let mut ones = (0..8).filter(|place| column >> place & 1 == 1);
    let count = ones.clone().count();
    let mut faults = Vec::new();
    if count % 2 == 0 {
        faults.push(Fault::EvenCount);
    }
    if count < 3 {
        faults.push(Fault::UnderThree);
    }
    if ones.any(|place| place >= kind.check_bits()) {
        faults.push(Fault::Outside);
    }
    if earlier.contains(&column) {
        faults.push(Fault::EqualToEarlier);
    }
    faults
}
