//! "Stored lines" of document 01: a frame as a line.

use super::frame::leading;
use super::{Kind, Refusal};

/// The frame of a line without its line feed. Refusals 10, 11 and 12 in this order.
pub fn read_line(characters: &[u8]) -> Result<(Kind, u64), Refusal> {
    let kind = match characters.len() {
        4 => Kind::Short,
        11 => Kind::Long,
        _ => return Err(Refusal::LineLength),
    };
    let mut number = 0;
    for &character in characters {
        let digit = char::from(character).to_digit(16).ok_or(Refusal::Character)?;
        number = 16 * number + u64::from(digit);
    }
    leading(kind, number)?;
    Ok((kind, number))
}

/// Writes capital digits and a line feed to the front of the buffer and gives their count; "its
/// bytes beyond stay". Refusals 12 and 14 in this order.
pub fn write_line(kind: Kind, number: u64, buffer: &mut [u8]) -> Result<usize, Refusal> {
    leading(kind, number)?;
    let line = format!("{number:0digits$X}\n", digits = kind.digits());
    let front = buffer.get_mut(..line.len()).ok_or(Refusal::LineBuffer)?;
    front.copy_from_slice(line.as_bytes());
    Ok(line.len())
}
