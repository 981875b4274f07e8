//! "Stored lines" of document 01, with Q-8 of document 02: what is printed of the line of a frame.

use super::verdict::{has_word, is_dropped};
use crate::model::Kind;
use crate::sys::Outputs;

/// What is printed after the number of a line of this kind, if the clock of its last bit shows this.
/// A word that is longer than the line's kind has it is cut to its last digits.
pub fn fate(kind: Kind, shown: &Outputs) -> String {
    let Outputs { verdict, corrected, place, word, .. } = *shown;
    let digits = kind.word_digits();
    let low = u64::from(word) % (1 << kind.data_bits());
    match (has_word(verdict), is_dropped(verdict)) {
        (true, _) => format!("{verdict} {corrected} {low:0digits$X} {place}"),
        (false, true) => format!("{verdict} {corrected} -"),
        (false, false) => format!("{verdict} {corrected} {low:0digits$X}"),
    }
}
