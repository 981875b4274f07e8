//! "Stored lines" of document 01, with what Q-8 of document 02 adds: the text of a reported line.

use super::{Fate, Kind, Refusal, Verdict};

/// The longest line: a number of 20 digits, verdict 10, corrected flag, a word of 8 digits, a place
/// of 2, four spaces and the line feed.
pub(super) const LONGEST: usize = 20 + 2 + 1 + 8 + 2 + 4 + 1;

const DIGITS: &[u8; 16] = b"0123456789ABCDEF";

/// A line that is being written, from its front.
pub(super) struct Text {
    bytes: [u8; LONGEST],
    length: usize,
}

impl Text {
    /// "Line number, verdict, corrected flag, word", and the place; "or line number, `!`, refusal".
    #[inline]
    pub(super) fn of(line: u64, said: Result<(Kind, Fate), Refusal>) -> Text {
        let mut text = Text { bytes: [0; LONGEST], length: 0 };
        text.decimal(line);
        match said {
            Ok((kind, fate)) => text.fate(kind, fate),
            Err(refusal) => text.refusal(refusal),
        }
        text.push(b'\n');
        text
    }

    /// The whole line, with its line feed.
    #[inline]
    pub(super) fn line(&self) -> &[u8] {
        &self.bytes[..self.length]
    }

    #[inline]
    fn push(&mut self, byte: u8) {
        self.bytes[self.length] = byte;
        self.length += 1;
    }

    /// The digits are found from the last one on.
    #[inline]
    fn decimal(&mut self, mut number: u64) {
        let count = number.checked_ilog10().unwrap_or(0) as usize + 1;
        let end = self.length + count;
        for place in self.bytes[self.length..end].iter_mut().rev() {
            *place = b'0' + (number % 10) as u8;
            number /= 10;
        }
        self.length = end;
    }

    /// Verdict, corrected flag, "word (2 or 8 capital digits, `-` for 7 and 8)", and by Q-8 for 11.
    /// The digits are those of the line's own kind, the low ones of the word: at a receiver that
    /// held bits the frame finished may be of the other kind. If none is, the word is 0. Q-8:
    /// "prints that place as a last field for verdicts 1 to 6, 9 and 10".
    #[inline]
    fn fate(&mut self, kind: Kind, fate: Fate) {
        self.push(b' ');
        self.decimal(fate.verdict as u64);
        self.push(b' ');
        self.push(DIGITS[usize::from(fate.corrected())]);
        self.push(b' ');
        match fate.verdict {
            Verdict::StopBit | Verdict::EvenSyndrome | Verdict::OddSyndrome => self.push(b'-'),
            _ => self.hexadecimal(fate.word, kind.word_digits()),
        }
        if matches!(fate.verdict as u8, 1..=6 | 9 | 10) {
            self.push(b' ');
            self.decimal(fate.place().into());
        }
    }

    #[inline]
    fn hexadecimal(&mut self, word: u32, digits: usize) {
        let end = self.length + digits;
        let mut left = word;
        for place in self.bytes[self.length..end].iter_mut().rev() {
            *place = DIGITS[(left & 0xF) as usize];
            left >>= 4;
        }
        self.length = end;
    }

    /// "`!`, refusal", in decimal.
    fn refusal(&mut self, refusal: Refusal) {
        self.push(b' ');
        self.push(b'!');
        self.push(b' ');
        self.decimal(refusal as u64);
    }
}
