//! Ways to flip protected bits, and what the decoders answer to three and more of them, which is
//! more than the code promises to find.

use super::frame::{decode, Frame};
use super::library::Library;
use crate::model::Kind;
use crate::sys::*;
use std::iter;

/// The next greater number with as many ones.
fn next(bits: u64) -> u64 {
    let lowest = bits & bits.wrapping_neg();
    let carried = bits + lowest;
    carried | (bits ^ carried) / lowest >> 2
}

/// All ways to flip so many protected bits, one or more.
pub fn ways(kind: Kind, count: u32) -> impl Iterator<Item = u64> {
    let first = (1 << count) - 1;
    let all = iter::successors(Some(first), |&bits| Some(next(bits)));
    let protected = all.take_while(move |bits| bits >> kind.protected_bits() == 0);
    protected.map(|bits| bits << 1)
}

/// How many ways to flip protected bits of a frame there are, and how many are answered how.
#[derive(Clone, Copy, Debug, Default, PartialEq, Eq)]
pub struct Counts {
    pub ways: u32,
    /// Taken for another frame that arrived clean.
    pub clean: u32,
    /// Taken for another frame with one wrong bit.
    pub corrected: u32,
    /// Verdict 8.
    pub even: u32,
    /// Verdict 11.
    pub odd: u32,
    /// Verdict 9: the fixed bit is lost.
    pub fixed_bit: u32,
    /// Good, with the word that was sent.
    pub as_sent: u32,
}

/// Counts what a library answers to each way to flip so many bits of a properly encoded frame.
pub fn count(library: &dyn Library, sent: Frame, flips: u32) -> Counts {
    let word = decode(library, sent).word;
    let mut counts = Counts::default();
    for bits in ways(sent.kind(), flips) {
        let answer = decode(library, sent.flipped(bits));
        counts.ways += 1;
        match (answer.verdict, answer.corrected) {
            (DECODED_GOOD, _) if answer.word == word => counts.as_sent += 1,
            (DECODED_GOOD, 0) => counts.clean += 1,
            (DECODED_GOOD, 1) => counts.corrected += 1,
            (VERDICT_EVEN_SYNDROME, 0) => counts.even += 1,
            (VERDICT_ODD_SYNDROME, 0) => counts.odd += 1,
            (VERDICT_FIXED_BIT, 0) => counts.fixed_bit += 1,
            _ => {}
        }
    }
    counts
}
