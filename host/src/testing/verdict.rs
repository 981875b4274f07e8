//! "Fate of a finished frame" of document 01, with verdicts 10 and 11 of of document 02:
//! which verdicts are of which sort, as numbers of ttcrx.h, and as ranges that a tally counts.

/// Every number, 0 for a clock on which no frame finished.
pub const ANY: (&str, u8, u8) = ("verdict", 0, 11);

/// Of a finished frame.
pub const FINISHED: (&str, u8, u8) = ("verdict", 1, 11);

/// Of a frame that was not dropped, 1 to 6 and 10, as `of_good` gives it: a range has no gaps.
pub const GOOD: (&str, u8, u8) = ("last digit of the verdict (0 of 10)", 0, 6);

/// Of a frame that was dropped, 7 to 9 and 11, as `of_dropped` gives it.
pub const DROPPED: (&str, u8, u8) = ("verdict (10 for 11)", 7, 10);

/// The last digit of the verdict of a frame that was not dropped.
pub fn of_good(verdict: u8) -> u8 {
    assert!(is_good(verdict), "verdict {verdict}");
    verdict % 10
}

/// The verdict of a frame that was dropped, or 10 for 11.
pub fn of_dropped(verdict: u8) -> u8 {
    assert!(is_dropped(verdict), "verdict {verdict}");
    verdict.min(10)
}

/// A frame finished on this clock.
pub fn is_finished(verdict: u8) -> bool {
    verdict != 0
}

/// "\"Executed\" means verdicts 1 to 4."
pub fn is_executed(verdict: u8) -> bool {
    matches!(verdict, 1..=4)
}

/// The frame may have been corrected: "for 0, 7, 8 and 9 the flag is 0", and for 11.
pub fn is_good(verdict: u8) -> bool {
    matches!(verdict, 1..=6 | 10)
}

/// "Double error counter up."
pub fn is_dropped(verdict: u8) -> bool {
    matches!(verdict, 7..=9 | 11)
}

/// "The word shown is 0 for verdicts 0, 7 and 8, else the corrected data": 0 for 11, too. Q-8: the
/// place is printed "for verdicts 1 to 6, 9 and 10", which are the same.
pub fn has_word(verdict: u8) -> bool {
    is_good(verdict) || verdict == 9
}
