//! What the blocks of a test have shown, so that the test can name what it did not see.

use ttcrx_host::sys::*;
use ttcrx_host::tallies;
use ttcrx_host::testing::verdict;

const TRIGGER: (&str, u8, u8) = ("trigger (no, yes, missed)", 0, 2);
const FULL: (&str, u8, u8) = ("4,096 clocks", 0, 1);

/// A code taken apart: verdict, corrected flag, and the trigger as `TRIGGER` has it.
fn parts(code: u32) -> (u8, u8, u8) {
    let flag = |bit| u8::from(code & bit != 0);
    let trigger = flag(CODE_TRIGGER) + flag(CODE_MISSED);
    ((code & CODE_VERDICT) as u8, flag(CODE_CORRECTED), trigger)
}

tallies! {
    /// What was seen of records.
    pub struct Records {
        good: [verdict::GOOD, ("corrected flag", 0, 1), TRIGGER],
        dropped: [verdict::DROPPED, TRIGGER],
        triggers: [("no verdict, trigger (yes, missed)", 1, 2)],
        tops: [("record at the last number of (bunch, event)", 0, 1)],
    }
}

impl Records {
    pub fn seen(&mut self, records: &[Record]) {
        for record in records {
            let (verdict, corrected, trigger) = parts(record.code);
            match verdict {
                VERDICT_NONE => self.triggers.seen([trigger]),
                _ if verdict::is_good(verdict) => {
                    self.good.seen([verdict::of_good(verdict), corrected, trigger]);
                }
                _ => self.dropped.seen([verdict::of_dropped(verdict), trigger]),
            }
            if record.bunch == 4095 {
                self.tops.seen([0]);
            }
            if record.event == (1 << 24) - 1 {
                self.tops.seen([1]);
            }
        }
    }
}

tallies! {
    /// What was seen of whole blocks: their lengths, and what their ends cut.
    pub struct Blocks {
        lengths: [("clocks (0, 1, 2 to 4,095, 4,096)", 0, 3)],
        one: [("records of a block of one clock", 0, 1)],
        shares: [FULL, ("records (none, some, one for each clock)", 0, 2)],
        rooms: [FULL, ("room (exact, larger)", 0, 1)],
        begins: [("mode at the begin", 0, 3), ("words left", 0, 2)],
        ends: [("words left at the end", 0, 2)],
        held: [("held bits at the end", 0, 41)],
        wanted: [("ones wanted at the begin", 0, 41)],
        missed: [("trigger on the clock (first, last)", 0, 1), ("missed", 0, 1)],
    }
}

impl Blocks {
    /// A block of so many clocks with so much room, the states around it, and its records.
    pub fn seen(
        &mut self,
        (length, room): (usize, usize),
        (before, after): (&Receiver, &Receiver),
        records: &[Record],
    ) {
        let kind = match length {
            0 | 1 => length as u8,
            BLOCK_CLOCKS => 3,
            _ => 2,
        };
        self.lengths.seen([kind]);
        let count = records.len();
        match kind {
            0 => return,
            1 => self.one.seen([count as u8]),
            _ => {
                let share = u8::from(count > 0) + u8::from(count == length);
                self.shares.seen([kind - 2, share]);
                let larger = (room > RECORD_NUMBERS * length).into();
                self.rooms.seen([kind - 2, larger]);
            }
        }
        let mode = before.core.settings.control % 4;
        self.begins.seen([mode, before.core.sequence.left]);
        self.ends.seen([after.core.sequence.left]);
        self.held.seen([after.held.count]);
        self.wanted.seen([before.held.ones_wanted]);
        self.triggers(length, records);
    }

    /// A trigger is missed where a sequence is running: on the first clock one of the block before.
    fn triggers(&mut self, length: usize, records: &[Record]) {
        for record in records {
            let (_, _, trigger) = parts(record.code);
            for (clock, place) in [(0, 0), (1, length - 1)] {
                if trigger != 0 && record.place as usize == place {
                    self.missed.seen([clock, trigger - 1]);
                }
            }
        }
    }
}
