//! What the lists that carry a frame have tried.

use crate::runner::Run;
use crate::sent::Sent;
use ttcrx_host::model::{Fields, Kind};
use ttcrx_host::sys::{Errors, PLACES_LONG, PLACES_SHORT, VERDICT_NO_SETTING, VERDICT_STORED};
use ttcrx_host::tallies;
use ttcrx_host::testing::frame::Frame;
use ttcrx_host::testing::verdict::{of_good, GOOD as ROW};

const FLIPS: (&str, u8, u8) = ("flips", 0, 2);
const TRIGGER: (&str, u8, u8) = ("last trigger", 0, 1);
const LEFT: (&str, u8, u8) = ("words left", 0, 2);
const ADDRESS: (&str, u8, u8) = ("address (0, own, foreign)", 0, 2);
const SUB_ADDRESS: (&str, u8, u8) = ("sub-address (0 to 3, 6, other)", 0, 2);
const OF_TWO: (&str, u8, u8) = ("one of two flips", 0, 1);

tallies! {
    pub struct Tallies {
        rows: [ROW, FLIPS, TRIGGER, LEFT],
        broadcasts: [("broadcast bits", 0, 3), FLIPS, TRIGGER, LEFT],
        fields: [ADDRESS, ("E", 0, 1), SUB_ADDRESS, FLIPS],
        registers: [("register", 0, 3), ("own address", 0, 1), FLIPS],
        no_setting: [("no setting, register", 0, 1), ("own address", 0, 1), FLIPS],
        status5: [("status bit 5 of the idle list", 0, 1), FLIPS],
        single: [ROW, ("single errors at one flip (0, more, 65534, full)", 0, 3)],
        double: [ROW, ("double errors at two flips (0, more, 254, full)", 0, 3)],
        short_flips: [OF_TWO, ("place in a short frame", 1, PLACES_SHORT)],
        long_flips: [OF_TWO, ("place in a long frame", 1, PLACES_LONG)],
    }
}

impl Tallies {
    /// A frame and its fields, these bits flipped, and the idle list's run.
    pub fn frame(&mut self, (sent, frame): (Sent, Frame), flipped: u64, idle: &Run) {
        let flips = flipped.count_ones() as u8;
        let id = idle.end.core.ids.id;
        let row = sent.row(id);
        let (trigger, left) = (idle.last().trigger, idle.before_last.core.sequence.left);
        self.rows.seen([of_good(row), flips, trigger, left]);
        match sent {
            Sent::Short(data) => self.broadcasts.seen([data % 4, flips, trigger, left]),
            Sent::Long(fields) => self.long(fields, id, row, flips),
        }
        let errors = idle.end.core.errors;
        self.status5.seen([errors.status5, flips]);
        self.errors(row, flips, errors);
        self.places(frame, flipped);
    }

    fn long(&mut self, fields: Fields, id: u16, row: u8, flips: u8) {
        let address = match fields.address {
            0 => 0,
            address if address == id => 1,
            _ => 2,
        };
        let sub_address = match fields.sub_address {
            0..=3 => 0,
            6 => 1,
            _ => 2,
        };
        self.fields.seen([address, fields.e, sub_address, flips]);
        match row {
            VERDICT_STORED => self.registers.seen([fields.sub_address, address, flips]),
            VERDICT_NO_SETTING => self.no_setting.seen([fields.sub_address, address, flips]),
            _ => {}
        }
    }

    fn errors(&mut self, row: u8, flips: u8, errors: Errors) {
        let (single, double) = (errors.single_errors, errors.double_errors);
        match flips {
            1 => self.single.seen([of_good(row), edge(single, 65535)]),
            2 => self.double.seen([of_good(row), edge(double.into(), 255)]),
            _ => {}
        }
    }

    fn places(&mut self, frame: Frame, flipped: u64) {
        let two = (flipped.count_ones() == 2).into();
        for place in frame.places().filter(|&place| flipped & frame.at(place) != 0) {
            match frame.kind() {
                Kind::Short => self.short_flips.seen([two, place]),
                Kind::Long => self.long_flips.seen([two, place]),
            }
        }
    }
}

/// Where a counter with this top is: at 0, between, one below the top, full.
pub fn edge(number: u16, full: u16) -> u8 {
    match full - number {
        0 => 3,
        1 => 2,
        _ if number == 0 => 0,
        _ => 1,
    }
}
