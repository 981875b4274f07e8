//! Clocks that finish a frame, with what is expected of them written down without the model.

use ttcrx_host::sys::*;
use ttcrx_host::testing::compare::Both;
use ttcrx_host::testing::frame::Frame;
use ttcrx_host::testing::library::{Library, Model};

/// The receiver's own address, that of every receiver, and another.
pub const ID: u16 = 5;
pub const ALL: u16 = ADDRESS_ALL;
pub const OTHER: u16 = 6;

/// Address, E, sub-address and data of a frame, and its verdict at ID 5.
pub type Row = (u16, u8, u8, u8, u8);

/// The word of these fields, with the fixed bit.
pub fn word(address: u16, e: u8, sub_address: u8, data: u8) -> u32 {
    let upper = u32::from(address) << 18 | u32::from(e) << 17 | 1 << 16;
    upper | u32::from(sub_address) << 8 | u32::from(data)
}

/// Verdict, place and word that a clock shows. The corrected flag is 0 where the place is.
pub type Said = (u8, u8, u32);

/// The last bit of a frame that arrives so. Answer and state are those of an idle clock, but for
/// what is said of the frame, status bit 5, and this change.
#[track_caller]
pub fn finishes(
    both: &Both,
    (core, trigger): (Core, u8),
    arrived: Frame,
    (verdict, place, word): Said,
    change: impl Fn(&mut Receiver),
) {
    let waiting = Receiver { core, held: Held::default() };
    let mut expected = both.clock(waiting, trigger, 1);
    let corrected = (place != 0).into();
    expected.outputs = Outputs { verdict, corrected, place, word, ..expected.outputs };
    expected.receiver.core.errors.status5 = 1;
    change(&mut expected.receiver);
    let held = arrived.front(arrived.length - 1).held();
    let last = (arrived.number & 1) as u8;
    let answer = both.clock(Receiver { core, held }, trigger, last);
    both.same((core, arrived, trigger), answer, expected);
}

pub fn nothing(_: &mut Receiver) {}

pub fn single_error(receiver: &mut Receiver) {
    let single = &mut receiver.core.errors.single_errors;
    *single = single.saturating_add(1);
}

pub fn double_error(receiver: &mut Receiver) {
    let double = &mut receiver.core.errors.double_errors;
    *double = double.saturating_add(1);
}

/// The effect of a row.
pub fn effect((_, _, sub_address, data, verdict): Row, receiver: &mut Receiver) {
    let Core { ids, settings, .. } = &mut receiver.core;
    match (verdict, sub_address) {
        (VERDICT_RESET, _) => *receiver = Model.fresh(ids.id, ids.i2c).receiver,
        (VERDICT_STORED, 0) => settings.fine1 = data,
        (VERDICT_STORED, 1) => settings.fine2 = data,
        (VERDICT_STORED, 2) => settings.coarse = data,
        (VERDICT_STORED, _) => settings.control = data,
        _ => {}
    }
}
