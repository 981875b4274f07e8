//! Properly encoded frames, and what document 01's table, amended by Q-4 of document 02, says of
//! their fields.

use ttcrx_host::model::{Columns, Fields, Kind};
use ttcrx_host::sys::*;
use ttcrx_host::testing::frame::Frame;
use ttcrx_host::testing::library::{Library, Model};
use ttcrx_host::testing::random::Random;
use ttcrx_host::testing::traffic::{self, LIVELY};

/// A properly encoded frame: any fields in range, the fixed bit 1 if long.
#[derive(Clone, Copy, Debug)]
pub enum Sent {
    Short(u8),
    Long(Fields),
}

impl Sent {
    /// A frame for any row of the table at the receiver of this ID.
    pub fn any(random: &mut Random, id: u16) -> Sent {
        match random.once_in(3) {
            true => Sent::Short(random.byte()),
            false => Sent::Long(traffic::fields(random, id, LIVELY)),
        }
    }

    /// The frame of this kind with this word; none without the fixed bit.
    pub fn of(kind: Kind, word: u32) -> Option<Sent> {
        let [data, sub_address, _, _] = word.to_le_bytes();
        match (kind, word >> 16 & 1) {
            (Kind::Short, _) => Some(Sent::Short(data)),
            (Kind::Long, 0) => None,
            (Kind::Long, _) => Some(Sent::Long(Fields {
                address: (word >> 18) as u16,
                e: (word >> 17 & 1) as u8,
                sub_address,
                data,
            })),
        }
    }

    /// Encoded with these columns.
    pub fn frame(self, columns: &Columns) -> Frame {
        match self {
            Sent::Short(data) => Frame::encoded_with(columns, Kind::Short, data.into()),
            Sent::Long(fields) => Frame::long_with(columns, fields),
        }
    }

    /// "Its 8 data or 32 word bits."
    pub fn word(self) -> u32 {
        match self {
            Sent::Short(data) => data.into(),
            Sent::Long(fields) => {
                let address = u32::from(fields.address) << 18;
                let e_and_fixed = u32::from(fields.e) << 17 | 1 << 16;
                let sub_address = u32::from(fields.sub_address) << 8;
                address | e_and_fixed | sub_address | u32::from(fields.data)
            }
        }
    }

    /// "Fate of a finished frame": the verdict of the first row that holds for these fields.
    pub fn row(self, id: u16) -> u8 {
        let Sent::Long(fields) = self else {
            return VERDICT_BROADCAST;
        };
        let fine_delay = [0, 1].contains(&fields.sub_address);
        let rows = [
            (VERDICT_OTHER_ADDRESS, ![0, id].contains(&fields.address)),
            (VERDICT_OUTSIDE, fields.e == 1),
            (VERDICT_NO_SETTING, fine_delay && fields.data >= 240),
            (VERDICT_STORED, [0, 1, 2, 3].contains(&fields.sub_address)),
            (VERDICT_RESET, fields.sub_address == 6),
        ];
        let first = rows.iter().find(|(_, holds)| *holds);
        first.map_or(VERDICT_OTHER_SUB_ADDRESS, |(verdict, _)| *verdict)
    }

    /// The effect of that row, and status bit 5 at 1; "the rest of ... state is the idle list's".
    pub fn effect(self, idle: Receiver) -> Receiver {
        let ids = idle.core.ids;
        let mut state = idle;
        state.core.errors.status5 = 1;
        match (self.row(ids.id), self) {
            (VERDICT_BROADCAST, Sent::Short(data)) => clear(&mut state.core.counters, data),
            (VERDICT_STORED, Sent::Long(fields)) => store(&mut state.core.settings, fields),
            (VERDICT_RESET, _) => state = Model.fresh(ids.id, ids.i2c).receiver,
            _ => {}
        }
        state
    }
}

/// "Data bit 0 clears the bunch counter, bit 1 the event counter."
fn clear(counters: &mut Counters, data: u8) {
    if data & 0b01 != 0 {
        counters.bunch = 0;
    }
    if data & 0b10 != 0 {
        counters.event = 0;
    }
}

/// "Data goes to that register."
fn store(settings: &mut Settings, fields: Fields) {
    let register = match fields.sub_address {
        0 => &mut settings.fine1,
        1 => &mut settings.fine2,
        2 => &mut settings.coarse,
        _ => &mut settings.control,
    };
    *register = fields.data;
}
