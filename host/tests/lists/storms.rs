//! Q-8 of document 02, "Say what was wrong and which bit", over lists that carry a frame of which
//! three protected bits or more are flipped.

use crate::frames::{clean, dropped, one_flip, End, Frames, List};
use crate::sent::Sent;
use crate::tallies::edge;
use std::iter;
use ttcrx_host::model::{Columns, Kind};
use ttcrx_host::sys::*;
use ttcrx_host::tallies;
use ttcrx_host::testing::columns::Tables;
use ttcrx_host::testing::frame::Frame;
use ttcrx_host::testing::library::Library;
use ttcrx_host::testing::random::Random;
use ttcrx_host::testing::traffic::storm;

tallies! {
    struct Tallies {
        short: [("flips of a short frame", 3, PLACES_SHORT)],
        long: [("flips of a long frame", 3, PLACES_LONG)],
        fates: [("odd number", 0, 1), ("fate (another frame, fixed bit, dropped)", 0, 2)],
        double: [("verdict 11, not 8", 0, 1), ("double errors (0, more, 254, full)", 0, 3)],
        places: [("place of a long frame that is taken for another", 1, PLACES_LONG)],
    }
}

impl Tallies {
    /// A frame with these bits flipped, the idle list's state, and what the last clock shows.
    fn storm(&mut self, frame: Frame, flipped: u64, idle: &Receiver, shown: Outputs) {
        let flips = flipped.count_ones() as u8;
        match frame.kind() {
            Kind::Short => self.short.seen([flips]),
            Kind::Long => self.long.seen([flips]),
        }
        let double = edge(idle.core.errors.double_errors.into(), 255);
        let fate = match shown.verdict {
            VERDICT_EVEN_SYNDROME | VERDICT_ODD_SYNDROME => {
                let odd = shown.verdict == VERDICT_ODD_SYNDROME;
                self.double.seen([odd.into(), double]);
                2
            }
            VERDICT_FIXED_BIT => 1,
            _ => 0,
        };
        self.fates.seen([flips % 2, fate]);
        if frame.kind() == Kind::Long && shown.corrected == 1 {
            self.places.seen([shown.place]);
        }
    }
}

/// The table's row for this word, if the flip at this place, none with 0, was corrected. Without the
/// fixed bit that is verdict 9, with the word, flag and place 0.
fn taken_for(kind: Kind, word: u32, place: u8, idle: End) -> End {
    match (Sent::of(kind, word), place) {
        (Some(sent), 0) => clean(sent, idle),
        (Some(sent), _) => one_flip(clean(sent, idle), place),
        (None, _) => {
            let (outputs, state) = dropped(idle, VERDICT_FIXED_BIT);
            (Outputs { word, ..outputs }, state)
        }
    }
}

/// What is due for a frame that arrives so: that of a frame encoded with these columns which is at
/// most one flip away. If there is none, 11 for an odd number of flips and 8 for an even one.
fn due(columns: &Columns, arrived: Frame, flipped: u64, idle: End) -> End {
    let one_flip = arrived.places().map(|place| (place, arrived.flipped(arrived.at(place))));
    let mut near = iter::once((0, arrived)).chain(one_flip);
    let kind = arrived.kind();
    let encoded =
        near.find(|(_, frame)| Frame::encoded_with(columns, kind, frame.data()) == *frame);
    match (encoded, flipped.count_ones() % 2) {
        (Some((place, frame)), _) => taken_for(kind, frame.data(), place, idle),
        (None, 0) => dropped(idle, VERDICT_EVEN_SYNDROME),
        (None, _) => dropped(idle, VERDICT_ODD_SYNDROME),
    }
}

/// Each list with three sets of flips, and with the next of these columns.
pub fn check(library: &dyn Library, tables: Tables, seed: u64, lists: u64) {
    let mut frames = Frames::new(library, "lists that carry a frame with any number of flips");
    let mut tallies = Tallies::default();
    let mut random = Random::new(seed);
    for _ in 0..lists {
        let table = tables(&mut random);
        let list = List::any(&mut random, table);
        let (frame, columns) = (list.frame(), list.columns());
        let idle = frames.idle(&list);
        for flipped in [(); 3].map(|()| storm(&mut random, frame, 3)) {
            let idle_end = (idle.last(), idle.end);
            let due = due(&columns, frame.flipped(flipped), flipped, idle_end);
            frames.carries(&list, flipped, &idle, due);
            tallies.storm(frame, flipped, &idle.end, due.0);
        }
    }
    tallies.assert_complete();
    frames.at_least(lists * 4 * 30);
}
