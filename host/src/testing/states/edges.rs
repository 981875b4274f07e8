//! States at the edges of "Well formed" of document 01, clause by clause, and of what of
//! document 02 add.

use super::well_formed;
use crate::sys::{Core, Held, Receiver, Sequence};
use crate::testing::random::Random;

const EVENTS: u32 = 1 << 24;

/// A state that was changed in one respect, and whether it stays well formed.
#[derive(Clone, Copy, Debug)]
pub struct Edge {
    pub name: &'static str,
    pub good: bool,
    pub state: Receiver,
}

/// A change of a well-formed state, and whether it stays well formed.
type Change = (&'static str, bool, fn(&mut Core));

const IDS: [Change; 9] = [
    ("ID 0", false, |core| core.ids.id = 0),
    ("ID 1", true, |core| core.ids.id = 1),
    ("ID 16383", true, |core| core.ids.id = 16383),
    ("ID 16384", false, |core| core.ids.id = 16384),
    ("ID 65535", false, |core| core.ids.id = 65535),
    ("I2C ID 0", true, |core| core.ids.i2c = 0),
    ("I2C ID 63", true, |core| core.ids.i2c = 63),
    ("I2C ID 64", false, |core| core.ids.i2c = 64),
    ("I2C ID 255", false, |core| core.ids.i2c = 255),
];

const NUMBERS: [Change; 10] = [
    ("bunch 4095", true, |core| core.counters.bunch = 4095),
    ("bunch 4096", false, |core| core.counters.bunch = 4096),
    ("bunch 65535", false, |core| core.counters.bunch = 65535),
    ("event 2^24 - 1", true, |core| core.counters.event = EVENTS - 1),
    ("event 2^24", false, |core| core.counters.event = EVENTS),
    ("event 2^32 - 1", false, |core| core.counters.event = u32::MAX),
    ("status bit 5 is 0", true, |core| core.errors.status5 = 0),
    ("status bit 5 is 1", true, |core| core.errors.status5 = 1),
    ("status bit 5 is 2", false, |core| core.errors.status5 = 2),
    ("status bit 5 is 255", false, |core| core.errors.status5 = 255),
];

/// No clause limits these.
const FREE: [Change; 4] = [
    ("coarse delay 255", true, |core| core.settings.coarse = 255),
    ("control 255", true, |core| core.settings.control = 255),
    ("single errors 65535", true, |core| core.errors.single_errors = 65535),
    ("double errors 255", true, |core| core.errors.double_errors = 255),
];

/// An ID or a number at its edge.
pub fn numbers(random: &mut Random) -> Vec<Edge> {
    let changes = IDS.into_iter().chain(NUMBERS).chain(FREE);
    let edge = |(name, good, change): Change| {
        let mut state = well_formed(random);
        change(&mut state.core);
        Edge { name, good, state }
    };
    changes.map(edge).collect()
}

/// Every Config byte.
pub fn config_bytes(random: &mut Random) -> Vec<Edge> {
    let mut edges = Vec::new();
    for byte in 0..=255 {
        let mut state = well_formed(random);
        state.core.settings.config2 = byte;
        let (name, good) = ("Config 2", byte == 0x85 || byte == 0x05);
        edges.push(Edge { name, good, state });
        let mut state = well_formed(random);
        state.core.settings.config3 = byte;
        let (name, good) = ("Config 3", byte == 0xA7 || byte == 0x27);
        edges.push(Edge { name, good, state });
    }
    edges
}

/// Every byte in one fine delay register, in the other, and in both: good if it has a setting.
pub fn fine_delays(random: &mut Random) -> Vec<Edge> {
    let mut edges = Vec::new();
    for byte in 0..=255 {
        let good = byte < 240;
        for (name, first, second) in [
            ("fine delay 1", Some(byte), None),
            ("fine delay 2", None, Some(byte)),
            ("both fine delays", Some(byte), Some(byte)),
        ] {
            let mut state = well_formed(random);
            let settings = &mut state.core.settings;
            settings.fine1 = first.unwrap_or(settings.fine1);
            settings.fine2 = second.unwrap_or(settings.fine2);
            edges.push(Edge { name, good, state });
        }
    }
    edges
}

/// Every number of words left, with kept numbers at their edges.
pub fn words_left(random: &mut Random) -> Vec<Edge> {
    let mut edges = Vec::new();
    for left in 0..=255 {
        for event in [0, 1, 4095, 4096, EVENTS - 1, EVENTS, EVENTS + 1, u32::MAX] {
            let mut state = well_formed(random);
            state.core.sequence = Sequence { left, event };
            edges.push(Edge {
                name: "words left",
                good: match left {
                    0 => event == 0,
                    1 | 2 => event < EVENTS,
                    _ => false,
                },
                state,
            });
        }
    }
    edges
}

/// Every number of held bits. With format 0 there are at most 15, with format 1 at most 41; a
/// waiting receiver holds none. The greatest 1 stands at the format bit, after it, or before it.
pub fn held_bits(random: &mut Random) -> Vec<Edge> {
    let mut edges = Vec::new();
    for count in 0..=255u8 {
        let mut state = well_formed(random);
        let mut number = |bits, good| {
            state.held = Held { count, bits, ..Held::default() };
            let name = "held";
            edges.push(Edge { name, good, state });
        };
        number(0, count <= 15);
        for place in 0..64 {
            let long = place + 2 == count && count <= 41;
            let short = place + 2 < count && count <= 15;
            for bits in [1 << place, 1 << place | 1, u64::MAX >> (63 - place)] {
                number(bits, long || short);
            }
        }
    }
    edges
}

/// Held bits that are well formed where no ones are wanted: as few and as many as there may be, of
/// both frames.
const HELD: [(u8, u64); 8] = [
    (1, 0),
    (2, 0),
    (2, 1),
    (15, 0),
    (15, 0x1FFF),
    (16, 0x4000),
    (41, 1 << 39),
    (41, (1 << 40) - 1),
];

/// Every number of ones wanted: without held bits, beside some, and beside a bit with no bit held.
pub fn ones_wanted(random: &mut Random) -> Vec<Edge> {
    let mut edges = Vec::new();
    for ones_wanted in 0..=255 {
        let mut beside = |(count, bits), good| {
            let held = Held { count, ones_wanted, bits };
            let state = Receiver { held, ..well_formed(random) };
            edges.push(Edge { name: "ones wanted", good, state });
        };
        beside((0, 0), ones_wanted <= 41);
        beside((0, 1), false);
        for bits in HELD {
            beside(bits, ones_wanted == 0);
        }
    }
    edges
}

/// How many edges all clauses have, at the least.
pub const STATES: u64 = 23 + 2 * 256 + 3 * 256 + 8 * 256 + 193 * 256 + 10 * 256;

/// The edges of all clauses.
pub fn all(random: &mut Random) -> Vec<Edge> {
    let clauses = [numbers, config_bytes, fine_delays, words_left, held_bits, ones_wanted];
    let edges = clauses.map(|edges| edges(random));
    edges.concat()
}
