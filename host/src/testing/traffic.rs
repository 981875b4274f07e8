//! What is sent to a receiver: frames of every fate, bursts, idle, noise and runs of ones on
//! channel B, and triggers on channel A.

use super::calls::fine_delay;
use super::coverage::{assert_seen, Tally};
use super::frame::{Frame, RUN};
use super::random::Random;
use crate::model::{block, Columns, Fields, Kind};

/// How rare the frames are that RESET and that clear counters: once in so many.
#[derive(Clone, Copy, Debug)]
pub struct Habit {
    pub reset: u64,
    pub clear: u64,
}

/// RESET and clears as often as any other frame.
pub const LIVELY: Habit = Habit { reset: 8, clear: 2 };

/// Counters run for thousands of clocks.
pub const RARE: Habit = Habit { reset: 500, clear: 20 };

/// Counters reach their tops.
pub const QUIET: Habit = Habit { reset: 20_000, clear: 5_000 };

/// What happens to a frame on its way. Flips are of protected bits; those of start, format and
/// stop are named.
#[derive(Clone, Copy, Debug)]
enum Damage {
    None,
    OneFlip,
    TwoFlips,
    ThreeFlips,
    /// Four flips up to all protected bits.
    Storm,
    Stop,
    FlipAndStop,
    Start,
    Format,
}

const DAMAGE: &str = "damage (none, 1, 2, 3, more flips, stop, flip and stop, start, format)";

impl Damage {
    /// The receiver may find a bad stop bit, in this frame or in bits that it takes for one.
    fn slips(self) -> bool {
        matches!(self, Damage::Stop | Damage::FlipAndStop | Damage::Start | Damage::Format)
    }
}

/// Clean frames and one flip are the most frequent, so that every verdict is.
fn damage(random: &mut Random) -> Damage {
    match random.below(26) {
        0..=9 => Damage::None,
        10..=16 => Damage::OneFlip,
        17 | 18 => Damage::TwoFlips,
        19 | 20 => Damage::ThreeFlips,
        21 => Damage::Storm,
        22 => Damage::Stop,
        23 => Damage::FlipAndStop,
        24 => Damage::Start,
        _ => Damage::Format,
    }
}

/// A broadcast.
pub fn short(random: &mut Random, habit: Habit) -> Frame {
    short_with(random, Columns::own(), habit)
}

/// The same with these columns.
fn short_with(random: &mut Random, columns: &Columns, habit: Habit) -> Frame {
    let clears = if random.once_in(habit.clear) { 3 } else { 0 };
    let data = random.byte() & (0xFC | clears);
    Frame::encoded_with(columns, Kind::Short, data.into())
}

/// Address 0, this ID, and foreign ones: neighbours, one bit away, any.
fn address(random: &mut Random, id: u16) -> u16 {
    let one_bit = id ^ 1 << random.below(14);
    let foreign = [id.wrapping_sub(1), id + 1, one_bit, random.number() as u16];
    match random.below(5) {
        0 => random.pick(&foreign) % 16384,
        1 | 2 => 0,
        _ => id,
    }
}

/// The registers, those beside them and beside RESET, any; RESET as seldom as the habit has it.
fn sub_address(random: &mut Random, habit: Habit) -> u8 {
    if random.once_in(habit.reset) {
        return 6;
    }
    let any = random.byte();
    random.pick(&[0, 1, 2, 3, 3, 3, 4, 5, 7, 0x46, 0x83, any])
}

/// Any byte; for a fine delay often one that belongs to no setting, so that verdict 10 is frequent.
fn data(random: &mut Random, sub_address: u8) -> u8 {
    match sub_address {
        0 | 1 => fine_delay(random),
        _ => random.byte(),
    }
}

/// The fields of a long frame, of any fate at the receiver of this ID.
pub fn fields(random: &mut Random, id: u16, habit: Habit) -> Fields {
    let sub_address = sub_address(random, habit);
    Fields {
        address: address(random, id),
        e: random.once_in(5).into(),
        sub_address,
        data: data(random, sub_address),
    }
}

/// A long frame with these columns. The fixed bit is 0 once in 8 times.
fn long_with(random: &mut Random, columns: &Columns, id: u16, habit: Habit) -> Frame {
    let right = Frame::long_with(columns, fields(random, id, habit));
    let without_fixed_bit = right.data() & !(1 << 16);
    match random.once_in(8) {
        true => Frame::encoded_with(columns, Kind::Long, without_fixed_bit),
        false => right,
    }
}

/// So many protected bits of the frame, which stand between format and stop.
pub fn protected(random: &mut Random, frame: Frame, count: u32) -> u64 {
    let mut bits = 0u64;
    while bits.count_ones() < count {
        bits |= 2 << random.below(frame.kind().protected_bits().into());
    }
    bits
}

/// At least so many protected bits of the frame, up to all of them.
pub fn storm(random: &mut Random, frame: Frame, least: u32) -> u64 {
    let most = u32::from(frame.kind().protected_bits());
    let more = random.below(u64::from(most - least) + 1) as u32;
    protected(random, frame, least + more)
}

fn damaged(random: &mut Random, frame: Frame, damage: Damage) -> Frame {
    frame.flipped(match damage {
        Damage::None => 0,
        Damage::OneFlip => protected(random, frame, 1),
        Damage::TwoFlips => protected(random, frame, 2),
        Damage::ThreeFlips => protected(random, frame, 3),
        Damage::Storm => storm(random, frame, 4),
        Damage::Stop => 1,
        Damage::FlipAndStop => protected(random, frame, 1) | 1,
        Damage::Start => 1 << (frame.length - 1),
        Damage::Format => 1 << (frame.length - 2),
    })
}

/// A frame with these columns as it arrives, and what happened to it.
fn arriving(random: &mut Random, columns: &Columns, id: u16, habit: Habit) -> (Frame, Damage) {
    let frame = match random.once_in(3) {
        true => short_with(random, columns, habit),
        false => long_with(random, columns, id, habit),
    };
    let damage = damage(random);
    (damaged(random, frame, damage), damage)
}

/// A frame whose start and format are right, of any fate at the receiver of this ID.
pub fn frame(random: &mut Random, id: u16) -> Frame {
    frame_with(random, Columns::own(), id)
}

/// The same with these columns.
pub fn frame_with(random: &mut Random, columns: &Columns, id: u16) -> Frame {
    loop {
        let (frame, _) = arriving(random, columns, id, LIVELY);
        if frame.front(2).number == frame.kind().number().into() {
            return frame;
        }
    }
}

/// The gaps between frames: none (a burst), up to 2 clocks, up to 60, idle of hundreds; or noise.
const PACES: u8 = 5;
const PACE: &str = "pace (burst, up to 2, up to 60, idle, noise)";
const IDLE: u8 = 3;
const NOISE: u8 = 4;

/// A trigger comes once in so many clocks; never with 0.
const TRIGGERS: [u64; 6] = [0, 60, 8, 3, 2, 1];
const TRIGGER: &str = "triggers (never, 1 in 60, 8, 3, 2, 1)";

/// No bit is to be sent; or a single 0.
const NOTHING: Frame = Frame { number: 0, length: 0 };
const ZERO: Frame = Frame { number: 0, length: 1 };

/// Runs of ones after a bad stop bit.
const RUNS: u8 = 5;
const RUN_OF_ONES: &str = "run of ones (41, 40, fewer, fewer and a 0, more)";

/// The bits of both channels, clock by clock.
pub struct Traffic {
    random: Random,
    /// Those of the frames.
    columns: Columns,
    id: u16,
    habit: Habit,
    pace: u8,
    triggers: u8,
    /// Frames or gaps until the pace and the rate of triggers are chosen anew.
    items: u64,
    /// A run of ones is to come next: the receiver may want one.
    slipped: bool,
    ones: u64,
    gap: u64,
    /// The bits of a frame that are still to be sent.
    frame: Frame,
    sent: Tally<2>,
    paces: Tally<2>,
    runs: Tally<1>,
}

impl Traffic {
    pub fn new(seed: u64) -> Traffic {
        Traffic {
            random: Random::new(seed),
            columns: Columns::own().clone(),
            id: 1,
            habit: LIVELY,
            pace: 0,
            triggers: 0,
            items: 0,
            slipped: false,
            ones: 0,
            gap: 0,
            frame: NOTHING,
            sent: Tally::of([("long", 0, 1), (DAMAGE, 0, Damage::Format as u8)]),
            paces: Tally::of([(PACE, 0, PACES - 1), (TRIGGER, 0, TRIGGERS.len() as u8 - 1)]),
            runs: Tally::of([(RUN_OF_ONES, 0, RUNS - 1)]),
        }
    }

    /// A run at a receiver of this ID begins.
    pub fn start(&mut self, id: u16, habit: Habit) {
        self.id = id;
        self.habit = habit;
        self.items = 0;
        self.slipped = false;
        self.ones = 0;
        self.gap = 0;
        self.frame = NOTHING;
    }

    /// From now on frames are encoded with these columns.
    pub fn encode_with(&mut self, columns: Columns) {
        self.columns = columns;
    }

    /// The trigger bit and the data bit of the next clock.
    #[inline]
    pub fn clock(&mut self) -> (u8, u8) {
        while self.ones == 0 && self.gap == 0 && self.frame.length == 0 {
            self.next_item();
        }
        let rate = TRIGGERS[usize::from(self.triggers)];
        let trigger = rate != 0 && self.random.once_in(rate);
        (trigger.into(), self.data())
    }

    /// The next clocks as a block of Q-3 of document 02.
    pub fn block(&mut self, length: usize) -> Vec<u8> {
        let mut byte = || {
            let (trigger, data) = self.clock();
            block::byte(trigger, data)
        };
        (0..length).map(|_| byte()).collect()
    }

    fn data(&mut self) -> u8 {
        if self.ones > 0 {
            self.ones -= 1;
            return 1;
        }
        if self.gap > 0 {
            self.gap -= 1;
            return match self.pace {
                NOISE => self.random.byte() >> 7,
                _ => 1,
            };
        }
        let first = self.frame.front(1).number & 1;
        self.frame.length -= 1;
        first as u8
    }

    /// A run of ones; or the next gap, and a frame after it.
    fn next_item(&mut self) {
        if self.slipped {
            return self.next_run();
        }
        if self.items == 0 {
            self.next_pace();
        }
        self.items -= 1;
        self.gap = match self.pace {
            0 => 0,
            1 => self.random.below(3),
            2 => self.random.below(61),
            IDLE => 200 + self.random.below(1_800),
            _ => 100 + self.random.below(400),
        };
        let (frame, damage) = arriving(&mut self.random, &self.columns, self.id, self.habit);
        self.frame = frame;
        self.slipped = damage.slips() || self.pace == NOISE;
        self.sent.seen([frame.kind().number(), damage as u8]);
    }

    /// Often exactly 41 ones. A 0 may come before the 41st: then frames go on while the receiver
    /// wants ones, or another run begins after a single 0.
    fn next_run(&mut self) {
        let sort = self.random.pick(&[0, 0, 0, 0, 1, 2, 3, 4]);
        let any = self.random.below(RUN.into());
        self.ones = match sort {
            0 => RUN.into(),
            1 => u64::from(RUN) - 1,
            2 | 3 => any,
            _ => u64::from(RUN) + 1 + any,
        };
        self.slipped = sort == 3;
        self.frame = if self.slipped { ZERO } else { NOTHING };
        self.runs.seen([sort]);
    }

    fn next_pace(&mut self) {
        self.pace = self.random.below(PACES.into()) as u8;
        self.triggers = self.random.below(TRIGGERS.len() as u64) as u8;
        self.items = match self.pace {
            IDLE => 1,
            NOISE => 2,
            _ => 20 + self.random.below(200),
        };
        self.paces.seen([self.pace, self.triggers]);
    }

    /// Fails if some kind of damage, pace, rate of triggers or run of ones was never chosen.
    #[track_caller]
    pub fn assert_complete(&self) {
        assert_seen(&[&self.sent, &self.paces, &self.runs]);
    }
}

/// Numbers at the edges of both kinds of frame, right or not.
pub fn edge_numbers() -> Vec<u64> {
    let mut numbers = vec![0, u64::MAX, u64::MAX - 1];
    for place in 0..64 {
        let power = 1u64 << place;
        numbers.extend([power - 1, power, power + 1]);
        numbers.extend([1 << 40 | power, (1 << 40 | power) - 1, 1 << 14 ^ power]);
        numbers.extend([((1 << 41) - 1) ^ power, 0x3FFF ^ power]);
    }
    numbers
}
