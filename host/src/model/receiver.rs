//! "One clock" and "Fate of a finished frame" of document 01, and of document
//! 02: the receiver.
//!
//! A function whose name ends in `_with` uses the columns that it is given; the same name without
//! that is the function with document 01's own. The state keeps no columns: a frame is decoded with
//! those of its last clock.

use super::frame::{bits, decode_with, leading};
use super::stored::Stored;
use super::{Columns, Decoded, Fields, Kind, Refusal, Verdict};

/// "Fate of a finished frame": verdict, corrected flag, place and word that a clock shows.
#[derive(Clone, Copy, Debug, Default, PartialEq, Eq)]
pub struct Fate {
    pub verdict: Verdict,
    /// "A corrected frame also reports the flipped bit". The corrected flag is 1 where there is
    /// one.
    pub flipped: Option<u8>,
    pub word: u32,
}

impl Fate {
    /// The corrected flag.
    #[inline]
    pub fn corrected(&self) -> bool {
        self.flipped.is_some()
    }

    /// the place of the flipped bit; "it is 0 where the flag is 0".
    #[inline]
    pub fn place(&self) -> u8 {
        self.flipped.unwrap_or(0)
    }
}

/// "One clock", the bus output: the strobe kinds, each with its number.
#[derive(Clone, Copy, Debug, Default, PartialEq, Eq)]
pub enum Bus {
    #[default]
    None,
    Bunch(u16),
    EventLow(u16),
    EventHigh(u16),
}

impl Bus {
    /// "A strobe kind (0 none, 1 bunch, 2 event low, 3 event high) and a number, 0 for kind 0."
    #[inline]
    pub fn strobe(self) -> (u8, u16) {
        match self {
            Bus::None => (0, 0),
            Bus::Bunch(number) => (1, number),
            Bus::EventLow(number) => (2, number),
            Bus::EventHigh(number) => (3, number),
        }
    }
}

/// "One clock": all that one clock shows.
#[derive(Clone, Copy, Debug, Default, PartialEq, Eq)]
pub struct Outputs {
    pub trigger: bool,
    pub missed: bool,
    pub bus: Bus,
    pub fate: Fate,
}

/// "One clock", step 1: the low and the high 12 bits of an event number.
#[derive(Clone, Copy, Debug)]
pub(super) struct Event {
    pub(super) low: u16,
    pub(super) high: u16,
}

impl Event {
    pub(super) fn of(number: u32) -> Event {
        Event { low: (number % 4096) as u16, high: (number / 4096) as u16 }
    }
}

/// "One clock", step 1: the words that a sequence has left. The event number is kept whole until
/// the last of them is shown.
#[derive(Clone, Copy, Debug)]
pub(super) enum Left {
    Nothing,
    High(Event),
    LowAndHigh(Event),
}

/// The most bits that a frame has.
pub(super) const LONGEST: usize = Kind::Long.length() as usize;

/// "Frames on channel B": the bits of an unfinished frame in the order received. None before its
/// start bit.
#[derive(Clone, Copy, Debug)]
pub(super) struct Bits {
    pub(super) received: [bool; LONGEST],
    pub(super) length: usize,
}

impl Bits {
    pub(super) const NONE: Bits = Bits { received: [false; LONGEST], length: 0 };

    /// The bits received so far.
    #[inline]
    pub(super) fn so_far(&self) -> &[bool] {
        &self.received[..self.length]
    }

    /// The second bit is the format bit: 0 is a short frame, 1 a long one.
    #[inline]
    pub(super) fn kind(&self) -> Option<Kind> {
        let format = self.so_far().get(1)?;
        Some(if *format { Kind::Long } else { Kind::Short })
    }

    /// The bits as a number, the first received most significant.
    #[inline]
    pub(super) fn number(&self) -> u64 {
        let after = |number, bit: &bool| 2 * number + u64::from(*bit);
        self.so_far().iter().fold(0, after)
    }

    /// Takes a bit of channel B. Idle is 1, so while waiting only a 0 is kept: it is a start bit.
    /// Gives the frame that this bit finishes; then no bit is held.
    #[inline]
    fn take(&mut self, bit: bool) -> Option<(Kind, u64)> {
        if self.length == 0 && bit {
            return None;
        }
        self.received[self.length] = bit;
        self.length += 1;
        let kind = self.kind()?;
        if self.length < usize::from(kind.length()) {
            return None;
        }
        let number = self.number();
        self.length = 0;
        Some((kind, number))
    }
}

/// Q-1 of document 02, "Quiet after a bad stop": "41 ones in a row".
pub(super) const RUN: u8 = 41;

/// the last 41 bits of channel B since a bad stop bit, as a number with the newest bit least
/// significant. In the places of the bits up to the bad stop bit there are zeros: none of those bits
/// counts.
#[derive(Clone, Copy, Debug)]
pub(super) struct LastBits(u64);

impl LastBits {
    const ALL_ONES: LastBits = LastBits::after(RUN);

    /// The last bits after so many ones in a row, with zeros before them.
    pub(super) const fn after(ones: u8) -> LastBits {
        LastBits((1u64 << ones) - 1)
    }

    /// The ones in a row up to now.
    pub(super) fn run(self) -> u8 {
        self.0.trailing_ones() as u8
    }

    /// With one bit more. The oldest is left out.
    #[inline]
    fn then(self, bit: bool) -> LastBits {
        LastBits((self.0 << 1 | u64::from(bit)) & LastBits::ALL_ONES.0)
    }
}

/// What the receiver keeps of channel B.
#[derive(Clone, Copy, Debug)]
pub(super) enum ChannelB {
    /// It waits for a start bit, or holds bits of a frame.
    Listening(Bits),
    /// a stop bit was 0, and 41 ones in a row have not come since. No 0 is a start bit.
    Quiet(LastBits),
}

impl ChannelB {
    pub(super) const WAITING: ChannelB = ChannelB::Listening(Bits::NONE);

    /// Takes a bit. Gives the frame that this bit finishes.
    #[inline]
    fn take(&mut self, bit: bool) -> Option<(Kind, u64)> {
        match self {
            ChannelB::Listening(bits) => bits.take(bit),
            ChannelB::Quiet(last) => {
                *self = ChannelB::quiet(last.then(bit));
                None
            }
        }
    }

    /// "must see 41 ones in a row on channel B before a 0 counts as a start". When it has seen
    /// them it waits.
    #[inline]
    fn quiet(last: LastBits) -> ChannelB {
        match last.0 == LastBits::ALL_ONES.0 {
            true => ChannelB::WAITING,
            false => ChannelB::Quiet(last),
        }
    }
}

/// The state of a receiver.
#[derive(Clone, Copy, Debug)]
pub struct Receiver {
    pub(super) id: u16,
    pub(super) i2c: u8,
    /// Registers 0 to 3: fine delays, coarse delay, control.
    pub(super) stored: Stored,
    /// Bit 7 of Config 2 and of Config 3; the other bits never differ from the fresh byte.
    pub(super) config_bit_7: [bool; 2],
    pub(super) single_errors: u16,
    pub(super) double_errors: u8,
    pub(super) status_bit_5: bool,
    pub(super) bunch: u16,
    pub(super) event: u32,
    pub(super) left: Left,
    pub(super) channel_b: ChannelB,
}

/// "One clock": the counters go up modulo these.
pub(super) const BUNCHES: u16 = 4096;
pub(super) const EVENTS: u32 = 1 << 24;

/// "Registers": the fresh bytes of Config 2 and Config 3. Bit 7 of both is 1.
pub(super) const FRESH_CONFIG: [u8; 2] = [0x85, 0xA7];

/// "Numbers of refusal", 3 and 4 in this order.
pub(super) fn ids_in_range(id: u16, i2c: u8) -> Result<(), Refusal> {
    if id == 0 || id > 16383 {
        return Err(Refusal::Id);
    }
    if i2c > 63 {
        return Err(Refusal::I2cId);
    }
    Ok(())
}

impl Receiver {
    /// "Registers", the fresh state. Refusals 3 and 4.
    pub fn fresh(id: u16, i2c: u8) -> Result<Receiver, Refusal> {
        ids_in_range(id, i2c)?;
        Ok(Receiver::fresh_of(id, i2c))
    }

    /// "Registers": all counters 0, waiting, no sequence, status 0xE0.
    fn fresh_of(id: u16, i2c: u8) -> Receiver {
        Receiver {
            id,
            i2c,
            stored: Stored::fresh(),
            config_bit_7: FRESH_CONFIG.map(|byte| byte >> 7 == 1),
            single_errors: 0,
            double_errors: 0,
            status_bit_5: true,
            bunch: 0,
            event: 0,
            left: Left::Nothing,
            channel_b: ChannelB::WAITING,
        }
    }

    /// The bunch counter.
    #[inline]
    pub fn bunch(&self) -> u16 {
        self.bunch
    }

    /// The event counter.
    #[inline]
    pub fn event(&self) -> u32 {
        self.event
    }

    /// "One clock": steps 1 to 3, the frame's effect last, over the numbers before this clock.
    #[inline]
    pub fn clock_with(&mut self, columns: &Columns, trigger: bool, data: bool) -> Outputs {
        let running = !matches!(self.left, Left::Nothing);
        let bus = self.bus(trigger);
        if trigger {
            self.event = (self.event + 1) % EVENTS;
        }
        self.bunch = (self.bunch + 1) % BUNCHES;
        let finished = self.channel_b.take(data);
        let fate = match finished {
            Some((kind, number)) => self.finish(columns, kind, number),
            None => Fate::default(),
        };
        Outputs { trigger, missed: trigger && running, bus, fate }
    }

    /// `clock_with` the own columns.
    #[inline]
    pub fn clock(&mut self, trigger: bool, data: bool) -> Outputs {
        self.clock_with(Columns::own(), trigger, data)
    }

    /// Clocks with so many bits of a number, in the order sent and without triggers. Gives what the
    /// last of them shows.
    #[inline]
    pub fn send_with(&mut self, columns: &Columns, number: u64, length: u8) -> Outputs {
        let mut last = Outputs::default();
        for bit in bits(number, length) {
            last = self.clock_with(columns, false, bit);
        }
        last
    }

    /// `send_with` the own columns.
    #[inline]
    pub fn send(&mut self, number: u64, length: u8) -> Outputs {
        self.send_with(Columns::own(), number, length)
    }

    /// So many clocks with a 1 on channel B, which is idle, and without triggers.
    pub fn idle(&mut self, clocks: u8) {
        for _ in 0..clocks {
            self.clock(false, true);
        }
    }

    /// A whole frame: its kind as a number, and its bits. Refusal 12.
    pub fn receive_with(
        &mut self,
        columns: &Columns,
        kind: u8,
        number: u64,
    ) -> Result<Outputs, Refusal> {
        let kind = Kind::of_number(kind).ok_or(Refusal::Frame)?;
        leading(kind, number)?;
        Ok(self.send_with(columns, number, kind.length()))
    }

    /// `receive_with` the own columns. Refusal 12.
    pub fn receive(&mut self, kind: u8, number: u64) -> Result<Outputs, Refusal> {
        self.receive_with(Columns::own(), kind, number)
    }

    /// "One clock", step 1: a running sequence goes on; else a trigger starts one.
    #[inline]
    fn bus(&mut self, trigger: bool) -> Bus {
        match self.left {
            Left::LowAndHigh(event) => {
                self.left = Left::High(event);
                Bus::EventLow(event.low)
            }
            Left::High(event) => {
                self.left = Left::Nothing;
                Bus::EventHigh(event.high)
            }
            Left::Nothing if trigger => self.start_sequence(),
            Left::Nothing => Bus::None,
        }
    }

    /// "One clock", step 1: the modes of control bits 1..0.
    fn start_sequence(&mut self) -> Bus {
        let event = Event::of(self.event);
        match self.stored.mode() {
            0 => Bus::None,
            1 => Bus::Bunch(self.bunch),
            2 => {
                self.left = Left::High(event);
                Bus::EventLow(event.low)
            }
            _ => {
                self.left = Left::LowAndHigh(event);
                Bus::Bunch(self.bunch)
            }
        }
    }

    /// "One clock", step 3, and "Fate of a finished frame": the frame acts. It was taken bit by
    /// bit, so that start and format are right.
    fn finish(&mut self, columns: &Columns, kind: Kind, number: u64) -> Fate {
        let decoded = decode_with(columns, kind, number).expect("start and format are right");
        let verdict = self.verdict(kind, &decoded);
        let fate = Fate { verdict, flipped: decoded.flipped, word: decoded.word };
        self.count_errors(fate);
        self.status_bit_5 = verdict != Verdict::StopBit;
        self.act(verdict, decoded.fields);
        fate
    }

    /// "Fate of a finished frame": the first row that holds.
    fn verdict(&self, kind: Kind, decoded: &Decoded) -> Verdict {
        match (decoded.verdict, kind) {
            (Verdict::None, Kind::Short) => Verdict::Broadcast,
            (Verdict::None, Kind::Long) => self.verdict_of_long(decoded.fields),
            (bad, _) => bad,
        }
    }

    /// "Fate of a finished frame": the rows from 5 on, for the fields of a good long frame. Q-4:
    /// "the new verdict 10, tested just before 2", where the data have no place in the register.
    fn verdict_of_long(&self, fields: Fields) -> Verdict {
        if fields.address != 0 && fields.address != self.id {
            return Verdict::OtherAddress;
        }
        if fields.e == 1 {
            return Verdict::Outside;
        }
        match fields.sub_address {
            0..=3 => match self.with_data(fields) {
                Some(_) => Verdict::Stored,
                None => Verdict::NoSetting,
            },
            6 => Verdict::Reset,
            _ => Verdict::OtherSubAddress,
        }
    }

    /// Registers 0 to 3 with the data of a frame for one of them; none if they have no place there.
    fn with_data(&self, fields: Fields) -> Option<Stored> {
        self.stored.with(fields.sub_address.into(), fields.data)
    }

    /// "Fate of a finished frame": the error counters, which stop at their tops. Q-8, of verdicts 8
    /// and 11: "Both raise the double counter".
    fn count_errors(&mut self, fate: Fate) {
        match fate.verdict {
            Verdict::StopBit | Verdict::EvenSyndrome | Verdict::OddSyndrome | Verdict::FixedBit => {
                self.double_errors = self.double_errors.saturating_add(1);
            }
            _ if fate.corrected() => self.single_errors = self.single_errors.saturating_add(1),
            _ => {}
        }
    }

    /// "Fate of a finished frame", the effects; RESET ends a running sequence and clears the rise
    /// of the single error counter, too. Q-1: after verdict 7, and no other, a run of ones is to
    /// come.
    fn act(&mut self, verdict: Verdict, fields: Fields) {
        match verdict {
            Verdict::Broadcast => self.broadcast(fields.data),
            Verdict::Stored => self.stored = self.with_data(fields).expect("not verdict 10"),
            Verdict::Reset => *self = Receiver::fresh_of(self.id, self.i2c),
            Verdict::StopBit => self.channel_b = ChannelB::Quiet(LastBits::after(0)),
            _ => {}
        }
    }

    /// "Fate of a finished frame", verdict 1: bit 0 clears the bunch counter, bit 1 the event
    /// counter.
    fn broadcast(&mut self, data: u8) {
        if data & 1 == 1 {
            self.bunch = 0;
        }
        if data & 2 == 2 {
            self.event = 0;
        }
    }
}
