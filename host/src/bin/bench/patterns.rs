//! The traces of both channels that are clocked through the receivers.

use ttcrx_host::testing::frame::{Frame, RUN};
use ttcrx_host::testing::lines::{any_frame, MOSTLY_CLEAN};
use ttcrx_host::testing::random::Random;

const CLOCKS: usize = 8_000_000;
const SEED: u64 = 101;

/// The bits of both channels on one clock.
#[derive(Clone, Copy)]
pub struct Bits {
    pub trigger: bool,
    pub data: bool,
}

/// What the receivers are clocked with.
pub struct Pattern {
    pub name: &'static str,
    /// The clocks between two frames: any number below this.
    gap: u64,
    /// A trigger comes once in so many clocks; never with 0.
    triggers: u64,
}

/// Idle and frames, without triggers and with some.
pub const PATTERNS: [Pattern; 4] = [
    Pattern { name: "idle-heavy, no triggers", gap: 2_000, triggers: 0 },
    Pattern { name: "idle-heavy, triggers", gap: 2_000, triggers: 20 },
    Pattern { name: "frame-heavy, no triggers", gap: 3, triggers: 0 },
    Pattern { name: "frame-heavy, triggers", gap: 3, triggers: 20 },
];

/// Many triggers.
pub const TRIGGERS: [Pattern; 2] = [
    Pattern { name: "trigger-heavy, 1 in 4", gap: 200, triggers: 4 },
    Pattern { name: "a trigger on every clock", gap: 200, triggers: 1 },
];

/// The ones after a frame: 41 if its stop bit is 0, so that the receiver takes the next one.
pub fn after(frame: Frame) -> Frame {
    Frame::ones(if frame.stops_badly() { RUN } else { 0 })
}

impl Pattern {
    pub fn clocks(&self) -> Vec<Bits> {
        let mut random = Random::new(SEED);
        let mut clocks = Vec::with_capacity(CLOCKS);
        while clocks.len() < CLOCKS {
            for _ in 0..random.below(self.gap) {
                clocks.push(self.clock(&mut random, true));
            }
            let frame = any_frame(&mut random, &MOSTLY_CLEAN);
            for bit in frame.bits().chain(after(frame).bits()) {
                clocks.push(self.clock(&mut random, bit == 1));
            }
        }
        clocks
    }

    fn clock(&self, random: &mut Random, data: bool) -> Bits {
        let trigger = self.triggers != 0 && random.once_in(self.triggers);
        Bits { trigger, data }
    }
}
