//! "Registers" of document 01: registers 0 to 3, with what Q-4 of document 02 adds, "No delay byte
//! without a setting".
//!
//! Of a fine delay its setting is kept, and its byte is worked out where it is read. So a byte that
//! is the byte of no setting has no place here.

use super::{delay_byte, delay_setting};

/// "Fresh: registers 0, 1 and 2 are 0, control 0x93".
const FRESH: [u8; 4] = [0, 0, 0, 0x93];

/// Registers 0 to 3.
#[derive(Clone, Copy, Debug)]
pub(super) struct Stored {
    /// The settings of the fine delays in registers 0 and 1.
    settings: [u8; 2],
    coarse: u8,
    control: u8,
}

impl Stored {
    pub(super) fn fresh() -> Stored {
        Stored::of(FRESH).expect("0 is the byte of a setting")
    }

    /// The registers that hold these bytes; none if one of the first two has no setting.
    #[inline]
    pub(super) fn of([fine_1, fine_2, coarse, control]: [u8; 4]) -> Option<Stored> {
        let setting = |byte| delay_setting(byte).ok();
        Some(Stored { settings: [setting(fine_1)?, setting(fine_2)?], coarse, control })
    }

    /// What the registers hold.
    #[inline]
    pub(super) fn bytes(&self) -> [u8; 4] {
        let byte = |setting| delay_byte(setting).expect("it was found for a byte");
        let [fine_1, fine_2] = self.settings.map(byte);
        [fine_1, fine_2, self.coarse, self.control]
    }

    /// The same with a byte in the register of this number, 0 to 3; none if it has no place there.
    pub(super) fn with(&self, number: usize, byte: u8) -> Option<Stored> {
        let mut bytes = self.bytes();
        bytes[number] = byte;
        Stored::of(bytes)
    }

    /// "control bits 1..0".
    #[inline]
    pub(super) fn mode(&self) -> u8 {
        self.control % 4
    }
}
