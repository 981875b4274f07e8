//! "Registers" of document 01: the map, and accesses between clocks.

use super::receiver::FRESH_CONFIG;
use super::state::config_bit_7;
use super::{Receiver, Refusal};

/// "Registers": what a number of the map holds. A number that takes more than one register has its
/// bytes counted from the low one, Config 2 and Config 3 count 0 and 1.
#[derive(Clone, Copy, Debug)]
enum Register {
    /// Fine delays, coarse delay, control.
    Stored(usize),
    SingleErrors(usize),
    DoubleErrors,
    Upsets,
    Id(usize),
    I2c,
    Config(usize),
    Status,
    Bunch(usize),
    Event(usize),
}

/// "Registers", the first column, and refusal 5.
fn register(number: u8) -> Result<Register, Refusal> {
    let from = |first: u8| usize::from(number - first);
    Ok(match number {
        0..=3 => Register::Stored(from(0)),
        8 | 9 => Register::SingleErrors(from(8)),
        10 => Register::DoubleErrors,
        11 => Register::Upsets,
        16 | 17 => Register::Id(from(16)),
        18 => Register::I2c,
        20 | 21 => Register::Config(from(20)),
        22 => Register::Status,
        24 | 25 => Register::Bunch(from(24)),
        26..=28 => Register::Event(from(26)),
        _ => return Err(Refusal::Register),
    })
}

impl Receiver {
    /// "Registers", the column "holds": the byte of a register.
    pub fn read(&self, number: u8) -> Result<u8, Refusal> {
        Ok(match register(number)? {
            Register::Stored(place) => self.stored.bytes()[place],
            Register::SingleErrors(byte) => self.single_errors.to_le_bytes()[byte],
            Register::DoubleErrors => self.double_errors,
            Register::Upsets => 0,
            Register::Id(byte) => self.id.to_le_bytes()[byte],
            Register::I2c => self.i2c,
            Register::Config(place) => self.config(place),
            Register::Status => self.status(),
            Register::Bunch(byte) => self.bunch.to_le_bytes()[byte],
            Register::Event(byte) => self.event.to_le_bytes()[byte],
        })
    }

    /// "Registers": status bits 7 and 6 are 1, bits 4..0 are 0.
    fn status(&self) -> u8 {
        0b1100_0000 | u8::from(self.status_bit_5) << 5
    }

    /// "Registers", the column "write", and refusals 5, 6, and 17 or 7, in this order. A counter is
    /// cleared whole, whatever the value; a running sequence and the bits of a frame are left alone.
    pub fn write(&mut self, number: u8, value: u8) -> Result<(), Refusal> {
        match register(number)? {
            Register::Stored(place) => {
                let stored = self.stored.with(place, value);
                self.stored = stored.ok_or(Refusal::FineDelay)?;
            }
            Register::SingleErrors(_) => self.single_errors = 0,
            Register::DoubleErrors => self.double_errors = 0,
            Register::Upsets => {}
            Register::Id(_) | Register::I2c | Register::Status => {
                return Err(Refusal::ReadOnly);
            }
            Register::Config(place) => {
                let bit_7 = config_bit_7(value, FRESH_CONFIG[place]);
                self.config_bit_7[place] = bit_7.ok_or(Refusal::Config)?;
            }
            Register::Bunch(_) => self.bunch = 0,
            Register::Event(_) => self.event = 0,
        }
        Ok(())
    }
}
