//! What has the functions of ttcrx.h: the proved library, and the model.

use super::convert::{self, answer, answer_with_index, Refused};
use crate::model::{self, block, Columns, Fields, Kind, Refusal};
use crate::sys::*;
use crate::ttcrx;

/// The functions of ttcrx.h, with slices for pointers and lengths. Unless it is overridden, a
/// function answers as the model does. A library with one wrong function overrides that one.
pub trait Library {
    fn version(&self) -> u32 {
        VERSION
    }

    fn encode_short(&self, data: u8) -> Encoded {
        encoded(Ok(model::encode_short(data)))
    }

    fn encode_long(&self, address: u16, e: u8, sub_address: u8, data: u8) -> Encoded {
        encoded(model::encode_long(Fields { address, e, sub_address, data }))
    }

    fn decode_short(&self, number: u64) -> Decoded {
        answer(model::decode_short(number), convert::decoded)
    }

    fn decode_long(&self, number: u64) -> Decoded {
        answer(model::decode_long(number), convert::decoded)
    }

    fn read_line(&self, characters: &[u8]) -> Line {
        answer(model::read_line(characters), |(kind, number)| Line {
            refusal: 0,
            kind: kind.number(),
            number,
        })
    }

    fn write_short(&self, number: u64, buffer: &mut [u8]) -> Written {
        written(Kind::Short, number, buffer)
    }

    fn write_long(&self, number: u64, buffer: &mut [u8]) -> Written {
        written(Kind::Long, number, buffer)
    }

    fn delay_byte(&self, setting: u8) -> Byte {
        answer(model::delay_byte(setting), |byte| Byte { refusal: 0, byte })
    }

    fn delay_setting(&self, byte: u8) -> Setting {
        answer(model::delay_setting(byte), |setting| Setting { refusal: 0, setting })
    }

    fn well_formed(&self, receiver: Receiver) -> u8 {
        convert::receiver(&receiver).is_ok().into()
    }

    fn fresh(&self, id: u16, i2c: u8) -> FreshAnswer {
        answer(model::Receiver::fresh(id, i2c), |fresh| FreshAnswer {
            refusal: 0,
            receiver: convert::state(&fresh),
        })
    }

    #[inline]
    fn clock(&self, receiver: Receiver, trigger: u8, data: u8) -> ClockAnswer {
        clocked(receiver, |model| {
            bits_in_range(trigger, data)?;
            Ok(model.clock(trigger == 1, data == 1))
        })
    }

    fn read(&self, receiver: Receiver, number: u8) -> ReadAnswer {
        let byte = convert::receiver(&receiver).and_then(|model| model.read(number));
        answer(byte, |byte| ReadAnswer { refusal: 0, byte })
    }

    fn write(&self, receiver: Receiver, number: u8, value: u8) -> WriteAnswer {
        match changed(receiver, |model| model.write(number, value)) {
            Ok((receiver, ())) => WriteAnswer { refusal: 0, receiver },
            Err(refusal) => convert::refused_write(refusal as u8, receiver),
        }
    }

    fn receive(&self, receiver: Receiver, kind: u8, number: u64) -> ClockAnswer {
        clocked(receiver, |model| model.receive(kind, number))
    }

    fn receive_short(&self, receiver: Receiver, number: u64) -> ClockAnswer {
        clocked(receiver, |model| model.receive(SHORT, number))
    }

    fn receive_long(&self, receiver: Receiver, number: u64) -> ClockAnswer {
        clocked(receiver, |model| model.receive(LONG, number))
    }

    fn run_block(&self, receiver: &mut Receiver, block: &[u8], buffer: &mut [u32]) -> BlockOutcome {
        let done = changed(*receiver, |model| block::run(model, block, buffer));
        answer(done, |(after, records)| {
            *receiver = after;
            BlockOutcome { refusal: 0, records }
        })
    }

    fn filled_length(&self, buffer_length: usize, records: usize) -> usize {
        block::filled_length(buffer_length, records)
    }

    fn check_columns(&self, columns: &[u8]) -> ColumnsAnswer {
        match Columns::lent(columns) {
            Ok(_) => ColumnsAnswer { refusal: 0, index: 0 },
            Err(bad) => ColumnsAnswer { refusal: bad.refusal as u8, index: bad.index },
        }
    }

    fn encode_short_with_columns(&self, columns: &[u8], data: u8) -> EncodedWithIndex {
        let frame = with_columns(columns, |columns| Ok(model::encode_short_with(columns, data)));
        answer_with_index(frame, |number| Encoded { refusal: 0, number })
    }

    fn encode_long_with_columns(
        &self,
        columns: &[u8],
        address: u16,
        e: u8,
        sub_address: u8,
        data: u8,
    ) -> EncodedWithIndex {
        let fields = Fields { address, e, sub_address, data };
        let frame = with_columns(columns, |columns| model::encode_long_with(columns, fields));
        answer_with_index(frame, |number| Encoded { refusal: 0, number })
    }

    fn decode_short_with_columns(&self, columns: &[u8], number: u64) -> DecodedWithIndex {
        let said = with_columns(columns, |columns| model::decode_short_with(columns, number));
        answer_with_index(said, convert::decoded)
    }

    fn decode_long_with_columns(&self, columns: &[u8], number: u64) -> DecodedWithIndex {
        let said = with_columns(columns, |columns| model::decode_long_with(columns, number));
        answer_with_index(said, convert::decoded)
    }

    #[inline]
    fn clock_with_columns(
        &self,
        receiver: Receiver,
        columns: &[u8],
        trigger: u8,
        data: u8,
    ) -> ClockWithIndex {
        clocked_with_columns(receiver, columns, |model, columns| {
            bits_in_range(trigger, data)?;
            Ok(model.clock_with(columns, trigger == 1, data == 1))
        })
    }

    fn receive_with_columns(
        &self,
        receiver: Receiver,
        columns: &[u8],
        kind: u8,
        number: u64,
    ) -> ClockWithIndex {
        clocked_with_columns(receiver, columns, |model, columns| {
            model.receive_with(columns, kind, number)
        })
    }

    fn receive_short_with_columns(
        &self,
        receiver: Receiver,
        columns: &[u8],
        number: u64,
    ) -> ClockWithIndex {
        clocked_with_columns(receiver, columns, |model, columns| {
            model.receive_with(columns, SHORT, number)
        })
    }

    fn receive_long_with_columns(
        &self,
        receiver: Receiver,
        columns: &[u8],
        number: u64,
    ) -> ClockWithIndex {
        clocked_with_columns(receiver, columns, |model, columns| {
            model.receive_with(columns, LONG, number)
        })
    }

    fn run_block_with_columns(
        &self,
        receiver: &mut Receiver,
        columns: &[u8],
        block: &[u8],
        buffer: &mut [u32],
    ) -> BlockWithIndex {
        let done = changed_with_columns(*receiver, columns, |model, columns| {
            block::run_with(columns, model, block, buffer)
        });
        answer_with_index(done, |(after, records)| {
            *receiver = after;
            BlockOutcome { refusal: 0, records }
        })
    }

    fn report_start(&self) -> Report {
        convert::report(&model::report::Report::start())
    }

    fn report_input(&self, report: Report, input: &[u8], buffer: &mut [u8]) -> Reported {
        let mut model = convert::model_report(&report);
        let done = model.input(input, buffer);
        convert::reported(&model, done)
    }

    fn report_end(&self, report: Report, buffer: &mut [u8]) -> Reported {
        let mut model = convert::model_report(&report);
        let done = model.end(buffer);
        convert::reported(&model, done)
    }
}

fn encoded(frame: Result<u64, Refusal>) -> Encoded {
    answer(frame, |number| Encoded { refusal: 0, number })
}

/// Refusal 1 of a clock.
#[inline]
fn bits_in_range(trigger: u8, data: u8) -> Result<(), Refusal> {
    match trigger > 1 || data > 1 {
        true => Err(Refusal::Bit),
        false => Ok(()),
    }
}

fn written(kind: Kind, number: u64, buffer: &mut [u8]) -> Written {
    let length = model::write_line(kind, number, buffer);
    answer(length, |length| Written { refusal: 0, length: length as u8 })
}

/// The model's receiver of a state, after a change that may be refused. Refusal 2 comes first.
#[inline]
fn changed<T>(
    state: Receiver,
    change: impl FnOnce(&mut model::Receiver) -> Result<T, Refusal>,
) -> Result<(Receiver, T), Refusal> {
    let mut receiver = convert::receiver(&state)?;
    let answer = change(&mut receiver)?;
    Ok((convert::state(&receiver), answer))
}

/// The answer of a clock, or of the last of several.
#[inline]
fn clocked(
    state: Receiver,
    clock: impl FnOnce(&mut model::Receiver) -> Result<model::Outputs, Refusal>,
) -> ClockAnswer {
    match changed(state, clock) {
        Ok((receiver, shown)) => {
            ClockAnswer { refusal: 0, receiver, outputs: convert::outputs(shown) }
        }
        Err(refusal) => convert::refused_clock(refusal as u8, state),
    }
}

/// What the model gives with lent columns. Refusals 27 and 28 come before those of the call.
#[inline]
fn with_columns<T>(
    numbers: &[u8],
    call: impl FnOnce(&Columns) -> Result<T, Refusal>,
) -> Result<T, Refused> {
    let columns = Columns::lent(numbers)?;
    Ok(call(&columns)?)
}

/// `changed` with lent columns. Refusal 2 comes first, then 27 and 28.
#[inline]
fn changed_with_columns<T>(
    state: Receiver,
    numbers: &[u8],
    change: impl FnOnce(&mut model::Receiver, &Columns) -> Result<T, Refusal>,
) -> Result<(Receiver, T), Refused> {
    let mut receiver = convert::receiver(&state)?;
    let answer = with_columns(numbers, |columns| change(&mut receiver, columns))?;
    Ok((convert::state(&receiver), answer))
}

/// `clocked` with lent columns.
#[inline]
fn clocked_with_columns(
    state: Receiver,
    numbers: &[u8],
    clock: impl FnOnce(&mut model::Receiver, &Columns) -> Result<model::Outputs, Refusal>,
) -> ClockWithIndex {
    match changed_with_columns(state, numbers, clock) {
        Ok((receiver, shown)) => {
            let outputs = convert::outputs(shown);
            ClockWithIndex { answer: ClockAnswer { refusal: 0, receiver, outputs }, index: 0 }
        }
        Err(Refused { refusal, index }) => {
            ClockWithIndex { answer: convert::refused_clock(refusal, state), index }
        }
    }
}

/// The independent model.
pub struct Model;

impl Library for Model {}

/// Makes the functions of ttcrx.h that are lent nothing for writing, each by this macro.
macro_rules! plain_functions {
    ($make:ident) => {
        other_functions! { $make }
        column_functions! { $make }
        $make! { fn encode_short(data: u8) -> Encoded }
        $make! { fn encode_long(address: u16, e: u8, sub_address: u8, data: u8) -> Encoded }
        $make! { fn decode_short(number: u64) -> Decoded }
        $make! { fn decode_long(number: u64) -> Decoded }
        $make! { fn clock(receiver: Receiver, trigger: u8, data: u8) -> ClockAnswer }
        $make! { fn receive(receiver: Receiver, kind: u8, number: u64) -> ClockAnswer }
        $make! { fn receive_short(receiver: Receiver, number: u64) -> ClockAnswer }
        $make! { fn receive_long(receiver: Receiver, number: u64) -> ClockAnswer }
    };
}

/// Those of them that use no columns.
macro_rules! other_functions {
    ($make:ident) => {
        $make! { fn version() -> u32 }
        $make! { fn read_line(characters: &[u8]) -> Line }
        $make! { fn delay_byte(setting: u8) -> Byte }
        $make! { fn delay_setting(byte: u8) -> Setting }
        $make! { fn well_formed(receiver: Receiver) -> u8 }
        $make! { fn fresh(id: u16, i2c: u8) -> FreshAnswer }
        $make! { fn read(receiver: Receiver, number: u8) -> ReadAnswer }
        $make! { fn write(receiver: Receiver, number: u8, value: u8) -> WriteAnswer }
        $make! { fn filled_length(buffer_length: usize, records: usize) -> usize }
        $make! { fn report_start() -> Report }
    };
}

/// Those of them that are lent columns.
macro_rules! column_functions {
    ($make:ident) => {
        $make! { fn check_columns(columns: &[u8]) -> ColumnsAnswer }
        $make! { fn encode_short_with_columns(columns: &[u8], data: u8) -> EncodedWithIndex }
        $make! {
            fn encode_long_with_columns(
                columns: &[u8], address: u16, e: u8, sub_address: u8, data: u8
            ) -> EncodedWithIndex
        }
        $make! { fn decode_short_with_columns(columns: &[u8], number: u64) -> DecodedWithIndex }
        $make! { fn decode_long_with_columns(columns: &[u8], number: u64) -> DecodedWithIndex }
        $make! {
            fn clock_with_columns(
                receiver: Receiver, columns: &[u8], trigger: u8, data: u8
            ) -> ClockWithIndex
        }
        $make! {
            fn receive_with_columns(
                receiver: Receiver, columns: &[u8], kind: u8, number: u64
            ) -> ClockWithIndex
        }
        $make! {
            fn receive_short_with_columns(
                receiver: Receiver, columns: &[u8], number: u64
            ) -> ClockWithIndex
        }
        $make! {
            fn receive_long_with_columns(
                receiver: Receiver, columns: &[u8], number: u64
            ) -> ClockWithIndex
        }
    };
}

pub(crate) use {column_functions, other_functions, plain_functions};

/// A function of the proved library.
macro_rules! proved {
    (fn $name:ident($($argument:ident: $type:ty),*) -> $answer:ty) => {
        fn $name(&self, $($argument: $type),*) -> $answer {
            ttcrx::$name($($argument),*)
        }
    };
}

/// The proved library, libttcrx.a.
pub struct Proved;

impl Library for Proved {
    plain_functions! { proved }
    proved! { fn write_short(number: u64, buffer: &mut [u8]) -> Written }
    proved! { fn write_long(number: u64, buffer: &mut [u8]) -> Written }
    proved! { fn run_block(lent: &mut Receiver, block: &[u8], buffer: &mut [u32]) -> BlockOutcome }
    proved! {
        fn run_block_with_columns(
            lent: &mut Receiver, columns: &[u8], block: &[u8], buffer: &mut [u32]
        ) -> BlockWithIndex
    }
    proved! { fn report_input(report: Report, input: &[u8], buffer: &mut [u8]) -> Reported }
    proved! { fn report_end(report: Report, buffer: &mut [u8]) -> Reported }
}
