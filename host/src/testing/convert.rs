//! The model's types in the structs of ttcrx.h, so that whole answers can be compared, and back.

use crate::model::report::{Done, Part};
use crate::model::{self, BadColumns, Columns, Refusal, State};
use crate::sys::*;

/// An answer that begins with a number of refusal.
pub trait Answer {
    /// "A refused call returns its number with all other result fields 0."
    fn refused(refusal: u8) -> Self;
}

macro_rules! answers {
    ($($name:ident)*) => {$(
        impl Answer for $name {
            fn refused(refusal: u8) -> $name {
                $name { refusal, ..$name::default() }
            }
        }
    )*};
}

answers! {
    Encoded Decoded Line Written Byte Setting FreshAnswer ClockAnswer ReadAnswer WriteAnswer
    BlockOutcome ColumnsAnswer
}

/// A number of refusal, and the index that is told with it: 0 but with 28.
#[derive(Clone, Copy, Debug)]
pub struct Refused {
    pub refusal: u8,
    pub index: u8,
}

impl From<Refusal> for Refused {
    fn from(refusal: Refusal) -> Refused {
        Refused { refusal: refusal as u8, index: 0 }
    }
}

impl From<BadColumns> for Refused {
    fn from(bad: BadColumns) -> Refused {
        Refused { refusal: bad.refusal as u8, index: bad.index }
    }
}

/// An answer with the index of a bad column beside it.
pub trait Indexed {
    /// The answer of the function without columns.
    type Plain;

    fn of(answer: Self::Plain, index: u8) -> Self;
}

macro_rules! indexed {
    ($($name:ident of $plain:ident)*) => {$(
        impl Indexed for $name {
            type Plain = $plain;

            #[inline]
            fn of(answer: $plain, index: u8) -> $name {
                $name { answer, index }
            }
        }
    )*};
}

indexed! {
    EncodedWithIndex of Encoded
    DecodedWithIndex of Decoded
    ClockWithIndex of ClockAnswer
    BlockWithIndex of BlockOutcome
}

/// The answer of ttcrx.h to a call that the model has answered.
#[inline]
pub fn answer<T, A: Answer>(result: Result<T, Refusal>, accepted: impl FnOnce(T) -> A) -> A {
    result.map_or_else(|refusal| A::refused(refusal as u8), accepted)
}

/// The answer of a function with columns: that of the function without, with index 0; or a refusal.
#[inline]
pub fn answer_with_index<T, A: Indexed>(
    result: Result<T, Refused>,
    accepted: impl FnOnce(T) -> A::Plain,
) -> A
where
    A::Plain: Answer,
{
    match result {
        Ok(done) => A::of(accepted(done), 0),
        Err(Refused { refusal, index }) => A::of(A::Plain::refused(refusal), index),
    }
}

/// A refused clock: the state as given, the outputs 0.
pub fn refused_clock(refusal: u8, receiver: Receiver) -> ClockAnswer {
    ClockAnswer { receiver, ..ClockAnswer::refused(refusal) }
}

/// A refused write: the state as given.
pub fn refused_write(refusal: u8, receiver: Receiver) -> WriteAnswer {
    WriteAnswer { refusal, receiver }
}

/// A frame that was decoded.
pub fn decoded(decoded: model::Decoded) -> Decoded {
    Decoded {
        refusal: 0,
        verdict: decoded.verdict as u8,
        corrected: decoded.flipped.is_some().into(),
        place: decoded.flipped.unwrap_or(0),
        word: decoded.word,
        fields: fields(decoded.fields),
    }
}

pub fn fields(fields: model::Fields) -> Fields {
    Fields {
        address: fields.address,
        e: fields.e,
        sub_address: fields.sub_address,
        data: fields.data,
    }
}

/// The answer of a clock that is not refused: the receiver after it, and what it shows.
#[inline]
pub fn clock_done(receiver: &model::Receiver, shown: model::Outputs) -> ClockAnswer {
    ClockAnswer { refusal: 0, receiver: state(receiver), outputs: outputs(shown) }
}

#[inline]
pub fn outputs(outputs: model::Outputs) -> Outputs {
    let (strobe, number) = outputs.bus.strobe();
    let fate = outputs.fate;
    Outputs {
        trigger: outputs.trigger.into(),
        missed: outputs.missed.into(),
        number,
        strobe,
        verdict: fate.verdict as u8,
        corrected: fate.corrected().into(),
        place: fate.place(),
        word: fate.word,
    }
}

/// The model's columns of a good table.
pub fn columns(table: &[u8]) -> Columns {
    Columns::lent(table).expect("good columns")
}

/// The model's receiver of a state. Refusal 2.
#[inline]
pub fn receiver(state: &Receiver) -> Result<model::Receiver, Refusal> {
    model::Receiver::from_state(&plain(state)).ok_or(Refusal::State)
}

/// The state of the model's receiver.
#[inline]
pub fn state(receiver: &model::Receiver) -> Receiver {
    from_plain(&receiver.state())
}

/// A state as the model's plain numbers.
#[inline]
pub fn plain(state: &Receiver) -> State {
    let Receiver { core, held } = state;
    let settings = core.settings;
    State {
        id: core.ids.id,
        i2c: core.ids.i2c,
        registers: [settings.fine1, settings.fine2, settings.coarse, settings.control],
        config: [settings.config2, settings.config3],
        single_errors: core.errors.single_errors,
        double_errors: core.errors.double_errors,
        status5: core.errors.status5,
        bunch: core.counters.bunch,
        event: core.counters.event,
        left: core.sequence.left,
        kept: core.sequence.event,
        ones_wanted: held.ones_wanted,
        held: held.count,
        bits: held.bits,
    }
}

/// A state of the model's plain numbers.
#[inline]
pub fn from_plain(state: &State) -> Receiver {
    let core = Core {
        ids: Ids { id: state.id, i2c: state.i2c },
        settings: settings(state),
        errors: Errors {
            single_errors: state.single_errors,
            double_errors: state.double_errors,
            status5: state.status5,
        },
        counters: Counters { bunch: state.bunch, event: state.event },
        sequence: Sequence { left: state.left, event: state.kept },
    };
    let held = Held { count: state.held, ones_wanted: state.ones_wanted, bits: state.bits };
    Receiver { core, held }
}

#[inline]
fn settings(state: &State) -> Settings {
    let [fine1, fine2, coarse, control] = state.registers;
    let [config2, config3] = state.config;
    Settings { fine1, fine2, coarse, control, config2, config3 }
}

/// The model's report of any report.
pub fn model_report(report: &Report) -> model::report::Report {
    let part = Part { count: report.part.count, characters: report.part.characters };
    model::report::Report::of(plain(&report.receiver), report.lines, part)
}

pub fn report(report: &model::report::Report) -> Report {
    Report {
        receiver: from_plain(&report.state()),
        lines: report.lines,
        part: LinePart { count: report.part.count, characters: report.part.characters },
    }
}

/// The answer of a call on a report: the report after it, and what it did.
pub fn reported(after: &model::report::Report, done: Done) -> Reported {
    Reported {
        report: report(after),
        used: done.used,
        written: done.written,
        room_wanted: done.room_wanted,
    }
}
