//! Mistakes in Q-8 of document 02, "Say what was wrong and which bit".

use super::frames::finished;
use super::reports::{other_fields, other_last_line};
use crate::sys::*;
use crate::testing::frame::{wanting, Frame, RUN};
use crate::testing::library::{Library, Model};
use std::cell::Cell;

/// What is said of a frame, beside the corrected flag.
pub struct Said {
    verdict: u8,
    place: u8,
    word: u32,
}

/// The decoders say something else of a frame.
pub struct Decoders(pub fn(Frame, &mut Said));

impl Decoders {
    fn decoded(&self, frame: Frame, right: Decoded) -> Decoded {
        if right.refusal != ACCEPTED {
            return right;
        }
        let mut said = Said { verdict: right.verdict, place: right.place, word: right.word };
        (self.0)(frame, &mut said);
        Decoded { verdict: said.verdict, place: said.place, word: said.word, ..right }
    }
}

impl Library for Decoders {
    fn decode_short(&self, number: u64) -> Decoded {
        self.decoded(Frame { number, length: 16 }, Model.decode_short(number))
    }

    fn decode_long(&self, number: u64) -> Decoded {
        self.decoded(Frame { number, length: 42 }, Model.decode_long(number))
    }
}

/// The decoders and the clock say something else of a frame.
pub struct Told(pub fn(Frame, &mut Said));

impl Library for Told {
    fn decode_short(&self, number: u64) -> Decoded {
        Decoders(self.0).decode_short(number)
    }

    fn decode_long(&self, number: u64) -> Decoded {
        Decoders(self.0).decode_long(number)
    }

    fn clock(&self, receiver: Receiver, trigger: u8, data: u8) -> ClockAnswer {
        let mut answer = Model.clock(receiver, trigger, data);
        let Outputs { verdict, place, word, .. } = answer.outputs;
        if verdict != VERDICT_NONE {
            let mut said = Said { verdict, place, word };
            (self.0)(finished(&receiver, data), &mut said);
            let Said { verdict, place, word } = said;
            answer.outputs = Outputs { verdict, place, word, ..answer.outputs };
        }
        answer
    }
}

pub fn odd_for_two_flips(_: Frame, said: &mut Said) {
    if said.verdict == VERDICT_EVEN_SYNDROME {
        said.verdict = VERDICT_ODD_SYNDROME;
    }
}

pub fn even_for_every_storm(_: Frame, said: &mut Said) {
    if said.verdict == VERDICT_ODD_SYNDROME {
        said.verdict = VERDICT_EVEN_SYNDROME;
    }
}

pub fn odd_syndrome_in_clocks_only(frame: Frame, said: &mut Said) {
    even_for_every_storm(frame, said);
}

pub fn check_bits_alone_decide(frame: Frame, said: &mut Said) {
    let check = frame.back(1 + frame.kind().check_bits()).number >> 1;
    if matches!(said.verdict, VERDICT_EVEN_SYNDROME | VERDICT_ODD_SYNDROME) {
        said.verdict = match check.count_ones() % 2 {
            0 => VERDICT_EVEN_SYNDROME,
            _ => VERDICT_ODD_SYNDROME,
        };
    }
}

/// The place of a corrected frame is another, from those of word and check bits.
fn moved(frame: Frame, said: &mut Said, other: impl Fn(u8, u8, u8) -> u8) {
    if said.place != 0 {
        said.place = other(said.place, frame.kind().data_bits(), frame.kind().check_bits());
    }
}

pub fn places_from_0(frame: Frame, said: &mut Said) {
    moved(frame, said, |place, _, _| place - 1);
}

pub fn places_from_the_start_bit(frame: Frame, said: &mut Said) {
    moved(frame, said, |place, _, _| place + 2);
}

pub fn check_bits_first(frame: Frame, said: &mut Said) {
    moved(frame, said, |place, data, check| match place <= data {
        true => check + place,
        false => place - data,
    });
}

pub fn least_significant_first(frame: Frame, said: &mut Said) {
    moved(frame, said, |place, data, check| data + check + 1 - place);
}

pub fn least_significant_first_in_each(frame: Frame, said: &mut Said) {
    moved(frame, said, |place, data, check| match place <= data {
        true => data + 1 - place,
        false => data + (data + check + 1 - place),
    });
}

pub fn no_place_for_check_bits(frame: Frame, said: &mut Said) {
    moved(frame, said, |place, data, _| if place <= data { place } else { 0 });
}

pub fn long_places_as_short(frame: Frame, said: &mut Said) {
    moved(frame, said, |place, data, _| match data {
        32 => place.wrapping_sub(PLACES_LONG - PLACES_SHORT),
        _ => place,
    });
}

pub fn flag_without_place(_: Frame, said: &mut Said) {
    said.place = 0;
}

pub fn place_with_9(frame: Frame, said: &mut Said) {
    let wrong = frame.number ^ Frame::encoded(frame.kind(), said.word).number;
    if said.verdict == VERDICT_FIXED_BIT && wrong != 0 {
        said.place = frame.place_of(wrong);
    }
}

/// A clock with verdict 11 is changed.
fn after_11(
    (receiver, trigger, data): (Receiver, u8, u8),
    change: impl Fn(&mut ClockAnswer),
) -> ClockAnswer {
    let mut answer = Model.clock(receiver, trigger, data);
    if answer.outputs.verdict == VERDICT_ODD_SYNDROME {
        change(&mut answer);
    }
    answer
}

pub fn odd_syndrome_in_decoders_only(receiver: Receiver, trigger: u8, data: u8) -> ClockAnswer {
    after_11((receiver, trigger, data), |answer| answer.outputs.verdict = VERDICT_EVEN_SYNDROME)
}

pub fn odd_syndrome_not_counted(receiver: Receiver, trigger: u8, data: u8) -> ClockAnswer {
    after_11((receiver, trigger, data), |answer| {
        answer.receiver.core.errors.double_errors = receiver.core.errors.double_errors;
    })
}

pub fn odd_syndrome_is_a_single_error(receiver: Receiver, trigger: u8, data: u8) -> ClockAnswer {
    after_11((receiver, trigger, data), |answer| {
        let before = receiver.core.errors;
        let errors = &mut answer.receiver.core.errors;
        errors.double_errors = before.double_errors;
        errors.single_errors = before.single_errors.saturating_add(1);
    })
}

pub fn odd_syndromes_wrap(receiver: Receiver, trigger: u8, data: u8) -> ClockAnswer {
    after_11((receiver, trigger, data), |answer| {
        let before = receiver.core.errors.double_errors;
        answer.receiver.core.errors.double_errors = before.wrapping_add(1);
    })
}

pub fn odd_syndrome_clears_status(receiver: Receiver, trigger: u8, data: u8) -> ClockAnswer {
    after_11((receiver, trigger, data), |answer| answer.receiver.core.errors.status5 = 0)
}

pub fn odd_syndrome_leaves_status(receiver: Receiver, trigger: u8, data: u8) -> ClockAnswer {
    after_11((receiver, trigger, data), |answer| {
        answer.receiver.core.errors.status5 = receiver.core.errors.status5;
    })
}

pub fn quiet_after_11(receiver: Receiver, trigger: u8, data: u8) -> ClockAnswer {
    after_11((receiver, trigger, data), |answer| answer.receiver.held = wanting(RUN))
}

pub fn word_with_11(receiver: Receiver, trigger: u8, data: u8) -> ClockAnswer {
    after_11((receiver, trigger, data), |answer| {
        answer.outputs.word = finished(&receiver, data).data();
    })
}

/// The place is lost with this verdict.
fn no_place(verdict: u8, (receiver, trigger, data): (Receiver, u8, u8)) -> ClockAnswer {
    let mut answer = Model.clock(receiver, trigger, data);
    if answer.outputs.verdict == verdict {
        answer.outputs.place = 0;
    }
    answer
}

pub fn reset_clears_the_place(receiver: Receiver, trigger: u8, data: u8) -> ClockAnswer {
    no_place(VERDICT_RESET, (receiver, trigger, data))
}

pub fn no_place_for_other_addresses(receiver: Receiver, trigger: u8, data: u8) -> ClockAnswer {
    no_place(VERDICT_OTHER_ADDRESS, (receiver, trigger, data))
}

pub fn no_place_without_a_setting(receiver: Receiver, trigger: u8, data: u8) -> ClockAnswer {
    no_place(VERDICT_NO_SETTING, (receiver, trigger, data))
}

thread_local! {
    /// The place of the last frame that was corrected.
    static LAST: Cell<u8> = const { Cell::new(0) };
}

/// A clock that was not refused shows the last place, if this holds of its outputs.
fn kept(
    (receiver, trigger, data): (Receiver, u8, u8),
    shows: impl Fn(Outputs) -> bool,
) -> ClockAnswer {
    let mut answer = Model.clock(receiver, trigger, data);
    let outputs = &mut answer.outputs;
    if outputs.place != 0 {
        LAST.set(outputs.place);
    } else if answer.refusal == ACCEPTED && shows(*outputs) {
        outputs.place = LAST.get();
    }
    answer
}

pub fn place_of_the_frame_before(receiver: Receiver, trigger: u8, data: u8) -> ClockAnswer {
    kept((receiver, trigger, data), |outputs| outputs.verdict != VERDICT_NONE)
}

pub fn place_stays(receiver: Receiver, trigger: u8, data: u8) -> ClockAnswer {
    kept((receiver, trigger, data), |outputs| outputs.verdict == VERDICT_NONE)
}

pub fn place_of_a_refused_clock(receiver: Receiver, trigger: u8, data: u8) -> ClockAnswer {
    let mut answer = Model.clock(receiver, trigger, data);
    if answer.refusal != ACCEPTED {
        answer.outputs.place = 1;
    }
    answer
}

pub fn received_without_place(receiver: Receiver, kind: u8, number: u64) -> ClockAnswer {
    let mut answer = Model.receive(receiver, kind, number);
    answer.outputs.place = 0;
    answer
}

pub fn whole_storm_is_even(receiver: Receiver, kind: u8, number: u64) -> ClockAnswer {
    let mut answer = Model.receive(receiver, kind, number);
    if answer.outputs.verdict == VERDICT_ODD_SYNDROME {
        answer.outputs.verdict = VERDICT_EVEN_SYNDROME;
    }
    answer
}

/// Each record is changed, with the place that its clock shows.
fn with_places(
    (receiver, block, buffer): (&mut Receiver, &[u8], &mut [u32]),
    change: impl Fn(&mut [u32], u32),
) -> BlockOutcome {
    let mut state = *receiver;
    let outcome = Model.run_block(receiver, block, buffer);
    let mut records = buffer.chunks_exact_mut(RECORD_NUMBERS).take(outcome.records);
    for bits in block.iter().filter(|_| outcome.refusal == ACCEPTED) {
        let answer = Model.clock(state, bits & 1, bits >> 1);
        state = answer.receiver;
        let Outputs { trigger, verdict, place, .. } = answer.outputs;
        if trigger == 1 || verdict != VERDICT_NONE {
            change(records.next().expect("a record"), place.into());
        }
    }
    outcome
}

pub fn place_in_the_code(
    receiver: &mut Receiver,
    block: &[u8],
    buffer: &mut [u32],
) -> BlockOutcome {
    with_places((receiver, block, buffer), |record, place| record[3] += 2 * CODE_MISSED * place)
}

pub fn place_of_the_bit_recorded(
    receiver: &mut Receiver,
    block: &[u8],
    buffer: &mut [u32],
) -> BlockOutcome {
    with_places((receiver, block, buffer), |record, place| {
        if place != 0 {
            record[0] = place;
        }
    })
}

pub fn verdict_11_recorded_as_8(
    receiver: &mut Receiver,
    block: &[u8],
    buffer: &mut [u32],
) -> BlockOutcome {
    with_places((receiver, block, buffer), |record, _| {
        if record[3] & CODE_VERDICT == u32::from(VERDICT_ODD_SYNDROME) {
            record[3] -= u32::from(VERDICT_ODD_SYNDROME - VERDICT_EVEN_SYNDROME);
        }
    })
}

/// Lines with one of these verdicts are printed with other fields.
fn printed(
    lent: (Report, &[u8], &mut [u8]),
    verdicts: &[&str],
    change: impl Fn(&mut Vec<String>),
) -> Reported {
    other_fields(lent, |fields| {
        if verdicts.contains(&fields[1].as_str()) {
            change(fields);
        }
    })
}

/// All verdicts of which the place is printed.
const WITH_PLACE: [&str; 8] = ["1", "2", "3", "4", "5", "6", "9", "10"];

fn push_0(fields: &mut Vec<String>) {
    fields.push("0".to_string());
}

fn pop(fields: &mut Vec<String>) {
    fields.pop();
}

pub fn place_printed_for_0(report: Report, input: &[u8], buffer: &mut [u8]) -> Reported {
    printed((report, input, buffer), &["0"], push_0)
}

pub fn place_printed_for_8(report: Report, input: &[u8], buffer: &mut [u8]) -> Reported {
    printed((report, input, buffer), &["8"], push_0)
}

pub fn place_printed_for_11(report: Report, input: &[u8], buffer: &mut [u8]) -> Reported {
    printed((report, input, buffer), &["11"], push_0)
}

pub fn no_place_printed_for_5(report: Report, input: &[u8], buffer: &mut [u8]) -> Reported {
    printed((report, input, buffer), &["5"], pop)
}

pub fn no_place_printed_for_9(report: Report, input: &[u8], buffer: &mut [u8]) -> Reported {
    printed((report, input, buffer), &["9"], pop)
}

pub fn no_place_printed_for_10(report: Report, input: &[u8], buffer: &mut [u8]) -> Reported {
    printed((report, input, buffer), &["10"], pop)
}

pub fn no_place_printed_if_clean(report: Report, input: &[u8], buffer: &mut [u8]) -> Reported {
    printed((report, input, buffer), &WITH_PLACE, |fields| {
        if fields[4] == "0" {
            fields.pop();
        }
    })
}

pub fn place_printed_before_the_word(report: Report, input: &[u8], buffer: &mut [u8]) -> Reported {
    printed((report, input, buffer), &WITH_PLACE, |fields| fields.swap(3, 4))
}

pub fn place_printed_in_hexadecimal(report: Report, input: &[u8], buffer: &mut [u8]) -> Reported {
    printed((report, input, buffer), &WITH_PLACE, |fields| {
        let place: u8 = fields[4].parse().expect("a place");
        fields[4] = format!("{place:X}");
    })
}

pub fn word_printed_for_11(report: Report, input: &[u8], buffer: &mut [u8]) -> Reported {
    printed((report, input, buffer), &["11"], |fields| fields[3] = "00".to_string())
}

pub fn last_line_without_place(report: Report, buffer: &mut [u8]) -> Reported {
    other_last_line((report, buffer), |fields| fields.truncate(4))
}
