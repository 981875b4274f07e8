//! Mistakes in Q-4 of document 02, "No delay byte without a setting".

use super::reports::other_fields;
use crate::sys::*;
use crate::testing::convert;
use crate::testing::frame::{wanting, RUN};
use crate::testing::library::{Library, Model};

/// One of registers 0 to 3.
fn register(receiver: &mut Receiver, number: u8) -> &mut u8 {
    let settings = &mut receiver.core.settings;
    match number {
        0 => &mut settings.fine1,
        1 => &mut settings.fine2,
        2 => &mut settings.coarse,
        _ => &mut settings.control,
    }
}

/// Sub-address and data of a clock's word.
fn said(answer: &ClockAnswer) -> (u8, u8) {
    let [data, sub_address, _, _] = answer.outputs.word.to_le_bytes();
    (sub_address, data)
}

/// The clock's frame is stored, with verdict 2.
fn stored(mut answer: ClockAnswer) -> ClockAnswer {
    let (number, data) = said(&answer);
    answer.outputs.verdict = VERDICT_STORED;
    *register(&mut answer.receiver, number) = data;
    answer
}

/// The clock's frame gets verdict 10, and its register stays as it was before.
fn not_stored(mut before: Receiver, mut answer: ClockAnswer) -> ClockAnswer {
    let (number, _) = said(&answer);
    answer.outputs.verdict = VERDICT_NO_SETTING;
    *register(&mut answer.receiver, number) = *register(&mut before, number);
    answer
}

pub fn no_setting_stores(receiver: Receiver, trigger: u8, data: u8) -> ClockAnswer {
    let right = Model.clock(receiver, trigger, data);
    match right.outputs.verdict {
        VERDICT_NO_SETTING => {
            let mut answer = stored(right);
            answer.outputs.verdict = VERDICT_NO_SETTING;
            answer
        }
        _ => right,
    }
}

pub fn delay_byte_239_not_stored(receiver: Receiver, trigger: u8, data: u8) -> ClockAnswer {
    let right = Model.clock(receiver, trigger, data);
    match (right.outputs.verdict, said(&right)) {
        (VERDICT_STORED, (0 | 1, 239)) => not_stored(receiver, right),
        _ => right,
    }
}

pub fn delay_byte_240_stored(receiver: Receiver, trigger: u8, data: u8) -> ClockAnswer {
    let right = Model.clock(receiver, trigger, data);
    match (right.outputs.verdict, said(&right)) {
        (VERDICT_NO_SETTING, (_, 240)) => stored(right),
        _ => right,
    }
}

/// The data as received stand before the 7 check bits.
pub fn received_data_decide(receiver: Receiver, trigger: u8, data: u8) -> ClockAnswer {
    let right = Model.clock(receiver, trigger, data);
    let over = receiver.held.bits >> 7 & 0xFF > 239;
    match (right.outputs.verdict, said(&right)) {
        (VERDICT_STORED, (0 | 1, _)) if over => not_stored(receiver, right),
        (VERDICT_NO_SETTING, _) if !over => stored(right),
        _ => right,
    }
}

pub fn no_setting_before_outside(receiver: Receiver, trigger: u8, data: u8) -> ClockAnswer {
    let right = Model.clock(receiver, trigger, data);
    match (right.outputs.verdict, said(&right)) {
        (VERDICT_OUTSIDE, (0 | 1, 240..)) => not_stored(receiver, right),
        _ => right,
    }
}

pub fn no_setting_before_address(receiver: Receiver, trigger: u8, data: u8) -> ClockAnswer {
    let right = Model.clock(receiver, trigger, data);
    match (right.outputs.verdict, said(&right)) {
        (VERDICT_OTHER_ADDRESS, (0 | 1, 240..)) => not_stored(receiver, right),
        _ => right,
    }
}

pub fn no_setting_in_register_2(receiver: Receiver, trigger: u8, data: u8) -> ClockAnswer {
    let right = Model.clock(receiver, trigger, data);
    match (right.outputs.verdict, said(&right)) {
        (VERDICT_STORED, (2, 240..)) => not_stored(receiver, right),
        _ => right,
    }
}

/// A clock with verdict 10 is changed.
fn changed(
    (receiver, trigger, data): (Receiver, u8, u8),
    change: impl Fn(&mut ClockAnswer),
) -> ClockAnswer {
    let mut answer = Model.clock(receiver, trigger, data);
    if answer.outputs.verdict == VERDICT_NO_SETTING {
        change(&mut answer);
    }
    answer
}

pub fn no_setting_not_counted(receiver: Receiver, trigger: u8, data: u8) -> ClockAnswer {
    changed((receiver, trigger, data), |answer| {
        answer.receiver.core.errors.single_errors = receiver.core.errors.single_errors;
    })
}

pub fn no_setting_without_word(receiver: Receiver, trigger: u8, data: u8) -> ClockAnswer {
    changed((receiver, trigger, data), |answer| answer.outputs.word = 0)
}

pub fn no_setting_is_a_double_error(receiver: Receiver, trigger: u8, data: u8) -> ClockAnswer {
    changed((receiver, trigger, data), |answer| {
        let double = &mut answer.receiver.core.errors.double_errors;
        *double = double.saturating_add(1);
    })
}

pub fn no_setting_leaves_status(receiver: Receiver, trigger: u8, data: u8) -> ClockAnswer {
    changed((receiver, trigger, data), |answer| {
        answer.receiver.core.errors.status5 = receiver.core.errors.status5;
    })
}

pub fn quiet_after_10(receiver: Receiver, trigger: u8, data: u8) -> ClockAnswer {
    changed((receiver, trigger, data), |answer| answer.receiver.held = wanting(RUN))
}

/// Fine delays that any state may have, where these have no setting.
fn with_settings(receiver: Receiver) -> Receiver {
    let mut other = receiver;
    for number in [0, 1] {
        let byte = register(&mut other, number);
        *byte = (*byte).min(239);
    }
    other
}

pub fn fine_delay_240_well_formed(receiver: Receiver) -> u8 {
    let mut other = receiver;
    let fine_delay = register(&mut other, 1);
    if *fine_delay == 240 {
        *fine_delay = 0;
    }
    Model.well_formed(other)
}

pub fn any_fine_delay_read(receiver: Receiver, number: u8) -> ReadAnswer {
    match (Model.read(with_settings(receiver), number), number) {
        (answer, 0) if answer.refusal == ACCEPTED => {
            ReadAnswer { byte: receiver.core.settings.fine1, ..answer }
        }
        (answer, 1) if answer.refusal == ACCEPTED => {
            ReadAnswer { byte: receiver.core.settings.fine2, ..answer }
        }
        (answer, _) => answer,
    }
}

pub fn any_fine_delay_written(receiver: Receiver, number: u8, value: u8) -> WriteAnswer {
    let mut answer = Model.write(receiver, number, value);
    if answer.refusal == REFUSED_NO_SETTING {
        answer.refusal = ACCEPTED;
        *register(&mut answer.receiver, number) = value;
    }
    answer
}

pub fn refused_fine_delay_stored(receiver: Receiver, number: u8, value: u8) -> WriteAnswer {
    let mut answer = Model.write(receiver, number, value);
    if answer.refusal == REFUSED_NO_SETTING {
        *register(&mut answer.receiver, number) = value;
    }
    answer
}

pub fn coarse_delay_refused(receiver: Receiver, number: u8, value: u8) -> WriteAnswer {
    let right = Model.write(receiver, number, value);
    match right.refusal == ACCEPTED && number == 2 && value > 239 {
        true => convert::refused_write(REFUSED_NO_SETTING, receiver),
        false => right,
    }
}

pub fn fine_delay_before_state(receiver: Receiver, number: u8, value: u8) -> WriteAnswer {
    match number < 2 && value > 239 {
        true => convert::refused_write(REFUSED_NO_SETTING, receiver),
        false => Model.write(receiver, number, value),
    }
}

pub fn received_delay_stored(receiver: Receiver, kind: u8, number: u64) -> ClockAnswer {
    let right = Model.receive(receiver, kind, number);
    match right.outputs.verdict {
        VERDICT_NO_SETTING => stored(right),
        _ => right,
    }
}

pub fn block_on_any_fine_delay(
    receiver: &mut Receiver,
    block: &[u8],
    buffer: &mut [u32],
) -> BlockOutcome {
    let mut other = with_settings(*receiver);
    let outcome = Model.run_block(&mut other, block, buffer);
    if outcome.refusal == ACCEPTED {
        *receiver = other;
    }
    outcome
}

pub fn verdict_10_recorded_as_2(
    receiver: &mut Receiver,
    block: &[u8],
    buffer: &mut [u32],
) -> BlockOutcome {
    let outcome = Model.run_block(receiver, block, buffer);
    for record in buffer.chunks_exact_mut(RECORD_NUMBERS).take(outcome.records) {
        if record[3] & CODE_VERDICT == u32::from(VERDICT_NO_SETTING) {
            record[3] -= u32::from(VERDICT_NO_SETTING - VERDICT_STORED);
        }
    }
    outcome
}

/// Each line with verdict 10 is printed with other fields.
fn printed(lent: (Report, &[u8], &mut [u8]), change: impl Fn(&mut Vec<String>)) -> Reported {
    other_fields(lent, |fields| {
        if fields[1] == "10" {
            change(fields);
        }
    })
}

pub fn verdict_10_without_word(report: Report, input: &[u8], buffer: &mut [u8]) -> Reported {
    printed((report, input, buffer), |fields| fields[3] = "-".to_string())
}

pub fn verdict_10_printed_as_a(report: Report, input: &[u8], buffer: &mut [u8]) -> Reported {
    printed((report, input, buffer), |fields| fields[1] = "A".to_string())
}

/// Where 37 bytes are free one more line is reported, of which the 38th byte is lost.
pub fn longest_line_of_37_bytes(report: Report, input: &[u8], buffer: &mut [u8]) -> Reported {
    let done = Model.report_input(report, input, buffer);
    let free = &mut buffer[done.written..];
    if done.room_wanted == 0 || free.len() != LONGEST_LINE - 1 {
        return done;
    }
    let rest = &input[done.used..];
    let line = rest.split_inclusive(|&byte| byte == b'\n').next().unwrap_or_default();
    let mut text = [0; LONGEST_LINE];
    let more = Model.report_input(done.report, line, &mut text);
    let length = more.written.min(free.len());
    free[..length].copy_from_slice(&text[..length]);
    Reported {
        report: more.report,
        used: done.used + more.used,
        written: done.written + length,
        room_wanted: if line.len() < rest.len() { LONGEST_LINE - 1 } else { 0 },
    }
}
