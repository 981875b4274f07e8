//! Mistakes in Q-1 of document 02, "Quiet after a bad stop".

use super::reports::byte_by_byte;
use crate::sys::*;
use crate::testing::convert;
use crate::testing::frame::{send, wanting, Frame, RUN};
use crate::testing::library::{Library, Model};

/// A clock that is not refused, on a receiver that wants ones.
fn in_a_run(receiver: &Receiver, answer: &ClockAnswer) -> bool {
    answer.refusal == ACCEPTED && receiver.held.ones_wanted > 0
}

pub fn forty_ones(receiver: Receiver, trigger: u8, data: u8) -> ClockAnswer {
    let mut answer = Model.clock(receiver, trigger, data);
    if answer.refusal == ACCEPTED && answer.receiver.held == wanting(1) {
        answer.receiver.held = Held::default();
    }
    answer
}

/// Its states want up to 42 ones, and its clock takes them.
pub fn forty_two_ones(receiver: Receiver, trigger: u8, data: u8) -> ClockAnswer {
    let first = receiver.held == wanting(RUN + 1);
    let held = if first { wanting(RUN) } else { receiver.held };
    let mut answer = Model.clock(Receiver { held, ..receiver }, trigger, data);
    if answer.refusal != ACCEPTED {
        return convert::refused_clock(answer.refusal, receiver);
    }
    let begins = answer.receiver.held == wanting(RUN);
    if begins || first {
        answer.receiver.held = wanting(RUN + u8::from(begins));
    }
    answer
}

pub fn zero_keeps_the_run(receiver: Receiver, trigger: u8, data: u8) -> ClockAnswer {
    let mut answer = Model.clock(receiver, trigger, data);
    if in_a_run(&receiver, &answer) && data == 0 {
        answer.receiver.held = receiver.held;
    }
    answer
}

pub fn zero_starts_a_frame(receiver: Receiver, trigger: u8, data: u8) -> ClockAnswer {
    let mut answer = Model.clock(receiver, trigger, data);
    if in_a_run(&receiver, &answer) && data == 0 {
        answer.receiver.held = Held { count: 1, ..Held::default() };
    }
    answer
}

pub fn quiet_after_8(receiver: Receiver, trigger: u8, data: u8) -> ClockAnswer {
    let mut answer = Model.clock(receiver, trigger, data);
    if answer.outputs.verdict == VERDICT_EVEN_SYNDROME {
        answer.receiver.held = wanting(RUN);
    }
    answer
}

pub fn quiet_after_9(receiver: Receiver, trigger: u8, data: u8) -> ClockAnswer {
    let mut answer = Model.clock(receiver, trigger, data);
    if answer.outputs.verdict == VERDICT_FIXED_BIT {
        answer.receiver.held = wanting(RUN);
    }
    answer
}

pub fn fifteen_ones_after_a_short_frame(receiver: Receiver, trigger: u8, data: u8) -> ClockAnswer {
    let mut answer = Model.clock(receiver, trigger, data);
    if answer.outputs.verdict == VERDICT_STOP_BIT && receiver.held.count == 15 {
        answer.receiver.held = wanting(15);
    }
    answer
}

pub fn ones_with_triggers_not_counted(receiver: Receiver, trigger: u8, data: u8) -> ClockAnswer {
    let mut answer = Model.clock(receiver, trigger, data);
    if in_a_run(&receiver, &answer) && trigger == 1 && data == 1 {
        answer.receiver.held = receiver.held;
    }
    answer
}

pub fn refused_clock_begins_again(receiver: Receiver, trigger: u8, data: u8) -> ClockAnswer {
    let mut answer = Model.clock(receiver, trigger, data);
    if answer.refusal == REFUSED_BIT && receiver.held.ones_wanted > 0 {
        answer.receiver.held = wanting(RUN);
    }
    answer
}

pub fn bunch_stands_in_the_run(receiver: Receiver, trigger: u8, data: u8) -> ClockAnswer {
    let mut answer = Model.clock(receiver, trigger, data);
    if in_a_run(&receiver, &answer) {
        answer.receiver.core.counters.bunch = receiver.core.counters.bunch;
    }
    answer
}

pub fn trigger_ignored_in_the_run(receiver: Receiver, trigger: u8, data: u8) -> ClockAnswer {
    let right = Model.clock(receiver, trigger, data);
    match in_a_run(&receiver, &right) {
        true => Model.clock(receiver, 0, data),
        false => right,
    }
}

pub fn run_sets_status(receiver: Receiver, trigger: u8, data: u8) -> ClockAnswer {
    let mut answer = Model.clock(receiver, trigger, data);
    if in_a_run(&receiver, &answer) && answer.receiver.held == Held::default() {
        answer.receiver.core.errors.status5 = 1;
    }
    answer
}

pub fn forty_one_wanted_refused(receiver: Receiver, trigger: u8, data: u8) -> ClockAnswer {
    match receiver.held.ones_wanted == RUN {
        true => convert::refused_clock(REFUSED_STATE, receiver),
        false => Model.clock(receiver, trigger, data),
    }
}

pub fn fresh_wants_ones(id: u16, i2c: u8) -> FreshAnswer {
    let mut answer = Model.fresh(id, i2c);
    if answer.refusal == ACCEPTED {
        answer.receiver.held = wanting(RUN);
    }
    answer
}

pub fn forty_two_wanted_accepted(receiver: Receiver) -> u8 {
    let mut other = receiver;
    if receiver.held.ones_wanted == RUN + 1 {
        other.held.ones_wanted = RUN;
    }
    Model.well_formed(other)
}

pub fn ones_wanted_beside_bits(receiver: Receiver) -> u8 {
    let mut other = receiver;
    if receiver.held.count > 0 && receiver.held.ones_wanted <= RUN {
        other.held.ones_wanted = 0;
    }
    Model.well_formed(other)
}

pub fn write_ends_the_run(receiver: Receiver, number: u8, value: u8) -> WriteAnswer {
    let mut answer = Model.write(receiver, number, value);
    if answer.refusal == ACCEPTED {
        answer.receiver.held.ones_wanted = 0;
    }
    answer
}

pub fn frame_taken_in_the_run(receiver: Receiver, kind: u8, number: u64) -> ClockAnswer {
    let right = Model.receive(receiver, kind, number);
    if right.refusal != ACCEPTED || receiver.held.ones_wanted == 0 {
        return right;
    }
    let held = Held::default();
    Model.receive(Receiver { held, ..receiver }, kind, number)
}

/// A block that begins on a receiver that wants ones begins on another.
fn begins_with(
    held: Held,
    (receiver, block, buffer): (&mut Receiver, &[u8], &mut [u32]),
) -> BlockOutcome {
    let mut other = *receiver;
    if receiver.held.ones_wanted > 0 && Model.well_formed(other) == 1 {
        other.held = held;
    }
    let right = Model.run_block(&mut other, block, buffer);
    if right.refusal == ACCEPTED {
        *receiver = other;
    }
    right
}

pub fn block_begins_the_run_again(
    receiver: &mut Receiver,
    block: &[u8],
    buffer: &mut [u32],
) -> BlockOutcome {
    begins_with(wanting(RUN), (receiver, block, buffer))
}

pub fn block_ends_the_run(
    receiver: &mut Receiver,
    block: &[u8],
    buffer: &mut [u32],
) -> BlockOutcome {
    begins_with(Held::default(), (receiver, block, buffer))
}

/// Clock by clock. The ones wanted are forgotten before the next clock of the same block.
pub fn block_hunts_at_once(
    receiver: &mut Receiver,
    block: &[u8],
    buffer: &mut [u32],
) -> BlockOutcome {
    let right = Model.run_block(&mut receiver.clone(), block, &mut buffer.to_vec());
    if right.refusal != ACCEPTED {
        return right;
    }
    let mut records = 0;
    for (place, byte) in block.iter().enumerate() {
        if place > 0 {
            receiver.held.ones_wanted = 0;
        }
        let free = &mut buffer[RECORD_NUMBERS * records..];
        let done = Model.run_block(receiver, &[*byte], free).records;
        if done == 1 {
            free[0] = place as u32;
        }
        records += done;
    }
    BlockOutcome { refusal: ACCEPTED, records }
}

/// The verdict of a line's text; none where the line is refused.
fn verdict(text: &[u8]) -> Option<u8> {
    let field = text.split(|&byte| byte == b' ').nth(1)?;
    str::from_utf8(field).ok()?.parse().ok()
}

/// The receiver is changed after each line by its verdict.
fn after_lines(lent: (Report, &[u8], &mut [u8]), change: impl Fn(u8, &mut Receiver)) -> Reported {
    byte_by_byte(lent, |report, byte, free| {
        let mut done = Model.report_input(report, &[byte], free);
        if let Some(verdict) = verdict(&free[..done.written]) {
            change(verdict, &mut done.report.receiver);
        }
        done
    })
}

/// 41 clocks are taken off the bunch counter.
fn take_off(receiver: &mut Receiver) {
    let bunch = &mut receiver.core.counters.bunch;
    *bunch = (*bunch + 4096 - u16::from(RUN)) % 4096;
}

/// The state as it was before the 41 ones.
fn unsend(receiver: &mut Receiver) {
    take_off(receiver);
    receiver.held = wanting(RUN);
}

fn send_ones(receiver: &mut Receiver) {
    *receiver = send(&Model, *receiver, Frame::ones(RUN)).receiver;
}

pub fn no_ones_after_7(report: Report, input: &[u8], buffer: &mut [u8]) -> Reported {
    after_lines((report, input, buffer), |verdict, receiver| {
        if verdict == VERDICT_STOP_BIT {
            unsend(receiver);
        }
    })
}

pub fn ones_count_no_bunches(report: Report, input: &[u8], buffer: &mut [u8]) -> Reported {
    after_lines((report, input, buffer), |verdict, receiver| {
        if verdict == VERDICT_STOP_BIT {
            take_off(receiver);
        }
    })
}

pub fn ones_after_8(report: Report, input: &[u8], buffer: &mut [u8]) -> Reported {
    after_lines((report, input, buffer), |verdict, receiver| {
        if verdict == VERDICT_EVEN_SYNDROME {
            send_ones(receiver);
        }
    })
}

pub fn ones_after_11(report: Report, input: &[u8], buffer: &mut [u8]) -> Reported {
    after_lines((report, input, buffer), |verdict, receiver| {
        if verdict == VERDICT_ODD_SYNDROME {
            send_ones(receiver);
        }
    })
}

pub fn ones_after_every_line_in_a_run(report: Report, input: &[u8], buffer: &mut [u8]) -> Reported {
    after_lines((report, input, buffer), |_, receiver| {
        if receiver.held.ones_wanted > 0 {
            send_ones(receiver);
        }
    })
}

pub fn ones_before_the_next_line(report: Report, input: &[u8], buffer: &mut [u8]) -> Reported {
    let mut start = report;
    let due = report.receiver.held == wanting(RUN) && Model.well_formed(report.receiver) == 1;
    if due && !input.is_empty() && buffer.len() >= LONGEST_LINE {
        send_ones(&mut start.receiver);
    }
    let mut done = Model.report_input(start, input, buffer);
    let mut lines = buffer[..done.written].split_inclusive(|&byte| byte == b'\n');
    if lines.next_back().and_then(verdict) == Some(VERDICT_STOP_BIT) {
        unsend(&mut done.report.receiver);
    }
    done
}

pub fn no_ones_after_the_last_line(report: Report, buffer: &mut [u8]) -> Reported {
    let characters = report.part.characters.get(..usize::from(report.part.count));
    let line = Model.read_line(characters.unwrap_or_default());
    let last = Model.receive(report.receiver, line.kind, line.number);
    let bad_stop = line.refusal == ACCEPTED && last.outputs.verdict == VERDICT_STOP_BIT;
    if !bad_stop || buffer.len() < LONGEST_END {
        return Model.report_end(report, buffer);
    }
    let mut other = report;
    take_off(&mut other.receiver);
    let mut done = Model.report_end(other, buffer);
    done.report.receiver.held = wanting(RUN);
    done
}
