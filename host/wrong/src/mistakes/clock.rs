//! Mistakes in the receiver: states, the clock and whole frames.

use crate::sys::*;
use crate::testing::convert;
use crate::testing::library::{Library, Model};

pub fn i2c_id_before_id(id: u16, i2c: u8) -> FreshAnswer {
    match i2c > 63 {
        true => Model.fresh(1, i2c),
        false => Model.fresh(id, i2c),
    }
}

pub fn short_frame_of_16_bits_held(receiver: Receiver) -> u8 {
    let Held { count, bits, ones_wanted } = receiver.held;
    let held = match count == 16 && bits >> 14 == 0 && ones_wanted == 0 {
        true => Held::default(),
        false => receiver.held,
    };
    Model.well_formed(Receiver { held, ..receiver })
}

pub fn bit_before_state(receiver: Receiver, trigger: u8, data: u8) -> ClockAnswer {
    match trigger > 1 || data > 1 {
        true => convert::refused_clock(REFUSED_BIT, receiver),
        false => Model.clock(receiver, trigger, data),
    }
}

pub fn new_event_number_on_bus(receiver: Receiver, trigger: u8, data: u8) -> ClockAnswer {
    let mut answer = Model.clock(receiver, trigger, data);
    let new = (receiver.core.counters.event + 1) % (1 << 24);
    if receiver.core.sequence.left == 0 && answer.outputs.strobe == STROBE_EVENT_LOW {
        answer.outputs.number = (new % 4096) as u16;
    }
    if receiver.core.sequence.left == 0 && answer.receiver.core.sequence.left != 0 {
        answer.receiver.core.sequence.event = new;
    }
    answer
}

pub fn cleared_bunch_number_on_bus(receiver: Receiver, trigger: u8, data: u8) -> ClockAnswer {
    let mut answer = Model.clock(receiver, trigger, data);
    let shown = &mut answer.outputs;
    let cleared = shown.verdict == VERDICT_BROADCAST && shown.word & 1 == 1;
    if cleared && shown.strobe == STROBE_BUNCH {
        shown.number = 0;
    }
    answer
}

pub fn mode_of_this_clocks_frame(receiver: Receiver, trigger: u8, data: u8) -> ClockAnswer {
    let right = Model.clock(receiver, trigger, data);
    let mut other = receiver;
    if right.outputs.verdict == VERDICT_STORED {
        other.core.settings.control = right.receiver.core.settings.control;
    }
    Model.clock(other, trigger, data)
}

pub fn last_word_not_missed(receiver: Receiver, trigger: u8, data: u8) -> ClockAnswer {
    let mut answer = Model.clock(receiver, trigger, data);
    if receiver.core.sequence.left == 1 {
        answer.outputs.missed = 0;
    }
    answer
}

pub fn orbit_of_3564_bunches(receiver: Receiver, trigger: u8, data: u8) -> ClockAnswer {
    let mut answer = Model.clock(receiver, trigger, data);
    if answer.refusal == ACCEPTED && answer.receiver.core.counters.bunch == 3564 {
        answer.receiver.core.counters.bunch = 0;
    }
    answer
}

pub fn long_frame_of_41_bits(receiver: Receiver, trigger: u8, data: u8) -> ClockAnswer {
    let right = Model.clock(receiver, trigger, data);
    if right.refusal != ACCEPTED || right.receiver.held.count != 41 {
        return right;
    }
    let held = right.receiver.held;
    Model.clock(Receiver { held, ..receiver }, trigger, 1)
}

pub fn short_frame_of_15_bits(receiver: Receiver, trigger: u8, data: u8) -> ClockAnswer {
    let right = Model.clock(receiver, trigger, data);
    let Held { count, bits, .. } = right.receiver.held;
    if right.refusal != ACCEPTED || count != 15 || bits >> 13 != 0 {
        return right;
    }
    let held = right.receiver.held;
    Model.clock(Receiver { held, ..receiver }, trigger, 1)
}

pub fn corrected_counted_only_if_ours(receiver: Receiver, trigger: u8, data: u8) -> ClockAnswer {
    let mut answer = Model.clock(receiver, trigger, data);
    if answer.outputs.verdict == VERDICT_OTHER_ADDRESS {
        answer.receiver.core.errors.single_errors = receiver.core.errors.single_errors;
    }
    answer
}

pub fn corrected_reset_counted(receiver: Receiver, trigger: u8, data: u8) -> ClockAnswer {
    let mut answer = Model.clock(receiver, trigger, data);
    if answer.outputs.verdict == VERDICT_RESET {
        answer.receiver.core.errors.single_errors = answer.outputs.corrected.into();
    }
    answer
}

pub fn reset_keeps_sequence(receiver: Receiver, trigger: u8, data: u8) -> ClockAnswer {
    let mut answer = Model.clock(receiver, trigger, data);
    if answer.outputs.verdict == VERDICT_RESET {
        answer.receiver.core.sequence = Model.clock(receiver, trigger, 0).receiver.core.sequence;
    }
    answer
}

pub fn clear_reaches_sequence(receiver: Receiver, trigger: u8, data: u8) -> ClockAnswer {
    let mut answer = Model.clock(receiver, trigger, data);
    if answer.outputs.verdict == VERDICT_BROADCAST && answer.outputs.word & 2 == 2 {
        answer.receiver.core.sequence.event = 0;
    }
    answer
}

pub fn status_not_set_by_8(receiver: Receiver, trigger: u8, data: u8) -> ClockAnswer {
    let mut answer = Model.clock(receiver, trigger, data);
    if answer.outputs.verdict == VERDICT_EVEN_SYNDROME {
        answer.receiver.core.errors.status5 = receiver.core.errors.status5;
    }
    answer
}

pub fn double_errors_wrap(receiver: Receiver, trigger: u8, data: u8) -> ClockAnswer {
    let mut answer = Model.clock(receiver, trigger, data);
    if matches!(answer.outputs.verdict, VERDICT_STOP_BIT..=VERDICT_FIXED_BIT | VERDICT_ODD_SYNDROME)
    {
        let before = receiver.core.errors.double_errors;
        answer.receiver.core.errors.double_errors = before.wrapping_add(1);
    }
    answer
}

pub fn single_errors_wrap(receiver: Receiver, trigger: u8, data: u8) -> ClockAnswer {
    let mut answer = Model.clock(receiver, trigger, data);
    if answer.outputs.corrected == 1 && answer.outputs.verdict != VERDICT_RESET {
        let before = receiver.core.errors.single_errors;
        answer.receiver.core.errors.single_errors = before.wrapping_add(1);
    }
    answer
}

pub fn address_before_fixed_bit(receiver: Receiver, trigger: u8, data: u8) -> ClockAnswer {
    let mut answer = Model.clock(receiver, trigger, data);
    let address = answer.outputs.word >> 18;
    let ours = address == 0 || address == receiver.core.ids.id.into();
    if answer.outputs.verdict == VERDICT_FIXED_BIT && !ours {
        answer.outputs.verdict = VERDICT_OTHER_ADDRESS;
        answer.receiver.core.errors.double_errors = receiver.core.errors.double_errors;
    }
    answer
}

pub fn outside_before_address(receiver: Receiver, trigger: u8, data: u8) -> ClockAnswer {
    let mut answer = Model.clock(receiver, trigger, data);
    let outside = answer.outputs.word >> 17 & 1 == 1;
    if answer.outputs.verdict == VERDICT_OTHER_ADDRESS && outside {
        answer.outputs.verdict = VERDICT_OUTSIDE;
    }
    answer
}

pub fn kind_2_is_long(receiver: Receiver, kind: u8, number: u64) -> ClockAnswer {
    let kind = if kind == 2 { LONG } else { kind };
    Model.receive(receiver, kind, number)
}

pub fn frame_before_state(receiver: Receiver, number: u64) -> ClockAnswer {
    match number >> 14 {
        0 => Model.receive_short(receiver, number),
        _ => convert::refused_clock(REFUSED_FRAME, receiver),
    }
}

pub fn held_bits_dropped(receiver: Receiver, number: u64) -> ClockAnswer {
    let right = Model.receive_long(receiver, number);
    if right.refusal != ACCEPTED {
        return right;
    }
    let ones_wanted = receiver.held.ones_wanted;
    let held = Held { ones_wanted, ..Held::default() };
    Model.receive_long(Receiver { held, ..receiver }, number)
}

pub fn kind_ignored(receiver: Receiver, _: u8, number: u64) -> ClockAnswer {
    let kind = if number >> 40 == 1 { LONG } else { SHORT };
    Model.receive(receiver, kind, number)
}

pub fn refused_clock_counts(receiver: Receiver, trigger: u8, data: u8) -> ClockAnswer {
    let mut answer = Model.clock(receiver, trigger, data);
    if answer.refusal == REFUSED_BIT {
        answer.receiver.core.counters.bunch = (receiver.core.counters.bunch + 1) % 4096;
    }
    answer
}
