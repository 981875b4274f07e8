//! Accesses between the bits of document 01's example, and in a running sequence.

use ttcrx_host::sys::{Receiver, Sequence};
use ttcrx_host::sys::{STROBE_EVENT_HIGH, STROBE_EVENT_LOW, STROBE_NONE};
use ttcrx_host::testing::compare::Both;
use ttcrx_host::testing::example;
use ttcrx_host::testing::frame::{send, wanting, Frame, RUN};
use ttcrx_host::testing::library::{Library, Model};

/// The register holds this byte.
fn holds(both: &Both, state: Receiver, number: u8, byte: u8) {
    let answer = both.read(state, number);
    both.same((state, number), (answer.refusal, answer.byte), (0, byte));
}

fn write(both: &Both, state: Receiver, number: u8, value: u8) -> Receiver {
    let answer = both.write(state, number, value);
    both.same((state, number, value), answer.refusal, 0);
    answer.receiver
}

fn send_all(both: &Both, state: Receiver, frames: &[Frame]) -> Receiver {
    let after = |state, frame: &Frame| send(both, state, *frame).receiver;
    frames.iter().fold(state, after)
}

/// "end 2 2 0 215", and coarse delay 35; the bit 5 that line 3 clears stays so while ones are
/// wanted, and is set by the next frame.
#[test]
fn the_end_of_the_example() {
    let both = Both::of("registers at the end of the example");
    let frames = example::frames();
    let fresh = Model.fresh(5, 5).receiver;
    let slipped = send_all(&both, fresh, &frames[..3]);
    holds(&both, slipped, 22, 0xC0);
    let waiting = send(&both, slipped, Frame::ones(RUN)).receiver;
    holds(&both, waiting, 22, 0xC0);
    let end = send_all(&both, waiting, &frames[3..]);
    let bytes = [(2, 0x35), (8, 2), (9, 0), (10, 2), (22, 0xE0), (24, 215), (25, 0), (26, 0)];
    for (number, byte) in bytes {
        holds(&both, end, number, byte);
    }
    both.at_least(4 * 16 + 3 * 42 + 41 + 2 * 10);
}

/// Cleared in the middle of line 2, after its first 7 bits: the frame is received all the same, and
/// the bunch counter counts the 9 clocks since.
#[test]
fn a_write_between_two_bits() {
    let both = Both::of("a write between two bits");
    let frame = example::frames()[1];
    let fresh = Model.fresh(5, 5).receiver;
    let before = send(&both, fresh, frame.front(7)).receiver;
    let cleared = write(&both, before, 25, 0xFF);
    holds(&both, cleared, 24, 0);
    let after = send(&both, cleared, frame.back(9)).receiver;
    holds(&both, after, 24, 9);
    holds(&both, after, 8, 1);
    both.at_least(16 + 2 * 4);
}

/// Registers in a run of ones after a bad stop bit: writes are done, reads show what was written,
/// and the run goes on.
#[test]
fn accesses_in_a_run_of_ones() {
    let both = Both::of("accesses between the ones after a bad stop bit");
    let slipped = example::frames()[2];
    let mut state = send(&both, Model.fresh(5, 5).receiver, slipped).receiver;
    holds(&both, state, 10, 1);
    state = write(&both, state, 10, 0);
    for ones in 1..=RUN {
        state = write(&both, state, 2, ones);
        state = write(&both, state, 24, 0);
        state = both.clock(state, 0, 1).receiver;
        both.same(ones, state.held, wanting(RUN - ones));
        holds(&both, state, 2, ones);
        holds(&both, state, 24, 1);
        holds(&both, state, 22, 0xC0);
    }
    holds(&both, state, 10, 0);
    both.at_least(41 * (2 * 2 + 2 + 3 * 2));
}

/// "A later write to the control register doesn't alter a running sequence"; a write that clears
/// the event counter leaves the kept event number.
#[test]
fn writes_in_a_running_sequence() {
    let both = Both::of("writes in a running sequence");
    let event = 0x12_3456;
    let mut state = Model.fresh(5, 5).receiver;
    state.core.counters.event = event;
    state = both.clock(state, 1, 1).receiver;
    both.same(event, state.core.sequence, Sequence { left: 2, event });
    state = write(&both, state, 3, 0x90);
    state = write(&both, state, 27, 0x00);
    let shown = [(STROBE_EVENT_LOW, 0x456, 1), (STROBE_EVENT_HIGH, 0x123, 1), (STROBE_NONE, 0, 0)];
    for (clock, expected) in (0..).zip(shown) {
        holds(&both, state, 26, clock);
        let answer = both.clock(state, 1, 1);
        let outputs = answer.outputs;
        let shown = (outputs.strobe, outputs.number, outputs.missed);
        both.same(clock, shown, expected);
        state = answer.receiver;
    }
    both.at_least(2 + 2 * 2 + 3 * 4);
}
