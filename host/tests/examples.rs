//! Compares every function that document 01 has an example of with that example: of the model and
//! of the library.

use ttcrx_host::sys::{Counters, Decoded, Fields, Outputs};
use ttcrx_host::sys::{STROBE_EVENT_HIGH, VERDICT_EVEN_SYNDROME, VERDICT_NONE, VERDICT_STOP_BIT};
use ttcrx_host::testing::compare::Both;
use ttcrx_host::testing::frame::{decode, send, Frame, RUN};
use ttcrx_host::testing::library::{Library, Model, Proved};
use ttcrx_host::testing::{example, printed};

#[test]
fn examples_of_the_model() {
    example::check(&Model);
}

#[test]
fn examples_of_the_library() {
    example::check(&Proved);
}

/// The program's lines, decoded without a receiver: verdict, corrected flag and place, which are 0 or
/// 1 here, word, and the address of a long frame.
const DECODED: [(u8, u8, u32, u16); 7] = [
    (0, 0, 0x01, 0),
    (0, 1, 0x02, 0),
    (VERDICT_STOP_BIT, 0, 0, 0),
    (VERDICT_EVEN_SYNDROME, 0, 0, 0),
    (0, 0, 0x0015_0235, 5),
    (0, 1, 0x0015_0235, 5),
    (0, 0, 0x0019_0235, 6),
];

#[test]
fn lines_decoded() {
    let both = Both::of("frames of the program's lines, decoded");
    for (frame, (verdict, place, word, address)) in example::frames().into_iter().zip(DECODED) {
        let [data, sub_address, _, _] = word.to_le_bytes();
        let expected = Decoded {
            refusal: 0,
            verdict,
            corrected: place,
            place,
            word,
            fields: Fields { address, e: 0, sub_address, data },
        };
        both.same(frame, decode(&both, frame), expected);
    }
    both.at_least(2 * 7);
}

/// The program's lines by single clocks. Each frame finishes on its last clock and not before; the
/// one with verdict 7 is followed by 41 ones.
#[test]
fn lines_by_single_clocks() {
    let both = Both::of("clocks of the program's lines");
    let mut state = both.fresh(5, 5).receiver;
    for (frame, (line, said)) in example::frames().into_iter().zip(example::LINES) {
        let mut last = Outputs::default();
        for bit in frame.bits() {
            both.same(line, last.verdict, VERDICT_NONE);
            let answer = both.clock(state, 0, bit);
            (state, last) = (answer.receiver, answer.outputs);
        }
        let shown = printed::fate(frame.kind(), &last);
        both.same(line, shown.as_str(), said);
        if last.verdict == VERDICT_STOP_BIT {
            state = send(&both, state, Frame::ones(RUN)).receiver;
        }
    }
    let (errors, counters) = (state.core.errors, state.core.counters);
    let (single, double) = (errors.single_errors, errors.double_errors);
    let end = format!("end {single} {double} {} {}", counters.event, counters.bunch);
    both.same("end", end.as_str(), example::END);
    both.at_least(2 * 174 + 41 + 7 + 2);
}

/// "Triggers on clocks 1, 2 and 4 from fresh", and the two clocks after those of the example: the
/// sequence ends. The counters have counted all clocks and all triggers.
#[test]
fn triggers_and_the_clocks_after() {
    let both = Both::of("clocks of the example of triggers, and two more");
    let high = Outputs { strobe: STROBE_EVENT_HIGH, ..Outputs::default() };
    let mut state = both.fresh(5, 5).receiver;
    let after = [high, Outputs::default()];
    for (clock, expected) in (1..).zip(example::TRIGGERS.into_iter().chain(after)) {
        let answer = both.clock(state, expected.trigger, 1);
        both.same(clock, answer.outputs, expected);
        state = answer.receiver;
    }
    let expected = Counters { bunch: 7, event: 3 };
    both.same("counters", state.core.counters, expected);
    both.at_least(2 * 7 + 2);
}
