//! `ttcrx_receive`, `_short` and `_long`: whole frames of the library against single clocks, the
//! model's and its own, from states of all kinds.

use ttcrx_host::model::Kind;
use ttcrx_host::sys::*;
use ttcrx_host::testing::compare::Both;
use ttcrx_host::testing::convert::refused_clock;
use ttcrx_host::testing::coverage::{assert_seen, Tally};
use ttcrx_host::testing::frame::{send, wanting, Frame, RUN};
use ttcrx_host::testing::library::{Library, Proved};
use ttcrx_host::testing::lines::{any_frame, EVERY_KIND};
use ttcrx_host::testing::random::Random;
use ttcrx_host::testing::states::{self, edges};
use ttcrx_host::testing::{example, traffic, verdict};
use ttcrx_host::ttcrx;

/// "A number that is no frame of this kind, as for the decoders"; no number is one of a kind over 1.
fn is_frame(kind: u8, number: u64) -> bool {
    match kind {
        SHORT => number < 1 << 14,
        LONG => number >> 40 == 1,
        _ => false,
    }
}

/// A call by kind, and one of the function for this kind. Refusals are in this order: 2; 12. A
/// refused call does no clock.
#[track_caller]
fn receive(both: &Both, state: Receiver, kind: u8, number: u64) -> ClockAnswer {
    let input = (state, kind, number);
    let answer = both.receive(state, kind, number);
    match kind {
        SHORT => both.same(input, both.receive_short(state, number), answer),
        LONG => both.same(input, both.receive_long(state, number), answer),
        _ => {}
    }
    let refusal = match (ttcrx::well_formed(state), is_frame(kind, number)) {
        (0, _) => REFUSED_STATE,
        (_, false) => REFUSED_FRAME,
        (_, true) => ACCEPTED,
    };
    both.same(input, answer.refusal, refusal);
    if refusal != ACCEPTED {
        both.same(input, answer, refused_clock(refusal, state));
    }
    answer
}

/// What a receiver keeps of channel B: it waits, holds bits, or wants ones.
const KEEPS: (&str, u8, u8) = ("receiver (waits, holds bits, wants ones)", 0, 2);

fn keeps(state: &Receiver) -> u8 {
    match (state.held.count, state.held.ones_wanted) {
        (0, 0) => 0,
        (_, 0) => 1,
        _ => 2,
    }
}

/// Frames of every fate, at receivers that wait and at others, with and without a running sequence.
#[test]
fn well_formed_states() {
    let both = Both::of("whole frames from well-formed states");
    let mut random = Random::new(300);
    let mut seen = Tally::of([("long", 0, 1), KEEPS, ("words left", 0, 2)]);
    let mut verdicts = Tally::of([verdict::ANY]);
    for _ in 0..100_000 {
        let mut state = states::well_formed(&mut random);
        if random.once_in(2) {
            state.held = Held::default();
        }
        let frame = traffic::frame(&mut random, state.core.ids.id);
        let kind = frame.kind().number();
        let answer = receive(&both, state, kind, frame.number);
        both.same((state, frame), answer, send(&Proved, state, frame));
        seen.seen([kind, keeps(&state), state.core.sequence.left]);
        verdicts.seen([answer.outputs.verdict]);
    }
    assert_seen(&[&seen, &verdicts]);
    both.at_least(5 * 100_000);
}

/// Every number of held bits of both frames, before both frames.
#[test]
fn every_number_of_held_bits() {
    let both = Both::of("whole frames with every number of held bits");
    let mut random = Random::new(301);
    for kind in Kind::BOTH {
        for count in (1..kind.length()).flat_map(|count| [count; 200]) {
            let state = states::holding(&mut random, count, kind.number().into());
            let frame = any_frame(&mut random, &EVERY_KIND);
            receive(&both, state, frame.kind().number(), frame.number);
        }
    }
    both.at_least(4 * 56 * 200);
}

/// "One that wants ones takes no frame: of the frame's bits only the ones at its end count, for the
/// run." All else is as with so many idle clocks.
#[track_caller]
fn takes_no_frame(both: &Both, state: Receiver, frame: Frame) {
    let answer = receive(both, state, frame.kind().number(), frame.number);
    let idle = send(&Proved, state, Frame::ones(frame.length));
    let input = (state, frame);
    both.same(input, answer.outputs, idle.outputs);
    both.same(input, answer.outputs.verdict, VERDICT_NONE);
    both.same(input, answer.receiver.core, idle.receiver.core);
    let ones = frame.number.trailing_ones() as u8;
    both.same(input, answer.receiver.held, wanting(RUN - ones));
    both.same(input, answer, send(&Proved, state, frame));
}

/// Every number of ones wanted, before frames of every fate.
#[test]
fn every_number_of_ones_wanted() {
    let both = Both::of("whole frames with every number of ones wanted");
    let mut random = Random::new(307);
    let mut seen = Tally::of([("long", 0, 1), ("ones wanted", 1, RUN), ("stop bit", 0, 1)]);
    for ones_wanted in (1..=RUN).flat_map(|wanted| [wanted; 200]) {
        let state = states::quiet(&mut random, ones_wanted);
        let frame = traffic::frame(&mut random, state.core.ids.id);
        takes_no_frame(&both, state, frame);
        let stop = (!frame.stops_badly()).into();
        seen.seen([frame.kind().number(), ones_wanted, stop]);
    }
    assert_seen(&[&seen]);
    both.at_least(9 * 41 * 200);
}

/// Every number of ones at the end of a frame. The longest run is that of a start bit and 41 ones:
/// after it the receiver waits.
#[test]
fn ones_at_the_end_of_a_frame() {
    let both = Both::of("whole frames that end with every number of ones");
    let mut random = Random::new(308);
    for ones_wanted in 1..=RUN {
        for ones in 0..=RUN {
            let long = Frame::of(Kind::Long, 1 << 40 | Frame::ones(ones).number);
            takes_no_frame(&both, states::quiet(&mut random, ones_wanted), long);
        }
        for ones in 0..=14 {
            let short = Frame::of(Kind::Short, Frame::ones(ones).number);
            takes_no_frame(&both, states::quiet(&mut random, ones_wanted), short);
        }
    }
    let stray_zero = Frame::of(Kind::Long, (1 << 41) - 1);
    let waits = ttcrx::receive_long(states::quiet(&mut random, RUN), stray_zero.number);
    both.same(stray_zero, waits.receiver.held, Held::default());
    both.at_least(41 * (42 + 15) * 9);
}

/// What was sent in long runs.
struct Sent {
    verdicts: Tally<1>,
    waited: Tally<1>,
    runs: Tally<1>,
}

/// A frame, as it is read from a line. It finishes on a receiver that waits, and not on one that
/// wants ones.
fn next_frame(both: &Both, random: &mut Random, sent: &mut Sent, state: Receiver) -> Receiver {
    let frame = any_frame(random, &EVERY_KIND);
    let digits = frame.kind().digits();
    let line = both.read_line(format!("{:0digits$X}", frame.number).as_bytes());
    let answer = receive(both, state, line.kind, line.number);
    both.same((state, frame), answer, send(&Proved, state, frame));
    let verdict = answer.outputs.verdict;
    let waited = state.held == Held::default();
    both.same((state, frame), verdict::is_finished(verdict), waited);
    let waits = waited && verdict != VERDICT_STOP_BIT;
    both.same((state, frame), answer.receiver.held == Held::default(), waits);
    sent.verdicts.seen([verdict]);
    sent.waited.seen([waited.into()]);
    answer.receiver
}

/// Ones after a frame that leaves the receiver wanting them: mostly 41, else fewer or more.
fn next_run(both: &Both, random: &mut Random, sent: &mut Sent, state: Receiver) -> Receiver {
    let fewer = random.below(RUN.into()) as u8;
    let more = RUN + 1 + fewer / 2;
    let ones = random.pick(&[RUN, RUN, RUN, RUN, RUN - 1, fewer, more]);
    let wanted = state.held.ones_wanted.saturating_sub(ones);
    let after = send(both, state, Frame::ones(ones)).receiver;
    both.same((state, ones), after.held, wanting(wanted));
    sent.runs.seen([u8::from(ones >= RUN) + u8::from(ones > RUN)]);
    after
}

/// Frames one after the other; the state is the library's own.
#[test]
fn long_runs() {
    let both = Both::of("whole frames in long runs");
    let mut random = Random::new(302);
    let mut sent = Sent {
        verdicts: Tally::of([verdict::ANY]),
        waited: Tally::of([("a frame on a receiver that waits", 0, 1)]),
        runs: Tally::of([("run of ones (fewer than 41, 41, more)", 0, 2)]),
    };
    for _ in 0..20 {
        let mut state = ttcrx::fresh(5, 5).receiver;
        for _ in 0..5_000 {
            state = next_frame(&both, &mut random, &mut sent, state);
            if state.held.ones_wanted > 0 {
                state = next_run(&both, &mut random, &mut sent, state);
            }
        }
    }
    assert_seen(&[&sent.verdicts, &sent.waited, &sent.runs]);
    both.at_least(7 * 20 * 5_000);
}

/// Verdict, place and word of a whole frame that changes nothing but the error counters and status
/// bit 5: the single error counter goes up if a place is shown, the double one if it was dropped.
fn changes_nothing(both: &Both, state: Receiver, arrived: Frame, said: (u8, u8, u32)) {
    let (verdict, place, word) = said;
    let answer = receive(both, state, arrived.kind().number(), arrived.number);
    let corrected = u8::from(place != 0);
    let shown = Outputs { verdict, corrected, place, word, ..Outputs::default() };
    let mut expected = send(&Proved, state, Frame::ones(arrived.length)).receiver;
    let errors = &mut expected.core.errors;
    errors.status5 = 1;
    errors.single_errors = errors.single_errors.saturating_add(corrected.into());
    let dropped = verdict::is_dropped(verdict).into();
    errors.double_errors = errors.double_errors.saturating_add(dropped);
    both.same((state, arrived), (answer.outputs, answer.receiver), (shown, expected));
}

/// Internal frames with fine delays of no setting, clean and with every one and every two flips of
/// protected bits, written down: verdict 10 with the word, then with flag and place too, and 8.
fn flips_without_a_setting(both: &Both, state: Receiver, word: u32) {
    let frame = Frame::word(word);
    changes_nothing(both, state, frame, (VERDICT_NO_SETTING, 0, word));
    for first in frame.places() {
        let one = frame.flipped(frame.at(first));
        changes_nothing(both, state, one, (VERDICT_NO_SETTING, first, word));
        for second in 1..first {
            let two = one.flipped(frame.at(second));
            changes_nothing(both, state, two, (VERDICT_EVEN_SYNDROME, 0, 0));
        }
    }
}

#[test]
fn frames_without_a_setting() {
    let both = Both::of("whole frames with fine delays of no setting");
    let mut state = ttcrx::fresh(5, 5).receiver;
    state.core.settings.fine1 = 239;
    state.core.settings.fine2 = 1;
    state.core.errors.status5 = 0;
    for data in 240..=255 {
        for register in [0, 1] {
            let address = if data % 2 == 0 { 5 } else { 0 };
            let word = address << 18 | 1 << 16 | register << 8 | data;
            flips_without_a_setting(&both, state, word);
        }
    }
    both.at_least(16 * 2 * (1 + 39 + 741) * 4);
}

/// Q-8 of document 02: every place of whole frames, with each verdict that a corrected frame may
/// have.
#[test]
fn every_place() {
    let both = Both::of("whole frames with one flip, by verdict and place");
    let fresh = ttcrx::fresh(5, 5).receiver;
    let long = |word, verdict| (Frame::word(word), verdict);
    let frames = [
        (Frame::short(0x5B), VERDICT_BROADCAST),
        long(0x0015_0235, VERDICT_STORED),
        long(0x0015_0600, VERDICT_RESET),
        long(0x0017_0235, VERDICT_OUTSIDE),
        long(0x0019_0235, VERDICT_OTHER_ADDRESS),
        long(0x0015_0435, VERDICT_OTHER_SUB_ADDRESS),
        long(0x0015_00F3, VERDICT_NO_SETTING),
    ];
    for (frame, verdict) in frames {
        let clean = receive(&both, fresh, frame.kind().number(), frame.number);
        let shown = Outputs { verdict, word: frame.data(), ..Outputs::default() };
        both.same(frame, clean.outputs, shown);
        for place in frame.places() {
            let arrived = frame.flipped(frame.at(place));
            let answer = receive(&both, fresh, arrived.kind().number(), arrived.number);
            both.same((frame, place), answer.outputs, Outputs { corrected: 1, place, ..shown });
            let mut expected = clean.receiver;
            expected.core.errors.single_errors += u16::from(verdict != VERDICT_RESET);
            both.same((frame, place), answer.receiver, expected);
        }
    }
    both.at_least(7 * 4 + (13 + 6 * 39) * 5);
}

/// Frames that cannot be corrected, by their syndromes and from document 01: with 11 an odd number
/// of bits is wrong, with 8 an even number.
#[test]
fn storms() {
    let both = Both::of("whole frames that cannot be corrected");
    let long = Frame::word(0x0015_0235);
    let frames = [
        (example::ODD_SYNDROMES[0], VERDICT_ODD_SYNDROME),
        (example::ODD_SYNDROMES[1], VERDICT_ODD_SYNDROME),
        (example::frames()[3], VERDICT_EVEN_SYNDROME),
        (Frame::short(0x01).flipped(31 << 1), VERDICT_ODD_SYNDROME),
        (Frame::short(0x01).flipped(15 << 1), VERDICT_EVEN_SYNDROME),
        (long.flipped(124 << 1), VERDICT_ODD_SYNDROME),
        (long.flipped(127 << 1), VERDICT_ODD_SYNDROME),
        (long.flipped(126 << 1), VERDICT_EVEN_SYNDROME),
    ];
    let mut random = Random::new(309);
    for (frame, verdict) in frames.into_iter().flat_map(|frame| [frame; 100]) {
        let mut state = states::well_formed(&mut random);
        state.held = Held::default();
        changes_nothing(&both, state, frame, (verdict, 0, 0));
    }
    both.at_least(8 * 100 * 4);
}

#[test]
fn all_short_numbers() {
    let both = Both::of("all short numbers, and the first that are none");
    let fresh = ttcrx::fresh(5, 5).receiver;
    for number in 0..1 << 16 {
        receive(&both, fresh, SHORT, number);
    }
    both.at_least(4 * (1 << 16) + 3 * (1 << 14));
}

#[test]
fn numbers_that_are_no_frames() {
    let both = Both::of("whole frames of edge numbers");
    let mut random = Random::new(303);
    let far: Vec<u64> = (0..20_000).map(|_| random.any_length()).collect();
    for number in traffic::edge_numbers().into_iter().chain(far) {
        let state = states::well_formed(&mut random);
        receive(&both, state, SHORT, number);
        receive(&both, state, LONG, number);
    }
    both.at_least(2 * 4 * 20_000);
}

/// Refusal 2 comes first: the number of a state that is not well formed is not looked at.
#[test]
fn ill_formed_states() {
    let both = Both::of("whole frames at random states, some well formed");
    let mut random = Random::new(304);
    let mut seen = Tally::of([("long", 0, 1), ("refusal (0, 2, 12)", 0, 2)]);
    for _ in 0..300_000 {
        let state = states::any(&mut random);
        let frame = any_frame(&mut random, &EVERY_KIND);
        let number = match random.once_in(3) {
            true => random.any_length(),
            false => frame.number,
        };
        let kind = random.pick(&[SHORT, LONG]);
        let refusal = match receive(&both, state, kind, number).refusal {
            ACCEPTED => 0,
            REFUSED_STATE => 1,
            _ => 2,
        };
        seen.seen([kind, refusal]);
    }
    assert_seen(&[&seen]);
    both.at_least(4 * 300_000);
}

/// Every kind, with states and numbers that are right and wrong, so that any reason of a refusal
/// comes with any other.
#[test]
fn every_kind() {
    let both = Both::of("whole frames of every kind");
    let mut random = Random::new(305);
    let mut seen = Tally::of([("kind", 0, 255), ("well formed", 0, 1), ("a frame", 0, 1)]);
    for kind in (0..=255).flat_map(|kind| [kind; 200]) {
        let states = [states::well_formed(&mut random), states::any(&mut random)];
        let (short, long) = (random.below(1 << 14), 1 << 40 | random.below(1 << 40));
        for number in [short, long, random.any_length(), 0, u64::MAX] {
            for state in states {
                receive(&both, state, kind, number);
                let frame = is_frame(SHORT, number) || is_frame(LONG, number);
                seen.seen([kind, ttcrx::well_formed(state), frame.into()]);
            }
        }
    }
    assert_seen(&[&seen]);
    both.at_least(256 * 200 * 10 * 2);
}

/// Kinds and numbers that are right and wrong.
const AT_EDGES: [(u8, u64); 6] =
    [(SHORT, 0x4F), (LONG, 1 << 40), (SHORT, 1 << 14), (LONG, 0), (2, 1 << 40), (128, 0x4F)];

#[test]
fn edges_of_well_formed() {
    let both = Both::of("whole frames at every edge of well formed");
    for edge in edges::all(&mut Random::new(306)) {
        for (kind, number) in AT_EDGES {
            let answer = receive(&both, edge.state, kind, number);
            both.same(edge, answer.refusal != REFUSED_STATE, edge.good);
        }
    }
    both.at_least(edges::STATES * 6 * 3);
}
