//! "Both after 2 where a state is given, before all others": refusals of the functions with columns
//! in every combination. A refused call tells the index with 28 alone, hands the state back, and sets
//! nothing else. Blocks are in ../blocks.

use ttcrx_host::sys::*;
use ttcrx_host::testing::calls::{refused_clock, Call};
use ttcrx_host::testing::columns;
use ttcrx_host::testing::compare::Both;
use ttcrx_host::testing::convert::{self, Answer};
use ttcrx_host::testing::library::Library;
use ttcrx_host::testing::random::Random;
use ttcrx_host::testing::states::{self, edges};

/// What is wrong with a call, each a bit.
const STATE: u8 = 1;
const LENGTH: u8 = 2;
const COLUMN: u8 = 4;
const OTHER: u8 = 8;

/// What a call is given beside its other arguments.
struct Given<'a> {
    state: Receiver,
    columns: &'a [u8],
    /// The other arguments are wrong.
    wrong: bool,
}

/// What a call answers: the refusal, the index, and whether all else is as a refusal leaves it.
type Answered = (u8, u8, bool);

/// A function: which faults a call of it can have beside bad columns, the refusal of its other
/// arguments, and a call.
struct Function {
    can_have: u8,
    other: u8,
    call: fn(&Both, &mut Random, &Given) -> Answered,
}

fn encoded(EncodedWithIndex { answer, index }: EncodedWithIndex) -> Answered {
    (answer.refusal, index, answer == Encoded::refused(answer.refusal))
}

fn decoded(DecodedWithIndex { answer, index }: DecodedWithIndex) -> Answered {
    (answer.refusal, index, answer == Decoded::refused(answer.refusal))
}

fn clocked(given: &Given, ClockWithIndex { answer, index }: ClockWithIndex) -> Answered {
    let refused = convert::refused_clock(answer.refusal, given.state);
    (answer.refusal, index, answer == refused)
}

fn check(both: &Both, _: &mut Random, given: &Given) -> Answered {
    let ColumnsAnswer { refusal, index } = both.check_columns(given.columns);
    (refusal, index, true)
}

fn encode_short(both: &Both, random: &mut Random, given: &Given) -> Answered {
    encoded(both.encode_short_with_columns(given.columns, random.byte()))
}

fn encode_long(both: &Both, random: &mut Random, given: &Given) -> Answered {
    let (address, e) = match given.wrong {
        true => random.pick(&[(16384, 0), (65535, 1), (5, 2), (0, 255), (16384, 2)]),
        false => random.pick(&[(0, 0), (5, 1), (16383, 0)]),
    };
    let (sub_address, data) = (random.byte(), random.byte());
    encoded(both.encode_long_with_columns(given.columns, address, e, sub_address, data))
}

/// A number that is a short frame, or none.
fn short_number(random: &mut Random, wrong: bool) -> u64 {
    let leading = random.pick(&[1, 2, 1 << 26, u64::MAX >> 14]);
    random.below(1 << 14) | if wrong { leading << 14 } else { 0 }
}

/// A number that is a long frame, or none.
fn long_number(random: &mut Random, wrong: bool) -> u64 {
    let leading = random.pick(&[0, 2, 3, u64::MAX >> 40]);
    random.below(1 << 40) | if wrong { leading << 40 } else { 1 << 40 }
}

fn decode_short(both: &Both, random: &mut Random, given: &Given) -> Answered {
    let number = short_number(random, given.wrong);
    decoded(both.decode_short_with_columns(given.columns, number))
}

fn decode_long(both: &Both, random: &mut Random, given: &Given) -> Answered {
    let number = long_number(random, given.wrong);
    decoded(both.decode_long_with_columns(given.columns, number))
}

fn clock(both: &Both, random: &mut Random, given: &Given) -> Answered {
    let (right, refused) = ((random.byte() >> 7, random.byte() >> 7), refused_clock(random));
    let (trigger, data) = match refused {
        Call::Clock { trigger, data } if given.wrong => (trigger, data),
        _ => right,
    };
    clocked(given, both.clock_with_columns(given.state, given.columns, trigger, data))
}

fn receive(both: &Both, random: &mut Random, given: &Given) -> Answered {
    let short = (SHORT, short_number(random, given.wrong));
    let long = (LONG, long_number(random, given.wrong));
    let no_kind = (2 + random.byte() % 254, long_number(random, false));
    let (kind, number) = match given.wrong {
        true => random.pick(&[short, long, no_kind]),
        false => random.pick(&[short, long]),
    };
    clocked(given, both.receive_with_columns(given.state, given.columns, kind, number))
}

fn receive_short(both: &Both, random: &mut Random, given: &Given) -> Answered {
    let number = short_number(random, given.wrong);
    clocked(given, both.receive_short_with_columns(given.state, given.columns, number))
}

fn receive_long(both: &Both, random: &mut Random, given: &Given) -> Answered {
    let number = long_number(random, given.wrong);
    clocked(given, both.receive_long_with_columns(given.state, given.columns, number))
}

const FUNCTIONS: [Function; 9] = [
    Function { can_have: 0, other: 0, call: check },
    Function { can_have: 0, other: 0, call: encode_short },
    Function { can_have: OTHER, other: REFUSED_FIELD, call: encode_long },
    Function { can_have: OTHER, other: REFUSED_FRAME, call: decode_short },
    Function { can_have: OTHER, other: REFUSED_FRAME, call: decode_long },
    Function { can_have: STATE | OTHER, other: REFUSED_BIT, call: clock },
    Function { can_have: STATE | OTHER, other: REFUSED_FRAME, call: receive },
    Function { can_have: STATE | OTHER, other: REFUSED_FRAME, call: receive_short },
    Function { can_have: STATE | OTHER, other: REFUSED_FRAME, call: receive_long },
];

/// Refusal and index that are due: 2, 27, 28, and then those of the other arguments.
fn due(function: &Function, faults: u8, index: u8) -> (u8, u8) {
    let order = [
        (STATE, REFUSED_STATE, 0),
        (LENGTH, REFUSED_COLUMN_COUNT, 0),
        (COLUMN, REFUSED_BAD_COLUMN, index),
        (OTHER, function.other, 0),
    ];
    let first = order.iter().find(|(fault, _, _)| faults & fault != 0);
    first.map_or((ACCEPTED, 0), |&(_, refusal, index)| (refusal, index))
}

#[test]
fn every_combination() {
    let both = Both::of("every combination of faults with columns");
    let mut random = Random::new(720);
    let mut ill_formed = edges::all(&mut random);
    ill_formed.retain(|edge| !edge.good);
    for (place, function) in FUNCTIONS.iter().enumerate() {
        let can_have = function.can_have | LENGTH | COLUMN;
        let combinations = (0..16).filter(|faults| faults & !can_have == 0);
        for faults in combinations.flat_map(|faults| [faults; 300]) {
            let (wrong_length, one_bad) = (faults & LENGTH != 0, faults & COLUMN != 0);
            let (columns, index) = columns::lent(&mut random, wrong_length, one_bad);
            let state = match faults & STATE != 0 {
                true => random.pick(&ill_formed).state,
                false => states::well_formed(&mut random),
            };
            let given = Given { state, columns: &columns, wrong: faults & OTHER != 0 };
            let (refusal, told, left) = (function.call)(&both, &mut random, &given);
            let input = (place, state, &columns);
            both.same(input, (refusal, told), due(function, faults, index));
            both.same(input, left || refusal == ACCEPTED, true);
        }
    }
    both.at_least((2 * 4 + 3 * 8 + 4 * 16) * 300 * 3);
}

/// States at every edge of "Well formed", with columns that are right and wrong: 2 comes first.
#[test]
fn edges_of_well_formed() {
    let both = Both::of("clocks with columns at every edge of well formed");
    let mut random = Random::new(721);
    let (bad, index) = columns::bad(&mut random);
    let good = columns::any(&mut random);
    for edge in edges::all(&mut random) {
        let lent: [(&[u8], u8, u8); 3] = [
            (&good, ACCEPTED, 0),
            (&bad, REFUSED_BAD_COLUMN, index as u8),
            (&good[..39], REFUSED_COLUMN_COUNT, 0),
        ];
        for (columns, refusal, index) in lent {
            let clock = both.clock_with_columns(edge.state, columns, 1, 0);
            let frame = both.receive_with_columns(edge.state, columns, SHORT, 0x4F);
            let due = if edge.good { (refusal, index) } else { (REFUSED_STATE, 0) };
            both.same((edge, columns), (clock.answer.refusal, clock.index), due);
            both.same((edge, columns), (frame.answer.refusal, frame.index), due);
        }
    }
    both.at_least(edges::STATES * 3 * 4);
}
