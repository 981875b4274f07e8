//! Compares no entry point: the model alone, with the rules of documents 01 and 02. It is compiled
//! here from its own folder, which shows that it depends on nothing else of the package.

mod columns;
#[allow(dead_code, unused_imports)]
#[path = "../../src/model/mod.rs"]
mod model;
#[allow(dead_code)]
#[path = "../../src/testing/random.rs"]
mod random;
#[allow(dead_code)]
#[path = "../../src/testing/columns.rs"]
mod tables;

use model::{bits, decode_long, decode_short, delay_byte, delay_setting};
use model::{encode_long, encode_short, encode_word, read_line, write_line};
use model::{
    Bus, Decoded, Fate, Fields, Kind, Outputs, Receiver, Refusal, State, Verdict, COLUMNS,
};

fn fields(address: u16, e: u8, sub_address: u8, data: u8) -> Fields {
    Fields { address, e, sub_address, data }
}

fn fresh() -> Receiver {
    Receiver::fresh(5, 5).expect("IDs in range")
}

/// The bits of a whole frame without triggers. It finishes on the last clock and not before.
fn send(receiver: &mut Receiver, kind: Kind, number: u64) -> Outputs {
    let clocks = bits(number, kind.length()).map(|bit| receiver.clock(false, bit));
    let mut shown: Vec<Outputs> = clocks.collect();
    let last = shown.pop().expect("a frame has bits");
    assert!(shown.iter().all(|clock| clock.fate == Fate::default()));
    last
}

fn long_frame(sub_address: u8, data: u8) -> u64 {
    encode_long(fields(5, 0, sub_address, data)).expect("in range")
}

#[test]
fn columns_have_three_ones_and_differ() {
    for (bit, column) in COLUMNS.iter().enumerate() {
        assert_eq!(column.count_ones(), 3);
        assert!(*column < 128 && (bit >= 8 || *column < 32));
        assert!(!COLUMNS[..bit].contains(column));
    }
}

/// The frame of the data of this number, as the encoder gives it.
fn encoded(kind: Kind, number: u64) -> u64 {
    match kind {
        Kind::Short => encode_short((number >> 6) as u8),
        Kind::Long => encode_word((number >> 8) as u32),
    }
}

/// The frame, or one flip of it, that is equal to what its own data encode to; with the flip.
fn reencoded(kind: Kind, number: u64) -> Option<(u64, u64)> {
    let flips = (1..=kind.protected_bits()).map(|bit| 1 << bit);
    let mut all = std::iter::once(0).chain(flips).map(|flip| (number ^ flip, flip));
    all.find(|&(frame, _)| encoded(kind, frame) == frame)
}

/// the place of a flip, "1 to 39", by comparing the bits in the order sent; none of no flip.
fn place(kind: Kind, flip: u64) -> Option<u8> {
    let after_format = bits(flip, kind.length()).skip(2);
    let found = after_format.zip(1..).find(|&(flipped, _)| flipped);
    found.map(|(_, place)| place)
}

/// "The syndrome is received check number xor the check number of the received data": the ones of
/// it. The frame encoded from the received data differs from the received one in these bits.
fn ones_of_syndrome(kind: Kind, number: u64) -> u32 {
    (encoded(kind, number) ^ number).count_ones()
}

/// The verdict of a frame with stop bit 1 that no single flip makes right.
fn uncorrectable(kind: Kind, number: u64) -> Verdict {
    match ones_of_syndrome(kind, number) % 2 {
        0 => Verdict::EvenSyndrome,
        _ => Verdict::OddSyndrome,
    }
}

/// The decoder's check numbers by bytes and the encoder's bits in the order sent are one code.
#[test]
fn short_search_agrees_with_the_encoder() {
    for number in (1..1 << 14).step_by(2) {
        let found = reencoded(Kind::Short, number);
        let data = found.map_or(0, |(frame, _)| (frame >> 6) as u8);
        let expected = Decoded {
            verdict: found.map_or(uncorrectable(Kind::Short, number), |_| Verdict::None),
            flipped: found.and_then(|(_, flip)| place(Kind::Short, flip)),
            word: data.into(),
            fields: fields(0, 0, 0, data),
        };
        assert_eq!(decode_short(number), Ok(expected), "{number:04X}");
    }
}

#[test]
fn long_search_agrees_with_the_encoder() {
    let mut random = random::Random::new(1);
    for _ in 0..20_000 {
        let number = 1 << 40 | random.below(1 << 40) | 1;
        let decoded = decode_long(number).expect("a long frame");
        let said = (decoded.verdict, decoded.flipped, decoded.word);
        let expected = match reencoded(Kind::Long, number) {
            None => (uncorrectable(Kind::Long, number), None, 0),
            Some((frame, flip)) => match (frame >> 8) as u32 {
                word if word & 1 << 16 == 0 => (Verdict::FixedBit, None, word),
                word => (Verdict::None, place(Kind::Long, flip), word),
            },
        };
        assert_eq!(said, expected, "{number:011X}");
    }
}

/// the flipped bit of a frame, at each place in the order sent; two flips have an even
/// syndrome.
#[test]
fn places_and_pairs() {
    for (kind, frame) in [(Kind::Short, 0x2097), (Kind::Long, long_frame(2, 0x35))] {
        let frame = encoded(kind, frame);
        let flips: Vec<u64> = (1..=kind.protected_bits()).rev().map(|bit| 1 << bit).collect();
        for (first, place) in flips.iter().zip(1..) {
            let one = model::decode(kind, frame ^ first).expect("a frame");
            assert_eq!((one.verdict, one.flipped), (Verdict::None, Some(place)));
            for second in flips.iter().filter(|second| *second != first) {
                let two = model::decode(kind, frame ^ first ^ second).expect("a frame");
                assert_eq!((two.verdict, two.flipped), (Verdict::EvenSyndrome, None));
            }
        }
    }
}

/// The search finds the nearest codeword and no other: no two are nearer than 4 flips.
#[test]
fn broadcasts_are_four_flips_apart() {
    for first in 0..=255 {
        for second in 0..first {
            let flips = encode_short(first) ^ encode_short(second);
            assert!(flips.count_ones() >= 4);
        }
    }
}

#[test]
fn refusals_come_in_order() {
    assert_eq!(encode_long(fields(16384, 0, 0, 0)), Err(Refusal::Field));
    assert_eq!(encode_long(fields(0, 2, 0, 0)), Err(Refusal::Field));
    assert_eq!(delay_byte(240), Err(Refusal::Setting));
    assert_eq!(delay_setting(240), Err(Refusal::DelayByte));
    assert_eq!(read_line(b"zzz"), Err(Refusal::LineLength));
    assert_eq!(read_line(b"zzzz"), Err(Refusal::Character));
    assert_eq!(read_line(b"+04F"), Err(Refusal::Character));
    assert_eq!(read_line(b"20000000000"), Err(Refusal::Frame));
    assert_eq!(read_line(b"004f"), Ok((Kind::Short, 0x004F)));
    let mut buffer = *b"....";
    let mut written = |number| write_line(Kind::Short, number, &mut buffer);
    assert_eq!(written(1), Err(Refusal::LineBuffer));
    assert_eq!(written(1 << 14), Err(Refusal::Frame));
    assert_eq!(&buffer, b"....");
    let refusal = |id, i2c| Receiver::fresh(id, i2c).err();
    assert_eq!(refusal(0, 64), Some(Refusal::Id));
    assert_eq!(refusal(16384, 0), Some(Refusal::Id));
    assert_eq!(refusal(16383, 64), Some(Refusal::I2cId));
    assert_eq!(refusal(16383, 63), None);
    assert_eq!(refusal(1, 0), None);
}

#[test]
fn a_written_line_has_capitals_and_a_line_feed() {
    let mut buffer = *b"..............";
    assert_eq!(write_line(Kind::Short, 0x004F, &mut buffer), Ok(5));
    assert_eq!(&buffer, b"004F\n.........");
    let long = write_line(Kind::Long, 0x100_1502_35AD, &mut buffer);
    assert_eq!(long, Ok(12));
    assert_eq!(&buffer, b"100150235AD\n..");
}

#[test]
fn fresh_registers() {
    let expected = State {
        id: 5,
        i2c: 5,
        registers: [0, 0, 0, 0x93],
        config: [0x85, 0xA7],
        status5: 1,
        ..State::default()
    };
    assert_eq!(fresh().state(), expected);
}

/// One stray 0 in idle: the 41 ones after it make a frame of it. "Has syndrome 124", which has five
/// ones and belongs to no bit; Q-8: "1FFFFFFFFFF now get 11".
#[test]
fn a_stray_zero_in_idle() {
    let mut receiver = fresh();
    let shown = send(&mut receiver, Kind::Long, 0x1FF_FFFF_FFFF);
    assert_eq!(shown.fate, Fate { verdict: Verdict::OddSyndrome, ..Fate::default() });
    let state = receiver.state();
    assert_eq!((state.single_errors, state.double_errors), (0, 1));
    assert_eq!(ones_of_syndrome(Kind::Long, 0x1FF_FFFF_FFFF), 124u8.count_ones());
}

/// verdict 11 raises the double counter up to its top.
#[test]
fn odd_syndromes_are_counted() {
    let mut receiver = fresh();
    for frames in 1..=300 {
        let shown = send(&mut receiver, Kind::Short, 0x0039);
        assert_eq!(shown.fate.verdict, Verdict::OddSyndrome);
        assert_eq!(receiver.state().double_errors, frames.min(255) as u8);
    }
}

/// Status bit 5 is cleared by verdict 7 and set by any other finished frame, 8 and 11 among them.
#[test]
fn status_bit_5() {
    let mut receiver = fresh();
    let frames = [(0x004E, 0), (0x304F, 1), (0x004E, 0), (0x004F, 1), (0x004E, 0), (0x0039, 1)];
    for (number, after) in frames {
        send(&mut receiver, Kind::Short, number);
        assert_eq!(receiver.state().status5, after);
        receiver.idle(41);
        assert_eq!(receiver.state().status5, after);
    }
}

/// Bits held, and ones wanted.
fn kept(receiver: &Receiver) -> (u8, u8) {
    let state = receiver.state();
    (state.held, state.ones_wanted)
}

/// each one is wanted no more; a 0 at any place begins the run again; the bit after the 41st
/// one may be a start bit.
#[test]
fn quiet_after_a_bad_stop() {
    for ones in 0..41 {
        let mut receiver = fresh();
        let shown = send(&mut receiver, Kind::Short, 0x004E);
        assert_eq!((shown.fate.verdict, kept(&receiver)), (Verdict::StopBit, (0, 41)));
        receiver.idle(ones);
        assert_eq!(kept(&receiver), (0, 41 - ones));
        assert_eq!(receiver.clock(false, false).fate, Fate::default());
        assert_eq!(kept(&receiver), (0, 41));
        receiver.idle(41);
        assert_eq!(kept(&receiver), (0, 0));
        receiver.clock(false, false);
        assert_eq!(kept(&receiver), (1, 0));
        assert_eq!(receiver.bunch(), 16 + u16::from(ones) + 1 + 41 + 1);
    }
}

/// the tail of a frame after a slipped bit makes no more frames.
#[test]
fn a_slipped_bit() {
    let mut receiver = fresh();
    let shown = send(&mut receiver, Kind::Short, 0x0000);
    assert_eq!(shown.fate.verdict, Verdict::StopBit);
    for _ in 0..3 {
        let shown = send(&mut receiver, Kind::Short, 0x004F);
        assert_eq!(shown.fate.verdict, Verdict::None);
        assert_eq!(kept(&receiver), (0, 41 - 4));
    }
    assert_eq!(receiver.state().double_errors, 1);
}

/// Q-1 speaks of verdict 7 alone. After 8, 9 and 11 the next bit may be a start bit.
#[test]
fn no_quiet_after_other_verdicts() {
    let frames = [
        (Kind::Short, 0x304F, Verdict::EvenSyndrome),
        (Kind::Long, 1 << 40 | 1, Verdict::FixedBit),
        (Kind::Short, 0x0039, Verdict::OddSyndrome),
    ];
    for (kind, number, verdict) in frames {
        let mut receiver = fresh();
        assert_eq!(send(&mut receiver, kind, number).fate.verdict, verdict);
        assert_eq!(kept(&receiver), (0, 0));
        receiver.clock(false, false);
        assert_eq!(kept(&receiver), (1, 0));
    }
}

/// "over 41, or over 0 beside held frame bits, is not well formed".
#[test]
fn ones_wanted_of_a_state() {
    for ones_wanted in 0..=255 {
        let state = |held| State { ones_wanted, held, ..fresh().state() };
        let receiver = Receiver::from_state(&state(0));
        let kept = receiver.map(|receiver| receiver.state());
        assert_eq!(kept, (ones_wanted <= 41).then_some(state(0)));
        let held = Receiver::from_state(&state(1));
        assert_eq!(held.is_some(), ones_wanted == 0);
    }
}

/// "`ttclines` now sends 41 ones after each line with verdict 7", the last one too.
#[test]
fn lines_with_verdict_7() {
    for (input, output) in [
        ("004E\n", "1 7 0 -\nend 0 1 0 57\n"),
        ("004E", "1 7 0 -\nend 0 1 0 57\n"),
        ("004E\n004E\n0001", "1 7 0 -\n2 7 0 -\n3 1 0 00 0\nend 0 2 0 130\n"),
        ("304F\n", "1 8 0 -\nend 0 1 0 16\n"),
    ] {
        prints(input, output);
    }
}

/// The whole output of an input.
fn prints(input: &str, output: &str) {
    let said = model::report::whole_output(input.as_bytes());
    assert_eq!(String::from_utf8_lossy(&said), output);
}

/// "prints that place as a last field for verdicts 1 to 6, 9 and 10".
#[test]
fn lines_with_places() {
    for (input, output) in [
        ("2097\n0095\n", "1 1 1 02 1\n2 1 1 02 13\nend 2 0 0 32\n"),
        ("100150235AF\n", "1 2 1 00150235 39\nend 1 0 0 42\n"),
        ("0039\n1FFFFFFFFFF\n", "1 11 0 -\n2 11 0 -\nend 0 2 0 58\n"),
        // Fixed bit 0, clean and with a wrong check bit; F3 for register 0, likewise.
        ("10000000001\n10000000003", "1 9 0 00000000 0\n2 9 0 00000000 0\nend 0 2 0 84\n"),
        ("1001500F387\n1001500F385", "1 10 0 001500F3 0\n2 10 1 001500F3 39\nend 1 0 0 84\n"),
    ] {
        prints(input, output);
    }
}

/// "A write of 240 to 255 to registers 0 or 1 is refused"; 2 and 3 take every byte.
#[test]
fn writes_of_every_byte() {
    for number in 0..4 {
        for value in 0..=255 {
            let mut receiver = fresh();
            let held = receiver.read(number);
            let refused = number < 2 && value >= 240;
            let written = if refused { Err(Refusal::FineDelay) } else { Ok(()) };
            assert_eq!(receiver.write(number, value), written);
            let after = if refused { held } else { Ok(value) };
            assert_eq!(receiver.read(number), after);
        }
    }
}

/// Q-4: "an internal frame with such data for them gets the new verdict 10 ..: nothing stored,
/// corrected flag and single counter as for verdict 2". Status bit 5 is set by it.
#[test]
fn frames_without_a_setting() {
    for (sub_address, data) in (0..=255).flat_map(|data| [(0, data), (1, data), (2, data)]) {
        for flip in [0, 1 << 1, 1 << 8, 1 << 15] {
            let mut receiver = fresh();
            send(&mut receiver, Kind::Short, 0x004E);
            receiver.idle(41);
            let number = long_frame(sub_address, data);
            let fate = send(&mut receiver, Kind::Long, number ^ flip).fate;
            let stored = sub_address == 2 || data < 240;
            let verdict = if stored { Verdict::Stored } else { Verdict::NoSetting };
            let word = (number >> 8) as u32;
            assert_eq!(fate, Fate { verdict, flipped: place(Kind::Long, flip), word });
            let after = receiver.state();
            let held = if stored { data } else { 0 };
            assert_eq!(after.registers[usize::from(sub_address)], held);
            let errors = (after.single_errors, after.double_errors, after.status5);
            assert_eq!(errors, ((flip != 0).into(), 1, 1));
        }
    }
}

/// "tested just before 2": an address of another receiver and E = 1 come first, and then no
/// other sub-address has the verdict.
#[test]
fn no_setting_comes_after_5_and_4() {
    for (fields, verdict) in [
        (fields(6, 0, 0, 0xF3), Verdict::OtherAddress),
        (fields(6, 1, 1, 0xF3), Verdict::OtherAddress),
        (fields(5, 1, 0, 0xF3), Verdict::Outside),
        (fields(0, 1, 1, 0xFF), Verdict::Outside),
        (fields(0, 0, 0, 0xF0), Verdict::NoSetting),
        (fields(5, 0, 1, 0xFF), Verdict::NoSetting),
        (fields(5, 0, 3, 0xFF), Verdict::Stored),
        (fields(5, 0, 4, 0xF0), Verdict::OtherSubAddress),
        (fields(5, 0, 6, 0xF0), Verdict::Reset),
    ] {
        let number = encode_long(fields).expect("in range");
        let shown = send(&mut fresh(), Kind::Long, number);
        assert_eq!(shown.fate.verdict, verdict, "{fields:?}");
    }
}

/// "a state with such a byte in register 0 or 1 is 2". Each other state is the receiver's own.
#[test]
fn fine_delays_of_a_state() {
    for byte in 0..=255 {
        for registers in [[byte, 0, 1, 2], [0, byte, 1, 2], [byte, byte, 1, 2]] {
            let state = State { registers, ..fresh().state() };
            let receiver = Receiver::from_state(&state);
            let kept = receiver.map(|receiver| receiver.state());
            assert_eq!(kept, (byte < 240).then_some(state));
        }
        let state = State { registers: [0, 0, byte, byte], ..fresh().state() };
        assert!(Receiver::from_state(&state).is_some());
    }
}

/// The bunch number that a broadcast clears is shown, and the clear wins over the step up.
#[test]
fn clears_win_in_the_state() {
    let mut receiver = fresh();
    receiver.send(encode_short(0x03) >> 1, 15);
    let shown = receiver.clock(true, true);
    assert_eq!(shown.bus, Bus::Bunch(15));
    assert_eq!(shown.fate.verdict, Verdict::Broadcast);
    assert_eq!((receiver.bunch(), receiver.event()), (0, 0));
    assert_eq!(receiver.clock(false, true).bus, Bus::EventLow(0));
}

/// RESET: the state is the fresh one, also in a running sequence and by a corrected frame.
#[test]
fn reset_is_fresh() {
    let mut receiver = fresh();
    for (sub_address, data) in [(0, 1), (1, 2), (2, 3), (3, 0x42)] {
        let shown = send(&mut receiver, Kind::Long, long_frame(sub_address, data));
        assert_eq!(shown.fate.verdict, Verdict::Stored);
    }
    send(&mut receiver, Kind::Short, 0x2097);
    let reset = long_frame(6, 0) ^ 1 << 20;
    receiver.send(reset >> 2, 40);
    assert_eq!(receiver.clock(true, true).bus, Bus::EventLow(0));
    let shown = receiver.clock(true, true);
    assert_eq!((shown.bus, shown.missed), (Bus::EventHigh(0), true));
    let fate = shown.fate;
    assert_eq!((fate.verdict, fate.flipped), (Verdict::Reset, Some(20)));
    assert_eq!(receiver.state(), fresh().state());
}

/// A write to the control register does not alter a running sequence.
#[test]
fn a_control_write_in_a_running_sequence() {
    let mut receiver = fresh();
    let number = long_frame(3, 0);
    receiver.send(number >> 2, 40);
    receiver.clock(true, number >> 1 & 1 == 1);
    let shown = receiver.clock(false, true);
    assert_eq!(shown.bus, Bus::EventLow(0));
    assert_eq!(shown.fate.verdict, Verdict::Stored);
    assert_eq!(receiver.clock(true, true).bus, Bus::EventHigh(0));
    assert_eq!(receiver.clock(true, true).bus, Bus::None);
}
