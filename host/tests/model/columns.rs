//! Q-11 of document 02, "The encoder's own columns".

use crate::model::{bits, block, decode, decode_long, decode_long_with, decode_short};
use crate::model::{decode_short_with, decode_with, encode_long, encode_long_with, encode_short};
use crate::model::{encode_short_with, encode_word, encode_word_with};
use crate::model::{BadColumns, Columns, Fields, Kind, Receiver, Refusal, Verdict, COLUMNS};
use crate::random::Random;
use crate::tables::{any, fault, good_numbers, group, with, Table, OWN};
use crate::{fields, fresh};

/// Document 01's own table and so many others.
fn tables(seed: u64, others: usize) -> Vec<Table> {
    let mut random = Random::new(seed);
    let mut tables = vec![OWN];
    tables.extend((0..others).map(|_| any(&mut random)));
    tables
}

/// The same as columns.
fn all_columns(seed: u64, others: usize) -> Vec<Columns> {
    tables(seed, others).iter().map(|table| Columns::lent(table).expect("good")).collect()
}

/// What is said of lent numbers: nothing, or the refusal's number and the index.
fn said(numbers: &[u8]) -> Option<(u8, usize)> {
    let bad = Columns::lent(numbers).err()?;
    Some((bad.refusal as u8, bad.index.into()))
}

fn any_fields(random: &mut Random) -> Fields {
    let any = random.number() as u16 % 16384;
    let address = random.pick(&[0, 5, 6, any]);
    fields(address, random.byte() % 2, random.byte() % 9, random.byte())
}

#[test]
fn own_columns() {
    assert_eq!((&OWN[..8], &OWN[8..]), (&COLUMNS[..8], &COLUMNS[..]));
    assert_eq!(Columns::own().numbers(), OWN);
    assert_eq!(Columns::lent(&OWN).as_ref(), Ok(Columns::own()));
    assert_eq!(good_numbers(0), [7, 11, 13, 14, 19, 21, 22, 25, 26, 28, 31]);
    assert_eq!(good_numbers(8).len(), 35 + 21 + 1);
}

/// Good tables are kept as they were lent. Each number at each index is bad, or makes a later one of
/// its group bad that is equal to it, or is good.
#[test]
fn each_number_at_each_index() {
    for table in tables(2, 20) {
        assert_eq!(Columns::lent(&table).expect("good").numbers(), table);
        for (index, number) in
            (0..40).flat_map(|index| (0..=255).map(move |number| (index, number)))
        {
            let mut later = index + 1..group(index).end;
            let first = match fault(&table, index, number) {
                Some(_) => Some(index),
                None => later.find(|&place| table[place] == number),
            };
            let told = said(&with(&table, index, number));
            assert_eq!(told, first.map(|first| (28, first)), "{number} at {index}");
        }
    }
}

/// Also where numbers are bad.
#[test]
fn other_lengths_than_40() {
    let good = OWN.repeat(3);
    for length in (0..=100).filter(|&length| length != 40) {
        for numbers in [&good[..length], &vec![0; length]] {
            let expected = BadColumns { refusal: Refusal::Columns, index: 0 };
            assert_eq!(Columns::lent(numbers), Err(expected));
        }
    }
}

/// Document 01's words on the syndrome, and Q-8's: the verdict of a frame with stop bit 1 before the
/// fixed bit is looked at, and the place of its flipped bit.
fn by_syndrome(columns: &[u8], kind: Kind, number: u64) -> (Verdict, Option<u8>) {
    let (short, long) = columns.split_at(8);
    let columns = if kind == Kind::Short { short } else { long };
    let check = (number >> 1) as u8 & ((1 << kind.check_bits()) - 1);
    let data = number >> kind.check_bits() >> 1;
    let ones = columns.iter().enumerate().filter(|(bit, _)| data >> bit & 1 == 1);
    let syndrome = ones.fold(check, |sum, (_, column)| sum ^ column);
    let data_bit = columns.iter().position(|&column| column == syndrome);
    match (syndrome.count_ones(), data_bit) {
        (0, _) => (Verdict::None, None),
        (1, _) => (Verdict::None, Some(kind.protected_bits() - syndrome.ilog2() as u8)),
        (_, Some(bit)) => (Verdict::None, Some(kind.data_bits() - bit as u8)),
        (count, None) if count % 2 == 0 => (Verdict::EvenSyndrome, None),
        _ => (Verdict::OddSyndrome, None),
    }
}

/// A decoded number beside what its syndrome says; a long one's verdict 9 has no place.
fn goes_by_the_syndrome(columns: &Columns, kind: Kind, number: u64) {
    let decoded = decode_with(columns, kind, number).expect("a frame");
    let (verdict, flipped) = by_syndrome(columns.numbers(), kind, number);
    if decoded.verdict == Verdict::FixedBit {
        assert_eq!((verdict, decoded.flipped), (Verdict::None, None));
        return;
    }
    assert_eq!((decoded.verdict, decoded.flipped), (verdict, flipped), "{number:X}");
    let flip = flipped.map_or(0, |place| 1 << (kind.protected_bits() + 1 - place));
    let data = (number ^ flip) >> kind.check_bits() >> 1;
    let word = data & ((1 << kind.data_bits()) - 1);
    assert_eq!(decoded.word, if verdict == Verdict::None { word as u32 } else { 0 });
}

#[test]
fn numbers_go_by_the_syndrome() {
    let mut random = Random::new(3);
    for columns in all_columns(4, 100) {
        for number in (1..1 << 14).step_by(2) {
            goes_by_the_syndrome(&columns, Kind::Short, number);
        }
        for _ in 0..5_000 {
            let number = 1 << 40 | random.below(1 << 40) | 1;
            goes_by_the_syndrome(&columns, Kind::Long, number);
        }
    }
}

/// The functions without columns are those with the own ones.
#[test]
fn functions_without_columns() {
    let own = Columns::own();
    let mut random = Random::new(5);
    for number in 0..1 << 15 {
        assert_eq!(decode_short(number), decode_short_with(own, number));
        assert_eq!(encode_short(number as u8), encode_short_with(own, number as u8));
    }
    for _ in 0..50_000 {
        let (number, fields) = (random.below(1 << 42), any_fields(&mut random));
        assert_eq!(decode_long(number), decode_long_with(own, number));
        assert_eq!(decode(Kind::Long, number), decode_with(own, Kind::Long, number));
        assert_eq!(encode_word(number as u32), encode_word_with(own, number as u32));
        assert_eq!(encode_long(fields), encode_long_with(own, fields));
    }
}

/// The frame of these fields.
fn frame(columns: &Columns, kind: Kind, fields: Fields) -> u64 {
    match kind {
        Kind::Short => encode_short_with(columns, fields.data),
        Kind::Long => encode_long_with(columns, fields).expect("in range"),
    }
}

/// Frames of any fields, clean, with one flip and with two, have the same outputs and leave the same
/// state whatever the columns are, if they were encoded with them.
#[test]
fn receivers_do_not_depend_on_columns() {
    let mut random = Random::new(6);
    for columns in all_columns(7, 100) {
        let (mut receiver, mut other) = (fresh(), fresh());
        for _ in 0..200 {
            let kind = random.pick(&Kind::BOTH);
            let flip = |random: &mut Random| 2 << random.below(kind.protected_bits().into());
            let (one, two) = (flip(&mut random), flip(&mut random));
            let flips = random.pick(&[0, one, one ^ two]);
            let fields = any_fields(&mut random);
            let sent = frame(&columns, kind, fields) ^ flips;
            let own = frame(Columns::own(), kind, fields) ^ flips;
            let outputs = receiver.receive_with(&columns, kind.number(), sent);
            assert_eq!(outputs, other.receive(kind.number(), own));
            assert_eq!(receiver.state(), other.state());
        }
    }
}

/// The state keeps no columns: those of a frame's last clock decide.
#[test]
fn columns_of_the_last_clock() {
    let mut random = Random::new(8);
    for pair in all_columns(9, 300).windows(2) {
        let (columns, others) = (&pair[0], &pair[1]);
        let number = frame(columns, Kind::Long, any_fields(&mut random));
        let (mut receiver, mut mixed) = (fresh(), fresh());
        receiver.send_with(columns, number >> 1, 41);
        mixed.send_with(others, number >> 1, 41);
        assert_eq!(receiver.state(), mixed.state());
        let fate = { mixed }.clock_with(others, false, true).fate;
        let decoded = decode_long_with(others, number).expect("a frame");
        assert_eq!((fate.flipped, fate.word), (decoded.flipped, decoded.word));
        let last = receiver.clock_with(columns, false, true);
        assert_eq!((last.fate.flipped, last.fate.word), (None, (number >> 8) as u32));
        assert_eq!(mixed.clock_with(columns, false, true), last);
        assert_eq!(receiver.state(), mixed.state());
    }
}

/// Frames with flips, ones and triggers, with these columns.
fn any_block(random: &mut Random, columns: &Columns) -> Vec<u8> {
    let mut block = Vec::new();
    while block.len() < 1_000 {
        let kind = random.pick(&Kind::BOTH);
        let flips = random.below(2) << random.below(u64::from(kind.length()) - 2);
        let number = frame(columns, kind, any_fields(random)) ^ flips;
        let ones = random.below(50) as usize;
        let bits = bits(number, kind.length()).chain(vec![true; ones]);
        block.extend(bits.map(|bit| block::byte(random.once_in(9).into(), bit.into())));
    }
    block
}

/// The codes of the clocks done singly, of which a block has a record.
fn codes(columns: &Columns, receiver: &mut Receiver, block: &[u8]) -> Vec<u32> {
    let mut codes = Vec::new();
    for byte in block {
        let shown = receiver.clock_with(columns, byte & 1 == 1, byte & 2 == 2);
        let flags = [shown.fate.corrected(), shown.trigger, shown.missed].map(u32::from);
        codes.push(shown.fate.verdict as u32 + 16 * flags[0] + 32 * flags[1] + 64 * flags[2]);
    }
    codes.retain(|code| code & (15 | 32) != 0);
    codes
}

#[test]
fn blocks_are_their_clocks() {
    let mut random = Random::new(10);
    for columns in all_columns(11, 100) {
        let block = any_block(&mut random, &columns);
        let (mut receiver, mut single) = (fresh(), fresh());
        let mut buffer = vec![77; 5 * block.len()];
        let run = block::run_with(&columns, &mut receiver, &block, &mut buffer);
        let (records, rest) = buffer.split_at(5 * run.expect("accepted"));
        let found: Vec<u32> = records.chunks(5).map(|record| record[3]).collect();
        assert_eq!(found, codes(&columns, &mut single, &block));
        assert!(rest.iter().all(|&number| number == 77));
        assert_eq!(receiver.state(), single.state());
    }
}
