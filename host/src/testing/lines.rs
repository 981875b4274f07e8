//! Random stored lines for the program `ttclines`: frames of every fate at its receiver, and lines
//! that it refuses.

use super::frame::Frame;
use super::random::Random;
use super::traffic::{self, Habit, LIVELY, RARE};

/// "Stored lines": the ID of the program's receiver.
const ID: u16 = 5;

/// What a line holds. Flips are of protected bits.
#[derive(Clone, Copy, Debug)]
enum Sort {
    Clean,
    OneFlip,
    TwoFlips,
    /// Three flips up to all protected bits.
    Storm,
    StopBit,
    FixedBit,
    /// Any bits after a right start and format.
    AnyBits,
    Empty,
    WrongLength,
    WrongCharacter,
    WrongLeading,
    /// Longer than a buffer of 4,096 bytes, or nearly so.
    VeryLong,
}

/// How frequent each sort of line is, and how rare RESET.
#[derive(Clone, Copy)]
pub struct Mix {
    weights: [(Sort, u64); 12],
    habit: Habit,
}

/// Every verdict and every refusal is frequent.
pub const EVERY_KIND: Mix = Mix {
    weights: [
        (Sort::Clean, 300),
        (Sort::OneFlip, 200),
        (Sort::TwoFlips, 80),
        (Sort::Storm, 60),
        (Sort::StopBit, 60),
        (Sort::FixedBit, 60),
        (Sort::AnyBits, 60),
        (Sort::Empty, 30),
        (Sort::WrongLength, 80),
        (Sort::WrongCharacter, 80),
        (Sort::WrongLeading, 60),
        (Sort::VeryLong, 1),
    ],
    habit: LIVELY,
};

/// Most lines are clean frames, and all others occur.
pub const MOSTLY_CLEAN: Mix = Mix {
    weights: [
        (Sort::Clean, 7_500),
        (Sort::OneFlip, 800),
        (Sort::TwoFlips, 300),
        (Sort::Storm, 100),
        (Sort::StopBit, 200),
        (Sort::FixedBit, 100),
        (Sort::AnyBits, 200),
        (Sort::Empty, 200),
        (Sort::WrongLength, 200),
        (Sort::WrongCharacter, 200),
        (Sort::WrongLeading, 200),
        (Sort::VeryLong, 1),
    ],
    habit: RARE,
};

impl Mix {
    /// How many lines of each sort there are on average, in two lines of text.
    pub fn text(&self) -> String {
        let sum: u64 = self.weights.iter().map(|(_, weight)| weight).sum();
        let sort = |(sort, weight): &(Sort, u64)| format!("{sort:?} {weight}");
        let (frames, others) = self.weights.split_at(7);
        let frames: Vec<String> = frames.iter().map(sort).collect();
        let others: Vec<String> = others.iter().map(sort).collect();
        let (frames, others) = (frames.join(", "), others.join(", "));
        format!("Of {sum} on average:\n{frames},\n{others}.")
    }

    fn sort(&self, random: &mut Random) -> Sort {
        let sum = self.weights.iter().map(|(_, weight)| weight).sum();
        let mut place = random.below(sum);
        for &(sort, weight) in &self.weights {
            if place < weight {
                return sort;
            }
            place -= weight;
        }
        unreachable!("the place is below the sum of the weights")
    }
}

/// Any byte but the line feed; often one that stands beside the digits.
fn foreign(random: &mut Random) -> u8 {
    let any = match random.byte() {
        b'\n' => b'\r',
        byte => byte,
    };
    random.pick(&[any, any, b'/', b':', b'@', b'G', b'`', b'g', b' ', b'\r', 0])
}

/// Digits of any number, in capitals or small letters.
fn digits(random: &mut Random, count: usize, line: &mut Vec<u8>) {
    line.extend((0..count).map(|_| random.pick(b"0123456789ABCDEFabcdef")));
}

/// The digits of a frame: mostly capitals, else small letters, else both.
fn frame_digits(random: &mut Random, frame: Frame, line: &mut Vec<u8>) {
    let small_once_in = random.pick(&[0, 0, 0, 1, 2]);
    let digits = frame.kind().digits();
    for digit in format!("{:0digits$X}", frame.number).into_bytes() {
        let small = small_once_in != 0 && random.once_in(small_once_in);
        line.push(match small {
            true => digit.to_ascii_lowercase(),
            false => digit,
        });
    }
}

/// A clean frame; half of them are broadcasts.
fn clean(random: &mut Random, habit: Habit) -> Frame {
    match random.once_in(2) {
        true => traffic::short(random, habit),
        false => Frame::long(traffic::fields(random, ID, habit)),
    }
}

/// A long frame with fixed bit 0, clean or with one flip.
fn without_fixed_bit(random: &mut Random) -> Frame {
    let frame = Frame::word(random.number() as u32 & !(1 << 16));
    match random.once_in(2) {
        true => frame.flipped(traffic::protected(random, frame, 1)),
        false => frame,
    }
}

/// A frame of this sort; clean unless the sort says otherwise.
fn frame(random: &mut Random, sort: Sort, habit: Habit) -> Frame {
    let frame = match sort {
        Sort::FixedBit => without_fixed_bit(random),
        _ => clean(random, habit),
    };
    frame.flipped(match sort {
        Sort::OneFlip => traffic::protected(random, frame, 1),
        Sort::TwoFlips => traffic::protected(random, frame, 2),
        Sort::Storm => traffic::storm(random, frame, 3),
        Sort::StopBit if random.once_in(2) => traffic::protected(random, frame, 1) | 1,
        Sort::StopBit => 1,
        Sort::AnyBits => random.below(1 << (frame.length - 2)),
        _ => 0,
    })
}

/// A line of 0 to 20 characters, but not 4 or 11; often a good one with a character more or less.
fn wrong_length(random: &mut Random, line: &mut Vec<u8>) {
    let first = line.len();
    let count = random.pick(&[0, 1, 2, 3, 5, 6, 7, 8, 9, 10, 12, 13, 14, 15, 16, 20]);
    digits(random, count, line);
    match (count, random.below(3)) {
        (5 | 12, 0) => line[first + count - 1] = b'\r',
        (1.., 1) => line[first] = foreign(random),
        _ => {}
    }
}

/// A frame's line with one to three foreign characters. Its first digit may be wrong too.
fn wrong_character(random: &mut Random, habit: Habit, line: &mut Vec<u8>) {
    let first = line.len();
    let frame = clean(random, habit);
    frame_digits(random, frame, line);
    let count = line.len() - first;
    if random.once_in(4) {
        line[first] = b'F';
    }
    for _ in 0..1 + random.below(3) {
        let place = first + random.below(count as u64) as usize;
        line[place] = match foreign(random) {
            byte if byte.is_ascii_hexdigit() => b'\r',
            byte => byte,
        };
    }
}

/// 4 or 11 digits of which the first belongs to no frame.
fn wrong_leading(random: &mut Random, line: &mut Vec<u8>) {
    let (count, firsts): (usize, &[u8]) = random
        .pick(&[(4, b"456789ABCDEFabcdef".as_slice()), (11, b"023456789ABCDEFabcdef".as_slice())]);
    line.push(random.pick(firsts));
    digits(random, count - 1, line);
}

/// Thousands of characters, all digits or none of them.
fn very_long(random: &mut Random, line: &mut Vec<u8>) {
    let count = 4_000 + random.below(5_000) as usize;
    match random.once_in(2) {
        true => digits(random, count, line),
        false => line.extend((0..count).map(|_| foreign(random))),
    }
}

/// Puts the characters of a random line after those that are there; no line feed.
pub fn push_line(random: &mut Random, mix: &Mix, line: &mut Vec<u8>) {
    match mix.sort(random) {
        Sort::Empty => {}
        Sort::WrongLength => wrong_length(random, line),
        Sort::WrongCharacter => wrong_character(random, mix.habit, line),
        Sort::WrongLeading => wrong_leading(random, line),
        Sort::VeryLong => very_long(random, line),
        sort => {
            let frame = frame(random, sort, mix.habit);
            frame_digits(random, frame, line);
        }
    }
}

/// A frame of the mix, without the lines that are refused.
pub fn any_frame(random: &mut Random, mix: &Mix) -> Frame {
    loop {
        match mix.sort(random) {
            Sort::Empty | Sort::WrongLength | Sort::WrongCharacter => {}
            Sort::WrongLeading | Sort::VeryLong => {}
            sort => return frame(random, sort, mix.habit),
        }
    }
}

/// So many random lines, each with its line feed.
pub fn lines(random: &mut Random, mix: &Mix, count: usize) -> Vec<u8> {
    let mut lines = Vec::new();
    for _ in 0..count {
        push_line(random, mix, &mut lines);
        lines.push(b'\n');
    }
    lines
}
