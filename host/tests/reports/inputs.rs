//! Random inputs and random reports.

use ttcrx_host::sys::{Held, LinePart, Report};
use ttcrx_host::testing::frame::RUN;
use ttcrx_host::testing::lines::{lines, EVERY_KIND};
use ttcrx_host::testing::random::Random;
use ttcrx_host::testing::states;

/// The line of a start bit and 41 ones: any receiver waits after it.
const ONES: &[u8] = b"1FFFFFFFFFF\n";

/// Up to so many random lines, often without the last line feed. None is longer than a few dozen
/// bytes.
pub fn input(random: &mut Random, count: u64) -> Vec<u8> {
    let count = random.below(count + 1) as usize;
    let mut input = lines(random, &EVERY_KIND, count);
    if random.once_in(8) {
        input.splice(..0, ONES.iter().copied());
    }
    if input.len() > 40 * (count + 1) {
        input = b"2097\n11111111111111111111111111111\n004E\n".to_vec();
    }
    let cut = random.below(13) as usize;
    input.truncate(input.len().saturating_sub(cut));
    input
}

/// The front of a line with these characters.
pub fn front(characters: &[u8]) -> LinePart {
    let mut part = LinePart { count: characters.len() as u8, ..LinePart::default() };
    part.characters[..characters.len()].copy_from_slice(characters);
    part
}

/// The front of a line that is too long.
pub const TOO_LONG: LinePart = LinePart { count: 12, characters: [0; 11] };

/// The front of a line: any characters but the line feed, often those of a frame.
fn part(random: &mut Random) -> LinePart {
    let count = random.below(13) as usize;
    if count == 12 {
        return TOO_LONG;
    }
    let mut characters = vec![b'1'; count];
    if random.once_in(3) {
        characters.fill_with(|| random.byte().max(b'\n' + 1));
    }
    front(&characters)
}

/// Line numbers of every length, often the last before they go on from 0.
fn line_count(random: &mut Random) -> u64 {
    let near = random.below(4);
    match random.once_in(3) {
        true => u64::MAX - near,
        false => random.any_length(),
    }
}

/// A report whose receiver waits, in any other respect well formed.
pub fn report(random: &mut Random) -> Report {
    let mut receiver = states::well_formed(random);
    receiver.held = Held::default();
    Report { receiver, lines: line_count(random), part: part(random) }
}

/// A report whose receiver is well formed, mostly within a frame, else waiting or with ones wanted.
pub fn within_a_frame(random: &mut Random) -> Report {
    Report { receiver: states::well_formed(random), ..report(random) }
}

/// A report whose receiver wants so many ones.
pub fn quiet(random: &mut Random, ones_wanted: u8) -> Report {
    Report { receiver: states::quiet(random, ones_wanted), ..report(random) }
}

/// A report whose receiver is of any kind, mostly not well formed.
pub fn any_report(random: &mut Random) -> Report {
    let garbage = states::garbage(random);
    let good = states::well_formed(random);
    let mut report = report(random);
    report.receiver = match random.once_in(2) {
        true => garbage,
        false => states::mixed(random, good, &garbage),
    };
    report
}

/// A report of any of these kinds.
pub fn every_kind(random: &mut Random) -> Report {
    let ones_wanted = 1 + random.below(RUN.into()) as u8;
    match random.below(5) {
        0 => within_a_frame(random),
        1 => any_report(random),
        2 => quiet(random, ones_wanted),
        _ => report(random),
    }
}
