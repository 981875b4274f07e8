//! Random lines of every kind, with what was said of them counted.

use crate::compare::{same, same_end};
use crate::program;
use ttcrx_host::sys::{PLACES_LONG, PLACES_SHORT};
use ttcrx_host::tallies;
use ttcrx_host::testing::compare::Cases;
use ttcrx_host::testing::lines::{lines, EVERY_KIND, MOSTLY_CLEAN};
use ttcrx_host::testing::random::Random;
use ttcrx_host::testing::verdict;

tallies! {
    /// What the output has said.
    struct Said {
        good: [verdict::GOOD, ("corrected flag", 0, 1)],
        dropped: [verdict::DROPPED, ("corrected flag", 0, 0)],
        short_places: [("place in a line of 2 digits", 0, PLACES_SHORT)],
        long_places: [("place in a line of 8 digits", 0, PLACES_LONG)],
        fixed_bit: [("place with verdict 9", 0, 0)],
        refusals: [("refusal", 10, 12)],
    }
}

impl Said {
    /// One line of the output but the last.
    fn line(&mut self, line: &str) {
        let fields: Vec<&str> = line.split(' ').collect();
        let number = |field: &str| field.parse().expect("a small number");
        match fields[..] {
            [_, "!", refusal] => self.refusals.seen([number(refusal)]),
            [_, "7" | "8" | "11", flag, "-"] => self.dropped(number(fields[1]), number(flag)),
            [_, "9", flag, _, place] => {
                self.dropped(9, number(flag));
                self.fixed_bit.seen([number(place)]);
            }
            [_, verdict, flag, word, place] => {
                self.good.seen([verdict::of_good(number(verdict)), number(flag)]);
                self.place(number(flag), word, number(place));
            }
            _ => panic!("a line of another form: {line}"),
        }
    }

    fn dropped(&mut self, verdict: u8, flag: u8) {
        self.dropped.seen([verdict::of_dropped(verdict), flag]);
    }

    /// The place is 0 exactly if the flag is.
    fn place(&mut self, flag: u8, word: &str, place: u8) {
        assert_eq!(flag == 0, place == 0, "flag {flag}, place {place}");
        match word.len() {
            2 => self.short_places.seen([place]),
            _ => self.long_places.seen([place]),
        }
    }

    fn output(&mut self, output: &[u8]) {
        let text = std::str::from_utf8(output).expect("characters");
        let (lines, end) = text.split_at(text.rfind("end ").expect("a line end"));
        assert_eq!(end.lines().count(), 1, "{end}");
        lines.lines().for_each(|line| self.line(line));
    }
}

#[test]
fn many_lines() {
    let cases = Cases::of("inputs of 150,000 random lines");
    let mut said = Said::default();
    for (seed, mix) in [(206, &EVERY_KIND), (207, &MOSTLY_CLEAN)] {
        let input = lines(&mut Random::new(seed), mix, 150_000);
        let ended = program::piped(&input);
        same_end(&cases, "random lines", &input, &ended);
        said.output(&ended.output);
    }
    said.assert_complete();
    cases.at_least(2 * 2);
}

/// Inputs of a few lines, cut off at any byte.
#[test]
fn few_lines() {
    let cases = Cases::of("inputs of a few random lines, cut off");
    let mut random = Random::new(208);
    for _ in 0..400 {
        let count = random.below(30) as usize;
        let mut input = lines(&mut random, &EVERY_KIND, count);
        let cut = random.below(12) as usize;
        input.truncate(input.len().saturating_sub(cut));
        same(&cases, "a few lines", &input);
    }
    cases.at_least(2 * 400);
}
