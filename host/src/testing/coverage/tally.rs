//! Counters over every combination of a few small numbers.

use std::fmt::Write;

/// Counts how often each combination of values was seen.
pub struct Tally<const D: usize> {
    /// Name, first and last of each value.
    ranges: [(&'static str, u8, u8); D],
    counts: Vec<u64>,
}

impl<const D: usize> Tally<D> {
    pub fn of(ranges: [(&'static str, u8, u8); D]) -> Tally<D> {
        let size = |&(_, first, last): &(&str, u8, u8)| usize::from(last - first) + 1;
        Tally { ranges, counts: vec![0; ranges.iter().map(size).product()] }
    }

    /// The values are seen once more; each lies in its range.
    #[inline]
    pub fn seen(&mut self, values: [u8; D]) {
        let place = self.place(values);
        self.counts[place] += 1;
    }

    #[inline]
    fn place(&self, values: [u8; D]) -> usize {
        let mut place = 0;
        for ((name, first, last), value) in self.ranges.into_iter().zip(values) {
            assert!((first..=last).contains(&value), "{name} {value}");
            place = place * (usize::from(last - first) + 1) + usize::from(value - first);
        }
        place
    }

    /// The values counted at a place.
    fn values(&self, mut place: usize) -> [u8; D] {
        let mut values = [0; D];
        for (value, (_, first, last)) in values.iter_mut().zip(self.ranges).rev() {
            let size = usize::from(last - first) + 1;
            *value = first + (place % size) as u8;
            place /= size;
        }
        values
    }
}

/// A tally of any number of values.
pub trait Seen {
    /// All values with their names, and how often they were seen.
    fn lines(&self) -> Vec<(String, u64)>;
}

impl<const D: usize> Seen for Tally<D> {
    fn lines(&self) -> Vec<(String, u64)> {
        let mut lines = Vec::new();
        for (place, &count) in self.counts.iter().enumerate() {
            let values = self.values(place);
            let mut line = String::new();
            for ((name, _, _), value) in self.ranges.iter().zip(values) {
                let comma = if line.is_empty() { "" } else { ", " };
                write!(line, "{comma}{name} {value}").expect("a string");
            }
            lines.push((line, count));
        }
        lines
    }
}

/// Prints how often each thing was seen. Fails and names those that were not.
#[track_caller]
pub fn assert_seen(tallies: &[&dyn Seen]) {
    let mut missing = Vec::new();
    for (line, count) in tallies.iter().flat_map(|tally| tally.lines()) {
        println!("{count:>10}  {line}");
        if count == 0 {
            missing.push(line);
        }
    }
    assert!(missing.is_empty(), "not seen: {missing:#?}");
}

/// A struct of tallies, each with its ranges. It has seen nothing by default. `assert_complete`
/// prints how often each thing was seen, and fails and names those that were not.
#[macro_export]
macro_rules! tallies {
    (
        $(#[$doc:meta])*
        $visible:vis struct $name:ident {
            $($field:ident: [$($range:expr),* $(,)?],)*
        }
    ) => {
        $(#[$doc])*
        $visible struct $name {
            $($field: $crate::testing::coverage::Tally<{ [$($range),*].len() }>,)*
        }

        impl Default for $name {
            fn default() -> $name {
                $name {
                    $($field: $crate::testing::coverage::Tally::of([$($range),*]),)*
                }
            }
        }

        impl $name {
            #[track_caller]
            $visible fn assert_complete(&self) {
                $crate::testing::coverage::assert_seen(&[$(&self.$field),*]);
            }
        }
    };
}
