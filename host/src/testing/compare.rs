//! Compares answers and counts the comparisons, so that no loop is empty unseen; and the library
//! beside the model, function by function.

use super::library::{column_functions, other_functions, plain_functions};
use super::library::{Library, Model, Proved};
use crate::sys::*;
use std::cell::Cell;
use std::fmt::Debug;

/// The cases of one test.
pub struct Cases {
    name: &'static str,
    count: Cell<u64>,
}

impl Cases {
    pub fn of(name: &'static str) -> Cases {
        Cases { name, count: Cell::new(0) }
    }

    /// Two answers to one input must be equal.
    #[track_caller]
    #[inline]
    pub fn same<I: Debug, A: PartialEq + Debug>(&self, input: I, answer: A, expected: A) {
        let (name, case) = (self.name, self.count.get() + 1);
        self.count.set(case);
        assert!(
            answer == expected,
            "{name}, case {case}\n input (hex): {input:X?}\n    answered: {answer:?}\n    \
             expected: {expected:?}"
        );
    }

    /// Two buffers must be equal. Only their first difference is shown.
    #[track_caller]
    pub fn same_buffers<I: Debug, T: Copy + PartialEq + Debug>(
        &self,
        input: I,
        buffer: &[T],
        expected: &[T],
    ) {
        self.same(input, difference(buffer, expected), None);
    }

    #[track_caller]
    pub fn at_least(&self, count: u64) {
        println!("{}: {} cases", self.name, self.count.get());
        assert!(self.count.get() >= count, "{}: too few cases", self.name);
    }
}

/// The first place at which two buffers differ, with both elements; none where one has ended.
pub type Difference<T> = (usize, Option<T>, Option<T>);

pub fn difference<T: Copy + PartialEq>(one: &[T], other: &[T]) -> Option<Difference<T>> {
    if one == other {
        return None;
    }
    let at = |place| (place, one.get(place).copied(), other.get(place).copied());
    (0..).map(at).find(|(_, one, other)| one != other)
}

/// A library, each answer compared with the model's. A buffer that was lent is compared too.
pub struct Both<'a> {
    pub library: &'a dyn Library,
    pub cases: Cases,
}

impl Both<'static> {
    /// The proved library.
    pub fn of(name: &'static str) -> Both<'static> {
        Both::with(name, &Proved)
    }
}

impl<'a> Both<'a> {
    pub fn with(name: &'static str, library: &'a dyn Library) -> Both<'a> {
        Both { library, cases: Cases::of(name) }
    }

    #[track_caller]
    #[inline]
    pub fn same<I: Debug, A: PartialEq + Debug>(&self, input: I, answer: A, expected: A) {
        self.cases.same(input, answer, expected);
    }

    #[track_caller]
    pub fn at_least(&self, count: u64) {
        self.cases.at_least(count);
    }

    /// One call of a function without buffers.
    #[track_caller]
    #[inline]
    fn ask<I: Debug, A: Copy + PartialEq + Debug>(
        &self,
        input: I,
        call: impl Fn(&dyn Library) -> A,
    ) -> A {
        let answer = call(self.library);
        self.cases.same(input, answer, call(&Model));
        answer
    }

    /// One call of a function that is lent a buffer.
    #[track_caller]
    fn lend<I: Copy + Debug, A: Copy + PartialEq + Debug, T: Copy + PartialEq + Debug>(
        &self,
        input: I,
        buffer: &mut [T],
        call: impl Fn(&dyn Library, &mut [T]) -> A,
    ) -> A {
        let mut expected = buffer.to_vec();
        let answer = call(self.library, buffer);
        self.cases.same(input, answer, call(&Model, &mut expected));
        self.cases.same_buffers(input, buffer, &expected);
        answer
    }

    /// One call of a function that is lent a receiver and a buffer. Answers and states are compared,
    /// then the buffers.
    #[track_caller]
    fn lend_receiver<I: Copy + Debug, A: Copy + PartialEq + Debug>(
        &self,
        input: I,
        receiver: &mut Receiver,
        buffer: &mut [u32],
        call: impl Fn(&dyn Library, &mut Receiver, &mut [u32]) -> A,
    ) -> A {
        let start = *receiver;
        let (answer, after) = self.lend(input, buffer, |library, buffer| {
            let mut lent = start;
            (call(library, &mut lent, buffer), lent)
        });
        *receiver = after;
        answer
    }
}

/// A function that is lent nothing for writing, of both.
macro_rules! both {
    (fn $name:ident($($argument:ident: $type:ty),*) -> $answer:ty) => {
        #[track_caller]
        fn $name(&self, $($argument: $type),*) -> $answer {
            self.ask(($($argument,)*), |library| library.$name($($argument),*))
        }
    };
}

impl Library for Both<'_> {
    plain_functions! { both }

    #[track_caller]
    fn write_short(&self, number: u64, buffer: &mut [u8]) -> Written {
        self.lend((number, buffer.len()), buffer, |library, buffer| {
            library.write_short(number, buffer)
        })
    }

    #[track_caller]
    fn write_long(&self, number: u64, buffer: &mut [u8]) -> Written {
        self.lend((number, buffer.len()), buffer, |library, buffer| {
            library.write_long(number, buffer)
        })
    }

    #[track_caller]
    fn run_block(&self, receiver: &mut Receiver, block: &[u8], buffer: &mut [u32]) -> BlockOutcome {
        let input = (*receiver, block, buffer.len());
        self.lend_receiver(input, receiver, buffer, |library, lent, buffer| {
            library.run_block(lent, block, buffer)
        })
    }

    #[track_caller]
    fn run_block_with_columns(
        &self,
        receiver: &mut Receiver,
        columns: &[u8],
        block: &[u8],
        buffer: &mut [u32],
    ) -> BlockWithIndex {
        let input = (*receiver, columns, block, buffer.len());
        self.lend_receiver(input, receiver, buffer, |library, lent, buffer| {
            library.run_block_with_columns(lent, columns, block, buffer)
        })
    }

    #[track_caller]
    fn report_input(&self, report: Report, input: &[u8], buffer: &mut [u8]) -> Reported {
        let known = (report, input, buffer.len());
        self.lend(known, buffer, |library, buffer| library.report_input(report, input, buffer))
    }

    #[track_caller]
    fn report_end(&self, report: Report, buffer: &mut [u8]) -> Reported {
        self.lend((report, buffer.len()), buffer, |library, buffer| {
            library.report_end(report, buffer)
        })
    }
}
