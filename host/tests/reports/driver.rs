//! Reports that are fed, each call compared with the model's.

use ttcrx_host::sys::{Receiver, Report, Reported, LONGEST_END, LONGEST_LINE};
use ttcrx_host::testing::compare::Both;
use ttcrx_host::testing::lent::Lent;
use ttcrx_host::testing::library::Library;
use ttcrx_host::testing::random::Random;
use ttcrx_host::ttcrx;

/// The answer of a call that did nothing, and wants so much room.
pub fn untouched(report: Report, room_wanted: usize) -> Reported {
    Reported { report, room_wanted, ..Reported::default() }
}

/// The whole report of an input with this receiver, and the receiver after it.
#[track_caller]
pub fn said(
    both: &Both<'static>,
    receiver: Receiver,
    input: impl AsRef<[u8]>,
) -> (String, Receiver) {
    let report = Report { receiver, ..ttcrx::report_start() };
    let mut driver = Driver::of(both, 0, report);
    driver.piece(input.as_ref(), LONGEST_END);
    driver.end(LONGEST_END);
    (driver.text(), driver.report.receiver)
}

/// A report that is fed, and all that it has written.
pub struct Driver<'a> {
    both: &'a Both<'static>,
    random: Random,
    pub report: Report,
    output: Vec<u8>,
}

impl<'a> Driver<'a> {
    pub fn of(both: &'a Both<'static>, seed: u64, report: Report) -> Driver<'a> {
        Driver { both, random: Random::new(seed), report, output: Vec::new() }
    }

    /// All that was written.
    pub fn text(&self) -> String {
        String::from_utf8_lossy(&self.output).into_owned()
    }

    /// A call with a buffer of so many random bytes. Those before it and those after what was
    /// written stay.
    #[track_caller]
    fn call(&mut self, length: usize, call: impl FnOnce(&mut [u8]) -> Reported) -> Reported {
        let before = Lent::filled(length, || self.random.byte());
        let mut buffer = before.clone();
        let answer = call(buffer.part());
        let (cases, end) = (&self.both.cases, answer.written);
        cases.same_buffers(self.report, buffer.before(), before.before());
        cases.same_buffers(self.report, buffer.after(end), before.after(end));
        self.output.extend(&buffer.part()[..end]);
        self.report = answer.report;
        answer
    }

    /// One call of `ttcrx_report_input`. It ends where the piece or the room does, and wants room
    /// if input is left. A buffer that is too small for a line leaves the report.
    #[track_caller]
    pub fn input(&mut self, input: &[u8], length: usize) -> Reported {
        let (both, report) = (self.both, self.report);
        let answer = self.call(length, |buffer| both.report_input(report, input, buffer));
        let left = answer.used < input.len();
        let free = length - answer.written;
        both.same(report, left && free >= LONGEST_LINE, false);
        let wanted = if left { LONGEST_LINE } else { 0 };
        both.same(report, answer.room_wanted, wanted);
        if length < LONGEST_LINE {
            both.same(report, answer, untouched(report, wanted));
        }
        answer
    }

    /// A whole piece, by as many calls as buffers of this length need; it holds a line.
    #[track_caller]
    pub fn piece(&mut self, piece: &[u8], length: usize) {
        assert!(length >= LONGEST_LINE, "no input would be used");
        let mut rest = piece;
        while !rest.is_empty() {
            let used = self.input(rest, length).used;
            assert!(used > 0, "a call used nothing");
            rest = &rest[used..];
        }
    }

    /// One call of `ttcrx_report_end`.
    #[track_caller]
    pub fn end(&mut self, length: usize) -> Reported {
        let (both, report) = (self.both, self.report);
        self.call(length, |buffer| both.report_end(report, buffer))
    }
}
