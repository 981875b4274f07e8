//! "Stored lines" of document 01, with what of document 02 add: the report that the
//! program `ttclines` makes, over a reader and a writer, and piece by piece into lent buffers.
//!
//! The program is also the plain Rust one that the proved program is measured against. It takes a
//! line from the reader's own buffer. Of a line that lies in several pieces it keeps no more
//! characters than can matter.

use super::receiver::RUN;
use super::text::{self, Text};
use super::{read_line, Fate, Kind, Receiver, Refusal, State, Verdict};
use std::io::{self, BufRead, ErrorKind, Write};
use std::mem;

/// "Stored lines": the program "has ID 5 and I2C ID 5".
const ID: u16 = 5;
const I2C: u8 = 5;

/// Room for the text of any line, and for the end: the longest line, and the longest `end` line of a
/// well-formed receiver. One that is not well formed refuses the line, and takes less room.
pub const LONGEST_LINE: usize = text::LONGEST;
pub const LONGEST_END: usize = LONGEST_LINE + "end 65535 255 16777215 4095\n".len();

/// The front of a line of which the end has not come. A count of 12 or more says that it has more
/// characters than any frame's line, so that it is refused by 10, whatever follows; none is kept.
#[derive(Clone, Copy, Debug, Default, PartialEq, Eq)]
pub struct Part {
    pub count: u8,
    pub characters: [u8; 11],
}

/// The count of a line that is too long.
const TOO_LONG: u8 = 12;

impl Part {
    fn push(&mut self, more: &[u8]) {
        if more.is_empty() {
            return;
        }
        let first = usize::from(self.count);
        match self.characters.get_mut(first..first + more.len()) {
            Some(free) => {
                free.copy_from_slice(more);
                self.count += more.len() as u8;
            }
            None => *self = Part { count: TOO_LONG, ..Part::default() },
        }
    }

    /// The characters; 12 of any kind for a line that is too long.
    fn characters(&self) -> &[u8] {
        let kept = self.characters.get(..usize::from(self.count));
        kept.unwrap_or(&[0; TOO_LONG as usize])
    }
}

/// What a call on a report did: bytes used and written, and the room that it wants; 0: all was
/// done.
#[derive(Clone, Copy, Debug, PartialEq, Eq)]
pub struct Done {
    pub used: usize,
    pub written: usize,
    pub room_wanted: usize,
}

/// All that is kept between two pieces of the input.
#[derive(Clone, Copy, Debug)]
pub struct Report {
    /// The receiver, or a state that is not well formed.
    receiver: Result<Receiver, State>,
    /// The number of the last line. It is a u64: past 2^64 - 1 it goes on from 0.
    pub lines: u64,
    pub part: Part,
}

impl Report {
    /// "Stored lines": the program "starts fresh".
    pub fn start() -> Report {
        Report {
            receiver: Ok(Receiver::fresh(ID, I2C).expect("IDs in range")),
            lines: 0,
            part: Part::default(),
        }
    }

    /// A report with the receiver of any state.
    pub fn of(state: State, lines: u64, part: Part) -> Report {
        Report { receiver: Receiver::from_state(&state).ok_or(state), lines, part }
    }

    /// The state of its receiver.
    pub fn state(&self) -> State {
        self.receiver.map_or_else(|state| state, |receiver| receiver.state())
    }

    /// Reports the lines that end in a piece of the input, while there is room for the longest.
    pub fn input(&mut self, input: &[u8], buffer: &mut [u8]) -> Done {
        let (mut rest, mut free) = (input, &mut *buffer);
        while !rest.is_empty() && free.len() >= LONGEST_LINE {
            let done = self.next_line(&mut rest, &mut free);
            done.expect("room for a line");
        }
        let left = free.len();
        Done {
            used: input.len() - rest.len(),
            written: buffer.len() - left,
            room_wanted: if rest.is_empty() { 0 } else { LONGEST_LINE },
        }
    }

    /// Reports the end of the input, if there is room for any.
    pub fn end(&mut self, buffer: &mut [u8]) -> Done {
        let mut done = Done { used: 0, written: 0, room_wanted: LONGEST_END };
        if buffer.len() >= LONGEST_END {
            let mut free = &mut *buffer;
            self.write_end(&mut free).expect("room for any end");
            let left = free.len();
            done.written = buffer.len() - left;
            done.room_wanted = 0;
        }
        done
    }

    /// Takes the input up to the next line feed, and reports the line that ends there. Only byte 10
    /// ends a line. If there is none, all is taken and kept as far as it matters.
    #[inline]
    fn next_line(&mut self, rest: &mut &[u8], output: &mut impl Write) -> io::Result<()> {
        let Some(end) = rest.iter().position(|&byte| byte == b'\n') else {
            self.part.push(rest);
            *rest = &[];
            return Ok(());
        };
        let last = &rest[..end];
        *rest = &rest[end + 1..];
        let mut whole = mem::take(&mut self.part);
        if whole.count == 0 {
            return self.line(last, output);
        }
        whole.push(last);
        self.line(whole.characters(), output)
    }

    /// Reports a whole line.
    fn line(&mut self, characters: &[u8], output: &mut impl Write) -> io::Result<()> {
        self.lines = self.lines.wrapping_add(1);
        let text = Text::of(self.lines, self.frame(characters));
        output.write_all(text.line())
    }

    /// "Feeds each line's bits with no triggers and no idle between." A refused line sends no bit.
    /// "sends 41 ones after each line with verdict 7", which is the verdict that is printed.
    #[inline]
    fn frame(&mut self, characters: &[u8]) -> Result<(Kind, Fate), Refusal> {
        let (kind, number) = read_line(characters)?;
        let receiver = self.receiver.as_mut().map_err(|_| Refusal::State)?;
        let fate = receiver.send(number, kind.length()).fate;
        if fate.verdict == Verdict::StopBit {
            receiver.idle(RUN);
        }
        Ok((kind, fate))
    }

    /// "A last line without line feed counts too"; then the line `end`.
    fn write_end(&mut self, output: &mut impl Write) -> io::Result<()> {
        if self.part.count != 0 {
            let last = mem::take(&mut self.part);
            self.line(last.characters(), output)?;
        }
        let state = self.state();
        writeln!(
            output,
            "end {} {} {} {}",
            state.single_errors, state.double_errors, state.event, state.bunch
        )
    }
}

/// The program, from its input's beginning to its end. What was reported before an error has been
/// handed to the output.
pub fn run(input: &mut impl BufRead, output: &mut impl Write) -> io::Result<()> {
    let mut report = Report::start();
    loop {
        let piece = match input.fill_buf() {
            Err(error) if error.kind() == ErrorKind::Interrupted => continue,
            piece => piece?,
        };
        if piece.is_empty() {
            break;
        }
        let mut rest = piece;
        while !rest.is_empty() {
            report.next_line(&mut rest, output)?;
        }
        let length = piece.len();
        input.consume(length);
    }
    report.write_end(output)?;
    output.flush()
}

/// The whole output of an input.
pub fn whole_output(input: &[u8]) -> Vec<u8> {
    let mut output = Vec::new();
    run(&mut &input[..], &mut output).expect("memory is read and written without errors");
    output
}
