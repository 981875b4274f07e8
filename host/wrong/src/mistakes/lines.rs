//! Mistakes in stored lines.

use crate::sys::*;
use crate::testing::convert::Answer;
use crate::testing::library::{Library, Model};

pub fn character_before_length(characters: &[u8]) -> Line {
    match characters.iter().all(u8::is_ascii_hexdigit) {
        true => Model.read_line(characters),
        false => Line::refused(REFUSED_CHARACTER),
    }
}

pub fn frame_before_character(characters: &[u8]) -> Line {
    match (Model.read_line(characters), characters.first()) {
        (right, Some(b'4'..)) if right.refusal == REFUSED_CHARACTER => Line::refused(REFUSED_FRAME),
        (right, _) => right,
    }
}

pub fn zero_after_line(number: u64, buffer: &mut [u8]) -> Written {
    let answer = Model.write_short(number, buffer);
    if let (ACCEPTED, Some(next)) = (answer.refusal, buffer.get_mut(5)) {
        *next = 0;
    }
    answer
}

pub fn room_before_frame(number: u64, buffer: &mut [u8]) -> Written {
    match buffer.len() < 5 {
        true => Written::refused(REFUSED_LINE_BUFFER),
        false => Model.write_short(number, buffer),
    }
}

pub fn refused_line_writes_a_byte(number: u64, buffer: &mut [u8]) -> Written {
    let answer = Model.write_long(number, buffer);
    if let (REFUSED_LINE_BUFFER, Some(first)) = (answer.refusal, buffer.first_mut()) {
        *first = b'1';
    }
    answer
}

pub fn zero_after_buffer(number: u64, buffer: &mut [u8]) -> Written {
    let answer = Model.write_long(number, buffer);
    if answer.refusal == ACCEPTED && buffer.len() == 12 {
        // SAFETY: none; this is the mistake. The tests lend their buffers between guards.
        unsafe { *buffer.as_mut_ptr().add(12) = 0 };
    }
    answer
}

pub fn small_digits_written(number: u64, buffer: &mut [u8]) -> Written {
    let answer = Model.write_long(number, buffer);
    buffer[..usize::from(answer.length)].make_ascii_lowercase();
    answer
}
