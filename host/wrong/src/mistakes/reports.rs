//! Mistakes in reports of stored lines.

use crate::sys::*;
use crate::testing::library::{Library, Model};

pub fn report_of_i2c_id_0() -> Report {
    let receiver = Model.fresh(5, 0).receiver;
    Report { receiver, ..Model.report_start() }
}

pub fn carriage_return_ends_a_line(report: Report, input: &[u8], buffer: &mut [u8]) -> Reported {
    let end = |&byte: &u8| if byte == b'\r' { b'\n' } else { byte };
    let other: Vec<u8> = input.iter().map(end).collect();
    Model.report_input(report, &other, buffer)
}

/// Byte by byte, each with what is free of the buffer, until room is wanted.
pub fn byte_by_byte(
    (report, input, buffer): (Report, &[u8], &mut [u8]),
    step: impl Fn(Report, u8, &mut [u8]) -> Reported,
) -> Reported {
    let mut all = Reported { report, ..Reported::default() };
    for &byte in input {
        let done = step(all.report, byte, &mut buffer[all.written..]);
        all = Reported {
            report: done.report,
            used: all.used + done.used,
            written: all.written + done.written,
            room_wanted: done.room_wanted,
        };
        if done.room_wanted != 0 {
            break;
        }
    }
    all
}

/// A line's text with other fields.
fn changed(line: &[u8], change: impl Fn(&mut Vec<String>)) -> String {
    let text = String::from_utf8_lossy(line);
    let mut fields: Vec<String> = text.trim_end().split(' ').map(str::to_string).collect();
    change(&mut fields);
    fields.join(" ") + "\n"
}

/// Each line of a report is printed with other fields.
pub fn other_fields(
    lent: (Report, &[u8], &mut [u8]),
    change: impl Fn(&mut Vec<String>),
) -> Reported {
    byte_by_byte(lent, |report, byte, free| {
        let mut text = [0; LONGEST_LINE];
        let room = free.len().min(LONGEST_LINE);
        let done = Model.report_input(report, &[byte], &mut text[..room]);
        if done.written == 0 {
            return done;
        }
        let other = changed(&text[..done.written], &change);
        free[..other.len()].copy_from_slice(other.as_bytes());
        Reported { written: other.len(), ..done }
    })
}

/// A last line without line feed is printed with other fields; its text is no longer.
pub fn other_last_line(
    (report, buffer): (Report, &mut [u8]),
    change: impl Fn(&mut Vec<String>),
) -> Reported {
    let mut text = vec![0; buffer.len()];
    let done = Model.report_end(report, &mut text);
    let mut lines = text[..done.written].split_inclusive(|&byte| byte == b'\n');
    let (first, second) = (lines.next().unwrap_or_default(), lines.next());
    let other = match second {
        Some(end) => [changed(first, change).as_bytes(), end].concat(),
        None => first.to_vec(),
    };
    buffer[..other.len()].copy_from_slice(&other);
    Reported { written: other.len(), ..done }
}

pub fn empty_line_not_counted(report: Report, input: &[u8], buffer: &mut [u8]) -> Reported {
    byte_by_byte((report, input, buffer), |report, byte, free| {
        let empty = byte == b'\n' && report.part.count == 0;
        match empty && free.len() >= LONGEST_LINE {
            true => Reported { report, used: 1, ..Reported::default() },
            false => Model.report_input(report, &[byte], free),
        }
    })
}

pub fn no_room_wanted(report: Report, input: &[u8], buffer: &mut [u8]) -> Reported {
    Reported { room_wanted: 0, ..Model.report_input(report, input, buffer) }
}

pub fn line_numbers_from_0(report: Report, input: &[u8], buffer: &mut [u8]) -> Reported {
    let lines = report.lines.wrapping_sub(1);
    let mut done = Model.report_input(Report { lines, ..report }, input, buffer);
    done.report.lines = done.report.lines.wrapping_add(1);
    done
}

pub fn receiver_of_id_5_only(report: Report, input: &[u8], buffer: &mut [u8]) -> Reported {
    let ids = report.receiver.core.ids;
    let mut other = report;
    if Model.well_formed(report.receiver) == 1 {
        other.receiver.core.ids = Model.report_start().receiver.core.ids;
    }
    let mut done = Model.report_input(other, input, buffer);
    done.report.receiver.core.ids = ids;
    done
}

pub fn last_line_forgotten(report: Report, buffer: &mut [u8]) -> Reported {
    let part = match buffer.len() >= LONGEST_END {
        true => LinePart::default(),
        false => report.part,
    };
    Model.report_end(Report { part, ..report }, buffer)
}

pub fn end_wants_a_line(report: Report, buffer: &mut [u8]) -> Reported {
    let mut done = Model.report_end(report, buffer);
    done.room_wanted = done.room_wanted.min(LONGEST_LINE);
    done
}

pub fn room_always_wanted(report: Report, input: &[u8], buffer: &mut [u8]) -> Reported {
    Reported { room_wanted: LONGEST_LINE, ..Model.report_input(report, input, buffer) }
}
