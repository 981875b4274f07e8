//! The model's program over a reader and a writer: the pieces that a reader gives make no
//! difference, and after an error there is no `end` line.

use crate::compare::same_text;
use std::io::{self, BufRead, BufReader, ErrorKind, Read, Write};
use ttcrx_host::model::report::{run, whole_output};
use ttcrx_host::testing::compare::Cases;
use ttcrx_host::testing::lines::{lines, EVERY_KIND};
use ttcrx_host::testing::random::Random;

#[test]
fn small_buffers() {
    let cases = Cases::of("the model over readers with small buffers");
    let mut random = Random::new(230);
    for capacity in (1..40).chain([4_095, 4_096, 4_097]) {
        let mut input = lines(&mut random, &EVERY_KIND, 3_000);
        input.extend([&b"11111111111"[..], b"111111111111", b"1111", b""][capacity % 4]);
        let mut output = Vec::new();
        let mut reader = BufReader::with_capacity(capacity, &input[..]);
        run(&mut reader, &mut output).expect("no error");
        let name = format!("capacity {capacity}");
        same_text(&cases, &name, &output, &whole_output(&input));
    }
    cases.at_least(42);
}

/// Reads these bytes, then fails with these errors in turn.
struct Failing<'a>(&'a [u8], Vec<ErrorKind>);

impl Read for Failing<'_> {
    fn read(&mut self, buffer: &mut [u8]) -> io::Result<usize> {
        match self.0.is_empty() {
            true => Err(self.1.remove(0).into()),
            false => self.0.read(buffer),
        }
    }
}

/// An interrupted read is done again.
#[test]
fn a_read_error() {
    let errors = vec![ErrorKind::Interrupted, ErrorKind::InvalidData];
    let failing = Failing(b"004F\n0001\n2097", errors);
    let mut output = Vec::new();
    let error = run(&mut BufReader::new(failing), &mut output).expect_err("a read error");
    assert_eq!(error.kind(), ErrorKind::InvalidData);
    assert_eq!(output, b"1 1 0 01 0\n2 1 0 00 0\n");
}

/// An input without end, written to where there is room for a few bytes.
#[test]
fn a_write_error() {
    let mut endless = BufReader::new(io::repeat(b'\n'));
    let mut room = [0; 20];
    let error = run(&mut endless, &mut room.as_mut_slice()).expect_err("no room");
    assert_eq!(error.kind(), ErrorKind::WriteZero);
    assert_eq!(&room, b"1 ! 10\n2 ! 10\n3 ! 10");
    assert!(endless.fill_buf().is_ok_and(|left| !left.is_empty()));
}

/// The last flush may fail too.
struct Unflushed;

impl Write for Unflushed {
    fn write(&mut self, bytes: &[u8]) -> io::Result<usize> {
        Ok(bytes.len())
    }

    fn flush(&mut self) -> io::Result<()> {
        Err(ErrorKind::StorageFull.into())
    }
}

#[test]
fn a_flush_error() {
    let error = run(&mut &b"004F\n"[..], &mut Unflushed).expect_err("a flush error");
    assert_eq!(error.kind(), ErrorKind::StorageFull);
}
