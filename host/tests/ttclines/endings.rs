//! Inputs that can't be read and outputs that can't be written: the program ends.

use crate::program::{self, Ended, Scratch};
use std::fs::File;
use std::process::{Command, Stdio};
use ttcrx_host::testing::lines::{lines, EVERY_KIND};
use ttcrx_host::testing::random::Random;

/// A directory can be opened but not read. The exit status is always 0: the program can't set it.
#[test]
fn a_directory_as_input() {
    let directory = File::open(env!("CARGO_MANIFEST_DIR")).expect("the package's folder");
    let ended = program::reading(directory);
    let output = String::from_utf8_lossy(&ended.output);
    assert!(!output.contains("end"), "it said: {output}");
    assert!(!ended.errors.is_empty(), "nothing on standard error");
}

/// No line, one, and far more output than any buffer or pipe holds.
fn inputs() -> [Vec<u8>; 3] {
    let many = lines(&mut Random::new(221), &EVERY_KIND, 50_000);
    [b"".to_vec(), b"004F\n".to_vec(), many]
}

/// Runs the program under a shell, which redirects before it becomes the program.
fn redirected(redirection: &str, input: &[u8]) -> Ended {
    let script = format!("exec \"$0\" {redirection}");
    let mut command = Command::new("sh");
    command
        .args(["-c".as_ref(), script.as_ref(), program::path().as_os_str()])
        .stdin(Scratch::holding(input).open())
        .stdout(Stdio::piped())
        .stderr(Stdio::piped());
    program::run(&mut command, |_| {})
}

/// A closed output, and one that is full. That the program ends in time is tested by
/// `program::run`.
#[test]
fn no_output() {
    for redirection in [">&-", ">/dev/full"] {
        for input in inputs() {
            let ended = redirected(redirection, &input);
            assert!(ended.output.is_empty());
            assert!(!ended.errors.is_empty(), "nothing on standard error");
        }
    }
}

/// Both standard output and standard error can't be written.
#[test]
fn nowhere_to_write() {
    for redirection in [">&- 2>&-", ">/dev/full 2>/dev/full", "<&- >&- 2>&-"] {
        for input in inputs() {
            redirected(redirection, &input);
        }
    }
}

/// A pipe whose other end is closed: the rest of the input is not waited for.
#[test]
fn an_output_that_nobody_reads() {
    for input in inputs() {
        let mut command = Command::new(program::path());
        let (reader, writer) = std::io::pipe().expect("a pipe");
        command.stdin(Scratch::holding(&input).open()).stdout(writer).stderr(Stdio::piped());
        drop(reader);
        program::run(&mut command, |_| {});
    }
}
