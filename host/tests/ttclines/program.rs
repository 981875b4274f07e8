//! Runs the program. Its input is written in one thread while its outputs are read in others, so
//! that no full pipe holds it up.

use std::fs::{self, File};
use std::io::{Read, Write};
use std::path::{Path, PathBuf};
use std::process::{self, Child, ChildStdin, Command, ExitStatus, Stdio};
use std::sync::atomic::{AtomicU64, Ordering};
use std::thread;
use std::time::{Duration, Instant};
use std::{env, iter};

/// A program that runs longer hangs: the longest input takes a small part of it.
const LIMIT: Duration = Duration::from_secs(60);

/// What a program has left. The output is empty where it was not read.
pub struct Ended {
    pub output: Vec<u8>,
    pub errors: Vec<u8>,
    pub status: ExitStatus,
}

/// A relative path counts from the package's own folder.
pub fn path() -> PathBuf {
    let named = env::var_os("TTCLINES").unwrap_or("../target/bin/ttclines".into());
    let path = Path::new(env!("CARGO_MANIFEST_DIR")).join(named);
    let shown = path.display();
    assert!(path.is_file(), "{shown} is missing: build it with make");
    path
}

/// A file of a test's own, which is gone after it.
pub struct Scratch(PathBuf);

impl Scratch {
    pub fn holding(bytes: &[u8]) -> Scratch {
        static COUNT: AtomicU64 = AtomicU64::new(0);
        let number = COUNT.fetch_add(1, Ordering::Relaxed);
        let name = format!("ttclines-{}-{number}", process::id());
        let path = Path::new(env!("CARGO_TARGET_TMPDIR")).join(name);
        fs::write(&path, bytes).expect("a scratch file");
        Scratch(path)
    }

    pub fn open(&self) -> File {
        File::open(&self.0).expect("the scratch file")
    }
}

impl Drop for Scratch {
    fn drop(&mut self) {
        let _ = fs::remove_file(&self.0);
    }
}

/// All that comes through a pipe; nothing where there is none.
fn read(pipe: Option<impl Read>) -> Vec<u8> {
    let mut bytes = Vec::new();
    if let Some(mut pipe) = pipe {
        pipe.read_to_end(&mut bytes).expect("a pipe is read");
    }
    bytes
}

/// Waits for the end of the program, and makes one where it does not come in time.
fn wait(child: &mut Child) -> Option<ExitStatus> {
    let deadline = Instant::now() + LIMIT;
    while Instant::now() < deadline {
        let status = child.try_wait().expect("the program is a child");
        if status.is_some() {
            return status;
        }
        thread::sleep(Duration::from_micros(100));
    }
    let _ = child.kill();
    let _ = child.wait();
    None
}

/// Runs the program to its end. If its input is a pipe, the function feeds it.
pub fn run(command: &mut Command, feed: impl FnOnce(ChildStdin) + Send) -> Ended {
    let mut child = command.spawn().expect("the program starts");
    let (stdin, stdout, stderr) = (child.stdin.take(), child.stdout.take(), child.stderr.take());
    thread::scope(|scope| {
        scope.spawn(|| stdin.map(feed));
        let output = scope.spawn(|| read(stdout));
        let errors = scope.spawn(|| read(stderr));
        let status = wait(&mut child);
        Ended {
            status: status.unwrap_or_else(|| panic!("the program did not end in {LIMIT:?}")),
            output: output.join().expect("the output is read"),
            errors: errors.join().expect("the messages are read"),
        }
    })
}

/// The program with its output and its messages read.
fn command(input: Stdio) -> Command {
    let mut command = Command::new(path());
    command.stdin(input);
    command.stdout(Stdio::piped()).stderr(Stdio::piped());
    command
}

/// The input comes through a pipe in these pieces. A program that ends early stops it; its output
/// shows that.
pub fn fed<'a>(mut pieces: impl Iterator<Item = &'a [u8]> + Send) -> Ended {
    run(&mut command(Stdio::piped()), |mut stdin| {
        let _ = pieces.try_for_each(|piece| stdin.write_all(piece));
    })
}

/// The input comes through a pipe, and is written at once.
pub fn piped(input: &[u8]) -> Ended {
    fed(iter::once(input))
}

/// The input is this file.
pub fn reading(file: File) -> Ended {
    run(&mut command(file.into()), |_| {})
}

/// The input is a file with these bytes.
pub fn from_file(input: &[u8]) -> Ended {
    reading(Scratch::holding(input).open())
}
