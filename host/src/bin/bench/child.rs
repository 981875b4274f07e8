//! A program run to its end, with what it has used.

use std::io;
use std::mem::size_of;
use std::os::unix::process::CommandExt;
use std::process::Command;
use std::time::Instant;

/// `struct timeval` of Linux on x86-64.
#[repr(C)]
#[derive(Clone, Copy, Default)]
struct TimeValue {
    seconds: i64,
    microseconds: i64,
}

/// `struct rusage` of Linux on x86-64.
#[repr(C)]
#[derive(Default)]
struct ResourceUsage {
    user: TimeValue,
    system: TimeValue,
    peak_kilobytes: i64,
    others: [i64; 13],
}

const _: () = assert!(size_of::<ResourceUsage>() == 144);

extern "C" {
    fn wait4(process: i32, status: *mut i32, options: i32, usage: *mut ResourceUsage) -> i32;
}

/// What a program has used, in seconds and kilobytes (of 1,024 bytes).
#[derive(Clone, Copy)]
pub struct Usage {
    pub wall: f64,
    pub user: f64,
    pub peak_kilobytes: i64,
}

/// Runs a program. An error if it can't be started or doesn't end with status 0.
pub fn run(command: &mut Command) -> io::Result<Usage> {
    // SAFETY: the closure does nothing. With one the child is forked, so that its peak memory does
    // not begin at that of this program.
    unsafe { command.pre_exec(|| Ok(())) };
    let begin = Instant::now();
    let process = command.spawn()?.id() as i32;
    let usage = wait(process)?;
    Ok(Usage {
        wall: begin.elapsed().as_secs_f64(),
        user: usage.user.seconds as f64 + usage.user.microseconds as f64 / 1e6,
        peak_kilobytes: usage.peak_kilobytes,
    })
}

/// Waits for a child of this process, which nobody else waits for.
fn wait(process: i32) -> io::Result<ResourceUsage> {
    let mut status = 0;
    let mut usage = ResourceUsage::default();
    loop {
        // SAFETY: both pointers are to values of the layouts that Linux on x86-64 writes.
        let ended = unsafe { wait4(process, &mut status, 0, &mut usage) };
        if ended == process {
            break;
        }
        let error = io::Error::last_os_error();
        if error.kind() != io::ErrorKind::Interrupted {
            return Err(error);
        }
    }
    match status {
        0 => Ok(usage),
        _ => Err(io::Error::other(format!("it ended with status {status}"))),
    }
}
