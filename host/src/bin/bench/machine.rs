//! The head of the tables: machine, builds, and how the measurements are made.

use std::fs;
use std::path::Path;
use std::process::Command;
use std::thread;
use ttcrx_host::testing::lines::MOSTLY_CLEAN;

/// What stands after a name in a file of /proc.
fn proc_entry(file: &str, name: &str) -> String {
    let text = fs::read_to_string(file).unwrap_or_default();
    let entry = text.lines().find_map(|line| {
        let (first, after) = line.split_once(':')?;
        (first.trim() == name).then(|| after.trim().to_string())
    });
    entry.unwrap_or("unknown".to_string())
}

fn said_by(program: &str, argument: &str) -> String {
    match Command::new(program).arg(argument).output() {
        Ok(output) => String::from_utf8_lossy(&output.stdout).trim().to_string(),
        Err(_) => format!("{program} unknown"),
    }
}

fn print_machine() {
    let processor = proc_entry("/proc/cpuinfo", "model name");
    let cores = thread::available_parallelism().map_or(0, |cores| cores.get());
    let memory = proc_entry("/proc/meminfo", "MemTotal");
    let kernel = fs::read_to_string("/proc/sys/kernel/osrelease").unwrap_or_default();
    println!("Machine: {processor}, {cores} cores, {memory} of memory");
    println!("System: Linux {}, {}", kernel.trim(), said_by("rustc", "--version"));
}

fn print_builds(proved: &Path, plain: &Path) {
    let build = match cfg!(debug_assertions) {
        true => "a debug build, so that no time means anything",
        false => "the release profile of host/Cargo.toml, opt-level 3, overflow checks on",
    };
    let size = fs::metadata(proved).map_or(0, |data| data.len());
    println!("ttclines, the proved program: {}, {size} bytes", proved.display());
    println!("ttclines_model, plain Rust over the model: {}", plain.display());
    println!("Its build and that of this program, with libttcrx.a: {build}");
}

/// Machine and builds, then how the programs are measured.
pub fn print_head(proved: &Path, plain: &Path, folder: &Path) {
    print_machine();
    print_builds(proved, plain);
    println!(
        "
Programs: input from a file, output to a file, both in
{}.
Best of three runs by wall time, start and end of the process included. The page cache is not
cleared: each input is read once before. MB: 1,000,000 bytes; kB: 1,024 bytes.
ttclines_model feeds each frame, and 41 ones after verdict 7, bit by bit to the model's clock.
Input: random lines of a fixed seed. {}
",
        folder.display(),
        MOSTLY_CLEAN.text()
    );
}
