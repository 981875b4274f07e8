//! The proved program beside the plain Rust one and `wc -l`, on the same files.

use crate::child::{self, Usage};
use crate::input::{same_bytes, Input};
use crate::table::{millions, ratio, Table};
use std::fs::{self, File};
use std::io;
use std::path::{Path, PathBuf};
use std::process::Command;

const ROUNDS: usize = 3;

/// The sizes of the inputs in MB, of 1,000,000 bytes. Twice the size is to take twice the time.
const SIZES: [u64; 2] = [64, 128];

/// A program that is measured.
struct Program {
    name: &'static str,
    path: PathBuf,
    arguments: &'static [&'static str],
}

impl Program {
    /// One run: the input from its file, the output to a file of the program's own.
    fn run(&self, input: &Input, output: &Path) -> io::Result<Usage> {
        child::run(
            Command::new(&self.path)
                .args(self.arguments)
                .stdin(File::open(&input.path)?)
                .stdout(File::create(output)?),
        )
        .map_err(|error| io::Error::other(format!("{}: {error}", self.path.display())))
    }
}

/// The programs, with the plain Rust one second: it is what the others are compared with.
fn programs(proved: &Path, plain: &Path) -> [Program; 3] {
    let program =
        |name, path: &Path, arguments| Program { name, path: path.to_path_buf(), arguments };
    [
        program("ttclines", proved, &[]),
        program("ttclines_model", plain, &[]),
        program("wc -l", Path::new("wc"), &["-l"]),
    ]
}

/// The best run of each program by wall time. The programs take turns.
fn measure(programs: &[Program; 3], input: &Input, folder: &Path) -> io::Result<[Usage; 3]> {
    let outputs = programs.each_ref().map(|program| {
        let name = program.name.replace(' ', "");
        folder.join(format!("{name}.out"))
    });
    let mut best: [Option<Usage>; 3] = [None; 3];
    for _ in 0..ROUNDS {
        for (place, program) in programs.iter().enumerate() {
            let usage = program.run(input, &outputs[place])?;
            if best[place].is_none_or(|best| usage.wall < best.wall) {
                best[place] = Some(usage);
            }
        }
        check(input, &outputs)?;
    }
    for output in outputs {
        fs::remove_file(output)?;
    }
    Ok(best.map(|usage| usage.expect("a round")))
}

/// Both reports are equal, and `wc -l` has counted the lines.
fn check(input: &Input, [proved, plain, counted]: &[PathBuf; 3]) -> io::Result<()> {
    if !same_bytes(proved, plain)? {
        let (proved, plain) = (proved.display(), plain.display());
        return Err(io::Error::other(format!("{proved} and {plain} differ")));
    }
    match fs::read_to_string(counted)?.trim().parse() {
        Ok(lines) if input.lines == lines => Ok(()),
        _ => Err(io::Error::other("wc -l has counted other lines")),
    }
}

fn rows(table: &mut Table, programs: &[Program; 3], input: &Input, best: &[Usage; 3]) {
    let plain = best[1];
    for (program, usage) in programs.iter().zip(best) {
        table.row(vec![
            program.name.to_string(),
            format!("{:.1}", input.bytes as f64 / 1e6),
            format!("{:.2}", input.lines as f64 / 1e6),
            format!("{:.3}", usage.wall),
            format!("{:.3}", usage.user),
            millions(input.bytes, usage.wall),
            millions(input.lines, usage.wall),
            usage.peak_kilobytes.to_string(),
            ratio(usage.wall, plain.wall),
            ratio(usage.user, plain.user),
        ]);
    }
}

/// Measures, and prints the table.
pub fn run(proved: &Path, plain: &Path, folder: &Path) -> io::Result<()> {
    let programs = programs(proved, plain);
    let mut table = Table::of(&[
        "program",
        "MB",
        "M lines",
        "wall s",
        "user s",
        "MB/s",
        "M lines/s",
        "peak kB",
        "wall / model's",
        "user / model's",
    ]);
    let mut walls = Vec::new();
    for size in SIZES {
        let path = folder.join(format!("{size}MB.in"));
        let input = Input::generate(path, size * 1_000_000)?;
        input.read_once()?;
        let best = measure(&programs, &input, folder)?;
        rows(&mut table, &programs, &input, &best);
        walls.push(best.map(|usage| usage.wall));
        fs::remove_file(&input.path)?;
    }
    table.print();
    print_growth(&programs, &walls);
    Ok(())
}

fn print_growth(programs: &[Program; 3], walls: &[[f64; 3]]) {
    let [small, large] = SIZES;
    println!("  Wall time on {large} MB over wall time on {small} MB (2.00: linear):");
    for (place, program) in programs.iter().enumerate() {
        let grown = ratio(walls[1][place], walls[0][place]);
        println!("    {:<16}{grown}", program.name);
    }
    println!();
}
