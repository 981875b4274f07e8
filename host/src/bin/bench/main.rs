//! The benchmark of `make bench`: the proved program and library beside the independent model, both
//! sides in one run on the same input, and their results compared.

mod blocks;
mod child;
mod clocks;
mod delays;
mod frames;
mod idle;
mod input;
mod machine;
mod patterns;
mod programs;
mod table;

use std::path::{Path, PathBuf};
use std::process::ExitCode;
use std::{env, fs, io};

/// A path of the environment or this one; a relative one counts from the package's folder.
fn path_from(variable: &str, otherwise: impl AsRef<Path>) -> PathBuf {
    let package = Path::new(env!("CARGO_MANIFEST_DIR"));
    match env::var_os(variable) {
        Some(named) => package.join(named),
        None => package.join(otherwise),
    }
}

/// A program must be there before anything is measured.
fn existing(path: PathBuf, built_by: &str) -> io::Result<PathBuf> {
    let missing = || format!("{} is missing: build it with {built_by}", path.display());
    match path.is_file() {
        true => Ok(path),
        false => Err(io::Error::other(missing())),
    }
}

fn bench() -> io::Result<()> {
    let proved = existing(path_from("TTCLINES", "../target/bin/ttclines"), "make library")?;
    let beside_this_one = env::current_exe()?.with_file_name("ttclines_model");
    let plain = path_from("TTCLINES_MODEL", beside_this_one);
    let plain = existing(plain, "cargo build --release")?;
    let folder = path_from("TTCRX_BENCH", "../target/bench");
    fs::create_dir_all(&folder)?;
    let folder = folder.canonicalize()?;
    machine::print_head(&proved, &plain, &folder);
    programs::run(&proved, &plain, &folder)?;
    clocks::run();
    frames::run();
    delays::run();
    blocks::run();
    idle::run();
    println!("Everywhere the results of both sides were equal.");
    Ok(())
}

fn main() -> ExitCode {
    match bench() {
        Ok(()) => ExitCode::SUCCESS,
        Err(error) => {
            eprintln!("bench: {error}");
            ExitCode::FAILURE
        }
    }
}
