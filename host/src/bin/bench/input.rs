//! The generated inputs of the programs.

use std::fs::File;
use std::io::{self, BufWriter, Read, Write};
use std::path::{Path, PathBuf};
use ttcrx_host::testing::lines::{push_line, MOSTLY_CLEAN};
use ttcrx_host::testing::random::Random;

/// The same lines on every run.
const SEED: u64 = 100;

/// A file of random lines.
pub struct Input {
    pub path: PathBuf,
    pub bytes: u64,
    pub lines: u64,
}

impl Input {
    /// Writes whole lines until there are that many bytes.
    pub fn generate(path: PathBuf, bytes: u64) -> io::Result<Input> {
        let mut file = BufWriter::new(File::create(&path)?);
        let mut random = Random::new(SEED);
        let mut line = Vec::new();
        let mut input = Input { path, bytes: 0, lines: 0 };
        while input.bytes < bytes {
            line.clear();
            push_line(&mut random, &MOSTLY_CLEAN, &mut line);
            line.push(b'\n');
            file.write_all(&line)?;
            input.bytes += line.len() as u64;
            input.lines += 1;
        }
        file.flush()?;
        Ok(input)
    }

    /// Brings the file into the page cache.
    pub fn read_once(&self) -> io::Result<()> {
        let mut file = File::open(&self.path)?;
        let mut buffer = [0; 1 << 16];
        while file.read(&mut buffer)? != 0 {}
        Ok(())
    }
}

/// Whether two files have the same bytes. Neither is held in memory whole.
pub fn same_bytes(first: &Path, second: &Path) -> io::Result<bool> {
    let (mut first, mut second) = (File::open(first)?, File::open(second)?);
    if first.metadata()?.len() != second.metadata()?.len() {
        return Ok(false);
    }
    let (mut one, mut other) = ([0; 1 << 16], [0; 1 << 16]);
    loop {
        let count = first.read(&mut one)?;
        if count == 0 {
            return Ok(true);
        }
        second.read_exact(&mut other[..count])?;
        if one[..count] != other[..count] {
            return Ok(false);
        }
    }
}
