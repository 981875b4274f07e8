//! Files of the project that the tests read.

use std::fs;
use std::path::{Path, PathBuf};

/// A path that counts from the package's own folder.
pub fn path(path: &str) -> PathBuf {
    Path::new(env!("CARGO_MANIFEST_DIR")).join(path)
}

/// The text of a file; its path counts from the package's own folder.
#[track_caller]
pub fn text(file: impl AsRef<str>) -> String {
    let path = path(file.as_ref());
    fs::read_to_string(&path).unwrap_or_else(|error| panic!("{}: {error}", path.display()))
}
