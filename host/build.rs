//! Links libttcrx.a from the folder in TTCRX_LIB, or from ../target/staticlib. If TTCRX_LIB has no
//! libttcrx.a but a shared library libttcrx.so, that one is linked, and found there at run time.

use std::path::{Path, PathBuf};
use std::{env, process};

fn main() {
    println!("cargo:rerun-if-changed=build.rs");
    println!("cargo:rerun-if-env-changed=TTCRX_LIB");
    let folder = library_folder();
    println!("cargo:rustc-link-search=native={}", folder.display());
    if found(&folder.join("libttcrx.a")) {
        println!("cargo:rustc-link-lib=static=ttcrx");
    } else if env::var_os("TTCRX_LIB").is_some() && found(&folder.join("libttcrx.so")) {
        println!("cargo:rustc-link-lib=dylib=ttcrx");
        println!("cargo:rustc-link-arg=-Wl,-rpath,{}", folder.display());
    } else {
        let archive = folder.join("libttcrx.a");
        eprintln!("{} is missing: build it with make", archive.display());
        process::exit(1);
    }
}

/// Whether the library is there. If so, it is linked again when it changes.
fn found(library: &Path) -> bool {
    let found = library.is_file();
    if found {
        println!("cargo:rerun-if-changed={}", library.display());
    }
    found
}

/// A relative TTCRX_LIB counts from the package's own folder.
fn library_folder() -> PathBuf {
    let package = PathBuf::from(env::var_os("CARGO_MANIFEST_DIR").expect("cargo sets it"));
    match env::var_os("TTCRX_LIB") {
        Some(folder) => package.join(folder),
        None => package.join("../target/staticlib"),
    }
}
