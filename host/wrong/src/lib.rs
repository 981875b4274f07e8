//! Wrong libraries, to see that the tests of ../tests find each: a stand-in for libttcrx.a that
//! answers as the independent model does, with one mistake put in. The environment variable
//! TTCRX_WRONG has the name of the mistake; if it is not set, there is none. `run` tries them all.

mod exports;
mod mistakes;
mod table;

pub use table::{Mistake, MISTAKES};

// The files of the package that this one tests: the structs, the model, and the trait `Library`,
// whose functions answer as the model does.

#[path = "../../src/model/mod.rs"]
#[allow(dead_code, unused_imports)]
mod model;
#[path = "../../src/sys.rs"]
#[allow(dead_code)]
mod sys;
#[path = "../../src/testing"]
#[allow(dead_code, unused_imports)]
mod testing {
    pub mod convert;
    pub mod frame;
    pub mod library;
}
#[path = "../../src/ttcrx.rs"]
#[allow(dead_code, unused_imports)]
mod ttcrx;

use std::sync::OnceLock;
use std::{env, process};
use testing::library::{Library, Model};

/// A library that any thread may call.
pub type Shared = &'static (dyn Library + Sync);

static CHOSEN: OnceLock<Shared> = OnceLock::new();

/// The library with the mistake of TTCRX_WRONG, which is read once.
fn chosen() -> Shared {
    *CHOSEN.get_or_init(choose)
}

fn choose() -> Shared {
    let Some(name) = env::var_os("TTCRX_WRONG") else {
        return &Model;
    };
    match MISTAKES.iter().find(|mistake| name == mistake.name) {
        Some(mistake) => mistake.library,
        None => {
            eprintln!("TTCRX_WRONG: there is no mistake {name:?}");
            process::abort();
        }
    }
}
