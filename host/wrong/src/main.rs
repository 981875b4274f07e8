//! Prints the table of wrong libraries: for each test that must find one, a line with the name of
//! the library, the test file and the filter of its tests. With an argument, a line for each wrong
//! library: its name and what is wrong.

use std::env;

fn main() {
    let in_words = env::args().len() > 1;
    for mistake in ttcrx::MISTAKES {
        if in_words {
            println!("{}: {}", mistake.name, mistake.what);
            continue;
        }
        for test in mistake.tests {
            println!("{} {test}", mistake.name);
        }
    }
}
