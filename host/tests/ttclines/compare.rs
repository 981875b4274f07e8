//! The program's whole output beside that of the model.

use crate::program::{self, Ended};
use ttcrx_host::model::report::whole_output;
use ttcrx_host::testing::compare::Cases;

/// Two outputs must be equal. Of a difference the first line is shown, counted from 0.
#[track_caller]
pub fn same_text(cases: &Cases, name: &str, output: &[u8], expected: &[u8]) {
    let [output, expected] = [output, expected].map(String::from_utf8_lossy);
    let lines = |text| str::split_inclusive(text, '\n').collect::<Vec<&str>>();
    cases.same_buffers(name, &lines(&output), &lines(&expected));
}

/// The whole output is the model's, and the program has ended well and silently.
#[track_caller]
pub fn same_end(cases: &Cases, name: &str, input: &[u8], ended: &Ended) {
    same_text(cases, name, &ended.output, &whole_output(input));
    let errors = String::from_utf8_lossy(&ended.errors);
    cases.same(name, (ended.status.success(), &*errors), (true, ""));
}

/// Through a pipe.
#[track_caller]
pub fn same(cases: &Cases, name: &str, input: &[u8]) {
    same_end(cases, name, input, &program::piped(input));
}

/// From a file, of which a read brings as much as it asks for.
#[track_caller]
pub fn same_from_file(cases: &Cases, name: &str, input: &[u8]) {
    same_end(cases, name, input, &program::from_file(input));
}
