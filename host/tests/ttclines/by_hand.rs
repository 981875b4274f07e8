//! Outputs by hand: the example of document 01, lines with verdicts 7, 10 and 11 and with places, and
//! the smallest inputs.

use crate::compare::{same, same_text};
use crate::program;
use ttcrx_host::model::report::whole_output;
use ttcrx_host::testing::compare::Cases;
use ttcrx_host::testing::example;

/// Input and whole output. The program and the model must both say it.
#[track_caller]
fn says(cases: &Cases, input: &str, expected: &str) {
    let bytes = input.as_bytes();
    same_text(cases, input, &whole_output(bytes), expected.as_bytes());
    let program = program::piped(bytes).output;
    same_text(cases, input, &program, expected.as_bytes());
    same(cases, input, bytes);
}

#[test]
fn the_example_of_document_01() {
    let cases = Cases::of("the example of document 01");
    let (input, output) = (example::input(), example::output());
    says(&cases, &input, &output);
    says(&cases, input.trim_end(), &output);
    cases.at_least(2 * 4);
}

/// Inputs, and what is printed of them.
const BY_HAND: [(&str, &str); 38] = [
    // Other examples of document 01: RESET, E = 1, 0095 and 0039, the stray 0 in idle.
    (
        "0095\n0039\n1FFFFFFFFFF\n1001710AAB7\n10001023543\n100150600F3\n3FCD\n00D9\n0001",
        "1 1 1 02 13\n2 11 0 -\n3 11 0 -\n4 4 0 001710AA 0\n5 2 0 00010235 0\n\
         6 3 0 00150600 0\n7 1 0 FF 0\n8 1 0 03 0\n9 1 0 00 0\nend 0 0 0 16\n",
    ),
    // A long frame with fixed bit 0 has its word shown. Clean, all of it is 0 but the bits of
    // format and stop.
    ("10000000001\n", "1 9 0 00000000 0\nend 0 1 0 42\n"),
    ("10000000003\n", "1 9 0 00000000 0\nend 0 1 0 42\n"),
    // Fine delays of no setting, clean and with a wrong bit: of check, of data (F3 as E3, EF as FF).
    (
        "1001500F387\n1001501F3B3\n1000100F071\n1000101FF5B\n",
        "1 10 0 001500F3 0\n2 10 0 001501F3 0\n3 10 0 000100F0 0\n4 10 0 000101FF 0\n\
         end 0 0 0 168\n",
    ),
    (
        "1001500F385\n1001500E387\n1001500FFA7\n",
        "1 10 1 001500F3 39\n2 10 1 001500F3 28\n3 2 1 001500EF 28\nend 3 0 0 126\n",
    ),
    // The same data for other registers, for another address, with E = 1; with stop bit 0.
    (
        "1001502F3BF\n1001503F38B\n1001900F39F\n1001700F3E3\n1001500F386\n",
        "1 2 0 001502F3 0\n2 2 0 001503F3 0\n3 5 0 001900F3 0\n4 4 0 001700F3 0\n5 7 0 -\n\
         end 0 1 0 251\n",
    ),
    // No ones are sent after verdict 10; two wrong bits; fixed bit 0.
    (
        "1001500F387\n0001\n1001500F381\n1001400F3E5",
        "1 10 0 001500F3 0\n2 1 0 00 0\n3 8 0 -\n4 9 0 001400F3 0\nend 0 2 0 142\n",
    ),
    // 41 ones after each line with verdict 7, wherever it stands; none after 8, 9 and 11.
    ("004E\n", "1 7 0 -\nend 0 1 0 57\n"),
    ("004E", "1 7 0 -\nend 0 1 0 57\n"),
    ("100150235AC\n0001\n", "1 7 0 -\n2 1 0 00 0\nend 0 1 0 99\n"),
    ("0001\n004E\n0001", "1 1 0 00 0\n2 7 0 -\n3 1 0 00 0\nend 0 1 0 89\n"),
    ("004E\n100150235AC\n004E", "1 7 0 -\n2 7 0 -\n3 7 0 -\nend 0 3 0 197\n"),
    ("004E\n4001\n\n2097\n", "1 7 0 -\n2 ! 12\n3 ! 10\n4 1 1 02 1\nend 1 1 0 73\n"),
    ("304F\n10000000001\n0001", "1 8 0 -\n2 9 0 00000000 0\n3 1 0 00 0\nend 0 2 0 74\n"),
    ("0039\n1FFFFFFFFFF\n0001", "1 11 0 -\n2 11 0 -\n3 1 0 00 0\nend 0 2 0 74\n"),
    // Places: first and last of the word and of the check bits, of a broadcast and of a long frame.
    ("2097\n00D7\n00B7\n0095\n", "1 1 1 02 1\n2 1 1 02 8\n3 1 1 02 9\n4 1 1 02 13\nend 4 0 0 64\n"),
    (
        "180150235AD\n100150234AD\n1001502352D\n100150235AF\n",
        "1 2 1 00150235 1\n2 2 1 00150235 32\n3 2 1 00150235 33\n4 2 1 00150235 39\n\
         end 4 0 0 168\n",
    ),
    // The fixed bit is wrong: RESET, to the outside, another address, another sub-address.
    (
        "1001610AAB7\n100180235B5\n100140735DF\n100140600F3\n",
        "1 4 1 001710AA 16\n2 5 1 00190235 16\n3 6 1 00150735 16\n4 3 1 00150600 16\n\
         end 0 0 0 0\n",
    ),
    // No line, and empty ones.
    ("", "end 0 0 0 0\n"),
    ("\n", "1 ! 10\nend 0 0 0 0\n"),
    ("\n\n", "1 ! 10\n2 ! 10\nend 0 0 0 0\n"),
    ("\n0001", "1 ! 10\n2 1 0 00 0\nend 0 0 0 16\n"),
    ("0001\n\n", "1 1 0 00 0\n2 ! 10\nend 0 0 0 16\n"),
    // No last line feed.
    ("0001", "1 1 0 00 0\nend 0 0 0 16\n"),
    ("0001\n0001", "1 1 0 00 0\n2 1 0 00 0\nend 0 0 0 32\n"),
    ("10001023543", "1 2 0 00010235 0\nend 0 0 0 42\n"),
    ("000", "1 ! 10\nend 0 0 0 0\n"),
    ("000G", "1 ! 11\nend 0 0 0 0\n"),
    ("4000", "1 ! 12\nend 0 0 0 0\n"),
    // 10 comes before 11, and 11 before 12.
    ("GGG\nGGGGG\n", "1 ! 10\n2 ! 10\nend 0 0 0 0\n"),
    ("F00G\nF000000000G\n", "1 ! 11\n2 ! 11\nend 0 0 0 0\n"),
    ("F000\nF0000000000\n", "1 ! 12\n2 ! 12\nend 0 0 0 0\n"),
    ("00000000000\n20000000000\n", "1 ! 12\n2 ! 12\nend 0 0 0 0\n"),
    // Small letters are digits too; the words are shown in capitals.
    ("004f\n3fcd\n", "1 1 0 01 0\n2 1 0 FF 0\nend 0 0 0 0\n"),
    ("1001710aaB7\n", "1 4 0 001710AA 0\nend 0 0 0 42\n"),
    // A carriage return is a character: the line has 5, or a wrong one among 4.
    ("004F\r\n", "1 ! 10\nend 0 0 0 0\n"),
    ("004\r\n", "1 ! 11\nend 0 0 0 0\n"),
    ("\r0001\n\r\n", "1 ! 10\n2 ! 10\nend 0 0 0 0\n"),
];

#[test]
fn small_inputs() {
    let cases = Cases::of("outputs written out by hand");
    for (input, output) in BY_HAND {
        says(&cases, input, output);
    }
    cases.at_least(38 * 4);
}
