//! "Demand 3, over lists of calls" of document 01, and of document 02 over
//! such lists, as properties of any library: of the model, of the proved library, and of the latter
//! with every answer compared with the model's. What is expected comes from the papers' words; the
//! model's clock is not asked.

mod frames;
mod quiet;
mod runner;
mod sent;
mod settings;
mod storms;
mod tallies;
mod waits;

use ttcrx_host::testing::columns::{own, Tables};
use ttcrx_host::testing::compare::Both;
use ttcrx_host::testing::lending::Lending;
use ttcrx_host::testing::library::{Library, Model, Proved};

/// 20,000 lists that end on 41 ones, in which every sort of call is seen everywhere.
fn waits_after_41_ones(library: &dyn Library, seed: u64) {
    let (accesses, quiet) = waits::check(library, &own, seed, 20_000);
    accesses.assert_complete();
    quiet.assert_complete();
}

#[test]
fn the_model_waits_after_41_ones() {
    waits_after_41_ones(&Model, 80);
}

#[test]
fn the_library_waits_after_41_ones() {
    waits_after_41_ones(&Proved, 80);
}

#[test]
fn the_library_answers_like_the_model_and_waits() {
    let both = Both::of("calls of lists that end on 41 ones");
    waits_after_41_ones(&both, 81);
    both.at_least(2_000_000);
}

#[test]
fn the_model_receives_frames() {
    frames::check(&Model, &own, 82, 20_000).assert_complete();
    frames::check_all_flips(&Model, 83);
    frames::check_no_setting(&Model, 89);
}

#[test]
fn the_library_receives_frames() {
    frames::check(&Proved, &own, 82, 20_000).assert_complete();
    frames::check_all_flips(&Proved, 83);
    frames::check_no_setting(&Proved, 89);
}

#[test]
fn the_library_answers_like_the_model_and_receives_frames() {
    let both = Both::of("calls of lists that carry a frame");
    frames::check(&both, &own, 84, 20_000).assert_complete();
    both.at_least(5_000_000);
}

#[test]
fn the_model_is_quiet_after_a_bad_stop() {
    quiet::check(&Model, 85, 10_000);
    quiet::check_40_ones(&Model, 86, 10_000);
}

#[test]
fn the_library_is_quiet_after_a_bad_stop() {
    quiet::check(&Proved, 85, 10_000);
    quiet::check_40_ones(&Proved, 86, 10_000);
}

#[test]
fn the_library_answers_like_the_model_and_is_quiet() {
    let both = Both::of("calls of lists after a bad stop bit");
    quiet::check(&both, 87, 10_000);
    quiet::check_40_ones(&both, 88, 10_000);
    both.at_least(5_000_000);
}

#[test]
fn the_model_keeps_settings() {
    settings::check(&Model, 90, 3_000);
}

#[test]
fn the_library_keeps_settings() {
    settings::check(&Proved, 90, 3_000);
}

#[test]
fn the_library_answers_like_the_model_and_keeps_settings() {
    let both = Both::of("calls of lists from fresh");
    settings::check(&both, 91, 3_000);
    both.at_least(2_000_000);
}

#[test]
fn the_model_tells_storms() {
    storms::check(&Model, &own, 92, 10_000);
}

#[test]
fn the_library_tells_storms() {
    storms::check(&Proved, &own, 92, 10_000);
}

#[test]
fn the_library_answers_like_the_model_and_tells_storms() {
    let both = Both::of("calls of lists that carry a frame with any number of flips");
    storms::check(&both, &own, 93, 10_000);
    both.at_least(1_500_000);
}

/// "Demands 2 and 3 read the lent table, passed unchanged at every clock": other columns for
/// each list, with which its frame is encoded.
fn lists_with_columns(library: &dyn Library, seed: u64) {
    let lending = Lending::of(library);
    let tables: Tables = &|random| lending.any(random);
    waits::check(&lending, tables, seed, 6_000);
    frames::check(&lending, tables, seed + 1, 5_000);
    storms::check(&lending, tables, seed + 2, 2_500);
}

#[test]
fn the_library_receives_with_columns() {
    lists_with_columns(&Proved, 100);
}

#[test]
fn the_library_answers_like_the_model_with_columns() {
    let both = Both::of("calls of lists with columns");
    lists_with_columns(&both, 103);
    both.at_least(2_000_000);
}
