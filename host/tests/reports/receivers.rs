//! "A report may start with any receiver, and go on with any": receivers of other IDs than the
//! program's, and ill-formed ones.

use crate::driver::Driver;
use crate::inputs::any_report;
use ttcrx_host::model::Fields;
use ttcrx_host::sys::{Receiver, Report, LONGEST_END, LONGEST_LINE};
use ttcrx_host::sys::{VERDICT_NO_SETTING, VERDICT_OTHER_ADDRESS, VERDICT_OTHER_SUB_ADDRESS};
use ttcrx_host::sys::{VERDICT_OUTSIDE, VERDICT_RESET, VERDICT_STORED};
use ttcrx_host::testing::compare::Both;
use ttcrx_host::testing::frame::Frame;
use ttcrx_host::testing::lines::{lines, EVERY_KIND};
use ttcrx_host::testing::random::Random;
use ttcrx_host::testing::states::{self, edges};
use ttcrx_host::ttcrx;

/// The start of a report with this receiver.
fn start(receiver: Receiver) -> Report {
    Report { receiver, ..ttcrx::report_start() }
}

/// The whole report of an input with this receiver.
#[track_caller]
fn said(both: &Both<'static>, receiver: Receiver, input: &[u8]) -> String {
    let mut driver = Driver::of(both, 0, start(receiver));
    driver.piece(input, 400);
    driver.end(LONGEST_END);
    driver.text()
}

/// Long frames as the receiver of this ID sees them: address, E, sub-address, verdict. Their data are
/// the low byte of the ID.
fn frames(id: u16) -> [(u16, u8, u8, u8); 11] {
    let other = id % 16383 + 1;
    let fine_delay = match id as u8 {
        0..=239 => VERDICT_STORED,
        240.. => VERDICT_NO_SETTING,
    };
    [
        (id, 0, 0, fine_delay),
        (0, 0, 1, fine_delay),
        (other, 0, 1, VERDICT_OTHER_ADDRESS),
        (id, 1, 0, VERDICT_OUTSIDE),
        (id, 0, 2, VERDICT_STORED),
        (0, 0, 3, VERDICT_STORED),
        (other, 0, 2, VERDICT_OTHER_ADDRESS),
        (id, 1, 2, VERDICT_OUTSIDE),
        (id, 0, 9, VERDICT_OTHER_SUB_ADDRESS),
        (other, 0, 6, VERDICT_OTHER_ADDRESS),
        (id, 0, 6, VERDICT_RESET),
    ]
}

#[test]
fn every_id() {
    let both = Both::of("reports of receivers of every ID");
    for id in 1..=16383 {
        let (mut input, mut expected) = (String::new(), String::new());
        for (line, (address, e, sub_address, verdict)) in (1..).zip(frames(id)) {
            let frame = Frame::long(Fields { address, e, sub_address, data: id as u8 });
            input += &format!("{:011X}\n", frame.number);
            let word = (frame.number >> 8) as u32;
            expected += &format!("{line} {verdict} 0 {word:08X} 0\n");
        }
        let fresh = ttcrx::fresh(id, id as u8 % 64).receiver;
        let text = said(&both, fresh, input.as_bytes());
        both.same(id, text, expected + "end 0 0 0 0\n");
    }
    both.at_least(16383 * 10);
}

/// Lines with a frame, and lines that are refused; what is said of them by an ill-formed receiver.
const LINES: &str = "004F\n11111111111\n\n000G\nF0000000000\n4000\n00";
const REFUSED: &str = "8 ! 2\n9 ! 2\n10 ! 10\n11 ! 11\n12 ! 12\n13 ! 12\n";

/// A frame's line is reported as refusal 2, other lines by their refusals; the receiver stays.
#[track_caller]
fn refuses(both: &Both<'static>, call: u64, receiver: Receiver) {
    let report = Report { lines: 7, ..start(receiver) };
    let mut driver = Driver::of(both, call, report);
    let used = driver.input(LINES.as_bytes(), 300).used;
    let after = (used, driver.report.receiver, driver.report.lines);
    both.same(report, after, (LINES.len(), receiver, 13));
    both.same(report, driver.text().as_str(), REFUSED);
}

#[test]
fn ill_formed_receivers() {
    let both = Both::of("reports of ill-formed receivers");
    let mut random = Random::new(321);
    for call in 0..5_000 {
        let mut receiver = any_report(&mut random).receiver;
        receiver.core.ids.i2c |= 64;
        refuses(&both, call, receiver);
    }
    let fresh = ttcrx::fresh(5, 5).receiver;
    for id in (0..=65535).filter(|id| !(1..=16383).contains(id)) {
        let mut receiver = fresh;
        receiver.core.ids.id = id;
        refuses(&both, id.into(), receiver);
    }
    both.at_least((5_000 + 49_153) * 8);
}

/// At every edge of well formed. The end has the counters of any receiver.
#[test]
fn edges_of_well_formed() {
    let both = Both::of("reports at every edge of well formed");
    for edge in edges::all(&mut Random::new(343)) {
        let text = said(&both, edge.state, b"0001\n0001");
        let (errors, counters) = (edge.state.core.errors, edge.state.core.counters);
        let [single, double] = [errors.single_errors, errors.double_errors.into()];
        let [event, bunch] = [counters.event, counters.bunch.into()];
        let refused = format!("1 ! 2\n2 ! 2\nend {single} {double} {event} {bunch}\n");
        both.same(edge, text == refused, !edge.good);
    }
    both.at_least(edges::STATES * 11);
}

/// What a line of a report says after its number.
fn after_number(line: &str) -> &str {
    line.split_once(' ').expect("a number").1
}

/// Two receivers take turns in one report, line by line: each says what it says alone.
#[test]
fn receivers_in_turn() {
    let both = Both::of("two receivers in turn");
    let mut random = Random::new(344);
    for _ in 0..200 {
        let input = lines(&mut random, &EVERY_KIND, 60);
        let mut receivers = [(); 2].map(|_| states::well_formed(&mut random));
        let mut alone = receivers.map(|receiver| Driver::of(&both, 0, start(receiver)));
        let mut turns = Driver::of(&both, 1, start(Receiver::default()));
        for (count, line) in input.split_inclusive(|byte| *byte == b'\n').enumerate() {
            turns.report.receiver = receivers[count % 2];
            turns.piece(line, LONGEST_LINE);
            receivers[count % 2] = turns.report.receiver;
            alone[count % 2].piece(line, LONGEST_LINE);
        }
        let (turns, alone) = (turns.text(), alone.map(|driver| driver.text()));
        let mut alone = alone.each_ref().map(|text| text.lines());
        for (count, line) in turns.lines().enumerate() {
            let expected = alone[count % 2].next().expect("a line");
            both.same(&input, after_number(line), after_number(expected));
        }
    }
    both.at_least(200 * 60 * 13);
}

/// A receiver is exchanged within a line: its front stays.
#[test]
fn receivers_within_a_line() {
    let both = Both::of("receivers exchanged within a line");
    let line = b"100150235AD\n";
    for cut in 0..line.len() {
        let (front, back) = line.split_at(cut);
        for (id, expected) in [(5, "1 2 0 00150235 0\n"), (6, "1 5 0 00150235 0\n")] {
            let mut driver = Driver::of(&both, 0, ttcrx::report_start());
            driver.input(front, LONGEST_LINE);
            both.same(cut, driver.report.part.count, cut as u8);
            driver.report.receiver = ttcrx::fresh(id, 0).receiver;
            driver.input(back, LONGEST_LINE);
            both.same(cut, driver.text().as_str(), expected);
        }
    }
    both.at_least(12 * 2 * 14);
}
