//! Lists that start from a waiting state, carry on their clocks exactly the bits of a properly
//! encoded frame and end on the last of them.

use crate::runner::{Run, Runner};
use crate::sent::Sent;
use crate::tallies::Tallies;
use std::iter;
use ttcrx_host::model::{Columns, Fields};
use ttcrx_host::sys::{Held, Outputs, Receiver};
use ttcrx_host::sys::{VERDICT_EVEN_SYNDROME, VERDICT_NO_SETTING, VERDICT_RESET};
use ttcrx_host::testing::calls::{carrying, Call, Mix};
use ttcrx_host::testing::columns::{Table, Tables, OWN};
use ttcrx_host::testing::convert::columns;
use ttcrx_host::testing::coverage::Accesses;
use ttcrx_host::testing::frame::Frame;
use ttcrx_host::testing::library::Library;
use ttcrx_host::testing::random::Random;
use ttcrx_host::testing::states;
use ttcrx_host::testing::traffic::protected;

/// A list, here with channel B at 1 on every clock, and the frame that it is to carry, encoded with
/// these columns.
#[derive(Debug)]
pub struct List {
    start: Receiver,
    idle: Vec<Call>,
    table: Table,
    sent: Sent,
    frame: Frame,
}

impl List {
    pub fn any(random: &mut Random, table: Table) -> List {
        let start = waiting(random);
        List::from(random, table, start)
    }

    /// A list from this state, which waits.
    pub fn from(random: &mut Random, table: Table, start: Receiver) -> List {
        let sent = Sent::any(random, start.core.ids.id);
        List::of(random, table, start, sent)
    }

    /// A list from this state, which waits, with this frame.
    fn of(random: &mut Random, table: Table, start: Receiver, sent: Sent) -> List {
        let frame = sent.frame(&columns(&table));
        let mix = Mix::any(random);
        let mut idle = Vec::new();
        for _ in 0..frame.length {
            mix.clock(random, 1, &mut idle);
        }
        List { start, idle, table, sent, frame }
    }

    /// The frame that it is to carry.
    pub fn frame(&self) -> Frame {
        self.frame
    }

    /// The columns of the frame.
    pub fn columns(&self) -> Columns {
        columns(&self.table)
    }
}

/// A state that waits.
fn waiting(random: &mut Random) -> Receiver {
    let held = Held::default();
    Receiver { held, ..states::well_formed(random) }
}

pub struct Frames<'a> {
    runner: Runner<'a>,
    tallies: Tallies,
}

/// What the last clock shows, and the state after it.
pub type End = (Outputs, Receiver);

/// Verdict and effect of the table's row for this frame, the word, flag and place 0; the rest is the
/// idle list's.
pub fn clean(sent: Sent, (outputs, state): End) -> End {
    let verdict = sent.row(state.core.ids.id);
    let outputs = Outputs { verdict, corrected: 0, place: 0, word: sent.word(), ..outputs };
    (outputs, sent.effect(state))
}

/// As clean, "apart from the corrected flag and the single error counter (one higher unless full,
/// or cleared by RESET)". "The place is excepted like the corrected flag": it is that of the flip.
pub fn one_flip((mut outputs, mut state): End, place: u8) -> End {
    outputs.corrected = 1;
    outputs.place = place;
    let single = &mut state.core.errors.single_errors;
    *single = match outputs.verdict {
        VERDICT_RESET => 0,
        _ => single.saturating_add(1),
    };
    (outputs, state)
}

/// This verdict and else the outputs of the idle list; its state, "but with the double error counter
/// one higher unless full and status bit 5 at 1".
pub fn dropped((mut outputs, mut state): End, verdict: u8) -> End {
    outputs.verdict = verdict;
    let errors = &mut state.core.errors;
    errors.double_errors = errors.double_errors.saturating_add(1);
    errors.status5 = 1;
    (outputs, state)
}

impl<'a> Frames<'a> {
    pub fn new(library: &'a dyn Library, name: &'static str) -> Frames<'a> {
        Frames { runner: Runner::new(library, name), tallies: Tallies::default() }
    }

    #[track_caller]
    pub fn at_least(&self, count: u64) {
        self.runner.cases.at_least(count);
    }

    /// The list with channel B idle.
    pub fn idle(&mut self, list: &List) -> Run {
        let idle = self.runner.run(list.start, &list.idle);
        let waits = (idle.last().verdict, idle.end.held);
        self.runner.cases.same(list, waits, (0, Held::default()));
        idle
    }

    /// The list idle, clean, and with each of these flips, one or two: "two flips always give 8".
    /// Gives the verdict of the clean one.
    pub fn list(&mut self, list: &List, flips: &[u64]) -> u8 {
        let idle = self.idle(list);
        let idle_end = (idle.last(), idle.end);
        let clean = clean(list.sent, idle_end);
        for flipped in iter::once(0).chain(flips.iter().copied()) {
            let expected = match flipped.count_ones() {
                0 => clean,
                1 => one_flip(clean, list.frame().place_of(flipped)),
                _ => dropped(idle_end, VERDICT_EVEN_SYNDROME),
            };
            self.carries(list, flipped, &idle, expected);
            self.tallies.frame((list.sent, list.frame), flipped, &idle);
        }
        clean.0.verdict
    }

    /// The list with the bits of the frame, these flipped: "each clock before the last has verdict
    /// 0, and all outputs, bytes read and refusals before the last clock equal the idle list's".
    pub fn carries(&mut self, list: &List, flipped: u64, idle: &Run, expected: End) {
        let calls = carrying(&list.idle, list.frame.flipped(flipped));
        let run = self.runner.run(list.start, &calls);
        let cases = &self.runner.cases;
        let input = (list, flipped);
        let finished = run.before().iter().find(|shown| shown.outputs.verdict != 0);
        cases.same(input, finished, None);
        cases.same(input, run.before(), idle.before());
        cases.same(input, (run.last(), run.end), expected);
    }
}

/// Each list with two single and two double flips, and with the next of these columns. Gives what was
/// seen of all calls.
pub fn check(library: &dyn Library, tables: Tables, seed: u64, lists: u64) -> Accesses {
    let mut frames = Frames::new(library, "lists that carry a frame");
    let mut random = Random::new(seed);
    for _ in 0..lists {
        let table = tables(&mut random);
        let list = List::any(&mut random, table);
        let frame = list.frame();
        let flips = [1, 1, 2, 2].map(|count| protected(&mut random, frame, count));
        frames.list(&list, &flips);
    }
    frames.tallies.assert_complete();
    frames.at_least(lists * 6 * 30);
    frames.runner.accesses
}

/// Every flip of one and of two protected bits.
fn all_flips(frame: Frame) -> Vec<u64> {
    let places = 1..=frame.kind().protected_bits();
    let mut flips = Vec::new();
    for first in places {
        flips.push(1 << first);
        flips.extend((1..first).map(|second| 1 << first | 1 << second));
    }
    flips
}

/// Every frame of Q-4 that has no setting, with every flip of one and of two protected bits.
pub fn check_no_setting(library: &dyn Library, seed: u64) {
    let mut frames = Frames::new(library, "lists that carry a frame without a setting");
    let mut random = Random::new(seed);
    for (sub_address, data) in (240..=255).flat_map(|data| [(0, data), (1, data)]) {
        let start = waiting(&mut random);
        let address = random.pick(&[0, start.core.ids.id]);
        let sent = Sent::Long(Fields { address, e: 0, sub_address, data });
        let list = List::of(&mut random, OWN, start, sent);
        let row = frames.list(&list, &all_flips(list.frame()));
        frames.runner.cases.same(&list, row, VERDICT_NO_SETTING);
    }
    frames.at_least(32 * (1 + 39 + 741) * 45);
}

/// Some lists with every flip of one and of two protected bits.
pub fn check_all_flips(library: &dyn Library, seed: u64) {
    let mut frames = Frames::new(library, "lists that carry a frame, with all flips");
    let mut random = Random::new(seed);
    for _ in 0..100 {
        let list = List::any(&mut random, OWN);
        let flips = all_flips(list.frame());
        match list.sent {
            Sent::Short(_) => assert_eq!(flips.len(), 13 + 78),
            Sent::Long(_) => assert_eq!(flips.len(), 39 + 741),
        }
        frames.list(&list, &flips);
    }
    frames.at_least(3_000_000);
}
