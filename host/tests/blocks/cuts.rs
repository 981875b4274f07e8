//! "It must equal the clocks done singly": blocks of the library beside its own single clocks, and
//! beside the same clocks cut into other blocks.

use ttcrx_host::sys::{Outputs, Receiver, Record, BLOCK_CLOCKS, RECORD_NUMBERS};
use ttcrx_host::testing::compare::Cases;
use ttcrx_host::testing::library::{Library, Proved};
use ttcrx_host::testing::random::Random;
use ttcrx_host::testing::states;
use ttcrx_host::testing::traffic::{Traffic, LIVELY};
use ttcrx_host::ttcrx;

/// What clocks leave and write: the state and the records.
pub type Done = (Receiver, Vec<Record>);

/// The pieces as blocks, one after the other; their places are counted through.
#[track_caller]
fn in_pieces(mut state: Receiver, pieces: &[&[u8]], buffer: &mut [u32]) -> Done {
    let mut all = Vec::new();
    let mut clocks = 0;
    for piece in pieces {
        let answer = ttcrx::run_block(&mut state, piece, buffer);
        assert_eq!(answer.refusal, 0);
        for mut record in ttcrx::records(buffer, answer.records) {
            record.place += clocks;
            all.push(record);
        }
        clocks += piece.len() as u32;
    }
    (state, all)
}

fn code(outputs: &Outputs) -> u32 {
    u32::from(outputs.verdict)
        + 16 * u32::from(outputs.corrected)
        + 32 * u32::from(outputs.trigger)
        + 64 * u32::from(outputs.missed)
}

/// The clocks done singly by the library itself.
pub fn singly(state: Receiver, block: &[u8]) -> Done {
    singly_by(&Proved, state, block)
}

/// The clocks done singly by this library.
pub fn singly_by(library: &dyn Library, mut state: Receiver, block: &[u8]) -> Done {
    let mut all = Vec::new();
    for (place, bits) in (0..).zip(block) {
        let before = state.core.counters;
        let answer = library.clock(state, bits & 1, bits >> 1);
        let shown = &answer.outputs;
        if shown.trigger == 1 || shown.verdict != 0 {
            all.push(Record {
                place,
                bunch: before.bunch.into(),
                event: before.event,
                code: code(shown),
                word: shown.word,
            });
        }
        state = answer.receiver;
    }
    (state, all)
}

/// A state, and a block of so many clocks for it.
struct Blocks {
    random: Random,
    traffic: Traffic,
    buffer: Vec<u32>,
}

impl Blocks {
    fn of(seed: u64) -> Blocks {
        Blocks {
            random: Random::new(seed),
            traffic: Traffic::new(seed),
            buffer: vec![0; RECORD_NUMBERS * BLOCK_CLOCKS],
        }
    }

    fn next(&mut self, length: usize) -> (Receiver, Vec<u8>) {
        let state = states::well_formed(&mut self.random);
        self.traffic.start(state.core.ids.id, LIVELY);
        (state, self.traffic.block(length))
    }
}

/// The block cut in two at every place, with the empty pieces at its ends.
fn every_cut_of(cases: &Cases, blocks: &mut Blocks, length: usize) {
    let (state, block) = blocks.next(length);
    let whole = in_pieces(state, &[&block], &mut blocks.buffer);
    cases.same(state, &whole, &singly(state, &block));
    for cut in 0..=length {
        let (front, back) = block.split_at(cut);
        let done = in_pieces(state, &[front, back], &mut blocks.buffer);
        cases.same((state, &block, cut), &done, &whole);
    }
}

#[test]
fn every_cut() {
    let cases = Cases::of("blocks cut in two everywhere");
    let mut blocks = Blocks::of(420);
    for _ in 0..100 {
        let length = blocks.random.below(400) as usize;
        every_cut_of(&cases, &mut blocks, length);
    }
    cases.at_least(10_000);
}

#[test]
fn every_cut_of_a_full_block() {
    let cases = Cases::of("a block of 4,096 clocks cut in two everywhere");
    every_cut_of(&cases, &mut Blocks::of(421), BLOCK_CLOCKS);
    cases.at_least(4_098);
}

/// Whole, in many pieces, in blocks of one clock and singly.
#[test]
fn many_pieces() {
    let cases = Cases::of("blocks of 4,096 clocks in many pieces");
    let mut blocks = Blocks::of(422);
    for _ in 0..500 {
        let (state, block) = blocks.next(BLOCK_CLOCKS);
        let whole = in_pieces(state, &[&block], &mut blocks.buffer);
        let most = blocks.random.pick(&[1, 2, 20, 300, 2_000]);
        let pieces = blocks.random.pieces(&block, most);
        let clocks: Vec<&[u8]> = block.chunks(1).collect();
        for cut in [pieces, clocks] {
            let done = in_pieces(state, &cut, &mut blocks.buffer);
            cases.same(state, &done, &whole);
        }
        cases.same(state, &singly(state, &block), &whole);
    }
    cases.at_least(3 * 500);
}
