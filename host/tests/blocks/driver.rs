//! Blocks of the library, each compared with the model's.

use ttcrx_host::sys::{BlockOutcome, Receiver, Record, RECORD_NUMBERS};
use ttcrx_host::testing::compare::Both;
use ttcrx_host::testing::convert::Answer;
use ttcrx_host::testing::lent::Lent;
use ttcrx_host::testing::library::Library;
use ttcrx_host::testing::random::Random;
use ttcrx_host::ttcrx;

/// A receiver that is kept, and lent for each block.
pub struct Driver {
    pub both: Both<'static>,
    pub random: Random,
    pub state: Receiver,
    /// Lent with each block; if there are none, blocks are run without columns.
    pub columns: Option<Vec<u8>>,
    /// What the last block has told of a bad column.
    pub index: u8,
}

/// So many clocks with any bits.
pub fn noise(random: &mut Random, length: usize) -> Vec<u8> {
    (0..length).map(|_| random.byte() >> 6).collect()
}

impl Driver {
    pub fn of(name: &'static str, seed: u64) -> Driver {
        Driver {
            both: Both::of(name),
            random: Random::new(seed),
            state: Receiver::default(),
            columns: None,
            index: 0,
        }
    }

    /// With a fresh receiver of ID 5.
    pub fn fresh(name: &'static str, seed: u64) -> Driver {
        Driver { state: ttcrx::fresh(5, 5).receiver, ..Driver::of(name, seed) }
    }

    /// The block on the state, with or without columns.
    #[track_caller]
    fn run(&mut self, block: &[u8], buffer: &mut [u32]) -> BlockOutcome {
        let (both, state) = (&self.both, &mut self.state);
        let Some(columns) = &self.columns else {
            return both.run_block(state, block, buffer);
        };
        let done = both.run_block_with_columns(state, columns, block, buffer);
        self.index = done.index;
        done.answer
    }

    /// One block on the state, with a buffer of so many random numbers. The numbers before the
    /// buffer and after its last record stay. Gives the answer and the records.
    #[track_caller]
    pub fn block(&mut self, block: &[u8], room: usize) -> (BlockOutcome, Vec<Record>) {
        let before = Lent::filled(room, || self.random.number() as u32);
        let mut buffer = before.clone();
        let start = self.state;
        let answer = self.run(block, buffer.part());
        let (cases, input) = (&self.both.cases, (start, block, room));
        let end = RECORD_NUMBERS * answer.records;
        cases.same_buffers(input, buffer.before(), before.before());
        cases.same_buffers(input, buffer.after(end), before.after(end));
        if answer.refusal != 0 {
            let nothing = (BlockOutcome::refused(answer.refusal), start);
            cases.same(input, (answer, self.state), nothing);
        }
        let records = self.records(buffer.part(), answer.records);
        (answer, records)
    }

    /// So many records from the front of the buffer, where its filled part and they have the same
    /// numbers.
    #[track_caller]
    fn records(&self, buffer: &[u32], count: usize) -> Vec<Record> {
        let front = &buffer[..RECORD_NUMBERS * count];
        let cases = &self.both.cases;
        cases.same_buffers(count, ttcrx::filled(buffer, count), front);
        let records: Vec<Record> = ttcrx::records(buffer, count).collect();
        let numbers: Vec<u32> = records.iter().flat_map(numbers).collect();
        cases.same_buffers(count, &numbers, front);
        records
    }

    /// A block that is refused by this number, or not at all by 0.
    #[track_caller]
    pub fn expect(&mut self, refusal: u8, block: &[u8], room: usize) -> Vec<Record> {
        let input = (self.state, block.len(), room);
        let (answer, records) = self.block(block, room);
        self.both.same(input, answer.refusal, refusal);
        records
    }

    /// A block that writes exactly these records.
    #[track_caller]
    pub fn says(&mut self, block: &[u8], expected: &[[u32; RECORD_NUMBERS]]) {
        let records = self.expect(0, block, RECORD_NUMBERS * block.len() + 2);
        let records: Vec<_> = records.iter().map(numbers).collect();
        self.both.same(block, &records[..], expected);
    }
}

/// The numbers of a record in the order of Q-3.
pub fn numbers(record: &Record) -> [u32; RECORD_NUMBERS] {
    [record.place, record.bunch, record.event, record.code, record.word]
}
