//! Mistaken readings of request i): the stored calls tell each, and so does the comparison of generated files.

use crate::examination::MISSING;
use crate::generate::{Generator, steps};
use crate::permitted::FORBIDDEN;
use crate::rng::Rng;
use crate::single;
use crate::singled;
use crate::store::{group_alone, replay_items};
use crate::subject::{Answer, Fetch, Follow, Found, Lookup, Model, Subject, give, lent};
use model::{Allowance, EVERYTHING, Loaded, Reading, Refusal, Sizes, Tables};

/// An examination of a single record.
struct Call<'a> {
    file: &'a [u8],
    allowance: Allowance,
    list: &'a [u8],
    sizes: Sizes,
    record: u32,
}

impl Call<'_> {
    fn right(&self) -> Loaded {
        self.of(self.record)
    }

    /// What another record answers.
    fn of(&self, record: u32) -> Loaded {
        model::examine_single(self.file, self.allowance, self.list, &self.sizes, record)
    }

    fn load(&self) -> Loaded {
        model::load(self.file, self.allowance, &self.sizes)
    }

    fn whole(&self) -> Refusal {
        let examined = model::examine(self.file, self.allowance, self.list, &self.sizes);
        examined.refusal
    }

    fn reading(&self) -> Reading {
        model::read(self.file, self.allowance, self.sizes.rows())
    }

    /// How many records are read.
    fn records(&self) -> u32 {
        self.reading().rows.records.rows.len() as u32
    }

    /// Whether the file loads and has the record.
    fn is_there(&self) -> bool {
        self.load().refusal == 0 && self.record < self.records()
    }

    /// What answers this number, or 0.
    fn met(&self, number: Refusal) -> Loaded {
        match number {
            0 => self.load(),
            _ => Loaded::refused(number, &self.sizes),
        }
    }

    /// The first number of these records, where the record is there.
    fn first_of(&self, records: impl Iterator<Item = u32>) -> Loaded {
        let mut records = records.map(|record| self.of(record));
        let refused = records.find(|answer| answer.refusal != 0);
        match self.is_there() {
            true => refused.unwrap_or_else(|| self.load()),
            false => self.right(),
        }
    }

    /// The right answer, but another number for one that is met.
    fn but_for(&self, number: Refusal, other: Refusal) -> Loaded {
        match self.right().refusal == number {
            true => self.met(other),
            false => self.right(),
        }
    }

    /// The right answer, with the load's rows or words where one of these refusals is met.
    fn keeping(&self, is_such: impl Fn(Refusal) -> bool, rows: bool, words: bool) -> Loaded {
        let (mut answer, loaded) = (self.right(), self.load());
        if answer.refusal != 0 && is_such(answer.refusal) {
            if rows {
                answer.rows = loaded.rows;
                answer.visits = loaded.visits;
            }
            if words {
                answer.tables = loaded.tables;
            }
        }
        answer
    }

    /// Whether a child that the record names by an operand has no record.
    fn lacks_child(&self) -> bool {
        let rows = self.reading().rows;
        let records = &rows.records.rows;
        let children = steps(self.file, &records[self.record as usize])
            .into_iter()
            .filter_map(|step| step.child());
        let most = children.max();
        most.is_some_and(|child| {
            u64::from(self.record) + 1 + u64::from(child) >= records.len() as u64
        })
    }
}

/// A mistaken reading: its name, and what a call answers by it.
type Mistake = (&'static str, fn(&Call) -> Loaded);

/// Mistaken readings of which records are examined.
const RECORDS: [Mistake; 12] = [
    ("the next record", |call| {
        call.of(call.record.wrapping_add(1))
    }),
    ("the record before it", |call| match call.record {
        0 => call.right(),
        record => call.of(record - 1),
    }),
    ("counted from 1", |call| {
        call.of(call.record.wrapping_sub(1))
    }),
    ("record 0 always", |call| match call.is_there() {
        true => call.of(0),
        false => call.right(),
    }),
    ("every record up to it", |call| {
        call.first_of(0..=call.record)
    }),
    ("every record from it on", |call| {
        call.first_of(call.record..call.records())
    }),
    ("every record", |call| call.first_of(0..call.records())),
    ("the whole file", |call| match call.is_there() {
        true => call.met(call.whole()),
        false => call.right(),
    }),
    ("a number of 8 bits", |call| call.of(call.record & 255)),
    ("a number of 16 bits", |call| call.of(call.record & 65_535)),
    ("a number with a sign", |call| match call.record >> 31 {
        1 => call.of(0),
        _ => call.right(),
    }),
    ("the largest number is the last record", |call| {
        match call.record {
            u32::MAX => call.of(call.records().saturating_sub(1)),
            _ => call.right(),
        }
    }),
];

/// Mistaken readings of 22.
const MISSING_RECORDS: [Mistake; 11] = [
    ("22 for the last record", |call| {
        match call.is_there() && call.record + 1 == call.records() {
            true => call.met(MISSING),
            false => call.right(),
        }
    }),
    ("the record behind the last is there", |call| {
        match call.right().refusal == MISSING && call.record == call.records() {
            true => call.load(),
            false => call.right(),
        }
    }),
    ("22 before the load's refusals", |call| {
        match call.record >= call.records() {
            true => call.met(MISSING),
            false => call.right(),
        }
    }),
    ("22 by the rows lent, before the load", |call| {
        match call.record as usize >= call.sizes.rows()[0] {
            true => call.met(MISSING),
            false => call.right(),
        }
    }),
    ("22 by the rows lent, after the load", |call| {
        let is_lent = (call.record as usize) < call.sizes.rows()[0];
        match is_lent {
            true => call.but_for(MISSING, 16),
            false => call.right(),
        }
    }),
    ("an unused row passes", |call| {
        let is_lent = (call.record as usize) < call.sizes.rows()[0];
        match is_lent {
            true => call.but_for(MISSING, 0),
            false => call.right(),
        }
    }),
    ("a missing record passes", |call| call.but_for(MISSING, 0)),
    ("a missing record is 15", |call| call.but_for(MISSING, 15)),
    ("a missing record is 14", |call| call.but_for(MISSING, 14)),
    ("a missing record is 16", |call| call.but_for(MISSING, 16)),
    ("a file without records is 15", |call| {
        match call.records() {
            0 => call.but_for(MISSING, 15),
            _ => call.right(),
        }
    }),
];

/// Mistaken readings of what is tested.
const TESTS: [Mistake; 9] = [
    ("15 before 22", |call| match call.whole() {
        15 => call.met(15),
        _ => call.right(),
    }),
    ("15 after 22", |call| {
        match (call.is_there(), call.whole()) {
            (true, 15) => call.met(15),
            _ => call.right(),
        }
    }),
    ("15 after the record's numbers", |call| match call.whole() {
        15 => call.but_for(0, 15),
        _ => call.right(),
    }),
    ("a child is there", |call| {
        match call.is_there() && call.lacks_child() {
            true => call.but_for(0, 17),
            false => call.right(),
        }
    }),
    ("no list", |call| {
        let call = Call {
            list: &EVERYTHING,
            ..*call
        };
        call.right()
    }),
    ("another record's opcodes", |call| {
        let mut numbers = (0..call.records()).map(|record| call.of(record).refusal);
        match call.is_there() && numbers.any(|number| number == FORBIDDEN) {
            true => call.met(FORBIDDEN),
            false => call.right(),
        }
    }),
    ("a missing record's opcodes", |call| {
        match call.list.is_empty() {
            true => call.but_for(MISSING, FORBIDDEN),
            false => call.right(),
        }
    }),
    ("the desktop's allowance", |call| {
        let call = Call {
            allowance: Allowance::DESKTOP,
            ..*call
        };
        call.right()
    }),
    ("20 is not tested", |call| call.but_for(20, 0)),
];

/// Mistaken readings of what a call leaves and answers.
const LEFT: [Mistake; 7] = [
    ("tables kept after a refusal", |call| {
        call.keeping(|_| true, false, true)
    }),
    ("tables kept after 22", |call| {
        call.keeping(|number| number == MISSING, false, true)
    }),
    ("tables kept after other refusals", |call| {
        call.keeping(|number| number != MISSING, false, true)
    }),
    ("rows answered after a refusal", |call| {
        call.keeping(|_| true, true, false)
    }),
    ("tables zero after a pass", |call| Loaded {
        tables: call.sizes.zeros(),
        ..call.right()
    }),
    ("no rows answered after a pass", |call| Loaded {
        rows: [0; 9],
        ..call.right()
    }),
    ("no visits answered", |call| Loaded {
        visits: 0,
        ..call.right()
    }),
];

/// The model but for one mistake.
struct Mistaken(Mistake);

impl Subject for Mistaken {
    fn name(&self) -> &'static str {
        self.0.0
    }

    fn load(&self, file: &[u8], allowance: Allowance, tables: &mut Tables) -> Answer {
        Model.load(file, allowance, tables)
    }

    fn examine(
        &self,
        file: &[u8],
        allowance: Allowance,
        permitted: &[u8],
        tables: &mut Tables,
    ) -> Answer {
        Model.examine(file, allowance, permitted, tables)
    }

    fn examine_record(
        &self,
        file: &[u8],
        allowance: Allowance,
        permitted: &[u8],
        tables: &mut Tables,
        record: u32,
    ) -> Answer {
        let call = Call {
            file,
            allowance,
            list: permitted,
            sizes: lent(tables),
            record,
        };
        give((self.0.1)(&call), tables)
    }

    fn follow(
        &self,
        file: &[u8],
        allowance: Allowance,
        permitted: &[u8],
        tables: &mut Tables,
        frames: &mut Vec<u32>,
        choices: &[u8],
    ) -> Follow {
        Model.follow(file, allowance, permitted, tables, frames, choices)
    }

    fn lookup(
        &self,
        lookup: Lookup,
        file: &[u8],
        tables: &Tables,
        record: u32,
        index: u32,
    ) -> Found {
        Model.lookup(lookup, file, tables, record, index)
    }

    fn fetch(&self, code: &[u8]) -> Fetch {
        Model.fetch(code)
    }

    fn line_at(&self, map: &[u32], position: u32) -> Option<u32> {
        Model.line_at(map, position)
    }
}

fn mistakes() -> impl Iterator<Item = Mistake> {
    let all = RECORDS.into_iter().chain(MISSING_RECORDS);
    all.chain(TESTS).chain(LEFT)
}

#[test]
fn stored_calls_tell_mistakes() {
    let stored = group_alone(&singled::group());
    assert!(replay_items(&Model, &stored).is_ok());
    for mistake in mistakes() {
        let replayed = replay_items(&Mistaken(mistake), &stored);
        assert!(replayed.is_err(), "{}", mistake.0);
    }
}

#[test]
fn generated_files_tell_mistakes() {
    let generator = Generator { corpus: Vec::new() };
    for mistake in mistakes() {
        let mut tells = |index: u64| {
            let file = generator.examinable(1, index);
            let rng = &mut Rng::new(!1, index);
            let counts = &mut single::Counts::default();
            single::one(&[Box::new(Mistaken(mistake))], &file, rng, counts).is_err()
        };
        assert!((0..6_000).any(&mut tells), "{}", mistake.0);
    }
}
