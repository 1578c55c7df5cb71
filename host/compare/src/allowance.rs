//! Request h) of paper 02: allowances about a file, and what a file meets under one by the comparison's own rule.

use crate::load::other_sizes;
use crate::oracle::{BEYOND, NO_ROW};
use crate::rng::Rng;
use model::{Allowance, FILE_LIMIT, RECORD_WORDS, Reading, Refusal, Sizes};

/// Reads a file under the desktop's allowance, with every row that it needs.
pub fn read_all(file: &[u8]) -> Reading {
    model::read(file, Allowance::DESKTOP, [usize::MAX; 9])
}

/// What is counted of a load under an allowance that is not the desktop's.
#[derive(Debug, Clone, Copy, PartialEq, Eq, PartialOrd, Ord)]
pub enum Seen {
    BeyondBytes,
    BeyondRecords,
    /// The lent record table is too short by the record that is beyond the allowance.
    NoRowEither,
    LoadedUnderItsOwn,
    LoadedUnderOthers,
}

impl Seen {
    pub fn name(self) -> &'static str {
        match self {
            Seen::BeyondBytes => "29 for bytes",
            Seen::BeyondRecords => "29 for records",
            Seen::NoRowEither => "14 in 29's place",
            Seen::LoadedUnderItsOwn => "loaded under their own",
            Seen::LoadedUnderOthers => "loaded under others",
        }
    }
}

/// What a file meets under an allowance.
pub struct Met {
    /// The number where every row is lent.
    pub number: Refusal,
    /// The rows that are needed up to there, that of the record beyond the allowance too.
    needed: [usize; 9],
}

impl Met {
    /// What a file meets that is read so under the desktop's allowance.
    pub fn of(file: &[u8], reading: &Reading, allowance: Allowance) -> Met {
        let needed = reading.rows.used();
        if file.len() > allowance.bytes as usize && file.len() <= FILE_LIMIT {
            return Met::beyond([0; 9]);
        }
        let records = allowance.records as usize;
        // No number from the desktop's on is passed, as no more records are read.
        if needed[0] > records {
            return Met::beyond(needed_by(reading, records));
        }
        Met {
            number: reading.end.err().unwrap_or(0),
            needed,
        }
    }

    fn beyond(needed: [usize; 9]) -> Met {
        Met {
            number: BEYOND,
            needed,
        }
    }

    /// The number over lent tables: "where the lent table is too short as well, 14".
    pub fn over(&self, sizes: &Sizes) -> Refusal {
        let rows = sizes.rows();
        match (0..9).all(|t| self.needed[t] <= rows[t]) {
            true => self.number,
            false => NO_ROW,
        }
    }

    /// What is counted of a load over these tables, by a file that has so much.
    pub fn seen(&self, allowance: Allowance, own: Allowance, sizes: &Sizes) -> Option<Seen> {
        match (self.number, self.over(sizes)) {
            (BEYOND, BEYOND) if self.needed[0] == 0 => Some(Seen::BeyondBytes),
            (BEYOND, BEYOND) => Some(Seen::BeyondRecords),
            (BEYOND, NO_ROW) if self.lacks_last_record(sizes) => Some(Seen::NoRowEither),
            (0, 0) if allowance == own => Some(Seen::LoadedUnderItsOwn),
            (0, 0) if !is_desktops(allowance) => Some(Seen::LoadedUnderOthers),
            _ => None,
        }
    }

    /// Whether every row is lent but that of the last record.
    fn lacks_last_record(&self, sizes: &Sizes) -> bool {
        let mut rows = sizes.rows();
        rows[0] += 1;
        self.needed[0] == rows[0] && (1..9).all(|t| self.needed[t] <= rows[t])
    }

    /// Tables for these rows: of records one less, as many or more, of the others as many or more; and once in a while of any sizes.
    pub fn sizes(&self, rng: &mut Rng) -> Sizes {
        if rng.one_in(4) {
            return other_sizes(self.needed, rng);
        }
        let mut rows = self.needed.map(|rows| rows + rng.below(2));
        rows[0] = match rng.below(4) {
            0 => self.needed[0].saturating_sub(1),
            1 => self.needed[0] + rng.between(1, 8),
            _ => self.needed[0],
        };
        let mut sizes = Sizes::of_rows(rows);
        // Words that are no row.
        sizes.0[0] += rng.pick(&[0, 0, 1, RECORD_WORDS - 1]);
        sizes
    }
}

/// The rows of so many whole records, and that of the record behind them.
fn needed_by(reading: &Reading, records: usize) -> [usize; 9] {
    let mut needed = [0; 9];
    needed[0] = records + 1;
    for record in &reading.rows.records.rows[..records] {
        for (rows, list) in
            needed[1..]
                .iter_mut()
                .zip([record.handlers, record.pool, record.symbols])
        {
            *rows += list.number as usize;
        }
    }
    needed
}

/// What a file of so many bytes and records has.
pub fn own(bytes: usize, records: usize) -> Allowance {
    Allowance {
        bytes: bytes as u32,
        records: records as u32,
    }
}

/// Whether an allowance counts as the desktop's.
pub fn is_desktops(allowance: Allowance) -> bool {
    let Allowance { bytes, records } = Allowance::DESKTOP;
    allowance.bytes >= bytes && allowance.records >= records
}

/// The borders of 2 and 4, and what callers have.
const BYTES: [u32; 10] = [0, 1, 19, 20, 31, 32, 16_384, 65_536, 65_537, u32::MAX];
const RECORDS: [u32; 7] = [0, 1, 2, 64, 1_024, 1_025, u32::MAX];

/// The desktop's numbers, and larger ones.
const ALL_BYTES: [u32; 3] = [65_536, 65_537, u32::MAX];
const ALL_RECORDS: [u32; 3] = [1_024, 1_025, u32::MAX];

/// A number at a file's own or beside it, below it, or one of these.
fn about(own: u32, others: &[u32], rng: &mut Rng) -> u32 {
    match rng.below(8) {
        0 | 1 => own,
        2 | 3 => own.saturating_sub(1),
        4 => own + 1,
        5 => rng.below(own as usize + 1) as u32,
        _ => rng.pick(others),
    }
}

/// An allowance about what a file has: the preview's, the file's own, or with one number or both about it.
pub fn any(own: Allowance, rng: &mut Rng) -> Allowance {
    match rng.below(12) {
        0 => Allowance::PREVIEW,
        1 | 2 => own,
        3 | 4 => Allowance {
            bytes: about(own.bytes, &BYTES, rng),
            records: rng.pick(&ALL_RECORDS),
        },
        5..10 => Allowance {
            bytes: rng.pick(&ALL_BYTES),
            records: about(own.records, &RECORDS, rng),
        },
        _ => Allowance {
            bytes: about(own.bytes, &BYTES, rng),
            records: about(own.records, &RECORDS, rng),
        },
    }
}

/// An allowance that is nowhere smaller than another.
pub fn nowhere_smaller(than: Allowance, own: Allowance, rng: &mut Rng) -> Allowance {
    let other = any(own, rng);
    Allowance {
        bytes: than.bytes.max(other.bytes),
        records: than.records.max(other.records),
    }
}

#[cfg(test)]
mod tests {
    use super::*;
    use crate::generate::Generator;
    use std::collections::BTreeSet;

    /// What generated files meet under an allowance each, with their number under the desktop's.
    fn met_by(files: u64) -> BTreeSet<(Seen, Refusal)> {
        let generator = Generator { corpus: Vec::new() };
        let mut all = BTreeSet::new();
        for index in 0..files {
            let (_, file) = generator.file(1, index);
            let reading = read_all(&file);
            let mut rng = Rng::new(!1, index);
            let own = own(file.len(), reading.rows.used()[0]);
            let allowance = any(own, &mut rng);
            let met = Met::of(&file, &reading, allowance);
            let sizes = met.sizes(&mut rng);
            let loaded = model::load(&file, allowance, &sizes);
            assert_eq!(loaded.refusal, met.over(&sizes), "{index}");
            if let Some(seen) = met.seen(allowance, own, &sizes) {
                all.insert((seen, reading.end.err().unwrap_or(0)));
            }
        }
        all
    }

    #[test]
    fn generated_files_meet_29_before_other_numbers() {
        let met = met_by(10_000);
        let by = |seen: Seen, numbers: &[Refusal]| {
            for number in numbers {
                assert!(met.contains(&(seen, *number)), "{seen:?} {number}");
            }
        };
        let of_content = [0, 5, 6, 7, 8, 9, 10, 11, 12, 13];
        by(Seen::BeyondBytes, &of_content);
        by(Seen::BeyondBytes, &[2, 3, 4, 27, 28]);
        by(Seen::BeyondRecords, &of_content);
        by(Seen::NoRowEither, &[0, 5, 7, 8, 9, 10, 11, 12]);
        by(Seen::LoadedUnderItsOwn, &[0]);
        by(Seen::LoadedUnderOthers, &[0]);
    }
}
