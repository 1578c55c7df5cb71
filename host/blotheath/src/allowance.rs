//! Allowances: how many bytes and records a file may have, and how far a file is beyond that.

use crate::FILE_LIMIT;
use crate::pattern::{examine_record_within, examine_within, load};
use crate::permitted::Permitted;
use crate::refusal::Refusal;
use crate::tables::RECORD_LIMIT;

/// How many bytes and how many records a file may have.
///
/// A number that is larger than the desktop's counts as the desktop's. 0 is one too: no file of a byte, no record.
#[derive(Debug, Clone, Copy, PartialEq, Eq)]
pub struct Allowance {
    pub bytes: u32,
    pub records: u32,
}

impl Allowance {
    /// The largest one.
    pub const DESKTOP: Allowance = Allowance {
        bytes: FILE_LIMIT as u32,
        records: RECORD_LIMIT as u32,
    };

    /// That of the web's preview page.
    pub const PREVIEW: Allowance = Allowance {
        bytes: 16_384,
        records: 64,
    };

    /// What it counts as: each number by itself is at most the desktop's.
    pub fn granted(self) -> Allowance {
        Allowance {
            bytes: self.bytes.min(Self::DESKTOP.bytes),
            records: self.records.min(Self::DESKTOP.records),
        }
    }
}

/// The refusal of a file that is beyond its allowance.
const BEYOND: Refusal = Refusal(29);

/// What an allowance limits.
#[derive(Debug, Clone, Copy, PartialEq, Eq)]
pub enum Limit {
    Bytes,
    Records,
}

/// What the desktop's allowance leads to, for a file that another one refuses.
#[derive(Debug, Clone, Copy, PartialEq, Eq)]
pub enum Desktop {
    Loads,
    Passes,
    /// The record that was asked for passes by itself.
    RecordPasses(u32),
    Refuses(Refusal),
}

/// How far a file that is refused by 29 is beyond its allowance, and what the desktop says of it.
#[derive(Debug, Clone, Copy, PartialEq, Eq)]
pub struct Excess {
    pub of: Limit,
    pub allowed: u32,
    /// How many bytes the file has, or how many records; these are known of a file that loads under the desktop's allowance.
    pub has: Option<u32>,
    pub desktop: Desktop,
}

impl Excess {
    /// That of a load under an allowance, by its refusal; none where that is not 29.
    pub fn of_load(file: &[u8], allowance: Allowance, refusal: Refusal) -> Option<Excess> {
        Excess::of(file, allowance, refusal, || {
            load(file).map(|_| Desktop::Loads)
        })
    }

    /// That of an examination or a run under an allowance for permitted opcodes, by its refusal; none where that is not 29.
    pub fn of_examination(
        file: &[u8],
        allowance: Allowance,
        permitted: &Permitted,
        refusal: Refusal,
    ) -> Option<Excess> {
        Excess::of(file, allowance, refusal, || {
            examine_within(file, Allowance::DESKTOP, permitted).map(|_| Desktop::Passes)
        })
    }

    /// That of an examination of one record by itself, by its refusal; none where that is not 29.
    pub fn of_record(
        file: &[u8],
        allowance: Allowance,
        permitted: &Permitted,
        record: u32,
        refusal: Refusal,
    ) -> Option<Excess> {
        Excess::of(file, allowance, refusal, || {
            examine_record_within(file, Allowance::DESKTOP, permitted, record)
                .map(|_| Desktop::RecordPasses(record))
        })
    }

    fn of(
        file: &[u8],
        allowance: Allowance,
        refusal: Refusal,
        desktop: impl FnOnce() -> Result<Desktop, Refusal>,
    ) -> Option<Excess> {
        if refusal != BEYOND {
            return None;
        }
        let granted = allowance.granted();
        let (of, allowed, has) = match file.len() > granted.bytes as usize {
            true => (Limit::Bytes, granted.bytes, Some(file.len() as u32)),
            false => (Limit::Records, granted.records, records(file)),
        };
        Some(Excess {
            of,
            allowed,
            has,
            desktop: desktop().unwrap_or_else(Desktop::Refuses),
        })
    }

    /// By how much the file is beyond its allowance, where that is known.
    pub fn by(&self) -> Option<u32> {
        self.has.map(|has| has.saturating_sub(self.allowed))
    }
}

/// How many records a file has that loads under the desktop's allowance.
fn records(file: &[u8]) -> Option<u32> {
    let pattern = load(file).ok()?;
    Some(pattern.counts().records)
}

#[cfg(test)]
mod tests {
    use super::*;

    #[test]
    fn a_larger_number_counts_as_the_desktops() {
        let Allowance { bytes, records } = Allowance::DESKTOP;
        for (given, right) in [
            ((0, 0), (0, 0)),
            ((16_384, 64), (16_384, 64)),
            ((bytes, records), (bytes, records)),
            ((bytes + 1, 5), (bytes, 5)),
            ((7, records + 1), (7, records)),
            ((u32::MAX, u32::MAX), (bytes, records)),
        ] {
            let allowance = Allowance {
                bytes: given.0,
                records: given.1,
            };
            let granted = allowance.granted();
            assert_eq!((granted.bytes, granted.records), right);
        }
        assert_eq!(Allowance::PREVIEW.granted(), Allowance::PREVIEW);
    }
}
