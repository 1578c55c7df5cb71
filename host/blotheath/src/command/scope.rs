//! What of a file is examined.

use blotheath::Pattern;
use std::ops::Range;

/// A whole file, or one of its records by itself.
#[derive(Debug, Clone, Copy, PartialEq, Eq)]
pub enum Scope {
    File,
    Record(u32),
}

impl Scope {
    /// The record that an option names; without it the whole file.
    pub fn of(record: Option<u32>) -> Scope {
        record.map_or(Scope::File, Scope::Record)
    }

    /// The record that is examined by itself.
    pub fn record(self) -> Option<u32> {
        match self {
            Scope::File => None,
            Scope::Record(number) => Some(number),
        }
    }

    pub fn noun(self) -> &'static str {
        match self {
            Scope::File => "file",
            Scope::Record(_) => "record",
        }
    }

    /// The numbers of the records that are examined, where the pattern has them.
    pub fn records(self, pattern: &Pattern) -> Range<u32> {
        match self {
            Scope::File => 0..pattern.counts().records,
            Scope::Record(number) => number..number.saturating_add(1),
        }
    }
}
