//! Which record alone changed between two patterns, as far as an examination looks at records.

use crate::pattern::{Entry, Handler, Pattern, Record};

/// What changed from one pattern to another.
///
/// Where the first passed, the examination of the second answers what that of a single record answers under the same allowance and for the same
/// opcodes: of the record that changed, or of any where nothing did.
#[derive(Debug, Clone, Copy, PartialEq, Eq)]
pub enum Changed {
    /// Nothing that an examination looks at.
    Nothing,
    /// One record alone, which has as many children as before.
    Record(u32),
    /// More than one record, how many there are, or how many children one has.
    More,
}

/// What changed from one pattern to another in the number of records and in each record's counts, instruction bytes, handlers and line map.
///
/// Where these stand in the file does not count, nor do values of constants, texts and names.
pub fn changed_alone(before: &Pattern, after: &Pattern) -> Changed {
    let records = after.counts().records;
    if before.counts().records != records {
        return Changed::More;
    }
    let mut changed = (0..records).filter(|number| !is_as_before(before, after, *number));
    match (changed.next(), changed.next()) {
        (None, _) => Changed::Nothing,
        (Some(number), None) if children(before, number) == children(after, number) => {
            Changed::Record(number)
        }
        _ => Changed::More,
    }
}

fn children(pattern: &Pattern, number: u32) -> Option<u32> {
    Some(pattern.record(number)?.rlen)
}

/// Whether a record is as before in all that counts.
fn is_as_before(before: &Pattern, after: &Pattern, number: u32) -> bool {
    let (Some(old), Some(new)) = (before.record(number), after.record(number)) else {
        return false;
    };
    counts(&old) == counts(&new)
        && code(before, number) == code(after, number)
        && handlers(before, number, &old).eq(handlers(after, number, &new))
        && lines(before, &old).eq(lines(after, &new))
}

/// A record's counts: of locals, registers, children, handlers, instruction bytes, constants, symbols and lines.
fn counts(record: &Record) -> [u32; 8] {
    [
        record.nlocals,
        record.nregs,
        record.rlen,
        record.clen,
        record.ilen,
        record.constants.number,
        record.symbols.number,
        record.lines.number,
    ]
}

fn code<'a>(pattern: &Pattern<'a>, number: u32) -> Option<&'a [u8]> {
    Some(pattern.instructions(number).ok()?.bytes)
}

fn handlers(
    pattern: &Pattern,
    number: u32,
    record: &Record,
) -> impl Iterator<Item = Option<Handler>> {
    (0..record.clen).map(move |index| pattern.handler(number, index).ok())
}

fn lines(pattern: &Pattern, record: &Record) -> impl Iterator<Item = Option<Entry>> {
    let first = record.lines.first;
    (0..record.lines.number).map(move |index| pattern.entry(first + index))
}
