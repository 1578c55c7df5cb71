//! Files that are changed in one record: "the number of records, every other record's counts, handlers, map and instruction bytes and this record's
//! rlen are as before".

use crate::allowance::read_all;
use crate::expected::section;
use crate::generate::{be2, be4, flaw_map, flawed, overwrite, state_size, steps};
use crate::held::is_string;
use crate::rng::Rng;
use crate::sample::STOP;
use model::{Entry, Handler, OPCODES, Reading, Record, Rows};
use std::ops::Range;

/// How a file is changed.
#[derive(Debug, Clone, Copy, PartialEq, Eq, PartialOrd, Ord)]
pub enum Change {
    /// Something in its place where examination looks.
    InPlace,
    Locals,
    Registers,
    /// An instruction more or less, and so on: what stands behind it moves.
    Code,
    Handlers,
    Constants,
    Symbols,
    Map,
}

impl Change {
    pub fn name(self) -> &'static str {
        match self {
            Change::InPlace => "in its place",
            Change::Locals => "locals",
            Change::Registers => "registers",
            Change::Code => "instructions",
            Change::Handlers => "handlers",
            Change::Constants => "constants",
            Change::Symbols => "symbols",
            Change::Map => "map",
        }
    }
}

/// The changes, those of code most often.
const CHANGES: [Change; 14] = [
    Change::InPlace,
    Change::InPlace,
    Change::InPlace,
    Change::InPlace,
    Change::Locals,
    Change::Registers,
    Change::Code,
    Change::Code,
    Change::Code,
    Change::Handlers,
    Change::Constants,
    Change::Symbols,
    Change::Map,
    Change::Map,
];

/// A file that was changed in one record, and loads.
pub struct Changed {
    pub change: Change,
    pub file: Vec<u8>,
    pub reading: Reading,
    pub record: u32,
}

/// A change of a file that is read so; none where nothing is changed, or it does not load then, or differs in more than a record.
pub fn any(file: &[u8], rows: &Rows, rng: &mut Rng) -> Option<Changed> {
    let records = &rows.records.rows;
    let number = rng.below(records.len());
    let change = rng.pick(&CHANGES);
    let changed = made(change, file, rows, records.get(number)?, rng);
    if changed == file {
        return None;
    }
    let reading = read_all(&changed);
    reading.end.ok()?;
    let record = differing(&kept(file, rows), &kept(&changed, &reading.rows), number)?;
    Some(Changed {
        change,
        file: changed,
        record: record as u32,
        reading,
    })
}

/// What the request's condition has of a record: its counts, instruction bytes, handlers and map.
#[derive(PartialEq)]
struct Kept<'a> {
    counts: [u32; 4],
    code: &'a [u8],
    handlers: &'a [Handler],
    map: &'a [Entry],
}

fn kept<'a>(file: &'a [u8], rows: &'a Rows) -> Vec<Kept<'a>> {
    let records = rows.records.rows.iter();
    let of = |r: &Record| Kept {
        counts: [r.rlen, r.nregs, r.pool.number, r.symbols.number],
        code: &file[r.place as usize..][..r.ilen as usize],
        handlers: r.handlers.of(&rows.handlers.rows),
        map: r.lines.of(&rows.lines.rows),
    };
    records.map(of).collect()
}

/// The one record in which two files differ, with all rlens as before, or this one where they do in none.
fn differing(before: &[Kept], after: &[Kept], other: usize) -> Option<usize> {
    let rlens = |kept: &[Kept]| kept.iter().map(|kept| kept.counts[0]).collect::<Vec<_>>();
    if rlens(before) != rlens(after) {
        return None;
    }
    let mut differing = (0..before.len()).filter(|at| before[*at] != after[*at]);
    match (differing.next(), differing.next()) {
        (None, _) => Some(other),
        (one, None) => one,
        _ => None,
    }
}

/// The file with a change in a record, or anywhere.
fn made(change: Change, file: &[u8], rows: &Rows, record: &Record, rng: &mut Rng) -> Vec<u8> {
    let start = record.place as usize - 16;
    let [handlers, constants, symbols] = lists(rows, record);
    match change {
        Change::InPlace => flawed(file, Rng::new(rng.next(), 0)),
        Change::Locals => with_field(file, start + 4, record.nlocals, rng),
        Change::Registers => with_field(file, start + 6, record.nregs, rng),
        Change::Code => other_code(file, start, record, rng),
        Change::Handlers => {
            let target = rng.below(record.ilen as usize + 2);
            let handler = [&[0; 9][..], &be4(target)].concat();
            other_list(file, start, &handlers, &handler, rng)
        }
        Change::Constants => other_list(file, start, &constants, &[2, 0, 0, 0], rng),
        Change::Symbols => other_list(file, start, &symbols, &[0, 0, 0], rng),
        Change::Map => {
            let mut changed = file.to_vec();
            flaw_map(&mut changed, rng);
            changed
        }
    }
}

/// Where a list of a record stands in its file, and where its count does.
struct List {
    count: usize,
    items: Range<usize>,
}

/// The handlers, whose count is in the record's header, the constants and the symbols of a record.
fn lists(rows: &Rows, record: &Record) -> [List; 3] {
    let place = record.place as usize;
    let code_end = place + record.ilen as usize;
    let handlers_end = code_end + 13 * record.clen as usize;
    let constants = record.pool.of(&rows.pool.rows);
    // A text has a zero behind it.
    let constants_end = constants.last().map_or(handlers_end + 2, |row| {
        (row.place + row.length) as usize + usize::from(is_string(row))
    });
    let symbols = record.symbols.of(&rows.symbols.rows);
    let symbols_end = symbols.last().map_or(constants_end + 2, |row| {
        (row.place + row.length) as usize + 1
    });
    let list = |count: usize, first: usize, end: usize| List {
        count,
        items: first..end,
    };
    [
        list(place - 6, code_end, handlers_end),
        list(handlers_end, handlers_end + 2, constants_end),
        list(constants_end, constants_end + 2, symbols_end),
    ]
}

/// Another number for a field of two bytes.
fn with_field(file: &[u8], at: usize, number: u32, rng: &mut Rng) -> Vec<u8> {
    let other = match rng.below(6) {
        0 => 0,
        1 => rng.word(),
        2 | 3 => number + 1,
        _ => number.saturating_sub(1),
    };
    let mut changed = file.to_vec();
    overwrite(&mut changed, at, &be2(other as usize));
    changed
}

/// Other bytes for some of a record's, with the sizes of the record, of its section and of the file stated anew.
fn spliced(file: &[u8], start: usize, at: Range<usize>, bytes: &[u8]) -> Vec<u8> {
    let mut changed = [&file[..at.start], bytes, &file[at.end..]].concat();
    let irep = section(file, b"IREP").unwrap_or(start);
    for place in [start, irep + 4] {
        let size = u32::from_be_bytes(file[place..place + 4].try_into().unwrap()) as usize;
        let size = (size + bytes.len()).wrapping_sub(at.len());
        overwrite(&mut changed, place, &be4(size));
    }
    let length = changed.len();
    state_size(&mut changed, length);
    changed
}

/// An instruction more, before another or last, or one less.
fn other_code(file: &[u8], start: usize, record: &Record, rng: &mut Rng) -> Vec<u8> {
    let steps = steps(file, record);
    let step = rng.pick(&steps);
    let end = record.ilen as usize;
    let opcode = rng.below(OPCODES.len()) as u8;
    let (at, bytes) = match rng.below(5) {
        0 => (step.offset..step.next, vec![]),
        1 => (step.offset..step.offset, vec![0]),
        2 => (end..end, vec![STOP]),
        3 => (end..end, vec![opcode]),
        _ => (end..end, vec![opcode, 0, 0, 0, STOP]),
    };
    let length = end + bytes.len() - at.len();
    let place = record.place as usize;
    let mut changed = spliced(file, start, place + at.start..place + at.end, &bytes);
    overwrite(&mut changed, start + 12, &be4(length));
    changed
}

/// A list of a record with an item more at its start, or without any.
fn other_list(file: &[u8], start: usize, list: &List, item: &[u8], rng: &mut Rng) -> Vec<u8> {
    let List { count, items } = list;
    let number = u16::from_be_bytes([file[*count], file[count + 1]]);
    let (at, bytes, number) = match rng.one_in(2) || items.is_empty() {
        true => (items.start..items.start, item, number.wrapping_add(1)),
        false => (items.clone(), &[][..], 0),
    };
    let mut changed = spliced(file, start, at, bytes);
    overwrite(&mut changed, *count, &number.to_be_bytes());
    changed
}
