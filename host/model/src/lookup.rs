//! The seven lookups over any file and any tables; every refusal is 22.

use crate::line::line_at;
use crate::rows::{Entry, ROW_WORDS, Tables};
use crate::{Refusal, UNNAMED};

/// The tables' numbers.
const RECORDS: usize = 0;
const HANDLERS: usize = 1;
const POOL: usize = 2;
const SYMBOLS: usize = 3;
const STRINGS: usize = 4;
const NAMES: usize = 5;
const FILE_NAMES: usize = 6;
const FILES: usize = 7;
const LINES: usize = 8;

/// The words of a record's row where the first row and the number of each list stand.
const OF_HANDLERS: usize = 7;
const OF_POOL: usize = 9;
const OF_SYMBOLS: usize = 11;
const OF_NAMES: usize = 13;
const OF_FILES: usize = 15;
const OF_LINES: usize = 17;

/// A handler's four fields.
#[derive(Debug, Clone, Copy, PartialEq, Eq)]
pub struct FoundHandler {
    pub kind: u32,
    pub begin: u32,
    pub end: u32,
    pub target: u32,
}

/// Bytes that lie in the file.
#[derive(Debug, Clone, Copy, PartialEq, Eq)]
pub struct FoundText {
    pub place: u32,
    pub length: u32,
}

impl FoundText {
    /// The bytes themselves.
    pub fn of(self, file: &[u8]) -> &[u8] {
        &file[self.place as usize..][..self.length as usize]
    }
}

/// "a pool lookup answers text place, whole number or float by its kind"
#[derive(Debug, Clone, Copy, PartialEq)]
pub enum Constant {
    Text(FoundText),
    Int(i64),
    Float(f64),
    Big(FoundText),
}

/// A debug file with its name's text in place of the name's index.
#[derive(Debug, Clone, Copy, PartialEq, Eq)]
pub struct FoundFile {
    pub start: u32,
    pub name: FoundText,
    pub first: u32,
    pub number: u32,
}

/// The instruction bytes of a record.
pub fn instructions(file: &[u8], tables: &Tables, number: u32) -> Result<FoundText, Refusal> {
    let record = record(tables, number)?;
    in_file(file, record[6], record[5])
}

/// A handler of a record.
pub fn handler(tables: &Tables, number: u32, index: u32) -> Result<FoundHandler, Refusal> {
    let row = listed(tables, number, OF_HANDLERS, HANDLERS, index)?;
    Ok(FoundHandler {
        kind: row[0],
        begin: row[1],
        end: row[2],
        target: row[3],
    })
}

/// A constant of a record; "or its pool row's kind or number length is unknown".
pub fn pool(file: &[u8], tables: &Tables, number: u32, index: u32) -> Result<Constant, Refusal> {
    let row = listed(tables, number, OF_POOL, POOL, index)?;
    let value = in_file(file, row[1], row[2])?;
    let bytes = value.of(file);
    match row[0] {
        0 | 2 => Ok(Constant::Text(value)),
        1 => {
            let bytes: [u8; 4] = bytes.try_into().map_err(|_| 22u32)?;
            Ok(Constant::Int(i32::from_be_bytes(bytes).into()))
        }
        3 => {
            let bytes: [u8; 8] = bytes.try_into().map_err(|_| 22u32)?;
            // "Eight-byte pool integers are .. read high byte first."
            Ok(Constant::Int(i64::from_be_bytes(bytes)))
        }
        5 => {
            let bytes: [u8; 8] = bytes.try_into().map_err(|_| 22u32)?;
            // "5 float64 low byte first"
            Ok(Constant::Float(f64::from_le_bytes(bytes)))
        }
        7 => Ok(Constant::Big(value)),
        _ => Err(22),
    }
}

/// A symbol of a record.
pub fn symbol(file: &[u8], tables: &Tables, number: u32, index: u32) -> Result<FoundText, Refusal> {
    let row = listed(tables, number, OF_SYMBOLS, SYMBOLS, index)?;
    in_file(file, row[0], row[1])
}

/// A local's name; "a name .. index gives its text's place and length, 65535 unnamed".
pub fn name(
    file: &[u8],
    tables: &Tables,
    number: u32,
    index: u32,
) -> Result<Option<FoundText>, Refusal> {
    let row = listed(tables, number, OF_NAMES, NAMES, index)?;
    if row[0] == UNNAMED {
        return Ok(None);
    }
    let text = row_of(tables, STRINGS, row[0].into())?;
    Ok(Some(in_file(file, text[0], text[1])?))
}

/// A debug file of a record, whose lines lie in the line table.
pub fn debug_file(
    file: &[u8],
    tables: &Tables,
    number: u32,
    index: u32,
) -> Result<FoundFile, Refusal> {
    let row = listed(tables, number, OF_FILES, FILES, index)?;
    let text = row_of(tables, FILE_NAMES, row[1].into())?;
    let name = in_file(file, text[0], text[1])?;
    entries(tables, row[2], row[3])?;
    Ok(FoundFile {
        start: row[0],
        name,
        first: row[2],
        number: row[3],
    })
}

/// The line of an offset in a record, or none.
pub fn line(tables: &Tables, number: u32, offset: u32) -> Result<Option<u32>, Refusal> {
    let record = record(tables, number)?;
    let map = entries(tables, record[OF_LINES], record[OF_LINES + 1])?;
    Ok(line_at(&map, offset))
}

/// A whole row of a table.
fn row_of(tables: &Tables, table: usize, row: u64) -> Result<&[u32], Refusal> {
    let rows = tables[table].len() / ROW_WORDS[table];
    if row >= rows as u64 {
        return Err(22);
    }
    let first = row as usize * ROW_WORDS[table];
    Ok(&tables[table][first..first + ROW_WORDS[table]])
}

/// A record's row; "A record row of size 0 is no row."
fn record(tables: &Tables, number: u32) -> Result<&[u32], Refusal> {
    let row = row_of(tables, RECORDS, number.into())?;
    if row[0] == 0 {
        return Err(22);
    }
    Ok(row)
}

/// The row of a table that a record lists under an index.
fn listed(
    tables: &Tables,
    number: u32,
    list: usize,
    table: usize,
    index: u32,
) -> Result<&[u32], Refusal> {
    let record = record(tables, number)?;
    if index >= record[list + 1] {
        return Err(22);
    }
    row_of(tables, table, u64::from(record[list]) + u64::from(index))
}

/// Bytes that a row points at; "its row points outside file or tables".
fn in_file(file: &[u8], place: u32, length: u32) -> Result<FoundText, Refusal> {
    if u64::from(place) + u64::from(length) > file.len() as u64 {
        return Err(22);
    }
    Ok(FoundText { place, length })
}

/// The rows of the line table that a row points at; none points nowhere.
fn entries(tables: &Tables, first: u32, number: u32) -> Result<Vec<Entry>, Refusal> {
    if number == 0 {
        return Ok(Vec::new());
    }
    let rows = tables[LINES].len() / ROW_WORDS[LINES];
    if u64::from(first) + u64::from(number) > rows as u64 {
        return Err(22);
    }
    let words = &tables[LINES][first as usize * 2..][..number as usize * 2];
    Ok(words
        .chunks(2)
        .map(|pair| Entry {
            position: pair[0],
            line: pair[1],
        })
        .collect())
}
