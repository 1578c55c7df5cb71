//! A loaded pattern: its rows and the seven lookups.

use crate::allowance::Allowance;
use crate::answer::{BlotheathLoaded, NO_PARENT};
use crate::ffi;
use crate::permitted::Permitted;
use crate::refusal::Refusal;
use crate::step::Steps;
use crate::tables::{self, FILENAMES, LINES, POOL, RECORDS, ROW_WORDS, STRINGS, Words};

/// A file with its rows.
#[derive(Debug, Clone)]
pub struct Pattern<'a> {
    file: &'a [u8],
    words: Words,
    counts: Counts,
}

/// How many rows each table uses, and how many visits the walk over the local names made.
///
/// Without an LVAR section there is no visit. Else the walk visits record 0 and, for each record that it visits, so many
/// children as its row says, past the last record too: where the records are one whole tree, as many visits as records.
#[derive(Debug, Clone, Copy, PartialEq, Eq, Default)]
pub struct Counts {
    pub records: u32,
    pub handlers: u32,
    pub constants: u32,
    pub symbols: u32,
    pub strings: u32,
    pub names: u32,
    pub file_names: u32,
    pub files: u32,
    pub lines: u32,
    pub visits: u32,
}

impl Counts {
    fn of(loaded: BlotheathLoaded) -> Counts {
        let [
            records,
            handlers,
            constants,
            symbols,
            strings,
            names,
            file_names,
            files,
            lines,
        ] = loaded.rows;
        Counts {
            records,
            handlers,
            constants,
            symbols,
            strings,
            names,
            file_names,
            files,
            lines,
            visits: loaded.visits,
        }
    }
}

/// The first row and the number of rows that belong to a record or a debug file.
#[derive(Debug, Clone, Copy, PartialEq, Eq, Default)]
pub struct Span {
    pub first: u32,
    pub number: u32,
}

/// A record's row.
#[derive(Debug, Clone, Copy, PartialEq, Eq)]
pub struct Record {
    pub size: u32,
    pub nlocals: u32,
    pub nregs: u32,
    /// The number of children.
    pub rlen: u32,
    /// The number of handlers.
    pub clen: u32,
    /// The number of instruction bytes.
    pub ilen: u32,
    /// Where the instructions stand in the file.
    pub place: u32,
    pub handlers: Span,
    pub constants: Span,
    pub symbols: Span,
    pub names: Span,
    pub files: Span,
    pub lines: Span,
    /// How many records contain it, one in another; 0 too where it is never reached.
    pub depth: u32,
    /// The record that contains it. Record 0 has none, nor has one that is never reached: the numbers of children end before it.
    pub parent: Option<u32>,
}

impl Record {
    fn of(row: &[u32]) -> Record {
        let span = |at: usize| Span {
            first: row[at],
            number: row[at + 1],
        };
        Record {
            size: row[0],
            nlocals: row[1],
            nregs: row[2],
            rlen: row[3],
            clen: row[4],
            ilen: row[5],
            place: row[6],
            handlers: span(7),
            constants: span(9),
            symbols: span(11),
            names: span(13),
            files: span(15),
            lines: span(17),
            depth: row[19],
            parent: (row[20] != NO_PARENT).then_some(row[20]),
        }
    }
}

/// Bytes of the file and where they stand.
#[derive(Debug, Clone, Copy, PartialEq, Eq)]
pub struct Text<'a> {
    pub place: u32,
    pub bytes: &'a [u8],
}

/// A constant's value.
#[derive(Debug, Clone, Copy, PartialEq)]
pub enum Constant<'a> {
    Text(Text<'a>),
    Int(i64),
    Float(f64),
    /// The base and the digits, as the file has them.
    Big(Text<'a>),
}

/// A handler's fields.
#[derive(Debug, Clone, Copy, PartialEq, Eq)]
pub struct Handler {
    pub kind: u32,
    pub begin: u32,
    pub end: u32,
    pub target: u32,
}

/// A debug file of a record.
#[derive(Debug, Clone, Copy, PartialEq, Eq)]
pub struct DebugFile<'a> {
    pub start: u32,
    pub name: Text<'a>,
    /// Its rows of the line table.
    pub lines: Span,
}

/// A line and the position from which on it holds.
#[derive(Debug, Clone, Copy, PartialEq, Eq)]
pub struct Entry {
    pub position: u32,
    pub line: u32,
}

/// Loads a file under the desktop's allowance.
pub fn load(file: &[u8]) -> Result<Pattern<'_>, Refusal> {
    load_within(file, Allowance::DESKTOP)
}

/// Loads a file under an allowance.
pub fn load_within(file: &[u8], allowance: Allowance) -> Result<Pattern<'_>, Refusal> {
    answered(file, |words| ffi::load(file, allowance, words))
}

/// Loads a file under the desktop's allowance and examines it, every opcode being permitted.
pub fn examine(file: &[u8]) -> Result<Pattern<'_>, Refusal> {
    examine_within(file, Allowance::DESKTOP, &Permitted::everything())
}

/// Loads a file under an allowance and examines it for permitted opcodes.
pub fn examine_within<'a>(
    file: &'a [u8],
    allowance: Allowance,
    permitted: &Permitted,
) -> Result<Pattern<'a>, Refusal> {
    answered(file, |words| {
        ffi::examine(file, allowance, permitted.as_bytes(), words)
    })
}

/// Loads a file under the desktop's allowance and examines one record of it by itself, every opcode being permitted.
///
/// Neither the tree of records nor any other record counts: [`examine`] passes a file exactly where the tree is whole and each record passes so. A
/// record that the file does not have is refused by 22.
pub fn examine_record(file: &[u8], record: u32) -> Result<Pattern<'_>, Refusal> {
    examine_record_within(file, Allowance::DESKTOP, &Permitted::everything(), record)
}

/// Loads a file under an allowance and examines one record of it by itself for permitted opcodes, as [`examine_record`] does.
pub fn examine_record_within<'a>(
    file: &'a [u8],
    allowance: Allowance,
    permitted: &Permitted,
    record: u32,
) -> Result<Pattern<'a>, Refusal> {
    answered(file, |words| {
        ffi::examine_record(file, allowance, permitted.as_bytes(), words, record)
    })
}

fn answered(
    file: &[u8],
    call: impl Fn(&mut Words) -> BlotheathLoaded,
) -> Result<Pattern<'_>, Refusal> {
    let (words, loaded) = tables::lend(file, |words| {
        let loaded = call(words);
        (loaded.refusal, loaded)
    });
    Refusal::of(loaded.refusal)?;
    Ok(Pattern::over(file, words, loaded))
}

/// The line of a position in a map of rows of two words, position and line.
pub fn line_at(map: &[u32], position: u32) -> Option<u32> {
    let found = ffi::line_at(map, position);
    (found.found != 0).then_some(found.line)
}

impl<'a> Pattern<'a> {
    /// A pattern over the tables that a load has filled.
    fn over(file: &'a [u8], words: Words, loaded: BlotheathLoaded) -> Pattern<'a> {
        Pattern {
            file,
            words,
            counts: Counts::of(loaded),
        }
    }

    pub fn file(&self) -> &'a [u8] {
        self.file
    }

    pub fn counts(&self) -> Counts {
        self.counts
    }

    /// The words of a row of a table.
    fn row(&self, table: usize, row: u32) -> Option<&[u32]> {
        let words = ROW_WORDS[table];
        let first = (row as usize).checked_mul(words)?;
        self.words[table].get(first..first.checked_add(words)?)
    }

    /// A record's row.
    pub fn record(&self, number: u32) -> Option<Record> {
        if number >= self.counts.records {
            return None;
        }
        Some(Record::of(self.row(RECORDS, number)?))
    }

    /// All records in turn.
    pub fn records(&self) -> impl Iterator<Item = Record> + '_ {
        (0..self.counts.records).filter_map(|number| self.record(number))
    }

    fn text(&self, place: u32, length: u32) -> Result<Text<'a>, Refusal> {
        let end = (place as usize).checked_add(length as usize);
        let bytes = end.and_then(|end| self.file.get(place as usize..end));
        Ok(Text {
            place,
            bytes: bytes.ok_or(Refusal(22))?,
        })
    }

    /// The instruction bytes of a record.
    pub fn instructions(&self, record: u32) -> Result<Text<'a>, Refusal> {
        let found = ffi::instructions(self.file, &self.words, record);
        Refusal::of(found.refusal)?;
        self.text(found.place, found.length)
    }

    /// The instructions of a record in turn.
    pub fn steps(&self, record: u32) -> Result<Steps<'a>, Refusal> {
        Ok(Steps::new(self.instructions(record)?.bytes))
    }

    /// A handler of a record.
    pub fn handler(&self, record: u32, index: u32) -> Result<Handler, Refusal> {
        let found = ffi::handler(&self.words, record, index);
        Refusal::of(found.refusal)?;
        Ok(Handler {
            kind: found.kind,
            begin: found.begin,
            end: found.end,
            target: found.target,
        })
    }

    /// A constant of a record.
    pub fn constant(&self, record: u32, index: u32) -> Result<Constant<'a>, Refusal> {
        let found = ffi::pool(self.file, &self.words, record, index);
        Refusal::of(found.refusal)?;
        match found.kind {
            0 => Ok(Constant::Text(self.text(found.place, found.length)?)),
            1 => Ok(Constant::Int(found.int)),
            2 => Ok(Constant::Float(found.float)),
            3 => Ok(Constant::Big(self.text(found.place, found.length)?)),
            _ => Err(Refusal(22)),
        }
    }

    /// The bytes of a constant in the file, and its kind there.
    pub fn constant_bytes(&self, record: u32, index: u32) -> Result<(u32, Text<'a>), Refusal> {
        let constants = self.record(record).ok_or(Refusal(22))?.constants;
        if index >= constants.number {
            return Err(Refusal(22));
        }
        let row = self.row(POOL, constants.first + index).ok_or(Refusal(22))?;
        Ok((row[0], self.text(row[1], row[2])?))
    }

    /// A symbol of a record.
    pub fn symbol(&self, record: u32, index: u32) -> Result<Text<'a>, Refusal> {
        let found = ffi::symbol(self.file, &self.words, record, index);
        Refusal::of(found.refusal)?;
        self.text(found.place, found.length)
    }

    /// The name of a local; none where it is unnamed.
    pub fn name(&self, record: u32, index: u32) -> Result<Option<Text<'a>>, Refusal> {
        let found = ffi::name(self.file, &self.words, record, index);
        Refusal::of(found.refusal)?;
        match found.named {
            0 => Ok(None),
            _ => Ok(Some(self.text(found.place, found.length)?)),
        }
    }

    /// A debug file of a record.
    pub fn debug_file(&self, record: u32, index: u32) -> Result<DebugFile<'a>, Refusal> {
        let found = ffi::debug_file(self.file, &self.words, record, index);
        Refusal::of(found.refusal)?;
        Ok(DebugFile {
            start: found.start,
            name: self.text(found.place, found.length)?,
            lines: Span {
                first: found.first,
                number: found.number,
            },
        })
    }

    /// The line of an offset in a record.
    pub fn line(&self, record: u32, offset: u32) -> Result<Option<u32>, Refusal> {
        let found = ffi::line(&self.words, record, offset);
        Refusal::of(found.refusal)?;
        Ok((found.found != 0).then_some(found.line))
    }

    /// A row of the line table.
    pub fn entry(&self, row: u32) -> Option<Entry> {
        if row >= self.counts.lines {
            return None;
        }
        let row = self.row(LINES, row)?;
        Some(Entry {
            position: row[0],
            line: row[1],
        })
    }

    /// A text of the LVAR section.
    pub fn string(&self, row: u32) -> Option<Text<'a>> {
        self.text_row(STRINGS, row, self.counts.strings)
    }

    /// A file name of the debug section.
    pub fn file_name(&self, row: u32) -> Option<Text<'a>> {
        self.text_row(FILENAMES, row, self.counts.file_names)
    }

    fn text_row(&self, table: usize, row: u32, used: u32) -> Option<Text<'a>> {
        if row >= used {
            return None;
        }
        let row = self.row(table, row)?;
        self.text(row[0], row[1]).ok()
    }

    /// The debug files of a record that have lines, in the order of their lines.
    pub fn sources(&self, record: u32) -> Sources<'a> {
        let row = self.record(record);
        let files = row.map_or(0, |row| row.files.number);
        Sources {
            map: row.map_or(Span::default(), |row| row.lines),
            files: (0..files)
                .filter_map(|index| self.debug_file(record, index).ok())
                .filter(|file| file.lines.number > 0)
                .collect(),
        }
    }
}

/// The debug files of a record, to be asked which of them a line comes from.
#[derive(Debug, Clone)]
pub struct Sources<'a> {
    map: Span,
    files: Vec<DebugFile<'a>>,
}

impl<'a> Sources<'a> {
    /// The file that the line of an offset comes from, where positions never fall.
    pub fn at(&self, pattern: &Pattern<'a>, offset: u32) -> Option<&DebugFile<'a>> {
        let (mut low, mut high) = (0, self.map.number);
        while low < high {
            let middle = low + (high - low) / 2;
            if pattern.entry(self.map.first + middle)?.position <= offset {
                low = middle + 1;
            } else {
                high = middle;
            }
        }
        let entry = self.map.first + low.checked_sub(1)?;
        let behind = self.files.partition_point(|file| file.lines.first <= entry);
        self.files.get(behind.checked_sub(1)?)
    }
}
