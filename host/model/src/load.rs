//! Forward reading of a file: header, sections, records, names, debug records.

use crate::allowance::Allowance;
use crate::line::packed;
use crate::rows::{
    DebugFile, Entry, Handler, Loaded, Name, PoolRow, Record, Rows, Sizes, Span, Text,
};
use crate::{FILE_LIMIT, HEADER, NO_PARENT, Refusal, UNNAMED};

/// What was read, and how the reading ended.
#[derive(Debug, Clone, PartialEq, Eq)]
pub struct Reading {
    /// The rows that were needed up to the end, also where it is a refusal.
    pub rows: Rows,
    pub end: Result<(), Refusal>,
}

/// Loads a file under an allowance over lent tables.
pub fn load(file: &[u8], allowance: Allowance, lent: &Sizes) -> Loaded {
    let reading = read(file, allowance, lent.rows());
    match reading.end {
        Ok(()) => reading.rows.loaded(lent),
        Err(number) => Loaded::refused(number, lent),
    }
}

/// Reads a file under an allowance with so many rows lent of each table.
pub fn read(file: &[u8], allowance: Allowance, lent: [usize; 9]) -> Reading {
    let mut rows = Rows::lent(lent);
    let end = read_file(file, allowance.granted(), &mut rows);
    if end.is_ok() {
        place_in_tree(0, 0, NO_PARENT, &mut rows.records.rows);
    }
    Reading { rows, end }
}

/// A part of the file, read forward; no read passes its end.
struct Part<'a> {
    file: &'a [u8],
    place: usize,
    end: usize,
}

impl<'a> Part<'a> {
    /// The part from a place to the file's end.
    fn from(file: &'a [u8], place: usize) -> Part<'a> {
        Part {
            file,
            place,
            end: file.len(),
        }
    }

    /// The next bytes; "7: a read .. passes the file's end, or the section's in DBG".
    fn bytes(&mut self, number: usize) -> Result<&'a [u8], Refusal> {
        if self.place + number > self.end {
            return Err(7);
        }
        let bytes = &self.file[self.place..self.place + number];
        self.place += number;
        Ok(bytes)
    }

    fn one(&mut self) -> Result<u32, Refusal> {
        Ok(u32::from(self.bytes(1)?[0]))
    }

    /// "integers high byte first unless said"
    fn two(&mut self) -> Result<u32, Refusal> {
        Ok(high_first(self.bytes(2)?))
    }

    fn four(&mut self) -> Result<u32, Refusal> {
        Ok(high_first(self.bytes(4)?))
    }

    fn packed(&mut self) -> Result<u32, Refusal> {
        let number = packed(&self.file[self.place..self.end])?;
        self.place += number.bytes;
        Ok(number.value)
    }
}

/// The number of at most four bytes, high byte first.
fn high_first(bytes: &[u8]) -> u32 {
    bytes.iter().fold(0, |n, b| n * 256 + u32::from(*b))
}

/// "1 to 4 are tested in order", and between them three numbers of paper 02.
fn header_is_good(file: &[u8], bytes_allowed: u32) -> Result<(), Refusal> {
    if file.len() > FILE_LIMIT {
        return Err(1);
    }
    // "29 when the file .. is beyond the caller's allowance but within the desktop's, at 1's place".
    if file.len() > bytes_allowed as usize {
        return Err(29);
    }
    if file.len() < HEADER {
        return Err(2);
    }
    // "27 when the first four bytes are not ASCII RITE, after 2."
    if file[..4] != *b"RITE" {
        return Err(27);
    }
    // "28 when the header's size exceeds the file's length, after 27."
    if high_first(&file[8..12]) as usize > file.len() {
        return Err(28);
    }
    // "3: major is not ASCII 04"
    if file[4..6] != *b"04" {
        return Err(3);
    }
    if file.len() < 32 {
        return Err(4);
    }
    Ok(())
}

/// Which sections have begun.
#[derive(Default)]
struct Begun {
    irep: bool,
    lvar: bool,
    dbg: bool,
}

fn read_file(file: &[u8], allowance: Allowance, rows: &mut Rows) -> Result<(), Refusal> {
    header_is_good(file, allowance.bytes)?;
    let mut begun = Begun::default();
    let mut start = HEADER;
    // "Sections follow until fewer than 4 bytes are left; those are ignored."
    while file.len() - start >= 4 {
        let size = match &file[start..start + 4] {
            b"IREP" => {
                if begun.irep {
                    return Err(6);
                }
                begun.irep = true;
                read_irep(file, start, allowance.records, rows)?
            }
            b"LVAR" => {
                if begun.lvar || !begun.irep {
                    return Err(6);
                }
                begun.lvar = true;
                read_lvar(file, start, rows)?
            }
            b"DBG\0" => {
                if begun.dbg || !begun.irep {
                    return Err(6);
                }
                begun.dbg = true;
                read_dbg(file, start, rows)?
            }
            b"END\0" => read_end(file, start)?,
            _ => return Err(5),
        };
        // "the next begins size bytes after this one's start"
        start += size;
    }
    Ok(())
}

/// "a .. section size passes the file's end"
fn size_is_in_file(file: &[u8], start: usize, size: usize) -> Result<(), Refusal> {
    if start + size > file.len() {
        return Err(7);
    }
    Ok(())
}

/// "8: after its content, an IREP, LVAR or END section or a record has size 0."
fn size_is_not_0(size: usize) -> Result<(), Refusal> {
    if size == 0 {
        return Err(8);
    }
    Ok(())
}

/// Reads an IREP section and answers its size.
fn read_irep(
    file: &[u8],
    start: usize,
    records_allowed: u32,
    rows: &mut Rows,
) -> Result<usize, Refusal> {
    let mut part = Part::from(file, start);
    part.bytes(4)?;
    let size = part.four()? as usize;
    // "IREP has 4 more header bytes; its size is tested against the file before its records"
    part.bytes(4)?;
    size_is_in_file(file, start, size)?;
    // "its records, which follow until the place reaches the section size"
    let mut place = 12;
    while place < size {
        let stated = read_record(file, start + place, records_allowed, rows)?;
        // "The next record starts at this start plus the stated size, wherever reading ended"
        place += stated;
    }
    size_is_not_0(size)?;
    Ok(size)
}

/// Reads a record and answers its stated size.
fn read_record(
    file: &[u8],
    start: usize,
    records_allowed: u32,
    rows: &mut Rows,
) -> Result<usize, Refusal> {
    // "reads may pass the section but not the file"
    let mut part = Part::from(file, start);
    let header = part.bytes(16)?;
    let mut record = Record {
        size: high_first(&header[0..4]),
        nlocals: high_first(&header[4..6]),
        nregs: high_first(&header[6..8]),
        rlen: high_first(&header[8..10]),
        clen: high_first(&header[10..12]),
        ilen: high_first(&header[12..16]),
        place: part.place as u32,
        handlers: Span::default(),
        pool: Span::default(),
        symbols: Span::default(),
        names: Span::default(),
        files: Span::default(),
        lines: Span::default(),
        // "records that the walk never reaches have parent 65535 and depth 0"
        depth: 0,
        parent: NO_PARENT,
    };
    // "A record's row is needed once its 16 bytes are read"; "where the lent table is too short as well, 14".
    let number = rows.records.rows.len();
    rows.records.has_place()?;
    // "29 when .. its record number is beyond the caller's allowance .., at .. 14's [place] for records".
    if number + 1 > records_allowed as usize {
        return Err(29);
    }
    rows.records.need(record)?;
    part.bytes(record.ilen as usize)?;

    let first = rows.handlers.rows.len();
    for _ in 0..record.clen {
        let bytes = part.bytes(13)?;
        rows.handlers.need(Handler {
            kind: u32::from(bytes[0]),
            begin: high_first(&bytes[1..5]),
            end: high_first(&bytes[5..9]),
            target: high_first(&bytes[9..13]),
        })?;
    }
    record.handlers = Span::between(first, rows.handlers.rows.len());

    let first = rows.pool.rows.len();
    for _ in 0..part.two()? {
        let row = read_constant(&mut part)?;
        rows.pool.need(row)?;
    }
    record.pool = Span::between(first, rows.pool.rows.len());

    let first = rows.symbols.rows.len();
    for _ in 0..part.two()? {
        let text = read_symbol(&mut part)?;
        rows.symbols.need(text)?;
    }
    record.symbols = Span::between(first, rows.symbols.rows.len());

    rows.records.rows[number] = record;
    size_is_not_0(record.size as usize)?;
    Ok(record.size as usize)
}

/// "Pool kinds: 0 and 2 string, 1 int32, 3 int64 .., 5 float64 .., 7 big integer".
fn read_constant(part: &mut Part) -> Result<PoolRow, Refusal> {
    let kind = part.one()?;
    let value = match kind {
        0 | 2 => read_ended_text(part)?,
        1 => read_value(part, 4)?,
        3 | 5 => read_value(part, 8)?,
        // "length n in 1 byte, then n + 1 bytes"
        7 => {
            let n = part.one()?;
            read_value(part, n + 1)?
        }
        _ => return Err(10),
    };
    Ok(PoolRow {
        kind,
        place: value.place,
        length: value.length,
    })
}

/// The next bytes of the part as a place and a length.
fn read_value(part: &mut Part, length: u32) -> Result<Text, Refusal> {
    let place = part.place as u32;
    part.bytes(length as usize)?;
    Ok(Text { place, length })
}

/// A length of 2 bytes and so many bytes.
fn read_counted(part: &mut Part) -> Result<Text, Refusal> {
    let length = part.two()?;
    read_value(part, length)
}

/// "Pool strings may have zero bytes inside; the last byte must still be zero."
fn read_ended_text(part: &mut Part) -> Result<Text, Refusal> {
    let text = read_counted(part)?;
    if part.one()? != 0 {
        return Err(9);
    }
    Ok(text)
}

/// "Symbols .. keep their rule": "a 2-byte length n, then n + 1 bytes whose only zero is the last".
fn read_symbol(part: &mut Part) -> Result<Text, Refusal> {
    let text = read_ended_text(part)?;
    has_no_zero(part, text)?;
    Ok(text)
}

/// "local names and file names keep their rule": "strings (length 2, bytes without any zero)".
fn read_text(part: &mut Part) -> Result<Text, Refusal> {
    let text = read_counted(part)?;
    has_no_zero(part, text)?;
    Ok(text)
}

/// "9: a string breaks its zero rule"
fn has_no_zero(part: &Part, text: Text) -> Result<(), Refusal> {
    let bytes = &part.file[text.place as usize..][..text.length as usize];
    if bytes.contains(&0) {
        return Err(9);
    }
    Ok(())
}

/// Reads an END section, which has no content, and answers its size.
fn read_end(file: &[u8], start: usize) -> Result<usize, Refusal> {
    let mut part = Part::from(file, start);
    part.bytes(4)?;
    let size = part.four()? as usize;
    size_is_in_file(file, start, size)?;
    size_is_not_0(size)?;
    Ok(size)
}

/// Visits a record and then its children in turn, one visit at a time, and counts the visits; answers the record that comes next.
fn walk(
    number: usize,
    rlens: &[u32],
    visits: &mut u64,
    visit: &mut dyn FnMut(usize) -> Result<Visit, Refusal>,
) -> Result<usize, Refusal> {
    // "those past the last record included"
    *visits += 1;
    // "a visit past the last record reads nothing"
    if number >= rlens.len() {
        return Ok(number);
    }
    match visit(number)? {
        Visit::ReadNothing => return Ok(number),
        Visit::Read => {}
    }
    let mut next = number + 1;
    for _ in 0..rlens[number] {
        next = walk(next, rlens, visits, visit)?;
    }
    Ok(next)
}

enum Visit {
    Read,
    ReadNothing,
}

/// Visits a record and then its children in turn, and gives each its depth and its parent; answers the record that comes next.
fn place_in_tree(number: usize, depth: u32, parent: u32, records: &mut [Record]) -> usize {
    // "a visit past the last record reads nothing"
    let Some(record) = records.get_mut(number) else {
        return number;
    };
    (record.depth, record.parent) = (depth, parent);
    let children = record.rlen;
    let mut next = number + 1;
    for _ in 0..children {
        // All visits that are left go past the last record.
        if next == records.len() {
            break;
        }
        next = place_in_tree(next, depth + 1, number as u32, records);
    }
    next
}

fn rlens(rows: &Rows) -> Vec<u32> {
    rows.records.rows.iter().map(|r| r.rlen).collect()
}

/// Reads an LVAR section and answers its size.
fn read_lvar(file: &[u8], start: usize, rows: &mut Rows) -> Result<usize, Refusal> {
    let mut part = Part::from(file, start);
    part.bytes(4)?;
    let size = part.four()? as usize;
    let count = part.four()?;
    for _ in 0..count {
        let text = read_text(&mut part)?;
        rows.strings.need(text)?;
    }
    let mut visits = 0;
    walk(0, &rlens(rows), &mut visits, &mut |number| {
        read_names(&mut part, rows, number, count)?;
        Ok(Visit::Read)
    })?;
    // "The load result carries the number of visits that the LVAR walk made".
    rows.visits = visits;
    // "Size is tested after the content."
    size_is_in_file(file, start, size)?;
    size_is_not_0(size)?;
    Ok(size)
}

/// "A visited record takes nlocals - 1 entries of 2 bytes, each a string index or 65535 for unnamed".
fn read_names(part: &mut Part, rows: &mut Rows, number: usize, count: u32) -> Result<(), Refusal> {
    let nlocals = rows.records.rows[number].nlocals;
    if nlocals == 0 {
        return Err(11);
    }
    let first = rows.names.rows.len();
    for _ in 0..nlocals - 1 {
        let index = part.two()?;
        if index != UNNAMED && index >= count {
            return Err(11);
        }
        rows.names.need(Name { index })?;
    }
    rows.records.rows[number].names = Span::between(first, rows.names.rows.len());
    Ok(())
}

/// Reads a DBG section and answers its size.
fn read_dbg(file: &[u8], start: usize, rows: &mut Rows) -> Result<usize, Refusal> {
    let mut part = Part::from(file, start);
    part.bytes(4)?;
    let size = part.four()? as usize;
    // "DBG is read inside its own size, which is tested first"
    size_is_in_file(file, start, size)?;
    part.end = start + size;
    let count = part.two()?;
    for _ in 0..count {
        let text = read_text(&mut part)?;
        rows.file_names.need(text)?;
    }
    walk(0, &rlens(rows), &mut 0, &mut |number| {
        // "a visit also reads nothing once the section is used up"
        if part.place == part.end {
            return Ok(Visit::ReadNothing);
        }
        read_debug_record(&mut part, rows, number, count)?;
        Ok(Visit::Read)
    })?;
    Ok(size)
}

/// "Debug record: size 4, file count 2, files."
fn read_debug_record(
    part: &mut Part,
    rows: &mut Rows,
    number: usize,
    names: u32,
) -> Result<(), Refusal> {
    let begin = part.place;
    let size = part.four()?;
    let count = part.two()?;
    let first_file = rows.files.rows.len();
    let first_line = rows.lines.rows.len();
    let mut previous = None;
    for _ in 0..count {
        previous = Some(read_debug_file(part, rows, previous, names)?);
    }
    // "a debug record's size other than the bytes read for it"
    if part.place - begin != size as usize {
        return Err(12);
    }
    let record = &mut rows.records.rows[number];
    record.files = Span::between(first_file, rows.files.rows.len());
    // "The record's map joins its files' maps."
    record.lines = Span::between(first_line, rows.lines.rows.len());
    Ok(())
}

/// "File: start 4, name index 2, count 4, kind 1." Answers the start.
fn read_debug_file(
    part: &mut Part,
    rows: &mut Rows,
    previous: Option<u32>,
    names: u32,
) -> Result<u32, Refusal> {
    let start = part.four()?;
    // "a debug start not above the previous file's"
    if previous.is_some_and(|previous| start <= previous) {
        return Err(12);
    }
    let name = part.two()?;
    if name >= names {
        return Err(12);
    }
    let count = part.four()?;
    let kind = part.one()?;
    if kind > 2 {
        return Err(12);
    }
    // "a debug file's [row is needed] once its kind is accepted"
    let number = rows.files.rows.len();
    rows.files.need(DebugFile {
        start,
        name,
        lines: Span::default(),
    })?;
    let first = rows.lines.rows.len();
    let mut map = Map {
        rows,
        previous: None,
    };
    match kind {
        0 => {
            // "count lines of 2 bytes at start, start + 1, and so on"
            for i in 0..u64::from(count) {
                let line = part.two()?;
                let Ok(position) = u32::try_from(u64::from(start) + i) else {
                    return Err(13);
                };
                map.entry(position, line)?;
            }
        }
        1 => {
            // "count pairs of position 4, line 2"
            for _ in 0..count {
                let position = part.four()?;
                let line = part.two()?;
                map.entry(position, line)?;
            }
        }
        _ => {
            // "pairs of packed deltas while the place is below count bytes on"
            let end = part.place + count as usize;
            let mut position: u32 = 0;
            let mut line: u32 = 0;
            while part.place < end {
                // "they start at 0 in each file, and both sums wrap at 32 bits"
                position = position.wrapping_add(part.packed()?);
                line = line.wrapping_add(part.packed()?);
                map.entry(position, line)?;
            }
        }
    }
    let end = rows.lines.rows.len();
    rows.files.rows[number].lines = Span::between(first, end);
    Ok(start)
}

/// The map of one debug file.
struct Map<'a> {
    rows: &'a mut Rows,
    previous: Option<u32>,
}

impl Map<'_> {
    /// "An entry whose line equals that file's previous entry is dropped."
    fn entry(&mut self, position: u32, line: u32) -> Result<(), Refusal> {
        if self.previous == Some(line) {
            return Ok(());
        }
        self.previous = Some(line);
        self.rows.lines.need(Entry { position, line })
    }
}
