//! Where a refusal of loading lies: a reading of the file's bytes, forward as the papers say.

use super::{Met, Place};
use crate::allowance::Allowance;
use crate::hint::looks_like;
use crate::tables::{
    self, FILENAMES, FILES, HANDLERS, LINES, NAMES, POOL, RECORD_LIMIT, RECORDS, STRINGS, SYMBOLS,
};
use crate::{FILE_LIMIT, IDENT};
use std::fmt::Arguments;
use std::ops::Range;

/// The bytes of the file's header, and of the shortest file.
const HEADER_BYTES: usize = 20;
const FEWEST_BYTES: usize = 32;

/// The header's fields: the version, of which the first two bytes are the major one, and the file's size.
const MAJOR: Range<usize> = 4..6;
const VERSION: Range<usize> = 4..8;
const SIZE: Range<usize> = 8..12;

/// What a place in the header names as its section.
const HEADER: Option<&str> = Some("header");

/// A name index that stands for no name.
const UNNAMED: u32 = 65_535;

/// The first refusal that reading meets under an allowance, and where.
pub fn search(file: &[u8], allowance: Allowance) -> Option<Met> {
    let length = file.len().min(FILE_LIMIT);
    let mut reader = Reader {
        file,
        allowance: allowance.granted(),
        lent: tables::most_rows(length),
        used: [0; 9],
        heads: Vec::new(),
        begun: Vec::new(),
    };
    reader.read().err()
}

/// What is kept of a record for the names and lines.
struct Head {
    start: usize,
    nlocals: u32,
    rlen: u32,
}

struct Reader<'a> {
    file: &'a [u8],
    allowance: Allowance,
    /// The rows that are lent of each table, and those that are used.
    lent: [usize; 9],
    used: [usize; 9],
    heads: Vec<Head>,
    /// The sections that have begun and come once.
    begun: Vec<&'static str>,
}

/// A part of the file, read forward; no read passes its end.
struct Part<'a> {
    file: &'a [u8],
    section: &'static str,
    record: Option<u32>,
    place: usize,
    end: usize,
}

/// A refusal at a byte of a section, or of none.
fn met(number: u32, section: Option<&'static str>, byte: usize, what: String) -> Met {
    let place = Place {
        section,
        byte: Some(byte as u32),
        record: None,
        offset: None,
        line: None,
        what,
    };
    (number, place)
}

impl<'a> Part<'a> {
    fn met(&self, number: u32, byte: usize, what: String) -> Met {
        let (number, place) = met(number, Some(self.section), byte, what);
        let record = self.record;
        (number, Place { record, ..place })
    }

    /// The next bytes, which this thing takes.
    fn bytes(&mut self, number: usize, thing: Arguments) -> Result<&'a [u8], Met> {
        let left = self.end.saturating_sub(self.place);
        if number > left {
            let what = format!("{thing} needs {number} bytes here, and {left} are left");
            return Err(self.met(7, self.place, what));
        }
        let bytes = &self.file[self.place..self.place + number];
        self.place += number;
        Ok(bytes)
    }

    fn one(&mut self, thing: Arguments) -> Result<u32, Met> {
        Ok(u32::from(self.bytes(1, thing)?[0]))
    }

    fn two(&mut self, thing: Arguments) -> Result<u32, Met> {
        Ok(high_first(self.bytes(2, thing)?))
    }

    fn four(&mut self, thing: Arguments) -> Result<u32, Met> {
        Ok(high_first(self.bytes(4, thing)?))
    }

    /// A packed number: low 7 bits first, at most five bytes; bits above 31 drop.
    fn packed(&mut self, thing: Arguments) -> Result<u32, Met> {
        let mut number = 0;
        for shift in [0, 7, 14, 21, 28] {
            let byte = self.one(thing)?;
            number |= (byte & 127) << shift;
            if byte < 128 {
                return Ok(number);
            }
        }
        let what = format!("{thing} goes on behind its fifth byte");
        Err(self.met(12, self.place - 1, what))
    }

    /// Where a text begins, and its bytes, with so many more behind it.
    fn sized(&mut self, behind: usize, thing: Arguments) -> Result<(usize, &'a [u8]), Met> {
        let length = self.two(thing)? as usize;
        let start = self.place;
        Ok((start, self.bytes(length + behind, thing)?))
    }

    /// A text that a zero byte ends; zero bytes inside are part of it.
    fn pool_text(&mut self, thing: Arguments) -> Result<(), Met> {
        let (_, bytes) = self.sized(1, thing)?;
        self.ended(bytes, thing)
    }

    /// A text that a zero byte ends, without any inside.
    fn ended_text(&mut self, thing: Arguments) -> Result<(), Met> {
        let (start, bytes) = self.sized(1, thing)?;
        self.without_zero(start, &bytes[..bytes.len() - 1], thing)?;
        self.ended(bytes, thing)
    }

    /// A text without any zero byte.
    fn text(&mut self, thing: Arguments) -> Result<(), Met> {
        let (start, bytes) = self.sized(0, thing)?;
        self.without_zero(start, bytes, thing)
    }

    /// Refuses the bytes before this place where the last one is not zero.
    fn ended(&self, bytes: &[u8], thing: Arguments) -> Result<(), Met> {
        if bytes.ends_with(&[0]) {
            return Ok(());
        }
        let what = format!("{thing} does not end with a zero byte");
        Err(self.met(9, self.place - 1, what))
    }

    /// Refuses the bytes from a place on where one is zero.
    fn without_zero(&self, start: usize, bytes: &[u8], thing: Arguments) -> Result<(), Met> {
        let Some(zero) = bytes.iter().position(|byte| *byte == 0) else {
            return Ok(());
        };
        let what = format!("{thing} has a zero byte inside");
        Err(self.met(9, start + zero, what))
    }
}

/// The number of at most four bytes, high byte first.
fn high_first(bytes: &[u8]) -> u32 {
    bytes.iter().fold(0, |n, byte| n << 8 | u32::from(*byte))
}

impl<'a> Reader<'a> {
    fn read(&mut self) -> Result<(), Met> {
        self.read_header()?;
        let mut start = HEADER_BYTES;
        // Fewer than 4 bytes behind the last section are ignored.
        while self.file.len() - start >= 4 {
            start += self.read_section(start)?;
        }
        Ok(())
    }

    fn read_header(&self) -> Result<(), Met> {
        let length = self.file.len();
        if length > FILE_LIMIT {
            let what = "the file goes on behind its 65,536th byte".to_owned();
            return Err(met(1, None, FILE_LIMIT, self.hinted(what)));
        }
        let allowed = self.allowance.bytes as usize;
        if length > allowed {
            let what = "the file goes on behind its last allowed byte".to_owned();
            return Err(met(29, None, allowed, self.hinted(what)));
        }
        let ends = || format!("the file ends here, after {length} bytes");
        if length < HEADER_BYTES {
            return Err(met(2, HEADER, length, self.hinted(ends())));
        }
        self.read_ident()?;
        self.read_size()?;
        if self.file[MAJOR] != *b"04" {
            return Err(met(3, HEADER, MAJOR.start, self.version()));
        }
        if length < FEWEST_BYTES {
            return Err(met(4, None, length, ends()));
        }
        Ok(())
    }

    fn read_ident(&self) -> Result<(), Met> {
        let mut pairs = IDENT.iter().zip(self.file);
        let Some(byte) = pairs.position(|(one, other)| one != other) else {
            return Ok(());
        };
        let begins = self.file[..IDENT.len()].escape_ascii();
        let what = format!("the file begins with \"{begins}\"");
        Err(met(27, HEADER, byte, self.hinted(what)))
    }

    fn read_size(&self) -> Result<(), Met> {
        let length = self.file.len();
        let size = high_first(&self.file[SIZE]) as usize;
        if size > length {
            let what = format!("the header states {size} bytes, and the file has {length}");
            return Err(met(28, HEADER, SIZE.start, what));
        }
        Ok(())
    }

    /// What stands at a place of a file that may be no pattern, and what the file looks like.
    fn hinted(&self, what: String) -> String {
        match looks_like(self.file) {
            Some(like) => format!("{what}; it looks like {like}"),
            None => what,
        }
    }

    /// The version that the header states.
    fn version(&self) -> String {
        let release = match &self.file[MAJOR] {
            b"03" => ", mruby 3.x",
            _ => "",
        };
        let digits = &self.file[VERSION];
        let version = match digits.iter().all(u8::is_ascii_digit) {
            true => digits.escape_ascii().to_string(),
            false => format!("\"{}\"", digits.escape_ascii()),
        };
        format!("the version is {version}{release}")
    }

    /// Reads the section that begins at a place, and answers its size.
    fn read_section(&mut self, start: usize) -> Result<usize, Met> {
        let mark = &self.file[start..start + 4];
        match mark {
            b"IREP" => {
                self.begin("IREP", start)?;
                self.read_irep(start)
            }
            b"LVAR" => {
                self.begin("LVAR", start)?;
                self.read_lvar(start)
            }
            b"DBG\0" => {
                self.begin("DBG", start)?;
                self.read_dbg(start)
            }
            b"END\0" => {
                let (part, size) = self.part("END", start)?;
                self.size_in_file(&part, start, size)?;
                self.size_above_0(&part, start, size)?;
                Ok(size)
            }
            _ => {
                let what = format!("the mark is \"{}\"", mark.escape_ascii());
                Err(met(5, None, start, what))
            }
        }
    }

    /// Refuses a section that comes twice, or before the records.
    fn begin(&mut self, section: &'static str, start: usize) -> Result<(), Met> {
        let what = if self.begun.contains(&section) {
            format!("a second section {section}")
        } else if section != "IREP" && !self.begun.contains(&"IREP") {
            format!("{section} comes before IREP")
        } else {
            self.begun.push(section);
            return Ok(());
        };
        Err(met(6, Some(section), start, what))
    }

    /// The part behind a section's mark and size, and the size.
    fn part(&self, section: &'static str, start: usize) -> Result<(Part<'a>, usize), Met> {
        let mut part = Part {
            file: self.file,
            section,
            record: None,
            place: start + 4,
            end: self.file.len(),
        };
        let size = part.four(format_args!("the section's size"))?;
        Ok((part, size as usize))
    }

    fn size_in_file(&self, part: &Part, start: usize, size: usize) -> Result<(), Met> {
        let left = self.file.len() - start;
        if size > left {
            let what =
                format!("the section's size is {size}, and {left} bytes are left from its mark on");
            return Err(part.met(7, start + 4, what));
        }
        Ok(())
    }

    fn size_above_0(&self, part: &Part, start: usize, size: usize) -> Result<(), Met> {
        if size == 0 {
            let what = "the section's size is 0".to_owned();
            return Err(part.met(8, start + 4, what));
        }
        Ok(())
    }

    /// Takes a row of a table for what begins at a byte.
    fn need(&mut self, table: usize, part: &Part, byte: usize) -> Result<(), Met> {
        if self.used[table] < self.lent[table] {
            self.used[table] += 1;
            return Ok(());
        }
        let what = match table {
            RECORDS => format!("a record begins here, and {RECORD_LIMIT} came before it"),
            _ => format!("a row is needed here, and {} are used", self.used[table]),
        };
        Err(part.met(14, byte, what))
    }

    /// Takes a row for the record that begins at a byte, where the allowance has it too.
    fn need_record(&mut self, part: &Part, byte: usize) -> Result<(), Met> {
        self.need(RECORDS, part, byte)?;
        let allowed = self.allowance.records as usize;
        if self.used[RECORDS] > allowed {
            let what = format!("a record begins here, and {allowed} are allowed");
            return Err(part.met(29, byte, what));
        }
        Ok(())
    }

    fn read_irep(&mut self, start: usize) -> Result<usize, Met> {
        let (mut part, size) = self.part("IREP", start)?;
        part.bytes(4, format_args!("the section's header"))?;
        self.size_in_file(&part, start, size)?;
        let mut place = 12;
        while place < size {
            place += self.read_record(start + place)?;
        }
        self.size_above_0(&part, start, size)?;
        Ok(size)
    }

    /// Reads a record and answers its stated size.
    fn read_record(&mut self, start: usize) -> Result<usize, Met> {
        let mut part = Part {
            file: self.file,
            section: "IREP",
            record: Some(self.heads.len() as u32),
            place: start,
            end: self.file.len(),
        };
        let header = part.bytes(16, format_args!("the record's header"))?;
        self.need_record(&part, start)?;
        self.heads.push(Head {
            start,
            nlocals: high_first(&header[4..6]),
            rlen: high_first(&header[8..10]),
        });
        let (clen, ilen) = (high_first(&header[10..12]), high_first(&header[12..16]));
        part.bytes(ilen as usize, format_args!("the record's code"))?;
        for index in 0..clen {
            let byte = part.place;
            part.bytes(13, format_args!("handler {index}"))?;
            self.need(HANDLERS, &part, byte)?;
        }
        for index in 0..part.two(format_args!("the number of constants"))? {
            let byte = part.place;
            read_constant(&mut part, index)?;
            self.need(POOL, &part, byte)?;
        }
        for index in 0..part.two(format_args!("the number of symbols"))? {
            let byte = part.place;
            part.ended_text(format_args!("symbol {index}"))?;
            self.need(SYMBOLS, &part, byte)?;
        }
        match high_first(&header[..4]) as usize {
            0 => Err(part.met(8, start, "the record's size is 0".to_owned())),
            size => Ok(size),
        }
    }

    /// Visits the records from record 0, each before its children, while the visits read something.
    fn walk(
        &mut self,
        mut visit: impl FnMut(&mut Self, usize) -> Result<bool, Met>,
    ) -> Result<(), Met> {
        let mut pending = 1u64;
        for number in 0..self.heads.len() {
            if pending == 0 || !visit(self, number)? {
                break;
            }
            pending += u64::from(self.heads[number].rlen);
            pending -= 1;
        }
        Ok(())
    }

    /// Reads so many texts without zero bytes, each for a row of a table.
    fn read_texts(
        &mut self,
        part: &mut Part,
        count: u32,
        table: usize,
        thing: &str,
    ) -> Result<(), Met> {
        for index in 0..count {
            let byte = part.place;
            part.text(format_args!("{thing} {index}"))?;
            self.need(table, part, byte)?;
        }
        Ok(())
    }

    fn read_lvar(&mut self, start: usize) -> Result<usize, Met> {
        let (mut part, size) = self.part("LVAR", start)?;
        let count = part.four(format_args!("the number of names"))?;
        self.read_texts(&mut part, count, STRINGS, "name")?;
        self.walk(|reader, number| {
            part.record = Some(number as u32);
            reader.read_names(&mut part, number, count)?;
            Ok(true)
        })?;
        part.record = None;
        self.size_in_file(&part, start, size)?;
        self.size_above_0(&part, start, size)?;
        Ok(size)
    }

    /// Reads the names of a record's locals.
    fn read_names(&mut self, part: &mut Part, number: usize, count: u32) -> Result<(), Met> {
        let head = &self.heads[number];
        let Some(names) = head.nlocals.checked_sub(1) else {
            let what = "the record's number of locals is 0".to_owned();
            let (number, place) = part.met(11, head.start + 4, what);
            let section = Some("IREP");
            return Err((number, Place { section, ..place }));
        };
        for local in 1..=names {
            let byte = part.place;
            let index = part.two(format_args!("the name of local {local}"))?;
            if index != UNNAMED && index >= count {
                let what = format!("local {local} has name {index}, and there are {count}");
                return Err(part.met(11, byte, what));
            }
            self.need(NAMES, part, byte)?;
        }
        Ok(())
    }

    fn read_dbg(&mut self, start: usize) -> Result<usize, Met> {
        let (mut part, size) = self.part("DBG", start)?;
        self.size_in_file(&part, start, size)?;
        part.end = start + size;
        let count = part.two(format_args!("the number of file names"))?;
        self.read_texts(&mut part, count, FILENAMES, "file name")?;
        self.walk(|reader, number| {
            if part.place == part.end {
                return Ok(false);
            }
            part.record = Some(number as u32);
            reader.read_debug_record(&mut part, count)?;
            Ok(true)
        })?;
        Ok(size)
    }

    fn read_debug_record(&mut self, part: &mut Part, names: u32) -> Result<(), Met> {
        let begin = part.place;
        let size = part.four(format_args!("the debug record's size"))? as usize;
        let count = part.two(format_args!("the number of debug files"))?;
        let mut previous = None;
        for index in 0..count {
            previous = Some(self.read_debug_file(part, index, previous, names)?);
        }
        let read = part.place - begin;
        if read != size {
            let what = format!("the debug record's size is {size}, and it has {read} bytes");
            return Err(part.met(12, begin, what));
        }
        Ok(())
    }

    /// Reads a debug file and answers its start.
    fn read_debug_file(
        &mut self,
        part: &mut Part,
        index: u32,
        previous: Option<u32>,
        names: u32,
    ) -> Result<u32, Met> {
        let begin = part.place;
        let start = part.four(format_args!("the start of debug file {index}"))?;
        if let Some(previous) = previous.filter(|previous| start <= *previous) {
            let what = format!("debug file {index} starts at {start}, behind one at {previous}");
            return Err(part.met(12, begin, what));
        }
        let byte = part.place;
        let name = part.two(format_args!("the name of debug file {index}"))?;
        if name >= names {
            let what = format!("debug file {index} has name {name}, and there are {names}");
            return Err(part.met(12, byte, what));
        }
        let count = part.four(format_args!("the length of debug file {index}"))?;
        let byte = part.place;
        let kind = part.one(format_args!("the kind of debug file {index}"))?;
        if kind > 2 {
            let what = format!("debug file {index} is of kind {kind}");
            return Err(part.met(12, byte, what));
        }
        self.need(FILES, part, begin)?;
        match kind {
            0 => self.read_line_array(part, start, count)?,
            1 => self.read_pairs(part, count)?,
            _ => self.read_packed_pairs(part, count)?,
        }
        Ok(start)
    }

    /// Takes a row for a line; one that is the line before it needs none.
    fn need_line(
        &mut self,
        part: &Part,
        byte: usize,
        line: u32,
        previous: &mut Option<u32>,
    ) -> Result<(), Met> {
        match previous.replace(line) == Some(line) {
            true => Ok(()),
            false => self.need(LINES, part, byte),
        }
    }

    fn read_line_array(&mut self, part: &mut Part, start: u32, count: u32) -> Result<(), Met> {
        let mut previous = None;
        for index in 0..count {
            let byte = part.place;
            let line = part.two(format_args!("line entry {index}"))?;
            if start.checked_add(index).is_none() {
                let what = format!("line entry {index} of a debug file that starts at {start}");
                return Err(part.met(13, byte, what));
            }
            self.need_line(part, byte, line, &mut previous)?;
        }
        Ok(())
    }

    fn read_pairs(&mut self, part: &mut Part, count: u32) -> Result<(), Met> {
        let mut previous = None;
        for index in 0..count {
            let byte = part.place;
            part.four(format_args!("the position of line entry {index}"))?;
            let line = part.two(format_args!("line entry {index}"))?;
            self.need_line(part, byte, line, &mut previous)?;
        }
        Ok(())
    }

    fn read_packed_pairs(&mut self, part: &mut Part, count: u32) -> Result<(), Met> {
        let end = part.place + count as usize;
        let mut previous = None;
        let mut line = 0u32;
        while part.place < end {
            let byte = part.place;
            part.packed(format_args!("the position of a line entry"))?;
            line = line.wrapping_add(part.packed(format_args!("the line of a line entry"))?);
            self.need_line(part, byte, line, &mut previous)?;
        }
        Ok(())
    }
}

/// Reads a constant: 0 and 2 text, 1 and 3 whole numbers, 5 a float, 7 a big integer.
fn read_constant(part: &mut Part, index: u32) -> Result<(), Met> {
    let thing = format_args!("constant {index}");
    let byte = part.place;
    let kind = part.one(thing)?;
    let length = match kind {
        0 | 2 => return part.pool_text(thing),
        1 => 4,
        3 | 5 => 8,
        7 => part.one(thing)? as usize + 1,
        _ => {
            let what = format!("constant {index} is of kind {kind}");
            return Err(part.met(10, byte, what));
        }
    };
    part.bytes(length, thing)?;
    Ok(())
}
