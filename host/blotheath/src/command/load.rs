//! `blotheath load`: the rows of a file.

use super::allowance;
use super::input::Input;
use super::json::Json;
use super::nesting;
use super::scope::Scope;
use super::style::Style;
use super::terms::Terms;
use super::text::{self, counted, grouped};
use super::verdict::{self, count_members};
use super::{MOST_SHOWN, Status, input, unusable};
use blotheath::{Constant, Excess, Pattern, Record, Refusal, Text, looks_like};
use std::cell::Cell;
use std::io::{self, Write};
use std::path::Path;

pub fn run(
    out: &mut dyn Write,
    style: Style,
    path: &Path,
    terms: &Terms,
    json: bool,
    all: bool,
) -> io::Result<Status> {
    let name = text::path(path);
    let file = match input::read(path, terms) {
        Ok(file) => file,
        Err(fault) => return Ok(unusable(&name, &fault)),
    };
    let loaded = file.load();
    if json {
        write_json(out, path, &file, &loaded, all)?;
    } else {
        allowance::write(out, style, terms.allowance)?;
        match &loaded {
            Ok(pattern) => {
                let counts = pattern.counts();
                let records = counted(counts.records.into(), "record");
                writeln!(out, "{name}: {}", style.good(&format!("loads: {records}")))?;
                let walk = verdict::name_walk(counts);
                let walk = match counts.name_walk().is_far() {
                    true => style.bad(&walk),
                    false => style.dim(&walk),
                };
                writeln!(out, "  {walk}")?;
                write_tables(out, style, pattern, all)?;
            }
            Err(refusal) => {
                let place = file.locate(Scope::File, None, *refusal);
                let excess = Excess::of_load(&file.bytes, terms.allowance, *refusal);
                let beyond = excess.as_ref().map(allowance::beyond);
                let sentence = verdict::refused(*refusal, place.as_ref(), beyond.as_deref());
                writeln!(out, "{name}: {}", style.bad(&sentence))?;
            }
        }
    }
    Ok(match loaded {
        Ok(_) => Status::Passed,
        Err(_) => Status::Refused,
    })
}

fn write_tables(out: &mut dyn Write, style: Style, pattern: &Pattern, all: bool) -> io::Result<()> {
    let (most, text) = match all {
        true => (u64::MAX, usize::MAX),
        false => (MOST_SHOWN, text::SHORT),
    };
    let cutter = Cutter {
        most: text,
        cut: Cell::new(0),
    };
    let mut tables = Tables {
        out,
        style,
        most,
        cutter: &cutter,
    };
    tables.write(pattern)
}

/// Takes the cells of a row.
type Row<'r> = &'r mut dyn FnMut(Vec<String>) -> io::Result<()>;

/// Takes the cells of a row, and where they are to be written.
type Take<'r> = &'r mut dyn FnMut(&mut dyn Write, Vec<String>) -> io::Result<()>;

/// Shows texts and constants, and counts those that it cuts.
struct Cutter {
    most: usize,
    cut: Cell<u64>,
}

impl Cutter {
    fn count(&self, length: usize) {
        let is_cut = u64::from(length > self.most);
        self.cut.set(self.cut.get() + is_cut);
    }

    fn text(&self, bytes: &[u8]) -> String {
        self.count(bytes.len());
        text::plain(bytes, self.most)
    }

    fn constant(&self, constant: &Constant) -> String {
        match constant {
            Constant::Text(text) => self.count(text.bytes.len()),
            // The first byte is the base.
            Constant::Big(text) => self.count(text.bytes.len().saturating_sub(1)),
            Constant::Int(_) | Constant::Float(_) => {}
        }
        text::constant_up_to(constant, self.most)
    }
}

/// Writes aligned tables.
struct Tables<'w> {
    out: &'w mut dyn Write,
    style: Style,
    most: u64,
    cutter: &'w Cutter,
}

impl Tables<'_> {
    fn write(&mut self, pattern: &Pattern) -> io::Result<()> {
        let counts = pattern.counts();
        let cutter = self.cutter;
        self.table(
            "records",
            counts.records,
            ">record >size >locals >registers >children >handlers >code >at >constants >symbols >names >files >lines >depth >parent",
            &|row| records(pattern, row),
        )?;
        self.table(
            "handlers",
            counts.handlers,
            ">record >handler kind >begin >end >target",
            &|row| handlers(pattern, row),
        )?;
        self.table(
            "constants",
            counts.constants,
            ">record >constant kind >at >length value",
            &|row| constants(pattern, cutter, row),
        )?;
        self.table(
            "symbols",
            counts.symbols,
            ">record >symbol >at >length text",
            &|row| symbols(pattern, cutter, row),
        )?;
        self.table(
            "local names",
            counts.names,
            ">record >register >at name",
            &|row| names(pattern, cutter, row),
        )?;
        self.table(
            "debug files",
            counts.files,
            ">record >file >start >lines name",
            &|row| files(pattern, cutter, row),
        )?;
        self.table("lines", counts.lines, ">record >position >line", &|row| {
            lines(pattern, row)
        })?;
        self.table(
            "strings",
            counts.strings,
            ">string >at >length text",
            &|row| texts(counts.strings, |index| pattern.string(index), cutter, row),
        )?;
        self.table(
            "file names",
            counts.file_names,
            ">file >at >length text",
            &|row| {
                texts(
                    counts.file_names,
                    |index| pattern.file_name(index),
                    cutter,
                    row,
                )
            },
        )
    }

    /// Writes a table; a heading that begins with `>` stands above numbers, which end below it.
    fn table(
        &mut self,
        title: &str,
        number: u32,
        headings: &str,
        rows: &dyn Fn(Row) -> io::Result<()>,
    ) -> io::Result<()> {
        if number == 0 {
            return Ok(());
        }
        let headings: Vec<&str> = headings.split(' ').collect();
        let heads: Vec<String> = headings
            .iter()
            .map(|heading| heading.trim_start_matches('>').replace('_', " "))
            .collect();
        let mut widths: Vec<usize> = heads.iter().map(|head| head.chars().count()).collect();
        self.some(rows, &mut |_, cells| {
            for (width, cell) in widths.iter_mut().zip(&cells) {
                *width = (*width).max(cell.chars().count());
            }
            Ok(())
        })?;
        let style = self.style;
        let title = format!("{title} ({})", grouped(number.into()));
        writeln!(self.out, "\n{}", style.bold(&title))?;
        let line = aligned(&headings, &widths, &heads);
        writeln!(self.out, "{}", style.dim(&line))?;
        self.cutter.cut.set(0);
        self.some(rows, &mut |out, cells| {
            writeln!(out, "{}", aligned(&headings, &widths, &cells))
        })?;
        if u64::from(number) > self.most {
            let left = counted(u64::from(number) - self.most, "more row");
            writeln!(
                self.out,
                "{}",
                style.dim(&format!("  {left}; --all shows them"))
            )?;
        }
        let told = match self.cutter.cut.get() {
            0 => return Ok(()),
            1 => "1 text is cut; --all shows it whole".to_owned(),
            cut => format!("{} texts are cut; --all shows them whole", grouped(cut)),
        };
        writeln!(self.out, "{}", style.dim(&format!("  {told}")))
    }

    /// Hands on the rows that are shown.
    fn some(&mut self, rows: &dyn Fn(Row) -> io::Result<()>, take: Take) -> io::Result<()> {
        let mut left = self.most;
        let (out, enough) = (&mut *self.out, "enough rows");
        let ended = rows(&mut |cells| {
            if left == 0 {
                return Err(io::Error::other(enough));
            }
            left -= 1;
            take(out, cells)
        });
        match ended {
            Err(error) if left == 0 && error.to_string() == enough => Ok(()),
            ended => ended,
        }
    }
}

/// One line of cells below their headings.
pub fn aligned(headings: &[&str], widths: &[usize], cells: &[String]) -> String {
    let mut line = String::new();
    for (place, ((heading, width), cell)) in headings.iter().zip(widths).zip(cells).enumerate() {
        line += "  ";
        match heading.starts_with('>') {
            true => line += &format!("{cell:>width$}"),
            false if place + 1 == headings.len() => line += cell,
            false => line += &format!("{cell:<width$}"),
        }
    }
    line.trim_end().to_owned()
}

/// Cells of numbers.
fn numbers(numbers: &[u32]) -> Vec<String> {
    numbers.iter().map(u32::to_string).collect()
}

/// The records with their numbers.
fn numbered<'p>(pattern: &'p Pattern) -> impl Iterator<Item = (u32, Record)> + 'p {
    (0..).zip(pattern.records())
}

fn records(pattern: &Pattern, row: Row) -> io::Result<()> {
    for (number, record) in numbered(pattern) {
        let mut cells = numbers(&[
            number,
            record.size,
            record.nlocals,
            record.nregs,
            record.rlen,
            record.clen,
            record.ilen,
            record.place,
            record.constants.number,
            record.symbols.number,
            record.names.number,
            record.files.number,
            record.lines.number,
            record.depth,
        ]);
        let parent = record.parent.map(|parent| parent.to_string());
        cells.push(parent.unwrap_or("-".to_owned()));
        row(cells)?;
    }
    Ok(())
}

/// The word for a handler's kind.
pub fn handler_kind(kind: u32) -> String {
    match kind {
        0 => "rescue".to_owned(),
        1 => "ensure".to_owned(),
        kind => format!("kind {kind}"),
    }
}

fn handlers(pattern: &Pattern, row: Row) -> io::Result<()> {
    for (number, record) in numbered(pattern) {
        for index in 0..record.handlers.number {
            let handler = pattern.handler(number, index).map_err(io::Error::other)?;
            let mut cells = numbers(&[number, index]);
            cells.push(handler_kind(handler.kind));
            cells.extend(numbers(&[handler.begin, handler.end, handler.target]));
            row(cells)?;
        }
    }
    Ok(())
}

/// A constant, its kind in the file, and the bytes of its value there.
fn constant<'p>(
    pattern: &Pattern<'p>,
    record: u32,
    index: u32,
) -> io::Result<(Constant<'p>, u32, Text<'p>)> {
    let constant = pattern.constant(record, index).map_err(io::Error::other)?;
    let (kind, bytes) = pattern
        .constant_bytes(record, index)
        .map_err(io::Error::other)?;
    Ok((constant, kind, bytes))
}

fn constants(pattern: &Pattern, cutter: &Cutter, row: Row) -> io::Result<()> {
    for (number, record) in numbered(pattern) {
        for index in 0..record.constants.number {
            let (constant, _, bytes) = constant(pattern, number, index)?;
            let mut cells = numbers(&[number, index]);
            cells.push(text::kind(&constant).to_owned());
            cells.extend(numbers(&[bytes.place, bytes.bytes.len() as u32]));
            cells.push(cutter.constant(&constant));
            row(cells)?;
        }
    }
    Ok(())
}

fn symbols(pattern: &Pattern, cutter: &Cutter, row: Row) -> io::Result<()> {
    for (number, record) in numbered(pattern) {
        for index in 0..record.symbols.number {
            let symbol = pattern.symbol(number, index).map_err(io::Error::other)?;
            let length = symbol.bytes.len() as u32;
            let mut cells = numbers(&[number, index, symbol.place, length]);
            cells.push(cutter.text(symbol.bytes));
            row(cells)?;
        }
    }
    Ok(())
}

fn names(pattern: &Pattern, cutter: &Cutter, row: Row) -> io::Result<()> {
    for (number, record) in numbered(pattern) {
        for index in 0..record.names.number {
            let name = pattern.name(number, index).map_err(io::Error::other)?;
            let mut cells = numbers(&[number]);
            cells.push(format!("R{}", index + 1));
            match name {
                Some(name) => {
                    cells.push(name.place.to_string());
                    cells.push(cutter.text(name.bytes));
                }
                None => cells.extend(["-".to_owned(), "(unnamed)".to_owned()]),
            }
            row(cells)?;
        }
    }
    Ok(())
}

fn files(pattern: &Pattern, cutter: &Cutter, row: Row) -> io::Result<()> {
    for (number, record) in numbered(pattern) {
        for index in 0..record.files.number {
            let file = pattern
                .debug_file(number, index)
                .map_err(io::Error::other)?;
            let mut cells = numbers(&[number, index, file.start, file.lines.number]);
            cells.push(cutter.text(file.name.bytes));
            row(cells)?;
        }
    }
    Ok(())
}

fn lines(pattern: &Pattern, row: Row) -> io::Result<()> {
    for (number, record) in numbered(pattern) {
        for index in 0..record.lines.number {
            if let Some(entry) = pattern.entry(record.lines.first + index) {
                row(numbers(&[number, entry.position, entry.line]))?;
            }
        }
    }
    Ok(())
}

fn texts<'p>(
    number: u32,
    at: impl Fn(u32) -> Option<Text<'p>>,
    cutter: &Cutter,
    row: Row,
) -> io::Result<()> {
    for index in 0..number {
        if let Some(found) = at(index) {
            let mut cells = numbers(&[index, found.place, found.bytes.len() as u32]);
            cells.push(cutter.text(found.bytes));
            row(cells)?;
        }
    }
    Ok(())
}

/// How many rows of each kind may still be written, and how many bytes of a text that many rows may share.
struct Left {
    handlers: u64,
    constants: u64,
    symbols: u64,
    text: usize,
}

fn write_json(
    out: &mut dyn Write,
    path: &Path,
    file: &Input,
    loaded: &Result<Pattern, Refusal>,
    all: bool,
) -> io::Result<()> {
    let mut json = Json::new(out);
    json.object(|json| {
        json.key("file")?.string(&path.to_string_lossy())?;
        super::identity::members(json)?;
        allowance::member(json, file.terms.allowance)?;
        json.key("loads")?.boolean(loaded.is_ok())?;
        match loaded {
            Ok(pattern) => write_rows(json, pattern, all),
            Err(refusal) => {
                let (place, like) = (
                    file.locate(Scope::File, None, *refusal),
                    looks_like(&file.bytes),
                );
                let excess = Excess::of_load(&file.bytes, file.terms.allowance, *refusal);
                verdict::refusal_members(json, *refusal, like, excess.as_ref())?;
                verdict::place_member(json, place.as_ref())
            }
        }
    })?;
    json.end()
}

fn write_rows(json: &mut Json, pattern: &Pattern, all: bool) -> io::Result<()> {
    let (most, text) = match all {
        true => (u64::MAX, usize::MAX),
        false => (MOST_SHOWN, SHARED_TEXT),
    };
    let counts = pattern.counts();
    count_members(json, counts)?;
    let widest = counts.handlers.max(counts.constants).max(counts.symbols);
    json.key("cut")?.boolean(u64::from(widest) > most)?;
    let mut left = Left {
        handlers: most,
        constants: most,
        symbols: most,
        text,
    };
    json.key("records")?.array(|json| {
        for (number, record) in numbered(pattern) {
            json.line()?;
            json.object(|json| write_record(json, pattern, number, &record, &mut left))?;
        }
        Ok(())
    })?;
    json.line()?;
    write_texts(json, "strings", counts.strings, |index| {
        pattern.string(index)
    })?;
    json.line()?;
    write_texts(json, "file_names", counts.file_names, |index| {
        pattern.file_name(index)
    })
}

/// The most bytes of a text that many rows may share; strings, file names, symbols and constants have theirs whole.
pub const SHARED_TEXT: usize = 256;

/// Text as a member; one longer than the most bytes is cut.
pub fn short_text(json: &mut Json, bytes: &[u8], most: usize) -> io::Result<()> {
    match bytes.get(..most) {
        Some(start) if bytes.len() > most => {
            json.key("cut")?.boolean(true)?;
            json.hex_member(start)
        }
        _ => json.text_member(bytes),
    }
}

/// Text that many rows may share with its place, as members.
fn shared_members(json: &mut Json, text: Text, most: usize) -> io::Result<()> {
    json.key("at")?.number(text.place)?;
    json.key("length")?.number(text.bytes.len() as i64)?;
    short_text(json, text.bytes, most)
}

/// Text with its place, as members.
fn text_members(json: &mut Json, text: Text) -> io::Result<()> {
    json.key("at")?.number(text.place)?;
    json.key("length")?.number(text.bytes.len() as i64)?;
    json.text_member(text.bytes)
}

fn write_texts<'p>(
    json: &mut Json,
    name: &str,
    number: u32,
    at: impl Fn(u32) -> Option<Text<'p>>,
) -> io::Result<()> {
    json.key(name)?.array(|json| {
        for text in (0..number).filter_map(at) {
            json.object(|json| text_members(json, text))?;
        }
        Ok(())
    })
}

/// The rows of a kind that are written for a record.
fn taken(left: &mut u64, number: u32) -> std::ops::Range<u32> {
    let shown = (*left).min(number.into());
    *left -= shown;
    0..shown as u32
}

fn write_record(
    json: &mut Json,
    pattern: &Pattern,
    number: u32,
    record: &Record,
    left: &mut Left,
) -> io::Result<()> {
    json.key("record")?.number(number)?;
    for (name, value) in [
        ("size", record.size),
        ("nlocals", record.nlocals),
        ("nregs", record.nregs),
        ("children", record.rlen),
        ("code_at", record.place),
        ("code_length", record.ilen),
    ] {
        json.key(name)?.number(value)?;
    }
    nesting::members(json, record)?;
    json.key("handlers")?.array(|json| {
        for index in taken(&mut left.handlers, record.handlers.number) {
            write_handler(json, pattern, number, index)?;
        }
        Ok(())
    })?;
    json.key("constants")?.array(|json| {
        for index in taken(&mut left.constants, record.constants.number) {
            let (value, kind, bytes) = constant(pattern, number, index)?;
            json.object(|json| {
                json.key("file_kind")?.number(kind)?;
                json.key("at")?.number(bytes.place)?;
                json.key("length")?.number(bytes.bytes.len() as i64)?;
                constant_members(json, &value, bytes)
            })?;
        }
        Ok(())
    })?;
    json.key("symbols")?.array(|json| {
        for index in taken(&mut left.symbols, record.symbols.number) {
            let symbol = pattern.symbol(number, index).map_err(io::Error::other)?;
            json.object(|json| text_members(json, symbol))?;
        }
        Ok(())
    })?;
    write_names(json, pattern, number, record, left.text)?;
    write_debug(json, pattern, number, record, left.text)
}

fn write_handler(json: &mut Json, pattern: &Pattern, record: u32, index: u32) -> io::Result<()> {
    let handler = pattern.handler(record, index).map_err(io::Error::other)?;
    json.object(|json| {
        json.key("kind")?.number(handler.kind)?;
        json.key("begin")?.number(handler.begin)?;
        json.key("end")?.number(handler.end)?;
        json.key("target")?.number(handler.target)
    })
}

/// A constant's kind and value, as members; numbers with their bytes in the file.
pub fn constant_members(json: &mut Json, constant: &Constant, bytes: Text) -> io::Result<()> {
    json.key("kind")?.string(text::kind(constant))?;
    match constant {
        Constant::Text(text) => json.text_member(text.bytes),
        Constant::Int(number) => {
            json.value_member(*number)?;
            json.hex_member(bytes.bytes)
        }
        Constant::Float(number) => {
            json.key("value")?.float(*number)?;
            json.hex_member(bytes.bytes)
        }
        Constant::Big(text) => {
            let (base, digits) = text.bytes.split_first().unwrap_or((&0, &[]));
            json.key("base")?.number(*base as i8)?;
            json.text_member(digits)
        }
    }
}

fn write_names(
    json: &mut Json,
    pattern: &Pattern,
    number: u32,
    record: &Record,
    most: usize,
) -> io::Result<()> {
    json.key("names")?.array(|json| {
        for index in 0..record.names.number {
            match pattern.name(number, index).map_err(io::Error::other)? {
                Some(name) => json.object(|json| shared_members(json, name, most))?,
                None => json.null()?,
            }
        }
        Ok(())
    })
}

fn write_debug(
    json: &mut Json,
    pattern: &Pattern,
    number: u32,
    record: &Record,
    most: usize,
) -> io::Result<()> {
    json.key("files")?.array(|json| {
        for index in 0..record.files.number {
            let file = pattern
                .debug_file(number, index)
                .map_err(io::Error::other)?;
            json.object(|json| {
                json.key("start")?.number(file.start)?;
                json.key("first_line_row")?.number(file.lines.first)?;
                json.key("line_rows")?.number(file.lines.number)?;
                json.key("name")?
                    .object(|json| shared_members(json, file.name, most))
            })?;
        }
        Ok(())
    })?;
    json.key("lines")?.array(|json| {
        for index in 0..record.lines.number {
            if let Some(entry) = pattern.entry(record.lines.first + index) {
                json.object(|json| {
                    json.key("position")?.number(entry.position)?;
                    json.key("line")?.number(entry.line)
                })?;
            }
        }
        Ok(())
    })
}
