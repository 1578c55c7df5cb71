//! The steps of each record beside their source lines.

use super::constants::{self, Extent};
use super::fold::{self, Room};
use super::html::{self, Escaped, escape};
use super::source::Source;
use crate::command::MOST_SHOWN;
use crate::command::arrows::Margin;
use crate::command::load::handler_kind;
use crate::command::meaning::{Meaning, Reader, touched};
use crate::command::nesting;
use crate::command::steps::{Shown, margin, shown};
use crate::command::text::{self, counted};
use blotheath::{
    BadStep, Constant, DebugFile, FILE_LIMIT, Handler, Place, Record, Refusal, Sources, Step, Text,
    opcode_name,
};
use std::cell::Cell;
use std::io::{self, Write};

/// The most handlers of a page: a file whose records do not overlap has no more.
const MOST_HANDLERS: u32 = FILE_LIMIT as u32 / 13;

/// The height of a step's row, and the width of a lane of jumps, in pixels.
const ROW: usize = 22;
const LANE: usize = 10;

/// A height that no row reaches: what is drawn below a row's end is not seen.
const BELOW: usize = 99_999;

/// Writes the steps of all records.
pub fn write(
    out: &mut dyn Write,
    reader: &Reader,
    labels: &[String],
    source: Option<&Source>,
    extent: &Extent,
    fault: Option<(Refusal, &Place)>,
) -> io::Result<()> {
    let mut left = MOST_SHOWN;
    let room = Room::new(fold::ROOM);
    let handlers = Cell::new(MOST_HANDLERS);
    for (number, record) in (0..).zip(reader.pattern.records()) {
        let shown = shown(reader.pattern, number, &mut left);
        let view = View {
            reader,
            number,
            record: &record,
            source,
            extent,
            room: &room,
            handlers: &handlers,
            fault: fault.filter(|(_, place)| place.record == Some(number)),
            margin: margin(&shown.steps),
        };
        view.write(out, &labels[number as usize], &shown)?;
    }
    Ok(())
}

/// The steps of one record.
struct View<'v> {
    reader: &'v Reader<'v, 'v>,
    number: u32,
    record: &'v Record,
    source: Option<&'v Source>,
    /// The constants that the page shows.
    extent: &'v Extent,
    /// What the page still has room for.
    room: &'v Room,
    handlers: &'v Cell<u32>,
    /// The refusal, where it lies in this record.
    fault: Option<(Refusal, &'v Place)>,
    margin: Margin,
}

/// What of a record is marked as refused.
#[derive(PartialEq, Clone, Copy)]
enum Mark {
    Step(u32),
    Handler(u32),
    /// The record as a whole: what is refused has no row.
    Record,
}

/// What contains a record, with a link to it, and how deep the record lies.
fn nested(number: u32, record: &Record) -> String {
    match record.parent {
        Some(parent) => format!(
            "inside <a href=\"#r{parent}\">record {parent}</a>, {}",
            nesting::depth(record)
        ),
        None => nesting::told(number, record),
    }
}

/// Where a step comes from: a debug file's name and a line.
#[derive(PartialEq, Clone, Copy)]
struct Origin<'v> {
    file: Option<&'v [u8]>,
    line: Option<u32>,
}

impl<'v> View<'v> {
    fn write(&self, out: &mut dyn Write, label: &str, shown: &Shown) -> io::Result<()> {
        let (number, record) = (self.number, self.record);
        let about = [
            nested(number, record),
            format!(
                "{} at {}",
                counted(record.ilen.into(), "byte"),
                record.place
            ),
            counted(record.nregs.into(), "register"),
            counted(record.nlocals.into(), "local"),
        ];
        writeln!(
            out,
            "<section class=\"record\" id=\"r{number}\"><h3>Record {number} <span class=\"what\">{}</span> <span \
             class=\"about\">{}</span></h3>",
            escape(label),
            about.join(" · ")
        )?;
        let mark = self.mark(shown);
        if mark == Some(Mark::Record) {
            writeln!(
                out,
                "<p class=\"warning\" id=\"bad\">{}</p>",
                self.refused()
            )?;
        }
        if !shown.steps.is_empty() || shown.bad.is_some() {
            self.table(out, shown, mark)?;
        }
        if shown.cut {
            self.cut(out, shown)?;
        }
        self.handlers(out, mark)?;
        writeln!(out, "</section>")
    }

    /// What is marked in this record, where the refusal lies in it.
    fn mark(&self, shown: &Shown) -> Option<Mark> {
        let (refusal, place) = self.fault?;
        let mark = match place.offset {
            Some(offset) if has_row(shown, offset) => Mark::Step(offset),
            None if refusal.number() == 19 => self.bad_handler(shown).unwrap_or(Mark::Record),
            _ => Mark::Record,
        };
        Some(mark)
    }

    /// The first handler that leads to no step, where its row is shown.
    fn bad_handler(&self, shown: &Shown) -> Option<Mark> {
        let number = self.record.handlers.number.min(self.handlers.get());
        let leads = |index: &u32| {
            let handler = self.reader.pattern.handler(self.number, *index);
            handler.is_ok_and(|handler| has_row(shown, handler.target))
        };
        let found = (0..number).find(|index| !leads(index));
        found.filter(|_| !shown.cut).map(Mark::Handler)
    }

    /// The refusal in words.
    fn refused(&self) -> String {
        match self.fault {
            Some((refusal, place)) => format!(
                "<strong>Refused by {}:</strong> {}.",
                refusal.number(),
                html::bytes(place.what.as_bytes())
            ),
            None => String::new(),
        }
    }

    fn table(&self, out: &mut dyn Write, shown: &Shown, mark: Option<Mark>) -> io::Result<()> {
        writeln!(
            out,
            "<table class=\"steps\" style=\"--jumps: {}px\"><thead><tr><th class=\"line\">line</th><th class=\"source\">source</th><th \
             class=\"jumps\"></th><th class=\"offset\">offset</th><th class=\"name\">step</th><th \
             class=\"operands\">operands</th></tr></thead>",
            self.jumps_width()
        )?;
        self.groups(out, &shown.steps, mark)?;
        if let Some(bad) = shown.bad {
            self.unreadable(out, bad, mark)?;
        }
        writeln!(out, "</table>")
    }

    /// Tells which steps have no room on the page.
    fn cut(&self, out: &mut dyn Write, shown: &Shown) -> io::Result<()> {
        let first = shown.steps.last().map_or(0, |step| step.next);
        let bytes = counted(u64::from(self.record.ilen.saturating_sub(first)), "byte");
        writeln!(
            out,
            "<p class=\"note\">The steps from offset {first} on, {bytes}, are not on this page; <code>blotheath steps --all</code> \
             shows them.</p>"
        )
    }

    /// Writes what stands where reading ends.
    fn unreadable(&self, out: &mut dyn Write, bad: BadStep, mark: Option<Mark>) -> io::Result<()> {
        write!(out, "<tbody>{}", row(mark, bad.offset()))?;
        let sources = self.reader.pattern.sources(self.number);
        let origin = self.origin_of(&sources, bad.offset());
        self.origin(out, origin, 1)?;
        let what = match mark {
            Some(Mark::Step(offset)) if offset == bad.offset() => self.refused(),
            _ => escape(&format!("{bad}.")),
        };
        writeln!(
            out,
            "<td class=\"jumps\"></td><td class=\"offset\">{}</td><td class=\"name\">?</td><td class=\"operands\"><span \
             class=\"refusal\">{what} Reading ends here.</span></td></tr></tbody>",
            bad.offset()
        )
    }

    fn origin_of(&self, sources: &Sources<'v>, offset: u32) -> Origin<'v> {
        let pattern = self.reader.pattern;
        let file = sources.at(pattern, offset);
        Origin {
            file: file.map(|file: &DebugFile| file.name.bytes),
            line: pattern.line(self.number, offset).ok().flatten(),
        }
    }

    /// Writes the steps, those of one line together.
    fn groups(&self, out: &mut dyn Write, steps: &[Step], mark: Option<Mark>) -> io::Result<()> {
        let sources = self.reader.pattern.sources(self.number);
        let origins: Vec<Origin> = steps
            .iter()
            .map(|step| self.origin_of(&sources, step.offset))
            .collect();
        let mut first = 0;
        let mut file = None;
        while first < steps.len() {
            let same = origins[first..]
                .iter()
                .take_while(|origin| **origin == origins[first]);
            let end = first + same.count();
            writeln!(out, "<tbody>")?;
            for (row, step) in (first..).zip(&steps[first..end]) {
                let mut origin = origins[first];
                // A file is named where it changes.
                if origin.file == file && self.source(origin).is_none() {
                    origin.file = None;
                }
                let origin = (row == first).then_some((origin, end - first));
                self.step(out, row, step, origin, mark)?;
            }
            writeln!(out, "</tbody>")?;
            file = origins[first].file;
            first = end;
        }
        Ok(())
    }

    /// Writes a row; the first of a line has the line, over all of that line's rows.
    fn step(
        &self,
        out: &mut dyn Write,
        number: usize,
        step: &Step,
        origin: Option<(Origin, usize)>,
        mark: Option<Mark>,
    ) -> io::Result<()> {
        write!(out, "{}", row(mark, step.offset))?;
        if let Some((origin, rows)) = origin {
            self.origin(out, origin, rows)?;
        }
        write!(
            out,
            "<td class=\"jumps\">{}</td><td class=\"offset\">{}</td><td class=\"name\">{}</td><td class=\"operands\">",
            self.jumps(number),
            step.offset,
            name(step),
        )?;
        let meanings = self.reader.meanings(self.number, self.record, step);
        for (place, meaning) in meanings.iter().enumerate() {
            if place > 0 {
                write!(out, "<span class=\"comma\">, </span>")?;
            }
            self.operand(out, meaning)?;
        }
        if let Some(touched) = touched(step) {
            write!(out, " <span class=\"touched\">{touched}</span>")?;
        }
        if mark == Some(Mark::Step(step.offset)) {
            write!(out, "<span class=\"refusal\">{}</span>", self.refused())?;
        }
        writeln!(out, "</td></tr>")
    }

    /// The source text of a line.
    fn source(&self, origin: Origin) -> Option<&'v str> {
        self.source?.line(origin.file?, origin.line?)
    }

    fn origin(&self, out: &mut dyn Write, origin: Origin, rows: usize) -> io::Result<()> {
        let line = match origin.line {
            Some(line) => line.to_string(),
            None => "–".to_owned(),
        };
        let shown = match self.source(origin) {
            Some(text) => fold::line(self.room, text),
            None => self.file(origin),
        };
        write!(
            out,
            "<td class=\"line\" rowspan=\"{rows}\">{line}</td><td class=\"source\" rowspan=\"{rows}\">{shown}</td>"
        )
    }

    /// The name of the file that a line comes from, where its text is not there.
    fn file(&self, origin: Origin) -> String {
        let name = origin.file.unwrap_or_default();
        let whole = || html::bytes(name);
        let shown = match name.len() > fold::LONG_TEXT {
            true => self.long(name, &text::plain(name, fold::LONG_TEXT), whole),
            false => whole(),
        };
        let is_short = self.source.is_some_and(|source| source.is_of(name));
        let missing = if is_short { " has no such line" } else { "" };
        format!("<span class=\"file\">{shown}{missing}</span>")
    }

    /// A long text, folded behind its start; without room for it the start, and where to see the rest.
    fn long(&self, bytes: &[u8], start: &str, whole: impl FnOnce() -> String) -> String {
        let start = escape(start);
        match self.room.take(bytes.len()) {
            true => fold::folded(&start, &whole()),
            false => {
                start
                    + " <span class=\"left\">not whole here; <code>blotheath load --all</code> shows it</span>"
            }
        }
    }

    /// Writes an operand.
    fn operand(&self, out: &mut dyn Write, meaning: &Meaning) -> io::Result<()> {
        match meaning {
            Meaning::Register(number, name) | Meaning::Outer(number, name) => {
                write!(out, "<span class=\"register\">R{number}</span>")?;
                match name {
                    Some(name) => {
                        let local = self.local(name.bytes);
                        write!(out, " <span class=\"local\">{local}</span>")
                    }
                    None => Ok(()),
                }
            }
            Meaning::Constant(index, Some(constant)) => {
                let constant = self.constant(*index, constant);
                write!(out, "<span class=\"constant\">{constant}</span>")
            }
            Meaning::Symbol(_, Some(symbol)) => {
                let symbol = self.symbol(*symbol);
                write!(out, "<span class=\"symbol\">{symbol}</span>")
            }
            Meaning::Child(_, Some(record)) => write!(
                out,
                "<a class=\"child\" href=\"#r{record}\">record {record}</a>"
            ),
            Meaning::Number(..) | Meaning::Constant(..) => {
                write!(
                    out,
                    "<span class=\"constant\">{}</span>",
                    Escaped(&meaning.shown())
                )
            }
            Meaning::Child(..) | Meaning::Jump(..) | Meaning::Plain(..) | Meaning::Symbol(..) => {
                write!(
                    out,
                    "<span class=\"plain\">{}</span>",
                    Escaped(&meaning.shown())
                )
            }
        }
    }

    /// A symbol, folded where it is long.
    fn symbol(&self, symbol: Text) -> String {
        let whole = || escape(&text::symbol_up_to(symbol, usize::MAX));
        match symbol.bytes.len() > fold::LONG_TEXT {
            true => self.long(symbol.bytes, &text::symbol(symbol), whole),
            false => whole(),
        }
    }

    /// The name of a local.
    fn local(&self, name: &[u8]) -> String {
        let whole = || html::bytes(name);
        match name.len() > fold::LONG_TEXT {
            true => self.long(name, &text::plain(name, fold::LONG_TEXT), whole),
            false => whole(),
        }
    }

    /// A constant of this record with a link to where it stands whole, if it is on the page.
    fn constant(&self, index: u32, constant: &Constant) -> String {
        let linked = |shown: &str| match self.extent.has(self.number, index) {
            true => format!("<a href=\"#k{}-{index}\">{shown}</a>", self.number),
            false => shown.to_owned(),
        };
        let start = text::constant(constant);
        match constant {
            Constant::Text(text) | Constant::Big(text) if constants::is_long(constant) => {
                let whole = || linked(&escape(&text::constant_up_to(constant, usize::MAX)));
                self.long(text.bytes, &start, whole)
            }
            _ => linked(&escape(&start)),
        }
    }

    /// The width of the jumps' column.
    fn jumps_width(&self) -> usize {
        self.margin.lanes() * LANE + 10
    }

    /// The jumps beside a row.
    fn jumps(&self, row: usize) -> String {
        let lanes = self.margin.lanes();
        if lanes == 0 {
            return String::new();
        }
        let width = self.jumps_width();
        let middle = ROW / 2;
        let mut lines = String::new();
        let mut is_target = false;
        for lane in 0..lanes {
            let Some(arrow) = self.margin.at(lane, row) else {
                continue;
            };
            let x = (lanes - 1 - lane) * LANE + LANE / 2;
            let (top, bottom) = (arrow.from.min(arrow.to), arrow.from.max(arrow.to));
            is_target |= row == arrow.to;
            lines += &if row == top {
                format!(
                    "M{} {middle}H{}Q{x} {middle} {x} {}V{BELOW}",
                    width - 4,
                    x + 4,
                    middle + 4
                )
            } else if row == bottom {
                format!(
                    "M{} {middle}H{}Q{x} {middle} {x} {}V0",
                    width - 4,
                    x + 4,
                    middle - 4
                )
            } else {
                format!("M{x} 0V{BELOW}")
            };
        }
        if lines.is_empty() {
            return String::new();
        }
        if is_target {
            lines += &format!("M{} {}l5 4l-5 4", width - 7, middle - 4);
        }
        format!("<svg width=\"{width}\"><path d=\"{lines}\"/></svg>")
    }

    fn handlers(&self, out: &mut dyn Write, mark: Option<Mark>) -> io::Result<()> {
        let number = self.record.handlers.number;
        let shown = number.min(self.handlers.get());
        self.handlers.set(self.handlers.get() - shown);
        for index in 0..shown {
            let handler = self.reader.pattern.handler(self.number, index);
            let handler = handler.map_err(io::Error::other)?;
            self.handler(out, index, handler, mark == Some(Mark::Handler(index)))?;
        }
        if number > shown {
            let more = counted(u64::from(number - shown), "more handler");
            writeln!(
                out,
                "<p class=\"note\">{more}; <code>blotheath load --all</code> shows them.</p>"
            )?;
        }
        Ok(())
    }

    fn handler(
        &self,
        out: &mut dyn Write,
        index: u32,
        handler: Handler,
        is_bad: bool,
    ) -> io::Result<()> {
        let told = format!(
            "Handler {index}, {}: for offsets {} to {}, goes to {}.",
            handler_kind(handler.kind),
            handler.begin,
            handler.end,
            handler.target
        );
        match is_bad {
            true => writeln!(
                out,
                "<p class=\"warning\" id=\"bad\">{told} {}</p>",
                self.refused()
            ),
            false => writeln!(out, "<p class=\"note\">{told}</p>"),
        }
    }
}

/// The name of a step, that of its prefix set apart.
fn name(step: &Step) -> String {
    let opcode = opcode_name(step.opcode).unwrap_or_default();
    match step.prefix.and_then(opcode_name) {
        Some(prefix) => format!("<span class=\"prefix\">{prefix}</span> {opcode}"),
        None => opcode.to_owned(),
    }
}

/// Whether an offset has a row among those that are shown.
fn has_row(shown: &Shown, offset: u32) -> bool {
    let step = shown
        .steps
        .binary_search_by_key(&offset, |step| step.offset);
    step.is_ok() || shown.bad.is_some_and(|bad| bad.offset() == offset)
}

/// The start of a row; that of the refused step is marked.
fn row(mark: Option<Mark>, offset: u32) -> &'static str {
    match mark == Some(Mark::Step(offset)) {
        true => "<tr class=\"bad\" id=\"bad\">",
        false => "<tr>",
    }
}
