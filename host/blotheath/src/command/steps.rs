//! `blotheath steps`: the instructions of each record.

use super::arrows::{Arrow, Margin};
use super::beside::{self, Beside};
use super::json::Json;
use super::labels::labels;
use super::load::SHARED_TEXT;
use super::meaning::{Meaning, Reader, registers_member, touched};
use super::nesting;
use super::scope::Scope;
use super::source::Source;
use super::style::Style;
use super::terms::{self, Terms};
use super::text::{self, counted, grouped};
use super::verdict::{Verdict, judge};
use super::{MOST_SHOWN, Status, input, unusable};
use blotheath::{BadStep, Pattern, Record, Step, Tree, opcode_name};
use std::io::{self, Write};
use std::path::Path;

pub fn run(
    out: &mut dyn Write,
    style: Style,
    path: &Path,
    terms: &Terms,
    source: Option<&Path>,
    json: bool,
    all: bool,
) -> io::Result<Status> {
    let name = text::path(path);
    let file = match input::read(path, terms) {
        Ok(file) => file,
        Err(fault) => return Ok(unusable(&name, &fault)),
    };
    let source = match source.map(Source::read).transpose() {
        Ok(source) => source,
        Err((name, fault)) => return Ok(unusable(&name, &fault)),
    };
    let verdict = judge(&file, Scope::File);
    if json {
        write_json(out, path, terms, &verdict, source.as_ref(), all)?;
    } else {
        terms::write(out, style, terms)?;
        write(out, style, &name, &verdict, source.as_ref(), all)?;
    }
    Ok(match verdict.passes() {
        true => Status::Passed,
        false => Status::Refused,
    })
}

/// How much is shown.
#[derive(Clone, Copy)]
struct Most {
    /// The steps and handlers that are still to come.
    left: u64,
    /// The bytes of a text of the file.
    text: usize,
    /// The characters of a source's line.
    line: usize,
}

impl Most {
    fn of(all: bool, text: usize) -> Most {
        match all {
            true => Most {
                left: u64::MAX,
                text: usize::MAX,
                line: usize::MAX,
            },
            false => Most {
                left: MOST_SHOWN,
                text,
                line: text::LINE,
            },
        }
    }
}

fn write(
    out: &mut dyn Write,
    style: Style,
    name: &str,
    verdict: &Verdict,
    source: Option<&Source>,
    all: bool,
) -> io::Result<()> {
    let sentence = verdict.sentence();
    match verdict.passes() {
        true => writeln!(out, "{name}: {}", style.good(&sentence))?,
        false => writeln!(out, "{name}: {}", style.bad(&sentence))?,
    }
    let Some(pattern) = verdict.pattern() else {
        return Ok(());
    };
    let tree = Tree::of(pattern);
    let labels = labels(pattern, &tree);
    let mut view = View {
        out,
        style,
        reader: Reader {
            pattern,
            tree: &tree,
        },
        beside: Beside::of(source, pattern),
        most: Most::of(all, text::SHORT),
    };
    for (number, record) in (0..).zip(pattern.records()) {
        if view.most.left == 0 {
            let records = counted(u64::from(pattern.counts().records - number), "more record");
            return writeln!(view.out, "\n{records}; --all shows them");
        }
        view.record(number, &record, &labels[number as usize])?;
    }
    Ok(())
}

/// The steps of a record that are shown, and what stopped the reading.
pub struct Shown {
    pub steps: Vec<Step>,
    pub bad: Option<BadStep>,
    /// Whether there are more.
    pub cut: bool,
}

/// Reads the steps of a record, as many as may be shown.
pub fn shown(pattern: &Pattern, number: u32, left: &mut u64) -> Shown {
    let mut shown = Shown {
        steps: Vec::new(),
        bad: None,
        cut: false,
    };
    for step in pattern.steps(number).into_iter().flatten() {
        if *left == 0 {
            shown.cut = true;
            break;
        }
        *left -= 1;
        match step {
            Ok(step) => shown.steps.push(step),
            Err(bad) => shown.bad = Some(bad),
        }
    }
    shown
}

/// The jumps between steps as arrows between rows.
pub fn margin(steps: &[Step]) -> Margin {
    let row = |offset: i64| {
        let offset = u32::try_from(offset).ok()?;
        steps.binary_search_by_key(&offset, |step| step.offset).ok()
    };
    let arrows = steps.iter().enumerate().filter_map(|(from, step)| {
        let to = row(step.target()?)?;
        (to != from).then_some(Arrow { from, to })
    });
    Margin::of(arrows.collect())
}

/// The columns that an opcode's name has, and those of a prefix before it with a blank.
const OPCODE_COLUMNS: usize = 10;
const PREFIX_COLUMNS: usize = 5;

/// The columns that operands have before the registers that a step touches.
const OPERAND_COLUMNS: usize = 24;

/// The columns that the names of these steps have.
fn name_columns(steps: &[Step]) -> usize {
    match steps.iter().any(|step| step.prefix.is_some()) {
        true => PREFIX_COLUMNS + OPCODE_COLUMNS,
        false => OPCODE_COLUMNS,
    }
}

/// A number of children in words.
fn children(number: u32) -> String {
    match number {
        1 => "1 child".to_owned(),
        number => format!("{} children", grouped(number.into())),
    }
}

/// Writes steps for readers.
struct View<'w, 'p, 'a> {
    out: &'w mut dyn Write,
    style: Style,
    reader: Reader<'p, 'a>,
    beside: Option<Beside<'p, 'a>>,
    most: Most,
}

impl View<'_, '_, '_> {
    fn record(&mut self, number: u32, record: &Record, label: &str) -> io::Result<()> {
        let style = self.style;
        let nesting = nesting::told(number, record);
        let title = match label.is_empty() {
            true => format!("record {number}, {nesting}"),
            false => format!("record {number}, {label}, {nesting}"),
        };
        let about = [
            counted(record.ilen.into(), "byte"),
            format!("at {}", record.place),
            counted(record.nregs.into(), "register"),
            children(record.rlen),
        ];
        let about = style.dim(&format!("({})", about.join(", ")));
        writeln!(self.out, "\n{} {about}", style.bold(&title))?;
        let shown = shown(self.reader.pattern, number, &mut self.most.left);
        let margin = margin(&shown.steps);
        let columns = name_columns(&shown.steps);
        let mut line = None;
        for (row, step) in shown.steps.iter().enumerate() {
            let now = self.line(number, step)?;
            let told = if now == line { None } else { now };
            line = now;
            let meanings = self.reader.meanings(number, record, step);
            let name = format!("{:<columns$}", step.name());
            self.step(number, &margin.drawn(row), step, &name, &meanings, told)?;
        }
        if let Some(bad) = shown.bad {
            let text = format!("{:>6}  {bad}: reading ends here", bad.offset());
            writeln!(self.out, "{}", style.bad(&text))?;
        }
        if shown.cut {
            writeln!(self.out, "{}", style.dim("more steps; --all shows them"))?;
        }
        self.handlers(number, record)
    }

    fn line(&self, number: u32, step: &Step) -> io::Result<Option<u32>> {
        let line = self.reader.pattern.line(number, step.offset);
        line.map_err(io::Error::other)
    }

    /// Writes a step, with the registers that it touches; the first of a line has the line's number, and the source's text behind it.
    fn step(
        &mut self,
        number: u32,
        margin: &str,
        step: &Step,
        name: &str,
        meanings: &[Meaning],
        line: Option<u32>,
    ) -> io::Result<()> {
        let style = self.style;
        let beside = self.beside.as_ref().filter(|_| line.is_some());
        let line = match line {
            Some(line) => format!("line {line}"),
            None => String::new(),
        };
        let line = format!("{line:>10}");
        let operands: Vec<String> = meanings
            .iter()
            .map(|meaning| meaning.shown_up_to(self.most.text))
            .collect();
        let mut operands = operands.join(", ");
        let mut behind = String::new();
        if let Some(touched) = touched(step) {
            operands = format!("{operands:<OPERAND_COLUMNS$}");
            behind = format!("  {touched}");
        }
        let row = |line: &str, margin: &str, name: &str| {
            format!("{line}  {margin}{:>5}  {name} {operands}", step.offset)
        };
        if let Some(beside) = beside {
            let width = (row(&line, margin, name) + &behind).chars().count();
            behind += &beside.behind(width, number, step.offset, self.most.line);
        }
        let row = row(&style.dim(&line), &style.arrow(margin), &style.bold(name));
        let row = row + &style.dim(&behind);
        writeln!(self.out, "{}", row.trim_end())
    }

    fn handlers(&mut self, number: u32, record: &Record) -> io::Result<()> {
        for index in 0..record.handlers.number {
            if self.most.left == 0 {
                return writeln!(self.out, "  more handlers; --all shows them");
            }
            self.most.left -= 1;
            let handler = self.reader.pattern.handler(number, index);
            let handler = handler.map_err(io::Error::other)?;
            let text = format!(
                "  handler {index}: {} for {} to {}, goes to {}",
                super::load::handler_kind(handler.kind),
                handler.begin,
                handler.end,
                handler.target
            );
            writeln!(self.out, "{}", self.style.dim(&text))?;
        }
        Ok(())
    }
}

fn write_json(
    out: &mut dyn Write,
    path: &Path,
    terms: &Terms,
    verdict: &Verdict,
    source: Option<&Source>,
    all: bool,
) -> io::Result<()> {
    let mut json = Json::new(out);
    json.object(|json| {
        json.key("file")?.string(&path.to_string_lossy())?;
        super::identity::members(json)?;
        terms::members(json, terms)?;
        verdict.members(json)?;
        let Some(pattern) = verdict.pattern() else {
            return Ok(());
        };
        if let Some(source) = source {
            json.key("source")?
                .object(|json| beside::members(json, source, pattern))?;
        }
        let tree = Tree::of(pattern);
        let mut steps = Steps {
            reader: Reader {
                pattern,
                tree: &tree,
            },
            beside: Beside::of(source, pattern),
            most: Most::of(all, SHARED_TEXT),
        };
        json.key("records")?.array(|json| {
            for (number, record) in (0..).zip(pattern.records()) {
                if steps.most.left == 0 {
                    break;
                }
                json.line()?;
                json.object(|json| steps.record(json, number, &record))?;
            }
            Ok(())
        })?;
        json.line()?;
        json.key("cut")?.boolean(steps.most.left == 0)
    })?;
    json.end()
}

/// Writes steps as JSON.
struct Steps<'p, 'a> {
    reader: Reader<'p, 'a>,
    beside: Option<Beside<'p, 'a>>,
    most: Most,
}

impl Steps<'_, '_> {
    fn record(&mut self, json: &mut Json, number: u32, record: &Record) -> io::Result<()> {
        let shown = shown(self.reader.pattern, number, &mut self.most.left);
        json.key("record")?.number(number)?;
        nesting::members(json, record)?;
        json.key("code_at")?.number(record.place)?;
        json.key("steps")?.array(|json| {
            for step in &shown.steps {
                json.line()?;
                json.object(|json| self.step(json, number, record, step))?;
            }
            Ok(())
        })?;
        match shown.bad {
            Some(bad) => json.key("unreadable")?.object(|json| {
                json.key("offset")?.number(bad.offset())?;
                json.key("what")?.string(&bad.to_string())
            }),
            None => Ok(()),
        }
    }

    fn step(&self, json: &mut Json, number: u32, record: &Record, step: &Step) -> io::Result<()> {
        let line = self.reader.pattern.line(number, step.offset);
        json.key("offset")?.number(step.offset)?;
        json.key("prefix")?.optional(step.prefix.map(u32::from))?;
        json.key("opcode")?.number(step.opcode)?;
        json.key("name")?
            .string(opcode_name(step.opcode).unwrap_or_default())?;
        json.key("operands")?.array(|json| {
            for meaning in self.reader.meanings(number, record, step) {
                meaning.write(json, &self.reader, number, self.most.text)?;
            }
            Ok(())
        })?;
        registers_member(json, step)?;
        json.key("line")?
            .optional(line.map_err(io::Error::other)?)?;
        match &self.beside {
            Some(beside) => beside.member(json, number, step.offset, self.most.line),
            None => Ok(()),
        }
    }
}
