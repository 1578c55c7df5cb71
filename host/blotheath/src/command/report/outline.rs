//! The records as an indented outline.

use super::html::escape;
use crate::command::nesting::{UNREACHED, depth};
use crate::command::text::{counted, grouped};
use blotheath::{Pattern, Record};
use std::io::{self, Write};

/// The depth from which on rows are not indented further.
const DEEPEST: u32 = 12;

/// The most rows that stand unfolded.
const MOST_ROWS: usize = 120;

/// Writes the outline; the class says whether there is a drawing too.
pub fn write(
    out: &mut dyn Write,
    pattern: &Pattern,
    labels: &[String],
    class: &str,
) -> io::Result<()> {
    let records: Vec<Record> = pattern.records().collect();
    let deepest = records.iter().map(|record| record.depth).max();
    let deepest = deepest.unwrap_or_default();
    writeln!(out, "<div class=\"{class}\">")?;
    if deepest > DEEPEST {
        writeln!(
            out,
            "<p class=\"note\">The deepest record is {} deep; rows are indented up to {DEEPEST}, and each says its depth.</p>",
            grouped(deepest.into())
        )?;
    }
    let rows = records.len();
    let first = if rows > MOST_ROWS + MOST_ROWS / 4 {
        MOST_ROWS
    } else {
        rows
    };
    let write_rows = |out: &mut dyn Write, rows: std::ops::Range<usize>| {
        writeln!(out, "<ol class=\"outline\">")?;
        for number in rows {
            let record = &records[number];
            let mut told = match deepest > DEEPEST {
                true => depth(record) + ", ",
                false => String::new(),
            };
            told += &match record.parent {
                Some(parent) => format!("inside <a href=\"#r{parent}\">{parent}</a>, "),
                None if number == 0 => String::new(),
                None => format!("{UNREACHED}, "),
            };
            writeln!(
                out,
                "<li class=\"d{}\"><a href=\"#r{number}\"><span class=\"of\">{number}</span> <span class=\"what\">{}</span></a> \
                 <span class=\"about\">{told}{}</span></li>",
                record.depth.min(DEEPEST),
                escape(&labels[number]),
                escape(&about(pattern, number as u32))
            )?;
        }
        writeln!(out, "</ol>")
    };
    write_rows(out, 0..first)?;
    if first < rows {
        let more = counted((rows - first) as u64, "more record");
        writeln!(out, "<details class=\"rest\"><summary>{more}</summary>")?;
        write_rows(out, first..rows)?;
        writeln!(out, "</details>")?;
    }
    writeln!(out, "</div>")
}

/// What is said of a record beside its label.
pub fn about(pattern: &Pattern, number: u32) -> String {
    let Some(record) = pattern.record(number) else {
        return String::new();
    };
    let entries =
        (0..record.lines.number).filter_map(|row| pattern.entry(record.lines.first + row));
    let ends = entries.fold(None, |ends: Option<(u32, u32)>, entry| {
        let (first, last) = ends.unwrap_or((entry.line, entry.line));
        Some((first.min(entry.line), last.max(entry.line)))
    });
    let bytes = counted(record.ilen.into(), "byte");
    match ends {
        Some((first, last)) if first == last => format!("{bytes}, line {first}"),
        Some((first, last)) => format!("{bytes}, lines {first} to {last}"),
        None => bytes,
    }
}
