//! A source's lines beside the steps of a pattern.

use super::json::Json;
use super::source::Source;
use super::{complain, text};
use blotheath::{Pattern, Sources};
use std::io;

/// Says that no debug file of a pattern has a source's name, where that is so.
pub fn stranger(source: &Source, pattern: &Pattern) -> Option<String> {
    let mut names: Vec<&[u8]> = Vec::new();
    for name in debug_names(pattern) {
        if source.is_of(name) {
            return None;
        }
        if names.len() <= MOST_NAMES && !names.contains(&name) {
            names.push(name);
        }
    }
    let shown: Vec<String> = names
        .iter()
        .take(MOST_NAMES)
        .map(|name| text::quoted(name, text::SHORT))
        .collect();
    let has = match names.len() {
        0 => "it has none".to_owned(),
        number if number > MOST_NAMES => format!("it has {} and others", shown.join(", ")),
        _ => format!("it has {}", shown.join(", ")),
    };
    let name = text::quoted(source.name(), text::SHORT);
    Some(format!(
        "no debug file of the pattern is named {name} ({has}), so no line of this source is shown"
    ))
}

/// The source's name, and whether a debug file has it, as members of a JSON object.
pub fn members(json: &mut Json, source: &Source, pattern: &Pattern) -> io::Result<()> {
    let name = String::from_utf8_lossy(source.name());
    json.key("name")?.string(&name)?;
    let is_named = debug_names(pattern).any(|name| source.is_of(name));
    json.key("named")?.boolean(is_named)
}

/// The most names of debug files that are told.
const MOST_NAMES: usize = 3;

/// The names of the debug files of all records.
fn debug_names<'a>(pattern: &Pattern<'a>) -> impl Iterator<Item = &'a [u8]> {
    (0..)
        .zip(pattern.records())
        .flat_map(move |(number, record)| {
            (0..record.files.number)
                .filter_map(move |index| Some(pattern.debug_file(number, index).ok()?.name.bytes))
        })
}

/// The lines of a source beside the steps of a pattern.
pub struct Beside<'p, 'a> {
    source: &'p Source,
    pattern: &'p Pattern<'a>,
    files: Vec<Sources<'a>>,
}

impl<'p, 'a> Beside<'p, 'a> {
    /// A source beside a pattern; one whose name the pattern does not have is told.
    pub fn of(source: Option<&'p Source>, pattern: &'p Pattern<'a>) -> Option<Beside<'p, 'a>> {
        let source = source?;
        if let Some(fault) = stranger(source, pattern) {
            complain(&fault);
        }
        let records = 0..pattern.counts().records;
        Some(Beside {
            source,
            pattern,
            files: records.map(|number| pattern.sources(number)).collect(),
        })
    }

    /// The source's line of an offset in a record.
    fn line(&self, record: u32, offset: u32) -> Option<&str> {
        let file = self.files.get(record as usize)?.at(self.pattern, offset)?;
        let line = self.pattern.line(record, offset).ok()??;
        self.source.line(file.name.bytes, line)
    }

    /// The source's line to stand behind a row of so many characters; a line longer than the most is cut.
    pub fn behind(&self, width: usize, record: u32, offset: u32, most: usize) -> String {
        let Some(line) = self.line(record, offset) else {
            return String::new();
        };
        let (line, dots) = cut(line.trim(), most);
        let blanks = " ".repeat(COLUMN.saturating_sub(width));
        format!("{blanks}  # {}{dots}", text::visible(line))
    }

    /// The source's line as a member of a JSON object; a line longer than the most is cut.
    pub fn member(&self, json: &mut Json, record: u32, offset: u32, most: usize) -> io::Result<()> {
        let Some(line) = self.line(record, offset) else {
            return json.key("source")?.null();
        };
        let (shown, _) = cut(line, most);
        json.key("source")?.string(shown)?;
        match shown.len() < line.len() {
            true => json.key("source_cut")?.boolean(true),
            false => Ok(()),
        }
    }
}

/// The column that a source's lines stand in where rows are not longer.
const COLUMN: usize = 64;

/// The first characters of a line, and dots where that is not all.
fn cut(line: &str, most: usize) -> (&str, &'static str) {
    match line.char_indices().nth(most) {
        Some((end, _)) => (&line[..end], "..."),
        None => (line, ""),
    }
}
