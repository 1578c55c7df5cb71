//! The constants with where they stand in the file.

use super::fold;
use super::html::escape;
use crate::command::text::{self, counted};
use blotheath::{Constant, FILE_LIMIT, Pattern};
use std::io::{self, Write};

/// The most constants of a page, and the most bytes of them: a file whose records do not overlap has no more.
const MOST_CONSTANTS: u64 = FILE_LIMIT as u64 / 3;
const MOST_BYTES: usize = FILE_LIMIT;

/// The constants that a page shows: those before an end, in the order of records.
pub struct Extent {
    end: Option<(u32, u32)>,
    /// How many come behind it.
    pub left: u64,
}

/// All constants by their record and index.
fn all(pattern: &Pattern) -> impl Iterator<Item = (u32, u32)> {
    (0..)
        .zip(pattern.records())
        .flat_map(|(number, record)| (0..record.constants.number).map(move |index| (number, index)))
}

impl Extent {
    pub fn of(pattern: &Pattern) -> Extent {
        let (mut shown, mut bytes) = (0, 0);
        for (record, index) in all(pattern) {
            let found = pattern.constant_bytes(record, index);
            bytes += found.map_or(0, |(_, text)| text.bytes.len());
            if shown == MOST_CONSTANTS || bytes > MOST_BYTES {
                return Extent {
                    end: Some((record, index)),
                    left: u64::from(pattern.counts().constants) - shown,
                };
            }
            shown += 1;
        }
        Extent { end: None, left: 0 }
    }

    /// Whether a constant that the file has is on the page.
    pub fn has(&self, record: u32, index: u32) -> bool {
        self.end.is_none_or(|end| (record, index) < end)
    }
}

pub fn write(out: &mut dyn Write, pattern: &Pattern, extent: &Extent) -> io::Result<()> {
    writeln!(out, "<section id=\"constants\"><h2>Constants</h2>")?;
    if pattern.counts().constants == 0 {
        return writeln!(out, "<p class=\"note\">The file has none.</p></section>");
    }
    writeln!(
        out,
        "<table class=\"constants\"><thead><tr><th class=\"number\">record</th><th class=\"number\">index</th><th>kind</th>\
         <th>value</th><th class=\"number\">at byte</th><th class=\"number\">length</th><th>bytes</th></tr></thead><tbody>"
    )?;
    for (record, index) in all(pattern).take_while(|(record, index)| extent.has(*record, *index)) {
        write_constant(out, pattern, record, index)?;
    }
    writeln!(out, "</tbody></table>")?;
    if extent.left > 0 {
        let more = counted(extent.left, "more constant");
        writeln!(
            out,
            "<p class=\"note\">{more}; <code>blotheath load --all</code> shows them.</p>"
        )?;
    }
    writeln!(out, "</section>")
}

fn write_constant(
    out: &mut dyn Write,
    pattern: &Pattern,
    record: u32,
    index: u32,
) -> io::Result<()> {
    let constant = pattern.constant(record, index).map_err(io::Error::other)?;
    let (_, bytes) = pattern
        .constant_bytes(record, index)
        .map_err(io::Error::other)?;
    writeln!(
        out,
        "<tr id=\"k{record}-{index}\"><td class=\"number of\"><a href=\"#r{record}\">{record}</a></td><td class=\"number index\">{index}</td>\
         <td class=\"kind\">{}</td><td class=\"value\">{}</td><td class=\"number at\">{}</td><td class=\"number length\">{}</td>\
         <td class=\"hex\">{}</td><td class=\"where\">constant {index} of <a href=\"#r{record}\">record {record}</a>, {} at {}</td></tr>",
        text::kind(&constant),
        value(&constant),
        bytes.place,
        bytes.bytes.len(),
        fold::hex(bytes.bytes),
        counted(bytes.bytes.len() as u64, "byte"),
        bytes.place
    )
}

/// A constant's value, folded where it is long.
fn value(constant: &Constant) -> String {
    let whole = escape(&text::constant_up_to(constant, usize::MAX));
    match is_long(constant) {
        true => fold::folded(&escape(&text::constant(constant)), &whole),
        false => whole,
    }
}

/// Whether a constant's value is folded.
pub fn is_long(constant: &Constant) -> bool {
    match constant {
        Constant::Text(text) => text.bytes.len() > fold::LONG_TEXT,
        // The first byte is the base.
        Constant::Big(text) => text.bytes.len() > fold::LONG_TEXT + 1,
        Constant::Int(_) | Constant::Float(_) => false,
    }
}
