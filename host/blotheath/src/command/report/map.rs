//! A picture of the file from its first byte to its last.

use crate::command::text::counted;
use blotheath::Pattern;
use std::fmt;
use std::io::{self, Write};

const WIDTH: f64 = 1000.0;

/// The most sections, records and constants that are drawn: a file holds no more sections.
const MOST_DRAWN: usize = 8_192;

/// The name of a part, which takes no memory of its own: there are many.
enum Name {
    Section(&'static str),
    Record(u32),
    Constant(u32, u32),
}

impl fmt::Display for Name {
    fn fmt(&self, f: &mut fmt::Formatter) -> fmt::Result {
        match self {
            Name::Section(name) => f.write_str(name),
            Name::Record(number) => write!(f, "{number}"),
            Name::Constant(record, index) => write!(f, "constant {index} of record {record}"),
        }
    }
}

/// A part of the file with its name.
struct Part {
    name: Name,
    class: &'static str,
    start: usize,
    end: usize,
}

/// The header and the sections of a file that loads.
fn sections(file: &[u8]) -> Vec<Part> {
    let part = |name, class, start, end: usize| Part {
        name: Name::Section(name),
        class,
        start,
        end: end.min(file.len()),
    };
    let mut parts = vec![part("header", "head", 0, 20)];
    let mut start = 20;
    while let Some(head) = file.get(start..start + 8) {
        let (mark, size) = head.split_at(4);
        let size = size
            .iter()
            .fold(0, |sum, byte| sum << 8 | usize::from(*byte));
        let (name, class) = match mark {
            b"IREP" => ("records (IREP)", "irep"),
            b"LVAR" => ("names (LVAR)", "lvar"),
            b"DBG\0" => ("lines (DBG)", "dbg"),
            b"END\0" => ("END", "end"),
            _ => break,
        };
        if size == 0 {
            break;
        }
        parts.push(part(name, class, start, start + size));
        start += size;
    }
    parts
}

/// The records, each from its header on.
fn records(pattern: &Pattern) -> Vec<Part> {
    let length = pattern.file().len();
    let records = (0..).zip(pattern.records()).take(MOST_DRAWN);
    records
        .map(|(number, record): (u32, _)| {
            let start = (record.place as usize).saturating_sub(16);
            Part {
                name: Name::Record(number),
                class: if number % 2 == 0 { "even" } else { "odd" },
                start,
                end: (start + record.size as usize).min(length),
            }
        })
        .collect()
}

/// The values of constants.
fn constants(pattern: &Pattern) -> Vec<Part> {
    let all = (0..).zip(pattern.records()).flat_map(|(number, record)| {
        (0..record.constants.number).map(move |index| (number, index))
    });
    all.take(MOST_DRAWN)
        .filter_map(|(number, index)| {
            let (_, bytes) = pattern.constant_bytes(number, index).ok()?;
            let start = bytes.place as usize;
            Some(Part {
                name: Name::Constant(number, index),
                class: "constant",
                start,
                end: start + bytes.bytes.len().max(1),
            })
        })
        .collect()
}

pub fn write(out: &mut dyn Write, pattern: &Pattern) -> io::Result<()> {
    let length = pattern.file().len().max(1) as f64;
    let rows = [
        ("sections", sections(pattern.file()), 26.0),
        ("records", records(pattern), 20.0),
        ("constants", constants(pattern), 12.0),
    ];
    let total = 104;
    writeln!(
        out,
        "<div class=\"scroll\"><svg class=\"map\" viewBox=\"0 0 1090 {total}\" role=\"img\" aria-label=\"The parts of the file\">"
    )?;
    let mut top = 2.0;
    for (title, parts, height) in rows {
        let middle = top + height / 2.0 + 4.0;
        writeln!(
            out,
            "<text class=\"rowname\" x=\"0\" y=\"{middle}\">{title}</text>"
        )?;
        writeln!(
            out,
            "<rect class=\"ground\" x=\"85\" y=\"{top}\" width=\"{WIDTH}\" height=\"{height}\"/>"
        )?;
        for part in parts {
            write_part(out, &part, top, height, length)?;
        }
        top += height + 6.0;
    }
    for quarter in 0..=4 {
        let x = 85.0 + WIDTH * f64::from(quarter) / 4.0;
        let byte = (length * f64::from(quarter) / 4.0).round();
        let anchor = ["start", "middle", "middle", "middle", "end"][quarter as usize];
        writeln!(
            out,
            "<text class=\"scale\" x=\"{x}\" y=\"96\" text-anchor=\"{anchor}\">{byte}</text>"
        )?;
    }
    writeln!(out, "</svg></div>")?;
    match (pattern.counts().constants as usize).saturating_sub(MOST_DRAWN) {
        0 => Ok(()),
        more => {
            let more = counted(more as u64, "more constant");
            writeln!(out, "<p class=\"note\">{more}, not drawn.</p>")
        }
    }
}

fn write_part(
    out: &mut dyn Write,
    part: &Part,
    top: f64,
    height: f64,
    length: f64,
) -> io::Result<()> {
    let scale = |place: usize| WIDTH * place as f64 / length;
    let (x, end) = (
        85.0 + scale(part.start),
        85.0 + scale(part.end.max(part.start)),
    );
    let width = (end - x).max(1.0);
    let name = &part.name;
    writeln!(
        out,
        "<rect class=\"{}\" x=\"{x:.1}\" y=\"{top}\" width=\"{width:.1}\" height=\"{height}\"><title>{name}: bytes {} to {}</title></rect>",
        part.class, part.start, part.end
    )?;
    // Only high rows have names in them.
    if height > 15.0 && width > part.name.to_string().len() as f64 * 6.6 + 8.0 {
        writeln!(
            out,
            "<text class=\"partname\" x=\"{:.1}\" y=\"{}\" text-anchor=\"middle\">{name}</text>",
            x + width / 2.0,
            top + height / 2.0 + 4.0
        )?;
    }
    Ok(())
}
