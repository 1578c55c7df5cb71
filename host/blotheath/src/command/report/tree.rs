//! A picture of the tree of records, where it fits.

use super::html::escape;
use super::outline::about;
use blotheath::{Pattern, Tree};
use std::io::{self, Write};

/// The sizes of a drawing, in pixels.
const CARD: f64 = 176.0;
const HEIGHT: f64 = 44.0;
const ACROSS: f64 = 216.0;
const DOWN: f64 = 56.0;

/// The widest and the highest drawing: what a page's text is wide, and what a sheet of paper holds below the heads.
const WIDEST: f64 = 1_108.0;
const HIGHEST: f64 = 680.0;

/// Where the middle of each record's left side is drawn.
fn places(pattern: &Pattern, tree: &Tree) -> Vec<(f64, f64)> {
    let mut places = Vec::new();
    let mut leaves = 0.0;
    for (number, record) in (0..).zip(pattern.records()) {
        let across = 1.0 + f64::from(record.depth) * ACROSS;
        places.push((across, 1.0 + HEIGHT / 2.0 + leaves * DOWN));
        if tree.children(number).is_empty() {
            leaves += 1.0;
        }
    }
    // A record with children stands in the middle of them.
    for record in (0..places.len()).rev() {
        let children = tree.children(record as u32);
        if let (Some(first), Some(last)) = (children.first(), children.last()) {
            places[record].1 = (places[*first as usize].1 + places[*last as usize].1) / 2.0;
        }
    }
    places
}

/// Draws the tree where it fits, and answers whether it does.
pub fn write(
    out: &mut dyn Write,
    pattern: &Pattern,
    tree: &Tree,
    labels: &[String],
) -> io::Result<bool> {
    let places = places(pattern, tree);
    let farthest = places.iter().map(|place| place.0).fold(0.0, f64::max);
    let lowest = places.iter().map(|place| place.1).fold(0.0, f64::max);
    let (width, height) = (farthest + CARD + 1.0, lowest + HEIGHT / 2.0 + 1.0);
    if places.is_empty() || width > WIDEST || height > HIGHEST {
        return Ok(false);
    }
    writeln!(
        out,
        "<svg class=\"tree\" width=\"{width}\" height=\"{height}\" viewBox=\"0 0 {width} {height}\" role=\"img\" \
         aria-label=\"The tree of records\">"
    )?;
    for (number, record) in pattern.records().enumerate() {
        if let Some(parent) = record.parent {
            write!(
                out,
                "<a href=\"#r{parent}\"><title>record {number} is inside record {parent}</title>"
            )?;
            write_line(out, places[parent as usize], places[number])?;
            writeln!(out, "</a>")?;
        }
    }
    for (record, place) in places.iter().enumerate() {
        let about = about(pattern, record as u32);
        write_card(out, record, &labels[record], &about, *place)?;
    }
    writeln!(out, "</svg>")?;
    Ok(true)
}

/// Draws the line from a record to one that it contains, in a broad one that is not seen and can be met with a pointer.
fn write_line(out: &mut dyn Write, from: (f64, f64), to: (f64, f64)) -> io::Result<()> {
    let start = from.0 + CARD;
    let middle = (start + to.0) / 2.0;
    let way = format!(
        "M{start:.1} {:.1} C{middle:.1} {:.1} {middle:.1} {:.1} {:.1} {:.1}",
        from.1, from.1, to.1, to.0, to.1
    );
    write!(
        out,
        "<path class=\"broad\" d=\"{way}\"/><path class=\"branch\" d=\"{way}\"/>"
    )
}

fn write_card(
    out: &mut dyn Write,
    number: usize,
    label: &str,
    about: &str,
    place: (f64, f64),
) -> io::Result<()> {
    let (x, top) = (place.0, place.1 - HEIGHT / 2.0);
    let (label, about) = (escape(label), escape(about));
    writeln!(
        out,
        "<a href=\"#r{number}\"><title>record {number}: {label}, {about}</title><rect class=\"card\" x=\"{x:.1}\" y=\"{top:.1}\" \
         width=\"{CARD}\" height=\"{HEIGHT}\" rx=\"5\"/>"
    )?;
    writeln!(
        out,
        "<text class=\"number\" x=\"{:.1}\" y=\"{:.1}\" text-anchor=\"end\">{number}</text><text class=\"label\" x=\"{:.1}\" \
         y=\"{:.1}\">{label}</text><text class=\"small\" x=\"{:.1}\" y=\"{:.1}\">{about}</text></a>",
        x + CARD - 9.0,
        top + 18.0,
        x + 10.0,
        top + 18.0,
        x + 10.0,
        top + 34.0
    )
}
