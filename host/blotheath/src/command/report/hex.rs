//! A few lines of bytes around a place in the file.

use super::html::escape;
use crate::command::text::grouped;
use std::io::{self, Write};

/// The bytes of a line, and the lines before and behind that of the place.
const WIDTH: usize = 16;
const AROUND: usize = 3;

/// Writes the lines around a byte, which is marked; a place at the file's end or behind it is the end.
pub fn write(out: &mut dyn Write, file: &[u8], byte: u32) -> io::Result<()> {
    let place = (byte as usize).min(file.len());
    let first = (place / WIDTH).saturating_sub(AROUND);
    let last = (place / WIDTH + AROUND).min(file.len() / WIDTH);
    writeln!(out, "<figure class=\"bytes\"><pre>")?;
    for line in first..=last {
        let start = line * WIDTH;
        let bytes = &file[start..file.len().min(start + WIDTH)];
        if !bytes.is_empty() || place == start {
            write_line(out, start, bytes, place)?;
        }
    }
    let told = match file.get(place) {
        Some(value) => format!(
            "Byte {}, {value:02x}, is marked; the first column counts bytes from 0.",
            grouped(place as u64)
        ),
        None => format!(
            "The file ends before byte {}; the first column counts bytes from 0.",
            grouped(byte.into())
        ),
    };
    writeln!(out, "</pre><figcaption>{told}</figcaption></figure>")
}

fn write_line(out: &mut dyn Write, start: usize, bytes: &[u8], place: usize) -> io::Result<()> {
    write!(out, "<span class=\"at\">{start:5}</span> ")?;
    for column in 0..WIDTH {
        let gap = if column == WIDTH / 2 { "  " } else { " " };
        let shown = match bytes.get(column) {
            Some(byte) => format!("{byte:02x}"),
            None if start + column == place => "--".to_owned(),
            None => "  ".to_owned(),
        };
        write!(out, "{gap}{}", marked(&shown, start + column == place))?;
    }
    write!(out, "  <span class=\"letters\">")?;
    for (column, byte) in bytes.iter().enumerate() {
        let letter = match byte {
            b' '..=b'~' => char::from(*byte),
            _ => '·',
        };
        let letter = escape(letter.encode_utf8(&mut [0; 4]));
        write!(out, "{}", marked(&letter, start + column == place))?;
    }
    writeln!(out, "</span>")
}

fn marked(html: &str, is_marked: bool) -> String {
    match is_marked {
        true => format!("<mark>{html}</mark>"),
        false => html.to_owned(),
    }
}

#[cfg(test)]
mod tests {
    use super::*;

    fn shown(file: &[u8], byte: u32) -> String {
        let mut out = Vec::new();
        write(&mut out, file, byte).unwrap();
        String::from_utf8(out).unwrap()
    }

    #[test]
    fn the_byte_is_marked() {
        let file: Vec<u8> = (0..=255).collect();
        let shown = shown(&file, 60);
        assert!(shown.contains("<mark>3c</mark>") && shown.contains("<mark>&lt;</mark>"));
        assert_eq!(shown.matches("class=\"at\"").count(), 7);
        assert!(shown.contains(">    0</span>") && shown.contains(">   96</span>"));
        assert!(shown.contains("Byte 60, 3c, is marked"));
    }

    #[test]
    fn a_place_at_the_end_or_behind_it() {
        for (length, byte) in [(0, 0), (16, 16), (20, 20), (20, 4_000_000_000), (31, 31)] {
            let shown = shown(&vec![7; length], byte);
            assert_eq!(shown.matches("<mark>--</mark>").count(), 1, "{shown}");
            assert!(shown.contains("The file ends before byte"));
        }
    }
}
