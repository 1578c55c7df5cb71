//! Long texts: whole on the page, folded behind their start, while the page has room for them.

use super::html::escape;
use crate::command::text;
use std::cell::Cell;
use std::fmt::Write;

/// The most bytes of a text, of a row of bytes and of a source line that stand unfolded.
pub const LONG_TEXT: usize = text::SHORT;
pub const LONG_BYTES: usize = 16;
pub const LONG_LINE: usize = 160;

/// The room of a page for long texts beside its steps: one that every step names is not written each time.
pub const ROOM: usize = 1 << 20;

/// The bytes of long texts that a page still has room for.
pub struct Room(Cell<usize>);

impl Room {
    pub fn new(bytes: usize) -> Room {
        Room(Cell::new(bytes))
    }

    /// Takes room for a text, where there is enough.
    pub fn take(&self, bytes: usize) -> bool {
        let left = self.0.get().checked_sub(bytes);
        self.0.set(left.unwrap_or(self.0.get()));
        left.is_some()
    }
}

/// A text folded behind its start; on paper it stands whole. Both are HTML.
pub fn folded(start: &str, whole: &str) -> String {
    format!("<details><summary>{start}</summary><span class=\"whole\">{whole}</span></details>")
}

/// Bytes in hexadecimal digits, folded where they are many.
pub fn hex(bytes: &[u8]) -> String {
    match bytes.len() > LONG_BYTES {
        true => folded(&text::hex(bytes, LONG_BYTES), &digits(bytes)),
        false => digits(bytes),
    }
}

/// All bytes in hexadecimal digits.
fn digits(bytes: &[u8]) -> String {
    let mut digits = String::with_capacity(3 * bytes.len());
    for byte in bytes {
        let gap = if digits.is_empty() { "" } else { " " };
        let _ = write!(digits, "{gap}{byte:02x}");
    }
    digits
}

/// The start of a line, up to so many bytes.
fn start(line: &str, most: usize) -> &str {
    let mut ends = (0..=most.min(line.len())).rev();
    let end = ends.find(|end| line.is_char_boundary(*end));
    &line[..end.unwrap_or_default()]
}

/// A source line, folded where it is long; without room for it only its start.
pub fn line(room: &Room, line: &str) -> String {
    let shown = |line: &str| format!("<code>{}</code>", escape(&text::visible(line)));
    if line.len() <= LONG_LINE {
        return shown(line);
    }
    let start = format!(
        "{} … ({})",
        shown(start(line, LONG_LINE)),
        text::counted(line.len() as u64, "byte")
    );
    match room.take(line.len()) {
        true => folded(&start, &shown(line)),
        false => start + " <span class=\"left\">not whole here: see the source</span>",
    }
}

#[cfg(test)]
mod tests {
    use super::*;

    #[test]
    fn long_texts_are_folded_and_whole() {
        assert_eq!(hex(&[1, 2]), "01 02");
        let long = hex(&[7; 17]);
        assert!(long.starts_with("<details><summary>07 07"), "{long}");
        assert!(long.ends_with(&format!(">{}07</span></details>", "07 ".repeat(16))));
        let room = Room::new(1_000);
        let text = "é<".repeat(100);
        let whole = format!("<code>{}</code></span>", "é&lt;".repeat(100));
        assert!(line(&room, &text).contains(&whole));
        assert_eq!(line(&room, "a<b"), "<code>a&lt;b</code>");
    }

    #[test]
    fn room_ends() {
        let room = Room::new(500);
        assert!(line(&room, &"x".repeat(400)).starts_with("<details>"));
        let cut = line(&room, &"x".repeat(400));
        assert!(!cut.contains("<details>") && cut.contains("(400 bytes)"));
        assert!(room.take(100) && !room.take(1));
    }
}
