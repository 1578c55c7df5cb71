//! Text in HTML.

use crate::command::text;
use std::fmt;

/// Text with its marks escaped.
pub fn escape(text: &str) -> String {
    Escaped(text).to_string()
}

/// Text that is escaped where it is written.
pub struct Escaped<'t>(pub &'t str);

impl fmt::Display for Escaped<'_> {
    fn fmt(&self, f: &mut fmt::Formatter) -> fmt::Result {
        for part in self.0.split_inclusive(['&', '<', '>', '"', '\'']) {
            let mark = part.chars().next_back().and_then(escaped_mark);
            match mark {
                Some(mark) => write!(f, "{}{mark}", &part[..part.len() - 1])?,
                None => f.write_str(part)?,
            }
        }
        Ok(())
    }
}

fn escaped_mark(mark: char) -> Option<&'static str> {
    match mark {
        '&' => Some("&amp;"),
        '<' => Some("&lt;"),
        '>' => Some("&gt;"),
        '"' => Some("&quot;"),
        '\'' => Some("&#39;"),
        _ => None,
    }
}

/// Bytes of a file as HTML text.
pub fn bytes(bytes: &[u8]) -> String {
    escape(&text::escaped(bytes))
}

/// Text as a string of CSS, which neither ends the string nor the style sheet.
pub fn css(text: &str) -> String {
    let mut shown = String::from("\"");
    for character in text.chars() {
        match character.is_ascii_alphanumeric() {
            true => shown.push(character),
            false => shown += &format!("\\{:x} ", u32::from(character)),
        }
    }
    shown + "\""
}

#[cfg(test)]
mod tests {
    use super::*;

    #[test]
    fn marks_are_escaped() {
        assert_eq!(escape("<a href='\"&"), "&lt;a href=&#39;&quot;&amp;");
        assert_eq!(escape("é<<木>é"), "é&lt;&lt;木&gt;é");
        assert_eq!(escape(""), "");
        assert_eq!(bytes(b"</script>\x1b"), "&lt;/script&gt;\\u{1b}");
        assert_eq!(css("a</\"é"), "\"a\\3c \\2f \\22 \\e9 \"");
    }
}
