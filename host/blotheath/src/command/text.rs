//! Text of a file, shown safely: whatever could steer a terminal or a page is escaped.

use blotheath::{Constant, Text};
use std::io;
use std::path::Path;

/// The bytes of a text that are shown in a table or beside a step.
pub const SHORT: usize = 48;

/// The characters of a source's line that are shown beside a step.
pub const LINE: usize = 256;

/// Letters and signs that are drawn as nothing or as a blank: Hangul fillers, the empty Braille cell, the empty note.
const BLANKS: [char; 6] = [
    '\u{115f}',
    '\u{1160}',
    '\u{2800}',
    '\u{3164}',
    '\u{ffa0}',
    '\u{1d159}',
];

/// Whether a character is not seen, or changes how others are: control, format, combining and unassigned ones, blanks but the space.
pub fn is_hidden(character: char) -> bool {
    if character.is_ascii() {
        return character.is_ascii_control();
    }
    let is_escaped = character.escape_debug().next() == Some('\\');
    is_escaped || BLANKS.contains(&character)
}

/// A zero byte before a digit of base 8: `\0` and that digit are one character to a reader of Ruby.
const ZERO_BEFORE_DIGIT: &str = "\\x00";

/// Adds a character as it is, or its escape before the next one.
fn push(shown: &mut String, character: char, next: Option<char>) {
    match character {
        '\0' if next.is_some_and(|next| next.is_digit(8)) => shown.push_str(ZERO_BEFORE_DIGIT),
        _ if is_hidden(character) && !character.is_ascii() => {
            shown.extend(character.escape_unicode());
        }
        _ => shown.extend(character.escape_debug()),
    }
}

/// Adds text escaped, but for these marks.
fn push_text(shown: &mut String, text: &str, marks: &[char]) {
    let mut characters = text.chars().peekable();
    while let Some(character) = characters.next() {
        match marks.contains(&character) {
            true => shown.push(character),
            false => push(shown, character, characters.peek().copied()),
        }
    }
}

/// Escaped text without quotation marks around it.
pub fn escaped(bytes: &[u8]) -> String {
    let mut shown = String::new();
    for chunk in bytes.utf8_chunks() {
        push_text(&mut shown, chunk.valid(), &['\'']);
        for byte in chunk.invalid() {
            shown += &format!("\\x{byte:02x}");
        }
    }
    shown
}

/// Text with nothing escaped but what is not visible.
pub fn visible(text: &str) -> String {
    let mut shown = String::new();
    push_text(&mut shown, text, &['\'', '"', '\\']);
    shown
}

/// Escaped text in quotation marks; a long one is cut and its length told.
pub fn quoted(bytes: &[u8], most: usize) -> String {
    match bytes.get(..most) {
        Some(start) if bytes.len() > most => {
            let start = escaped(whole_characters(start));
            format!("\"{start}\"... ({})", length(bytes))
        }
        _ => format!("\"{}\"", escaped(bytes)),
    }
}

/// How many bytes of a text are zero.
pub fn zeros(bytes: &[u8]) -> usize {
    bytes.iter().filter(|byte| **byte == 0).count()
}

/// How many bytes a text has, and how many of them are zero.
fn length(bytes: &[u8]) -> String {
    let told = format!("{} bytes", bytes.len());
    match zeros(bytes) {
        0 => told,
        zeros => format!("{told}, {zeros} of them zero"),
    }
}

/// The bytes without a character that is cut at their end.
fn whole_characters(bytes: &[u8]) -> &[u8] {
    match std::str::from_utf8(bytes) {
        Err(error) if error.error_len().is_none() => &bytes[..error.valid_up_to()],
        _ => bytes,
    }
}

/// Escaped text without quotation marks; a long one is cut.
pub fn plain(bytes: &[u8], most: usize) -> String {
    match bytes.get(..most) {
        Some(start) if bytes.len() > most => format!("{}...", escaped(whole_characters(start))),
        _ => escaped(bytes),
    }
}

/// A symbol as Ruby writes it; a long one is cut.
pub fn symbol(text: Text) -> String {
    symbol_up_to(text, SHORT)
}

/// A word of the command line or of an answer, in quotation marks.
pub fn word(word: &str) -> String {
    quoted(word.as_bytes(), SHORT)
}

/// A symbol as Ruby writes it, with at most so many of its bytes.
pub fn symbol_up_to(text: Text, most: usize) -> String {
    let simple = !text.bytes.is_empty()
        && text.bytes.len() <= most
        && text.bytes.iter().all(u8::is_ascii_graphic)
        && !text.bytes.iter().any(|byte| b"\"'\\,".contains(byte));
    if simple {
        format!(":{}", escaped(text.bytes))
    } else {
        format!(":{}", quoted(text.bytes, most))
    }
}

/// A constant's value; a long one is cut.
pub fn constant(constant: &Constant) -> String {
    constant_up_to(constant, SHORT)
}

/// A constant's value, with at most so many bytes of a text or digits of a big integer.
pub fn constant_up_to(constant: &Constant, most: usize) -> String {
    match constant {
        Constant::Text(text) => quoted(text.bytes, most),
        Constant::Int(number) => number.to_string(),
        Constant::Float(number) => format!("{number:?}"),
        Constant::Big(text) => big(text.bytes, most),
    }
}

/// A big integer: a base, below 0 for a negative number, and at most so many of its digits.
pub fn big(bytes: &[u8], most: usize) -> String {
    let (base, digits) = match bytes.split_first() {
        Some((base, digits)) => (*base as i8, digits),
        None => (0, bytes),
    };
    let radix = u32::from(base.unsigned_abs());
    let is_digit = |byte: &u8| (2..=36).contains(&radix) && char::from(*byte).is_digit(radix);
    if digits.is_empty() || !digits.iter().all(is_digit) {
        return format!("base {base}, digits {}", quoted(digits, most));
    }
    let sign = if base < 0 { "-" } else { "" };
    let shown = plain(digits, most);
    match radix {
        10 => format!("{sign}{shown}"),
        radix => format!("{sign}{shown} in base {radix}"),
    }
}

/// The word for a constant's kind.
pub fn kind(constant: &Constant) -> &'static str {
    match constant {
        Constant::Text(_) => "text",
        Constant::Int(_) => "integer",
        Constant::Float(_) => "float",
        Constant::Big(_) => "big integer",
    }
}

/// Bytes in hexadecimal digits; a long row of them is cut.
pub fn hex(bytes: &[u8], most: usize) -> String {
    let shown: Vec<String> = bytes
        .iter()
        .take(most)
        .map(|b| format!("{b:02x}"))
        .collect();
    let dots = if bytes.len() > most { " …" } else { "" };
    shown.join(" ") + dots
}

/// A path as text.
pub fn path(path: &Path) -> String {
    if path == Path::new("-") {
        return "standard input".to_owned();
    }
    escaped(path.as_os_str().as_encoded_bytes())
}

/// A fault of the system in plain words.
pub fn fault(fault: &io::Error) -> String {
    if fault.kind() == io::ErrorKind::NotFound {
        return "no such file".to_owned();
    }
    let told = fault.to_string();
    match told.split_once(" (os error ") {
        Some((words, _)) => {
            let mut characters = words.chars();
            let first = characters.next().map(|first| first.to_ascii_lowercase());
            first.into_iter().chain(characters).collect()
        }
        None => told,
    }
}

/// A number and its noun: "1 record", "2 records".
pub fn counted(number: u64, noun: &str) -> String {
    match number {
        1 => format!("1 {noun}"),
        _ => format!("{} {noun}s", grouped(number)),
    }
}

/// A number with a comma between every three digits.
pub fn grouped(number: u64) -> String {
    let digits = number.to_string();
    let mut shown = String::new();
    for (index, digit) in digits.chars().enumerate() {
        if index > 0 && (digits.len() - index).is_multiple_of(3) {
            shown.push(',');
        }
        shown.push(digit);
    }
    shown
}

#[cfg(test)]
mod tests {
    use super::*;

    #[test]
    fn nothing_steers_a_terminal() {
        let all: Vec<u8> = (0..=255).collect();
        let shown = escaped(&all) + &escaped("\u{202e}\u{9b}\u{200b}\u{2028}é木".as_bytes());
        assert!(shown.chars().all(|c| !c.is_control()));
        assert!(!shown.contains(['\u{202e}', '\u{200b}', '\u{2028}']));
        assert!(shown.ends_with("é木"));
    }

    #[test]
    fn what_is_not_seen_is_escaped() {
        let ranges = [
            0x80..=0xa0,
            0xad..=0xad,
            0x300..=0x36f,
            0x61c..=0x61c,
            0x115f..=0x1160,
            0x180b..=0x180f,
            0x2000..=0x200f,
            0x2028..=0x202f,
            0x205f..=0x206f,
            0x2800..=0x2800,
            0x3000..=0x3000,
            0x3164..=0x3164,
            0xfe00..=0xfe0f,
            0xfeff..=0xfeff,
            0xffa0..=0xffa0,
            0xfff9..=0xfffb,
            0x1d173..=0x1d17a,
            0xe0000..=0xe01ef,
        ];
        for character in ranges.into_iter().flatten().filter_map(char::from_u32) {
            let text = character.to_string();
            let escape = format!("\\u{{{:x}}}", character as u32);
            assert_eq!(escaped(text.as_bytes()), escape);
            assert_eq!(visible(&text), escape);
            assert_eq!(path(Path::new(&text)), escape);
        }
        for character in "aé木\"'\\ ~ßя🧺".chars() {
            assert!(!is_hidden(character), "{character}");
        }
    }

    #[test]
    fn faults_in_plain_words() {
        for (number, words) in [(2, "no such file"), (13, "permission denied")] {
            assert_eq!(fault(&io::Error::from_raw_os_error(number)), words);
        }
        for number in 1..134 {
            let words = fault(&io::Error::from_raw_os_error(number));
            assert!(!words.contains("os error") && !words.is_empty(), "{words}");
        }
        assert_eq!(fault(&io::Error::other("a fault")), "a fault");
    }

    #[test]
    fn zero_bytes_are_seen() {
        for (bytes, shown) in [
            (&b"a\0b"[..], r"a\0b"),
            (b"a\\0b", r"a\\0b"),
            (b"\0\0", r"\0\0"),
            (b"\x000\x007\x008\0a", r"\x000\x007\08\0a"),
            (b"\0\xff\0", r"\0\xff\0"),
            (b"\x01\x10", r"\u{1}\u{10}"),
        ] {
            assert_eq!(escaped(bytes), shown);
        }
        assert_eq!(visible("\0a\x001"), r"\0a\x001");
        assert_eq!(quoted(b"ab\0", 3), r#""ab\0""#);
        assert_eq!(
            quoted(b"ab\0c", 3),
            r#""ab\0"... (4 bytes, 1 of them zero)"#
        );
        assert_eq!(
            quoted(b"abc\0\0", 3),
            r#""abc"... (5 bytes, 2 of them zero)"#
        );
    }

    #[test]
    fn long_texts_are_cut() {
        assert_eq!(quoted(b"abc", 3), "\"abc\"");
        assert_eq!(quoted(b"abcd", 3), "\"abc\"... (4 bytes)");
        assert_eq!(quoted("aéé".as_bytes(), 2), "\"a\"... (5 bytes)");
        assert_eq!(plain(b"a\nb", 8), "a\\nb");
    }

    #[test]
    fn numbers() {
        assert_eq!(big(b"\x0a123", SHORT), "123");
        assert_eq!(big(b"\xf6123", SHORT), "-123");
        assert_eq!(big(b"\x10ff", SHORT), "ff in base 16");
        assert_eq!(big(b"\x02129", SHORT), "base 2, digits \"129\"");
        assert_eq!(big(b"", SHORT), "base 0, digits \"\"");
        assert_eq!(grouped(1_234_567), "1,234,567");
        assert_eq!(counted(1, "row"), "1 row");
        assert_eq!(counted(0, "row"), "0 rows");
    }
}
