//! What a file that is no pattern looks like: a hint for people, from which no verdict is taken.

use crate::IDENT;

/// What a file looks like that begins with these bytes.
#[rustfmt::skip]
const STARTS: &[(&[u8], &str)] = &[
    (b"\x89PNG", "a PNG picture"),
    (b"\xff\xd8\xff", "a JPEG picture"),
    (b"GIF8", "a GIF picture"),
    (b"%PDF-", "a PDF document"),
    (b"PK\x03\x04", "a ZIP archive, as office documents and some drawings are"),
    (b"\x7fELF", "a compiled program (ELF)"),
    (b"ETIR", "a pattern of an older mruby, low byte first, which has to be compiled anew"),
];

const SVG: &str = "an SVG drawing";
const XML: &str = "a document in XML or HTML";
const TEXT: &str = "plain text, perhaps the Ruby source, which has to be compiled first";

/// What a file looks like by its first bytes, in words; none where they are a pattern's or tell nothing.
pub fn looks_like(file: &[u8]) -> Option<&'static str> {
    if file.starts_with(IDENT) || IDENT.starts_with(file) {
        return None;
    }
    match STARTS.iter().find(|(start, _)| file.starts_with(start)) {
        Some((_, words)) => Some(words),
        None => as_text(file),
    }
}

/// The mark that some programs put before text.
const BYTE_ORDER_MARK: char = '\u{feff}';

/// What a file looks like as text; XML may say that it is in another encoding than UTF-8.
fn as_text(file: &[u8]) -> Option<&'static str> {
    let text = String::from_utf8_lossy(file);
    let text = text.trim_start_matches(BYTE_ORDER_MARK).trim_start();
    let is_declared = text.starts_with("<?xml");
    if !is_declared && !is_text(file) {
        return None;
    }
    Some(match first_element(text) {
        Some(element) if is_svg(element) => SVG,
        None if !is_declared => TEXT,
        _ => XML,
    })
}

/// Whether these bytes are text in UTF-8; a character that is cut at their end is left out.
fn is_text(bytes: &[u8]) -> bool {
    let text = match std::str::from_utf8(bytes) {
        Ok(text) => text,
        Err(error) if error.error_len().is_some() => return false,
        Err(error) => std::str::from_utf8(&bytes[..error.valid_up_to()]).unwrap_or_default(),
    };
    let is_of_text = |c: char| !c.is_control() || "\t\n\r\x0c".contains(c);
    !text.is_empty() && text.chars().all(is_of_text)
}

/// The text from the name of its first element on, behind declarations and comments; none where it does not begin as XML does.
fn first_element(text: &str) -> Option<&str> {
    let mut rest = text.strip_prefix('<')?;
    while !rest.starts_with(|c: char| c.is_ascii_alphabetic()) {
        if rest.starts_with("!--") {
            rest = rest.split_once("-->")?.1;
        }
        rest = rest.split_once('<')?.1;
    }
    Some(rest)
}

/// Whether an element is `svg`, or has that as the prefix of its name.
fn is_svg(element: &str) -> bool {
    let behind = element.strip_prefix("svg");
    behind.is_some_and(|behind| !behind.starts_with(char::is_alphanumeric))
}

#[cfg(test)]
mod tests {
    use super::*;
    use crate::FILE_LIMIT;

    #[test]
    fn first_bytes_tell() {
        for (start, words) in STARTS {
            assert_eq!(looks_like(start), Some(*words));
            assert_eq!(looks_like(&[start, &[0, 255][..]].concat()), Some(*words));
            // One byte fewer, or another one before them, tells nothing of it.
            assert_ne!(looks_like(&start[..start.len() - 1]), Some(*words));
            assert_ne!(looks_like(&[&[0], *start].concat()), Some(*words));
        }
        assert_eq!(looks_like(b"\x89PN"), None);
        assert_eq!(looks_like(b"GIF"), Some(TEXT));
    }

    #[test]
    fn a_pattern_or_the_start_of_one_looks_like_nothing_else() {
        for file in [
            &b""[..],
            b"R",
            b"RIT",
            b"RITE",
            b"RITE0300",
            b"RITE, a text",
        ] {
            assert_eq!(looks_like(file), None, "{file:?}");
        }
        assert_eq!(looks_like(b"RITF"), Some(TEXT));
    }

    #[test]
    fn text() {
        for file in [
            &b"puts 1\n"[..],
            b"\tputs 1\r\n\x0c",
            "\u{feff}puts \"木\"".as_bytes(),
            b"class A < B\nend\n",
            b"a",
            b"<",
            b"< b",
        ] {
            assert_eq!(looks_like(file), Some(TEXT), "{file:?}");
        }
        for byte in [0, 7, 27, 127, 128, 255] {
            assert_eq!(looks_like(&[b'a', byte, b'b']), None, "{byte}");
        }
    }

    #[test]
    fn a_character_that_is_cut() {
        assert_eq!(looks_like(b"ab\xe6\x9c"), Some(TEXT));
        assert_eq!(looks_like(b"ab\xe6\x9cc"), None);
        assert_eq!(looks_like(b"\xe6\x9c"), None);
        // What is read of a long file ends anywhere.
        let long = "木".repeat(FILE_LIMIT);
        assert_eq!(looks_like(&long.as_bytes()[..FILE_LIMIT + 1]), Some(TEXT));
    }

    #[test]
    fn drawings_in_xml() {
        for file in [
            "<svg",
            "<svg/>",
            "\u{feff}<svg xmlns='http://www.w3.org/2000/svg'>",
            " \n<svg:svg>",
            "<?xml version='1.0'?>\n<svg>",
            "<?xml version='1.0'?><!-- <a> --><!DOCTYPE svg [ <!ENTITY a 'b'> ]>\n<svg>",
            "<!-- drawn by hand --><svg>",
        ] {
            assert_eq!(looks_like(file.as_bytes()), Some(SVG), "{file}");
        }
        assert_eq!(looks_like(b"<?xml encoding='latin1'?><svg>\xe9"), Some(SVG));
    }

    #[test]
    fn other_documents_in_xml() {
        for file in [
            "<?xml",
            "<?xml version='1.0'?>",
            "<?xml version='1.0'?><office:document><svg/>",
            "<!DOCTYPE html><html>",
            "<svgs>",
            "<a/>",
        ] {
            assert_eq!(looks_like(file.as_bytes()), Some(XML), "{file}");
        }
        assert_eq!(looks_like(b"<?xml encoding='latin1'?><a>\xe9"), Some(XML));
        assert_eq!(looks_like(b"<a>\xe9</a>"), None);
        assert_eq!(looks_like(b"<a>\0"), None);
        assert_eq!(looks_like(b"<!-- <svg>"), Some(TEXT));
    }
}
