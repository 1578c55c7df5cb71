//! A writer of JSON.

use super::text::is_hidden;
use std::io::{self, Write};

/// The largest whole number up to which floats hold each one, as readers of JSON take numbers.
const MOST_SAFE: u64 = (1 << 53) - 1;

/// Writes values one behind the other and puts the commas between them.
pub struct Json<'w> {
    out: &'w mut dyn Write,
    /// Whether a comma is due before the next value.
    comma: bool,
}

impl<'w> Json<'w> {
    pub fn new(out: &'w mut dyn Write) -> Json<'w> {
        Json { out, comma: false }
    }

    fn separate(&mut self) -> io::Result<()> {
        if self.comma {
            self.out.write_all(b",")?;
        }
        self.comma = true;
        Ok(())
    }

    /// An object of the members that the closure writes.
    pub fn object(&mut self, members: impl FnOnce(&mut Self) -> io::Result<()>) -> io::Result<()> {
        self.around("{", "}", members)
    }

    /// An array of the values that the closure writes.
    pub fn array(&mut self, values: impl FnOnce(&mut Self) -> io::Result<()>) -> io::Result<()> {
        self.around("[", "]", values)
    }

    fn around(
        &mut self,
        open: &str,
        close: &str,
        inside: impl FnOnce(&mut Self) -> io::Result<()>,
    ) -> io::Result<()> {
        self.separate()?;
        self.out.write_all(open.as_bytes())?;
        self.comma = false;
        inside(self)?;
        self.out.write_all(close.as_bytes())?;
        self.comma = true;
        Ok(())
    }

    /// A line break for readers, which JSON takes for white space.
    pub fn line(&mut self) -> io::Result<()> {
        if self.comma {
            self.out.write_all(b",")?;
            self.comma = false;
        }
        self.out.write_all(b"\n")
    }

    /// The end of the document.
    pub fn end(&mut self) -> io::Result<()> {
        self.out.write_all(b"\n")
    }

    /// The name of a member, whose value comes next.
    pub fn key(&mut self, name: &str) -> io::Result<&mut Self> {
        self.separate()?;
        self.write_string(name)?;
        self.out.write_all(b":")?;
        self.comma = false;
        Ok(self)
    }

    pub fn string(&mut self, text: &str) -> io::Result<()> {
        self.separate()?;
        self.write_string(text)
    }

    fn write_string(&mut self, text: &str) -> io::Result<()> {
        self.out.write_all(b"\"")?;
        for character in text.chars() {
            match character {
                '"' => self.out.write_all(b"\\\"")?,
                '\\' => self.out.write_all(b"\\\\")?,
                '\n' => self.out.write_all(b"\\n")?,
                // What is not seen, and what browsers and terminals may act on.
                c if is_hidden(c) => {
                    for unit in c.encode_utf16(&mut [0; 2]) {
                        write!(self.out, "\\u{unit:04x}")?;
                    }
                }
                c => write!(self.out, "{c}")?,
            }
        }
        self.out.write_all(b"\"")
    }

    pub fn number(&mut self, number: impl Into<i64>) -> io::Result<()> {
        self.separate()?;
        write!(self.out, "{}", number.into())
    }

    /// A member `value` that is a whole number; one that a float may not hold is also a string, as `exact`.
    pub fn value_member(&mut self, number: i64) -> io::Result<()> {
        self.key("value")?.number(number)?;
        match number.unsigned_abs() > MOST_SAFE {
            true => self.key("exact")?.string(&number.to_string()),
            false => Ok(()),
        }
    }

    /// A float, so that it reads back to the same bits; one that JSON has no number for is a string.
    pub fn float(&mut self, number: f64) -> io::Result<()> {
        if number.is_finite() {
            self.separate()?;
            write!(self.out, "{number:?}")
        } else {
            self.string(&number.to_string())
        }
    }

    pub fn boolean(&mut self, value: bool) -> io::Result<()> {
        self.separate()?;
        write!(self.out, "{value}")
    }

    pub fn null(&mut self) -> io::Result<()> {
        self.separate()?;
        self.out.write_all(b"null")
    }

    /// A number, or null.
    pub fn optional(&mut self, number: Option<u32>) -> io::Result<()> {
        match number {
            Some(number) => self.number(number),
            None => self.null(),
        }
    }

    /// A member that is text of the file: `text` where it is UTF-8, else `hex`.
    pub fn text_member(&mut self, bytes: &[u8]) -> io::Result<()> {
        match std::str::from_utf8(bytes) {
            Ok(text) => self.key("text")?.string(text),
            Err(_) => self.hex_member(bytes),
        }
    }

    /// A member `hex` of bytes in hexadecimal digits.
    pub fn hex_member(&mut self, bytes: &[u8]) -> io::Result<()> {
        let digits: String = bytes.iter().map(|byte| format!("{byte:02x}")).collect();
        self.key("hex")?.string(&digits)
    }
}

#[cfg(test)]
mod tests {
    use super::*;

    fn written(write: impl FnOnce(&mut Json) -> io::Result<()>) -> String {
        let mut out = Vec::new();
        write(&mut Json::new(&mut out)).unwrap();
        String::from_utf8(out).unwrap()
    }

    #[test]
    fn commas() {
        let shown = written(|json| {
            json.object(|json| {
                json.key("a")?.number(1)?;
                json.key("b")?.array(|json| {
                    json.null()?;
                    json.boolean(true)?;
                    json.object(|_| Ok(()))
                })?;
                json.key("c")?.float(f64::NAN)?;
                json.key("d")?.float(-1.5)
            })
        });
        assert_eq!(shown, r#"{"a":1,"b":[null,true,{}],"c":"NaN","d":-1.5}"#);
    }

    #[test]
    fn numbers_are_exact() {
        let value = |number| written(|json| json.object(|json| json.value_member(number)));
        assert_eq!(
            value(9_007_199_254_740_991),
            r#"{"value":9007199254740991}"#
        );
        for number in [1 << 53, -(1 << 53), (1 << 53) + 1, i64::MAX, i64::MIN] {
            let expected = format!("{{\"value\":{number},\"exact\":\"{number}\"}}");
            assert_eq!(value(number), expected);
        }
        for bits in [
            1,
            1 << 63,
            0x7fef_ffff_ffff_ffff,
            0x3fb9_9999_9999_9998,
            0x4341_c379_37e0_8000,
        ] {
            let number = f64::from_bits(bits);
            let read: f64 = written(|json| json.float(number)).parse().unwrap();
            assert_eq!(read.to_bits(), bits);
        }
        assert_eq!(written(|json| json.float(-f64::INFINITY)), "\"-inf\"");
    }

    #[test]
    fn strings() {
        let shown = written(|json| json.string("a\"\\\n\t\u{1b}é"));
        assert_eq!(shown, "\"a\\\"\\\\\\n\\u0009\\u001bé\"");
        assert_eq!(written(|json| json.string("\x001")), r#""\u00001""#);
        let bytes = written(|json| json.object(|json| json.text_member(&[255, 0])));
        assert_eq!(bytes, r#"{"hex":"ff00"}"#);
        let hidden = written(|json| json.string("\u{ad}\u{200b}\u{202e}\u{feff}\u{e0041}木"));
        assert_eq!(hidden, "\"\\u00ad\\u200b\\u202e\\ufeff\\udb40\\udc41木\"");
    }
}
