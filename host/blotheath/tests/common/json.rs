//! A reader of JSON, for tests.

/// A value.
#[derive(Debug, Clone, PartialEq)]
pub enum Value {
    Null,
    Boolean(bool),
    Number(f64),
    String(String),
    Array(Vec<Value>),
    Object(Vec<(String, Value)>),
}

impl Value {
    /// A member of an object.
    pub fn get(&self, name: &str) -> &Value {
        let Value::Object(members) = self else {
            panic!("{name} is asked of {self:?}");
        };
        let found = members.iter().find(|(key, _)| key == name);
        &found.unwrap_or_else(|| panic!("no member {name}")).1
    }

    pub fn items(&self) -> &[Value] {
        match self {
            Value::Array(items) => items,
            other => panic!("{other:?} is no array"),
        }
    }

    pub fn number(&self) -> f64 {
        match self {
            Value::Number(number) => *number,
            other => panic!("{other:?} is no number"),
        }
    }

    pub fn text(&self) -> &str {
        match self {
            Value::String(text) => text,
            other => panic!("{other:?} is no string"),
        }
    }

    /// Whether an object has a member.
    pub fn has(&self, name: &str) -> bool {
        matches!(self, Value::Object(members) if members.iter().any(|(key, _)| key == name))
    }

    pub fn is_true(&self) -> bool {
        *self == Value::Boolean(true)
    }
}

/// Reads a whole text.
pub fn parse(text: &str) -> Value {
    let mut reader = Reader {
        bytes: text.as_bytes(),
        at: 0,
    };
    let value = reader.value();
    reader.blanks();
    assert_eq!(reader.at, reader.bytes.len(), "something follows the value");
    value
}

struct Reader<'t> {
    bytes: &'t [u8],
    at: usize,
}

impl Reader<'_> {
    fn peek(&self) -> u8 {
        *self.bytes.get(self.at).expect("the text goes on")
    }

    fn blanks(&mut self) {
        while self.at < self.bytes.len() && self.bytes[self.at].is_ascii_whitespace() {
            self.at += 1;
        }
    }

    fn expect(&mut self, word: &str) {
        assert!(self.bytes[self.at..].starts_with(word.as_bytes()), "{word}");
        self.at += word.len();
    }

    fn value(&mut self) -> Value {
        self.blanks();
        match self.peek() {
            b'{' => self.object(),
            b'[' => self.array(),
            b'"' => Value::String(self.string()),
            b't' => {
                self.expect("true");
                Value::Boolean(true)
            }
            b'f' => {
                self.expect("false");
                Value::Boolean(false)
            }
            b'n' => {
                self.expect("null");
                Value::Null
            }
            _ => self.number(),
        }
    }

    fn object(&mut self) -> Value {
        let mut members = Vec::new();
        self.list(b'}', |reader| {
            reader.blanks();
            let name = reader.string();
            reader.blanks();
            reader.expect(":");
            members.push((name, reader.value()));
        });
        Value::Object(members)
    }

    fn array(&mut self) -> Value {
        let mut items = Vec::new();
        self.list(b']', |reader| items.push(reader.value()));
        Value::Array(items)
    }

    /// Things between commas, up to a closing mark.
    fn list(&mut self, close: u8, mut thing: impl FnMut(&mut Self)) {
        self.at += 1;
        self.blanks();
        if self.peek() == close {
            self.at += 1;
            return;
        }
        loop {
            thing(self);
            self.blanks();
            let mark = self.peek();
            self.at += 1;
            if mark == close {
                return;
            }
            assert_eq!(mark, b',');
        }
    }

    fn string(&mut self) -> String {
        self.expect("\"");
        let mut bytes = Vec::new();
        loop {
            let byte = self.peek();
            self.at += 1;
            match byte {
                b'"' => return String::from_utf8(bytes).unwrap(),
                b'\\' => self.escape(&mut bytes),
                byte => {
                    assert!(byte >= 32, "a control character in a string");
                    bytes.push(byte);
                }
            }
        }
    }

    fn escape(&mut self, bytes: &mut Vec<u8>) {
        let byte = self.peek();
        self.at += 1;
        match byte {
            b'n' => bytes.push(b'\n'),
            b'"' | b'\\' => bytes.push(byte),
            b'u' => {
                let mut units = vec![self.unit()];
                if (0xd800..0xdc00).contains(&units[0]) {
                    self.expect("\\u");
                    units.push(self.unit());
                }
                bytes.extend(String::from_utf16(&units).unwrap().bytes());
            }
            other => panic!("an escape of {other}"),
        }
    }

    /// Four hexadecimal digits.
    fn unit(&mut self) -> u16 {
        let digits = std::str::from_utf8(&self.bytes[self.at..self.at + 4]).unwrap();
        self.at += 4;
        u16::from_str_radix(digits, 16).unwrap()
    }

    fn number(&mut self) -> Value {
        let start = self.at;
        while self.at < self.bytes.len() && b"+-.0123456789eE".contains(&self.bytes[self.at]) {
            self.at += 1;
        }
        let text = std::str::from_utf8(&self.bytes[start..self.at]).unwrap();
        Value::Number(
            text.parse()
                .unwrap_or_else(|_| panic!("{text:?} is no number")),
        )
    }
}
