//! Choices in words and in bytes.

use super::text;
use blotheath::{Choice, bytes_of};

/// The most choices of a list, and the most bytes that are given as such.
const MOST: usize = 1 << 20;

/// A list of choices, as bytes one behind the other.
#[derive(Debug, Default, PartialEq, Eq)]
pub struct Choices {
    bytes: Vec<u8>,
    number: usize,
}

impl Choices {
    pub fn bytes(&self) -> &[u8] {
        &self.bytes
    }

    /// How many choices there are; what is no choice counts as one.
    pub fn number(&self) -> usize {
        self.number
    }

    /// The choices in turn, up to bytes that are none.
    pub fn iter(&self) -> impl Iterator<Item = Choice> {
        let mut rest = &self.bytes[..];
        std::iter::from_fn(move || {
            let (choice, behind) = Choice::read(rest)?;
            rest = behind;
            Some(choice)
        })
    }

    fn push(&mut self, choice: Choice, times: usize) -> Result<(), String> {
        let bytes = bytes_of(&[choice]);
        self.room(times, times.saturating_mul(bytes.len()))?;
        for _ in 0..times {
            self.bytes.extend_from_slice(&bytes);
        }
        Ok(())
    }

    /// Adds the choices of another list.
    pub fn append(&mut self, more: &Choices) -> Result<(), String> {
        self.room(more.number, more.bytes.len())?;
        self.bytes.extend_from_slice(&more.bytes);
        Ok(())
    }

    /// Counts more choices and makes room for their bytes.
    fn room(&mut self, number: usize, bytes: usize) -> Result<(), String> {
        if number > MOST - self.number {
            return Err("these are too many choices".to_owned());
        }
        self.number += number;
        self.bytes.reserve(bytes);
        Ok(())
    }

    /// Takes the last choice back.
    pub fn pop(&mut self, choice: Choice) {
        let length = bytes_of(&[choice]).len();
        self.bytes.truncate(self.bytes.len().saturating_sub(length));
        self.number = self.number.saturating_sub(1);
    }
}

/// Reads choices in words, or as bytes behind the word `bytes`.
pub fn read(words: &[String]) -> Result<Choices, String> {
    if let Some((first, rest)) = words.split_first()
        && first == "bytes"
    {
        return read_bytes(&rest.concat());
    }
    let mut words = words.iter().flat_map(|word| word.split_whitespace());
    let mut choices = Choices::default();
    while let Some(word) = words.next() {
        let (times, word) = match word.parse::<usize>() {
            Ok(times) => (
                times,
                words.next().ok_or("a number of times has no choice")?,
            ),
            Err(_) => (1, word),
        };
        choices.push(read_choice(word, || words.next())?, times)?;
    }
    Ok(choices)
}

fn read_choice<'w>(word: &str, next: impl FnOnce() -> Option<&'w str>) -> Result<Choice, String> {
    match word {
        "go" | "g" => Ok(Choice::GoOn),
        "jump" | "j" => Ok(Choice::Jump),
        "enter" | "e" => Ok(Choice::Enter),
        "leave" | "l" => Ok(Choice::Leave),
        "caught" | "c" => {
            let handler = next().ok_or("caught has no handler's number")?;
            let number = handler.parse();
            Ok(Choice::Caught(number.map_err(|_| {
                format!("{} is no handler's number", text::word(handler))
            })?))
        }
        word => Err(format!("there is no choice {}", text::word(word))),
    }
}

/// Reads choices as hexadecimal digits; bytes that are no choice are kept for the verdict.
fn read_bytes(digits: &str) -> Result<Choices, String> {
    let fault = || {
        format!(
            "{} are no bytes of two hexadecimal digits each",
            text::word(digits)
        )
    };
    if !digits.len().is_multiple_of(2) || !digits.bytes().all(|digit| digit.is_ascii_hexdigit()) {
        return Err(fault());
    }
    if digits.len() / 2 > MOST {
        return Err("these are too many choices".to_owned());
    }
    let bytes: Result<Vec<u8>, _> = (0..digits.len() / 2)
        .map(|index| u8::from_str_radix(&digits[2 * index..2 * index + 2], 16))
        .collect();
    let bytes = bytes.map_err(|_| fault())?;
    let (mut rest, mut number) = (&bytes[..], 0);
    while let Some((_, behind)) = Choice::read(rest) {
        (rest, number) = (behind, number + 1);
    }
    number += usize::from(!rest.is_empty());
    Ok(Choices { bytes, number })
}

/// A choice in words.
pub fn told(choice: Choice) -> String {
    match choice {
        Choice::GoOn => "go".to_owned(),
        Choice::Jump => "jump".to_owned(),
        Choice::Enter => "enter".to_owned(),
        Choice::Caught(handler) => format!("caught {handler}"),
        Choice::Leave => "leave".to_owned(),
    }
}

#[cfg(test)]
mod tests {
    use super::*;

    fn bytes(words: &str) -> Result<Vec<u8>, String> {
        let words: Vec<String> = words.split(' ').map(str::to_owned).collect();
        read(&words).map(|choices| choices.bytes)
    }

    #[test]
    fn words_and_bytes() {
        assert_eq!(
            bytes("go jump enter caught 258 leave"),
            Ok(vec![0, 1, 2, 3, 1, 2, 4])
        );
        assert_eq!(bytes("3 go 2 c 1"), Ok(vec![0, 0, 0, 3, 0, 1, 3, 0, 1]));
        assert_eq!(bytes("bytes 00 030001 05"), Ok(vec![0, 3, 0, 1, 5]));
        assert_eq!(bytes("bytes 03"), Ok(vec![3]));
    }

    #[test]
    fn faults() {
        for words in [
            "fly",
            "caught",
            "caught x",
            "caught 65536",
            "3",
            "bytes 0",
            "bytes 0g",
            "bytes é",
            "99999999999 go",
            "1048576 go go",
        ] {
            assert!(bytes(words).is_err(), "{words}");
        }
    }

    #[test]
    fn lists_are_counted() {
        let words = ["bytes".to_owned(), "00030001".to_owned(), "0305".to_owned()];
        assert_eq!(read(&words).unwrap().number(), 3);
        let mut choices = read(&["go caught 7".to_owned()]).unwrap();
        let last = choices.iter().last().unwrap();
        assert_eq!((told(last), choices.number()), ("caught 7".to_owned(), 2));
        choices.pop(last);
        assert_eq!((choices.bytes(), choices.number()), (&[0][..], 1));
        let more = read(&["1048575 caught 0".to_owned()]).unwrap();
        assert_eq!(choices.append(&more), Ok(()));
        assert!(choices.append(&more).is_err());
        assert_eq!(choices.number(), 1 << 20);
    }
}
