//! The original's answer: of its `load`, and of its readers section by section, which tell the numbers apart.

use crate::quiet::inside;
use model::{Allowance, HEADER, Refusal};
use original::Error;
use original::marker::{DBG, END, IREP, LVAR};
use original::rite::rite::{self, Irep, Rite};

/// "over 65,536 bytes" and "the 1,024 records", which the original does not know.
const FILE_LIMIT: usize = 65_536;
const RECORD_LIMIT: usize = 1_024;

/// "1: over 65,536 bytes."
pub const TOO_LONG: Refusal = 1;
/// "6: a second IREP, LVAR or DBG, or LVAR or DBG before IREP."
const SECTION_ORDER: Refusal = 6;
/// "8: after its content, an IREP, LVAR or END section or a record has size 0."
const SIZE_0: Refusal = 8;
/// "9: a string breaks its zero rule"
const ZERO_RULE: Refusal = 9;
/// "14: a needed row is beyond its lent table or the 1,024 records"
pub const NO_ROW: Refusal = 14;
/// "27 when the first four bytes are not ASCII RITE"
const OTHER_IDENT: Refusal = 27;
/// "28 when the header's size exceeds the file's length"
const SIZE_TOO_LARGE: Refusal = 28;
/// "29 when the file or its record number is beyond the caller's allowance but within the desktop's"
pub const BEYOND: Refusal = 29;

/// The numbers of which the original says nothing: their rules are the comparison's own.
pub const OWN_RULE: [Refusal; 4] = [TOO_LONG, OTHER_IDENT, SIZE_TOO_LARGE, BEYOND];

/// The numbers on which the original's `load` is not called: outside the domain, or it never ends.
const NOT_CALLED: [Refusal; 7] = [
    TOO_LONG,
    SECTION_ORDER,
    SIZE_0,
    NO_ROW,
    OTHER_IDENT,
    SIZE_TOO_LARGE,
    BEYOND,
];

/// How a load by the original ends.
pub enum Outcome<'a> {
    Loaded(Rite<'a>),
    Refused(Error),
    Panicked(String),
}

/// Loads a file with the original.
pub fn load(file: &[u8]) -> Outcome<'_> {
    match inside(|| rite::load(file)) {
        Ok(Ok(rite)) => Outcome::Loaded(rite),
        Ok(Err(error)) => Outcome::Refused(error),
        Err(words) => Outcome::Panicked(words),
    }
}

/// Loads a file of this number with the original, where it is called.
pub fn load_of(number: Refusal, file: &[u8]) -> Option<Outcome<'_>> {
    (!NOT_CALLED.contains(&number)).then(|| load(file))
}

impl Outcome<'_> {
    /// The outcome in words.
    pub fn words(&self) -> String {
        match self {
            Outcome::Loaded(rite) => format!("loads {} records", rite.irep.len()),
            Outcome::Refused(error) => format!("Err({error:?})"),
            Outcome::Panicked(words) => format!("panics: {words}"),
        }
    }

    /// Whether paper 01 names this end by a number, 0 for a load.
    pub fn is_named(&self, number: Refusal) -> bool {
        match self {
            Outcome::Loaded(_) => number == 0,
            Outcome::Panicked(_) => [6, 7, 8, 13, 14].contains(&number),
            Outcome::Refused(error) => match error {
                Error::TooShort => [2, 4, 7].contains(&number),
                Error::General => number == 7,
                Error::InvalidFormat => [5, 9, 11, 12].contains(&number),
                Error::UnsupportedVersion(_) => number == 3,
                Error::UnknownPoolType(_) => number == 10,
                Error::InvalidOpCode | Error::Internal(_) => false,
            },
        }
    }
}

/// A section's answer, or why the reading ends there.
type Section<T> = Result<T, End>;

/// Why the reading of a section ends.
enum End {
    Error(Error),
    Panic(String),
}

fn section<T>(call: impl FnOnce() -> Result<T, Error>) -> Section<T> {
    match inside(call) {
        Ok(answer) => answer.map_err(End::Error),
        Err(words) => Err(End::Panic(words)),
    }
}

impl End {
    /// The number of this end, with the one that `InvalidFormat` has here.
    fn number(self, invalid: Refusal) -> Refusal {
        match self {
            // The only sum that can pass its type is a position of kind 0.
            End::Panic(words) if words.contains("overflow") => 13,
            End::Panic(_) => 7,
            End::Error(error) => match error {
                Error::InvalidFormat => invalid,
                Error::UnknownPoolType(_) => 10,
                Error::TooShort | Error::General => 7,
                other => panic!("a section ends by {other:?}"),
            },
        }
    }

    fn is_invalid(&self) -> bool {
        matches!(self, End::Error(Error::InvalidFormat))
    }
}

/// The number that the papers give under an allowance to a file without zeros inside pool strings, 0 for a load, by the original's own readers of one
/// section each.
pub fn number(file: &[u8], allowance: Allowance) -> Refusal {
    let records = allowance.records as usize;
    match header(file, allowance.bytes as usize)
        .and_then(|()| sections(&file[HEADER..], records.min(RECORD_LIMIT)))
    {
        Ok(()) => 0,
        Err(number) => number,
    }
}

/// Holds that the original refuses a file by a string's zero rule: its readers by their number, its `load` by its end.
pub fn breaks_zero_rule(file: &[u8]) -> Result<(), String> {
    let exact = number(file, Allowance::DESKTOP);
    let outcome = load(file);
    if exact != ZERO_RULE || !matches!(outcome, Outcome::Refused(Error::InvalidFormat)) {
        return Err(format!(
            "the original's readers answer {exact} to zeros inside pool strings, the original {}",
            outcome.words()
        ));
    }
    Ok(())
}

/// The tests that come before the sections; Err is the number.
fn header(file: &[u8], allowed: usize) -> Result<(), Refusal> {
    if file.len() > FILE_LIMIT {
        return Err(TOO_LONG);
    }
    if file.len() > allowed {
        return Err(BEYOND);
    }
    if file.len() >= HEADER {
        ident_and_size(file)?;
    }
    // Without sections the original answers for the header alone.
    match inside(|| rite::load(&file[..file.len().min(HEADER)])) {
        Ok(Err(Error::TooShort)) if file.len() < HEADER => Err(2),
        Ok(Err(Error::UnsupportedVersion(major))) if major == file[4..6] => Err(3),
        Ok(Err(Error::TooShort)) if file.len() < 32 => Err(4),
        Ok(Err(Error::TooShort)) => Ok(()),
        other => panic!(
            "the header alone answers {:?}",
            other.map(|a| a.map(|_| ()))
        ),
    }
}

/// The two fields of a whole header that the original does not look at.
fn ident_and_size(file: &[u8]) -> Result<(), Refusal> {
    if !file.starts_with(b"RITE") {
        return Err(OTHER_IDENT);
    }
    if four(&file[8..]) > file.len() {
        return Err(SIZE_TOO_LARGE);
    }
    Ok(())
}

/// Reads the sections in turn, and at most so many records; Err is the number.
fn sections(mut head: &[u8], most: usize) -> Result<(), Refusal> {
    let mut records: Vec<Irep> = Vec::new();
    let mut begun = Vec::new();
    while let Some(mark) = rite::peek4(head) {
        if mark != END && begun.contains(&mark) {
            return Err(SECTION_ORDER);
        }
        if (mark == LVAR || mark == DBG) && !begun.contains(&IREP) {
            return Err(SECTION_ORDER);
        }
        begun.push(mark);
        let size = match mark {
            IREP => {
                let (size, read) = irep(head, most)?;
                records = read;
                size
            }
            LVAR => lvar(head, &mut records)?,
            DBG => dbg(head, &records)?,
            END => section(|| rite::section_end(head)).map_err(|end| end.number(0))?,
            _ => return Err(5),
        };
        if size > head.len() {
            return Err(7);
        }
        // The original reads a section of size 0 again for ever.
        if size == 0 {
            return Err(SIZE_0);
        }
        head = &head[size..];
    }
    Ok(())
}

fn four(bytes: &[u8]) -> usize {
    u32::from_be_bytes(bytes[..4].try_into().unwrap()) as usize
}

/// IREP; no call is made that reads a record of size 0 for ever or more records than the most.
fn irep(head: &[u8], most: usize) -> Result<(usize, Vec<Irep<'_>>), Refusal> {
    // The only `InvalidFormat` of IREP is a string's.
    let read = |head| section(|| rite::section_irep_1(head)).map_err(|end| end.number(ZERO_RULE));
    if head.len() >= 12 && four(&head[4..]) <= head.len() {
        let size = four(&head[4..]);
        let mut place = 12;
        let mut count = 0;
        while place < size && place + 4 <= head.len() {
            let stated = four(&head[place..]);
            if count == most || stated == 0 {
                if place > 12 {
                    let mut before = head.to_vec();
                    before[4..8].copy_from_slice(&(place as u32).to_be_bytes());
                    section(|| rite::section_irep_1(&before).map(|_| ()))
                        .map_err(|end| end.number(ZERO_RULE))?;
                }
                if count == most {
                    return Err(match most {
                        _ if head.len() - place < 16 => 7,
                        RECORD_LIMIT => NO_ROW,
                        _ => BEYOND,
                    });
                }
                // The record of size 0 stands alone, with size 1.
                let mut alone = b"IREP\0\0\0\x0d\0\0\0\0\0\0\0\x01".to_vec();
                alone.extend(&head[place + 4..]);
                section(|| rite::section_irep_1(&alone).map(|_| ()))
                    .map_err(|end| end.number(ZERO_RULE))?;
                return Err(SIZE_0);
            }
            place += stated;
            count += 1;
        }
    }
    let (size, _, records) = read(head)?;
    Ok((size, records))
}

fn lvar(head: &[u8], records: &mut [Irep]) -> Result<usize, Refusal> {
    match section(|| rite::section_lvar(head, records)) {
        Ok((size, _)) => Ok(size),
        Err(end) => {
            // Without records only the strings are read.
            let strings = section(|| rite::section_lvar(head, &mut []));
            let of_strings = strings.is_err_and(|end| end.is_invalid());
            Err(end.number(if of_strings { ZERO_RULE } else { 11 }))
        }
    }
}

/// DBG, whose reader is not public: loaded behind records that have the same children and nothing else.
fn dbg(head: &[u8], records: &[Irep]) -> Result<usize, Refusal> {
    let size = match head.len() {
        0..8 => head.len(),
        _ => four(&head[4..]),
    };
    let part = &head[..size.max(10).min(head.len())];
    let rlens: Vec<[u8; 2]> = records.iter().map(|r| r.header.rlen).collect();
    match debug_alone(&rlens, part) {
        Ok(()) => Ok(size),
        Err(end) => {
            // Without records only the file names are read.
            let names = debug_alone(&[], part);
            let of_names = names.is_err_and(|end| end.is_invalid());
            Err(end.number(if of_names { ZERO_RULE } else { 12 }))
        }
    }
}

fn debug_alone(rlens: &[[u8; 2]], part: &[u8]) -> Section<()> {
    let file = [&plain_file(rlens)[..], part].concat();
    section(|| rite::load(&file).map(|_| ()))
}

/// A file with an IREP section alone, whose records have these children and nothing else.
pub fn plain_file(rlens: &[[u8; 2]]) -> Vec<u8> {
    let mut file = b"RITE0400\0\0\0\0\0\0\0\0\0\0\0\0IREP".to_vec();
    file.extend((12 + 20 * rlens.len() as u32).to_be_bytes());
    file.extend([0; 4]);
    for rlen in rlens {
        file.extend([0, 0, 0, 20, 0, 1, 0, 0]);
        file.extend(rlen);
        file.extend([0; 10]);
    }
    file
}
