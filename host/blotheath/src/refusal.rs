//! Refusals: the papers' numbers, each with a sentence.

use std::fmt;

/// A refusal's number.
#[derive(Debug, Clone, Copy, PartialEq, Eq, Hash, PartialOrd, Ord)]
pub struct Refusal(pub u32);

/// What meets a refusal.
#[derive(Debug, Clone, Copy, PartialEq, Eq)]
enum By {
    Loading,
    Examination,
    Choices,
    Lookup,
    Fetch,
}

use By::*;

/// The numbers that there are, with what meets them and their sentences.
#[rustfmt::skip]
const REFUSALS: &[(u32, By, &str)] = &[
    (1, Loading, "the file is longer than 65,536 bytes"),
    (2, Loading, "the file is shorter than its header of 20 bytes"),
    (3, Loading, "the file's major version is not 04"),
    (4, Loading, "the file is shorter than a header and a section, 32 bytes"),
    (5, Loading, "a section begins with a mark that is none of IREP, LVAR, DBG and END"),
    (6, Loading, "a section comes twice, or names or lines come before the records"),
    (7, Loading, "something reaches past the end of the file, or of the debug section that it is in"),
    (8, Loading, "a section or a record has size 0"),
    (9, Loading, "a symbol or a name has a zero byte inside, or a symbol or a constant's text does not end with one"),
    (10, Loading, "a constant is of an unknown kind"),
    (11, Loading, "a record with names has no locals, or a local has a name that does not exist"),
    (12, Loading, "a debug record breaks its rules: a start, a file name, a kind, a packed number or its size"),
    (13, Loading, "a line's position passes 32 bits"),
    (14, Loading, "the file needs more than 1,024 records, or more rows than the tables hold"),
    (15, Examination, "the records do not form one whole tree"),
    (16, Examination, "the instructions of a record cannot be read: an unknown opcode, a cut instruction, or none"),
    (17, Examination, "an operand names a register, constant, symbol or child that does not exist, or a step touches a register that does not exist"),
    (18, Examination, "a step leads to a place where no instruction begins"),
    (19, Examination, "a handler leads to a place where no instruction begins"),
    (20, Examination, "a line map falls back to an earlier position"),
    (21, Choices, "a choice is of an unknown kind, or is cut short"),
    (22, Lookup, "the record or the row that is asked for does not exist, or the row points outside"),
    (23, Fetch, "the opcode is unknown"),
    (24, Fetch, "the instruction is cut short"),
    (25, Examination, "a prefix has no opcode behind it: its record ends, or another prefix follows"),
    (27, Loading, "the file is not a compiled pattern: it does not begin with RITE"),
    (28, Loading, "the file is cut short: it has fewer bytes than its header states"),
    (29, Loading, "the file has more bytes or more records than its allowance"),
    (32, Examination, "a step has an opcode or a prefix that is not permitted"),
];

impl Refusal {
    /// Every refusal that there is, by its number.
    pub fn all() -> impl Iterator<Item = Refusal> {
        REFUSALS.iter().map(|(number, ..)| Refusal(*number))
    }

    /// The refusal of an answered number; 0 is none.
    pub fn of(number: u32) -> Result<(), Refusal> {
        match number {
            0 => Ok(()),
            number => Err(Refusal(number)),
        }
    }

    pub fn number(self) -> u32 {
        self.0
    }

    /// What meets the number, and its sentence.
    fn known(self) -> Option<(By, &'static str)> {
        let known = REFUSALS.iter().find(|(number, ..)| *number == self.0);
        known.map(|(_, by, sentence)| (*by, *sentence))
    }

    /// What the number says, in plain words.
    pub fn sentence(self) -> &'static str {
        self.known()
            .map_or("no such refusal", |(_, sentence)| sentence)
    }

    /// Whether the number is one of loading's, so that a place in the file's bytes can be told.
    pub fn is_of_loading(self) -> bool {
        self.known().is_some_and(|(by, _)| by == Loading)
    }

    /// Whether the number is one of examination's, so that a place in a record can be told.
    pub fn is_of_examination(self) -> bool {
        self.known().is_some_and(|(by, _)| by == Examination)
    }
}

impl fmt::Display for Refusal {
    fn fmt(&self, f: &mut fmt::Formatter) -> fmt::Result {
        write!(f, "refused by {}: {}", self.0, self.sentence())
    }
}

impl std::error::Error for Refusal {}

#[cfg(test)]
mod tests {
    use super::*;

    fn numbers(is_one: fn(Refusal) -> bool) -> Vec<u32> {
        let all = Refusal::all().filter(|refusal| is_one(*refusal));
        all.map(Refusal::number).collect()
    }

    #[test]
    fn every_number_has_a_sentence_of_its_own() {
        let mut sentences: Vec<&str> = Refusal::all().map(Refusal::sentence).collect();
        sentences.sort();
        sentences.dedup();
        assert_eq!(sentences.len(), REFUSALS.len());
        assert!(REFUSALS.is_sorted_by_key(|(number, ..)| number));
    }

    #[test]
    fn numbers_without_a_sentence_say_so() {
        for number in [0, 26, 30, 31, 33, u32::MAX] {
            let refusal = Refusal(number);
            assert_eq!(refusal.sentence(), "no such refusal");
            assert!(!refusal.is_of_loading() && !refusal.is_of_examination());
        }
    }

    #[test]
    fn files_that_are_no_pattern_files() {
        assert_eq!(
            Refusal(27).to_string(),
            "refused by 27: the file is not a compiled pattern: it does not begin with RITE"
        );
        assert_eq!(
            Refusal(28).to_string(),
            "refused by 28: the file is cut short: it has fewer bytes than its header states"
        );
    }

    #[test]
    fn what_meets_a_number() {
        let loading: Vec<u32> = (1..=14).chain(27..=29).collect();
        assert_eq!(numbers(Refusal::is_of_loading), loading);
        assert_eq!(
            numbers(Refusal::is_of_examination),
            [15, 16, 17, 18, 19, 20, 25, 32]
        );
    }
}
