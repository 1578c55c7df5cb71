//! Request n) of paper 02: lists of permitted opcodes about a file, and what a file meets for one by the comparison's own rule.

use crate::generate::{needed_by_step, past_counts, steps};
use crate::prefixes::{PREFIXES, size};
use crate::rng::Rng;
use crate::sample::STOP;
use model::{EVERYTHING, Flow, OPCODES, Reading, Record, Refusal, Rows, Step, flow, roles};
use std::collections::BTreeSet;

/// "32 when a record holds an opcode not permitted"
pub const FORBIDDEN: Refusal = 32;

/// The bytes of a list that are read, one an opcode.
pub const LIST: usize = 119;

/// "0 for no, else yes; a missing byte is no, one past 119 is not read"
pub fn says_yes(list: &[u8], byte: u8) -> bool {
    let at = usize::from(byte);
    at < LIST && at < list.len() && list[at] != 0
}

/// What begins an instruction: its prefix and its opcode, with their offset and the next.
pub struct Held {
    pub prefix: Option<u8>,
    pub opcode: u8,
    pub offset: usize,
    pub next: usize,
}

impl Held {
    /// "A prefix needs its own yes."
    pub fn is_permitted(&self, list: &[u8]) -> bool {
        self.bytes().iter().all(|byte| says_yes(list, *byte))
    }

    /// The bytes that need a yes.
    pub fn bytes(&self) -> Vec<u8> {
        self.prefix.into_iter().chain([self.opcode]).collect()
    }

    /// Where its operands begin.
    fn operands(&self) -> usize {
        self.offset + self.bytes().len()
    }
}

/// The instructions of a record by the comparison's own reading.
pub struct Content<'a> {
    pub code: &'a [u8],
    pub held: Vec<Held>,
    /// Whether the reading comes to the end, and so meets neither 16 nor 25.
    pub is_whole: bool,
}

impl<'a> Content<'a> {
    pub fn of(file: &'a [u8], record: &Record) -> Content<'a> {
        let code = &file[record.place as usize..][..record.ilen as usize];
        let mut held: Vec<Held> = Vec::new();
        let mut offset = 0;
        while let Some(next) = held_at(code, offset) {
            offset = next.next;
            held.push(next);
        }
        Content {
            code,
            held,
            is_whole: offset == code.len() && offset > 0,
        }
    }

    /// The instructions for which a list does not say yes.
    pub fn forbidden(&self, list: &[u8]) -> Vec<&Held> {
        let held = self.held.iter();
        held.filter(|held| !held.is_permitted(list)).collect()
    }

    /// Whether an operand has a byte that is no permitted opcode.
    pub fn has_other_operands(&self, list: &[u8]) -> bool {
        let mut operands = self
            .held
            .iter()
            .flat_map(|held| &self.code[held.operands()..held.next]);
        operands.any(|byte| !says_yes(list, *byte))
    }
}

/// The instruction at an offset, where a whole one begins.
fn held_at(code: &[u8], offset: usize) -> Option<Held> {
    let first = *code.get(offset)?;
    let prefix = PREFIXES.contains(&first).then_some(first);
    let opcode = *code.get(offset + usize::from(prefix.is_some()))?;
    let kind = OPCODES.get(usize::from(opcode))?.kind;
    let next = offset + size(prefix, kind);
    let is_whole = next <= code.len() && !PREFIXES.contains(&opcode);
    is_whole.then_some(Held {
        prefix,
        opcode,
        offset,
        next,
    })
}

/// The contents of a file's records.
fn contents<'a>(file: &'a [u8], rows: &Rows) -> Vec<Content<'a>> {
    let records = rows.records.rows.iter();
    records.map(|record| Content::of(file, record)).collect()
}

/// The bytes of a file that need a yes, each once; none where it does not load.
pub fn needed(file: &[u8], reading: &Reading) -> Vec<u8> {
    if reading.end.is_err() {
        return Vec::new();
    }
    let contents = contents(file, &reading.rows);
    let held = contents.iter().flat_map(|content| &content.held);
    let bytes: BTreeSet<u8> = held.flat_map(Held::bytes).collect();
    bytes.into_iter().collect()
}

/// Where an examination ends.
#[derive(Clone, Copy, PartialEq, Eq)]
pub struct Met {
    pub number: Refusal,
    /// The record that meets it, where one does.
    record: Option<usize>,
}

impl Met {
    /// What a loaded file meets for a list.
    pub fn of(file: &[u8], rows: &Rows, list: &[u8]) -> Met {
        let records = &rows.records.rows;
        let rlens: Vec<u32> = records.iter().map(|record| record.rlen).collect();
        if !model::is_whole(&rlens) {
            return Met {
                number: 15,
                record: None,
            };
        }
        for (at, record) in records.iter().enumerate() {
            let number = met_by(file, rows, record, list);
            if number != 0 {
                let record = Some(at);
                return Met { number, record };
            }
        }
        Met {
            number: 0,
            record: None,
        }
    }
}

/// What a record of a loaded file meets for a list. What it meets with everything permitted is the model's.
pub fn met_by(file: &[u8], rows: &Rows, record: &Record, list: &[u8]) -> Refusal {
    let content = Content::of(file, record);
    // "after 16 and 25 over that record, before any 17 there"
    if content.is_whole && !content.forbidden(list).is_empty() {
        return FORBIDDEN;
    }
    let examined = model::examine_record(file, &EVERYTHING, rows, record);
    examined.err().unwrap_or(0)
}

/// What is counted of an examination for a list.
#[derive(Debug, Clone, Copy, PartialEq, Eq, PartialOrd, Ord)]
pub enum Seen {
    Passes,
    /// Operands have bytes of opcodes that are not permitted.
    PassesWithOperands,
    Forbidden,
    /// A prefix alone is not permitted.
    Prefix,
    /// What is not permitted stands behind permitted prefixes alone.
    BehindPrefix,
    /// No way leads to what is not permitted from the record's start or its handlers.
    Unreached,
    /// An instruction of the record before what is not permitted meets 17 or 18.
    AfterOperands,
    /// The record that meets 16 or 25 has what is not permitted before that.
    BeforeReading,
    /// What is not permitted stands in a record behind the one that is refused, or the tree is not whole.
    BeforeRecord,
}

impl Seen {
    pub fn name(self) -> &'static str {
        match self {
            Seen::Passes => "passed",
            Seen::PassesWithOperands => "passed, operands not permitted",
            Seen::Forbidden => "32",
            Seen::Prefix => "32 for a prefix",
            Seen::BehindPrefix => "32 behind a prefix",
            Seen::Unreached => "32 that no way leads to",
            Seen::AfterOperands => "32 behind a 17 or 18",
            Seen::BeforeReading => "16 or 25 behind a 32",
            Seen::BeforeRecord => "32 in a later record",
        }
    }

    /// What is counted of a loaded file for a list.
    pub fn all(file: &[u8], rows: &Rows, list: &[u8]) -> BTreeSet<Seen> {
        let met = Met::of(file, rows, list);
        let contents = contents(file, rows);
        let mut seen = BTreeSet::new();
        let mut count = |what, yes| _ = yes && seen.insert(what);
        let is_forbidden = |content: &Content| !content.forbidden(list).is_empty();
        match (met.number, met.record) {
            (0, _) => {
                let operands = contents
                    .iter()
                    .any(|content| content.has_other_operands(list));
                count(Seen::Passes, true);
                count(Seen::PassesWithOperands, operands);
            }
            (FORBIDDEN, Some(record)) => {
                let forbidden = contents[record].forbidden(list);
                let row = &rows.records.rows[record];
                let steps = steps(file, row);
                let reached = reached(rows, row, &steps);
                let all = |is_such: &dyn Fn(&Held) -> bool| forbidden.iter().all(|h| is_such(h));
                let has_yes = |byte: u8| says_yes(list, byte);
                count(Seen::Forbidden, true);
                count(Seen::Prefix, all(&|held| has_yes(held.opcode)));
                let behind = |held: &Held| held.prefix.is_some_and(has_yes);
                count(Seen::BehindPrefix, all(&behind));
                let unreached = |held: &Held| !reached.contains(&held.offset);
                count(Seen::Unreached, all(&unreached));
                let earlier = first_refused(row, &steps).is_some_and(|at| at < forbidden[0].offset);
                count(Seen::AfterOperands, earlier);
            }
            (_, record) => {
                let refused = record.map(|record| &contents[record]);
                let reading = refused.is_some_and(|content| !content.is_whole);
                count(
                    Seen::BeforeReading,
                    reading && refused.is_some_and(is_forbidden),
                );
                let behind = record.map_or(0, |record| record + 1);
                count(
                    Seen::BeforeRecord,
                    contents[behind..].iter().any(is_forbidden),
                );
            }
        }
        seen
    }
}

/// The offset of the first instruction of a readable record that meets 17 or 18.
pub fn first_refused(record: &Record, steps: &[Step]) -> Option<usize> {
    let refused = steps
        .iter()
        .find(|step| is_past(record, step) || leads_out(steps, step));
    refused.map(|step| step.offset)
}

/// Whether an instruction meets 17.
pub fn is_past(record: &Record, step: &Step) -> bool {
    let roles = roles(&OPCODES[step.opcode]);
    past_counts(record, step, roles) || needed_by_step(step) > record.nregs
}

/// Whether an instruction of these meets 18.
pub fn leads_out(steps: &[Step], step: &Step) -> bool {
    let mut ways = ways(step).into_iter();
    ways.any(|offset| beginning_at(steps, offset).is_none())
}

/// The instruction of these that begins at an offset.
fn beginning_at(steps: &[Step], offset: i64) -> Option<&Step> {
    let found = steps.binary_search_by_key(&offset, |step| step.offset as i64);
    found.ok().map(|at| &steps[at])
}

/// The offsets that an instruction leads to.
fn ways(step: &Step) -> Vec<i64> {
    let goes_on = matches!(flow(&OPCODES[step.opcode]), Flow::Next | Flow::MayJump);
    let next = goes_on.then_some(step.next as i64);
    next.into_iter().chain(step.target()).collect()
}

/// The offsets of a record's instructions that a way leads to, from its start or from its handlers.
pub fn reached(rows: &Rows, record: &Record, steps: &[Step]) -> BTreeSet<usize> {
    let handlers = record.handlers.of(&rows.handlers.rows).iter();
    let mut open: Vec<i64> = handlers.map(|handler| handler.target.into()).collect();
    open.push(0);
    let mut reached = BTreeSet::new();
    while let Some(offset) = open.pop() {
        if let Some(step) = beginning_at(steps, offset)
            && reached.insert(step.offset)
        {
            open.extend(ways(step));
        }
    }
    reached
}

/// How a list is made.
#[derive(Debug, Clone, Copy, PartialEq, Eq, PartialOrd, Ord)]
pub enum Sort {
    Empty,
    /// A yes for each opcode up to a number, at or beside one that the file needs.
    Cut,
    Everything,
    /// All but one that the file needs.
    AllButOne,
    /// All but at most one, which the file does not need.
    AllButOther,
    /// Just what the file needs.
    Needed,
    NeededButOne,
    Any,
}

impl Sort {
    pub fn name(self) -> &'static str {
        match self {
            Sort::Empty => "empty",
            Sort::Cut => "cut",
            Sort::Everything => "everything",
            Sort::AllButOne => "all but one needed",
            Sort::AllButOther => "all but one other",
            Sort::Needed => "what is needed",
            Sort::NeededButOne => "needed but one",
            Sort::Any => "any",
        }
    }
}

/// The sorts, those at the border of a pass most often.
const SORTS: [Sort; 16] = [
    Sort::Empty,
    Sort::Cut,
    Sort::Cut,
    Sort::Everything,
    Sort::AllButOne,
    Sort::AllButOne,
    Sort::AllButOne,
    Sort::AllButOne,
    Sort::AllButOther,
    Sort::Needed,
    Sort::Needed,
    Sort::Needed,
    Sort::NeededButOne,
    Sort::NeededButOne,
    Sort::Any,
    Sort::Any,
];

/// A list about the bytes that a file needs.
pub fn any(needed: &[u8], rng: &mut Rng) -> (Sort, Vec<u8>) {
    let sort = rng.pick(&SORTS);
    (sort, of_sort(sort, needed, rng))
}

/// A list of a sort about the bytes that a file needs.
pub fn of_sort(sort: Sort, needed: &[u8], rng: &mut Rng) -> Vec<u8> {
    let needed = if needed.is_empty() { &[STOP] } else { needed };
    let one = one_of(needed, rng);
    let list: Vec<bool> = match sort {
        Sort::Empty => return Vec::new(),
        Sort::Cut => {
            let last = needed[needed.len() - 1];
            let at = usize::from(rng.pick(&[one, last, last]));
            vec![true; (at + rng.below(3)).saturating_sub(1)]
        }
        Sort::Everything => vec![true; LIST],
        Sort::AllButOne => by_byte(|byte| byte != one),
        Sort::AllButOther => {
            let other = rng.below(LIST) as u8;
            by_byte(|byte| byte != other || needed.contains(&byte))
        }
        Sort::Needed => by_byte(|byte| needed.contains(&byte)),
        Sort::NeededButOne => by_byte(|byte| needed.contains(&byte) && byte != one),
        Sort::Any => {
            let times = rng.pick(&[2, 10, 100]);
            by_byte(|_| !rng.one_in(times))
        }
    };
    written(&list, rng)
}

/// A yes or a no for each opcode.
fn by_byte(says: impl FnMut(u8) -> bool) -> Vec<bool> {
    (0..LIST as u8).map(says).collect()
}

/// One of the bytes that a file needs, a prefix as often as not where it has one.
fn one_of(needed: &[u8], rng: &mut Rng) -> u8 {
    let prefixes: Vec<u8> = PREFIXES
        .into_iter()
        .filter(|p| needed.contains(p))
        .collect();
    match rng.one_in(3) && !prefixes.is_empty() {
        true => rng.pick(&prefixes),
        false => rng.pick(needed),
    }
}

/// The bytes of a list: one number or any for yes, cut behind the last yes now and then, or with bytes behind it that are not read.
fn written(list: &[bool], rng: &mut Rng) -> Vec<u8> {
    let yes = rng.pick(&[1, 1, 1, 2, 128, 254, 255, 0]);
    let mut bytes: Vec<u8> = Vec::new();
    for says in list {
        bytes.push(match (says, yes) {
            (false, _) => 0,
            (true, 0) => rng.between(1, 255) as u8,
            (true, yes) => yes,
        });
    }
    if rng.one_in(4) {
        let end = bytes.iter().rposition(|byte| *byte != 0);
        bytes.truncate(end.map_or(0, |last| last + 1));
    }
    if bytes.len() == LIST && rng.one_in(3) {
        let more = rng.pick(&[1, 1, 9, 137]);
        let behind = rng.pick(&[0, 1, 255]);
        bytes.resize(LIST + more, behind);
    }
    bytes
}

/// A list that permits what another does, and most of the time further opcodes.
pub fn further(list: &[u8], needed: &[u8], rng: &mut Rng) -> Vec<u8> {
    let (_, other) = any(needed, rng);
    let says = by_byte(|byte| says_yes(list, byte) || says_yes(&other, byte));
    written(&says, rng)
}

#[cfg(test)]
mod tests {
    use super::*;
    use crate::allowance::read_all;
    use crate::generate::Generator;

    /// What a file needs in most cases: opcodes, a prefix and STOP.
    const NEEDED: [u8; 4] = [0, 38, PREFIXES[1], STOP];

    /// Many lists of a sort.
    fn lists(sort: Sort) -> impl Iterator<Item = Vec<u8>> {
        (0..2_000).map(move |index| of_sort(sort, &NEEDED, &mut Rng::new(1, index)))
    }

    #[test]
    fn sorts_say_yes_for_what_they_name() {
        let yeses = |list: &[u8]| NEEDED.map(|byte| says_yes(list, byte));
        let number = |list: &[u8]| (0..=u8::MAX).filter(|byte| says_yes(list, *byte)).count();
        for list in lists(Sort::Everything) {
            assert_eq!(number(&list), LIST);
        }
        for list in lists(Sort::Needed) {
            assert_eq!((yeses(&list), number(&list)), ([true; 4], NEEDED.len()));
        }
        for list in lists(Sort::AllButOther) {
            assert_eq!(yeses(&list), [true; 4]);
        }
        for (sort, length) in [(Sort::AllButOne, LIST), (Sort::NeededButOne, NEEDED.len())] {
            for list in lists(sort) {
                assert!(yeses(&list).contains(&false));
                assert_eq!(number(&list), length - 1);
            }
        }
    }

    /// Lists end before, at and behind what is needed, before and behind 119, and say yes by any number.
    #[test]
    fn lists_have_every_form() {
        let cut: BTreeSet<usize> = lists(Sort::Cut).map(|list| list.len()).collect();
        for byte in NEEDED.map(usize::from) {
            let around = [byte.saturating_sub(1), byte, byte + 1];
            assert!(around.iter().all(|length| cut.contains(length)), "{byte}");
        }
        let all: Vec<Vec<u8>> = lists(Sort::Needed).chain(lists(Sort::Any)).collect();
        let yeses: BTreeSet<u8> = all.iter().flatten().copied().collect();
        assert_eq!(yeses.len(), 256);
        let longer = all.iter().filter(|list| list.len() > LIST);
        let behind: BTreeSet<u8> = longer.map(|list| list[LIST]).collect();
        assert!(behind.contains(&0) && behind.contains(&1));
        assert!(all.iter().any(|list| list.len() < LIST));
    }

    #[test]
    fn further_lists_permit_no_less() {
        for index in 0..2_000 {
            let rng = &mut Rng::new(1, index);
            let (_, list) = any(&NEEDED, rng);
            let further = further(&list, &NEEDED, rng);
            assert!((0..=u8::MAX).all(|byte| says_yes(&further, byte) || !says_yes(&list, byte)));
        }
    }

    /// What is seen in generated files, with their number where everything is permitted.
    fn seen_in(files: u64) -> BTreeSet<(Seen, Refusal)> {
        let generator = Generator { corpus: Vec::new() };
        let mut all = BTreeSet::new();
        for index in 0..files {
            let file = generator.examinable(1, index);
            let reading = read_all(&file);
            if reading.end.is_err() {
                continue;
            }
            let (_, list) = any(&needed(&file, &reading), &mut Rng::new(!1, index));
            let everything = Met::of(&file, &reading.rows, &EVERYTHING).number;
            let seen = Seen::all(&file, &reading.rows, &list);
            all.extend(seen.into_iter().map(|seen| (seen, everything)));
        }
        all
    }

    #[test]
    fn generated_files_meet_32_beside_every_other_number() {
        let seen = seen_in(12_000);
        let by = |what: Seen, numbers: &[Refusal]| {
            for number in numbers {
                assert!(seen.contains(&(what, *number)), "{what:?} {number}");
            }
        };
        by(Seen::Passes, &[0]);
        by(Seen::PassesWithOperands, &[0]);
        for what in [
            Seen::Forbidden,
            Seen::Prefix,
            Seen::BehindPrefix,
            Seen::Unreached,
        ] {
            by(what, &[0, 16, 17, 18, 19, 20]);
        }
        by(Seen::AfterOperands, &[17, 18]);
        by(Seen::BeforeReading, &[16, 25]);
        by(Seen::BeforeRecord, &[15, 16, 17, 18, 19, 20, 25]);
    }
}
