//! Stored reference answers: written here, replayed by programs that have neither the original nor the model: crates/replay for load,
//! examination and follow, crates/replay_lookups for fetch, line lookups and lookups.
//!
//! # The form
//!
//! Items, one behind the other. Numbers have four bytes, high byte first. An item begins with its kind:
//!
//! ```text
//! 0                         the end
//! 1 LENGTH BYTES            bytes: a file to load or code to fetch from
//! 2 W0 .. W8 N R0 .. R8 V S a load of these bytes over nine tables of so many words:
//!                           refusal's number or 0, rows used, visits of the LVAR walk, the sum of all lent words afterwards
//! 3 N KIND A B C            a fetch from these bytes: refusal's number or 0, operand kind, operands
//! 4 WORDS P0 L0 P1 L1 ..    words: how many, then a map's positions and lines, or the lengths of nine tables and their words
//! 4 0                       no words: loads, examinations and follows behind them are under the desktop's allowance, with everything permitted, as at
//!                           the start
//! 4 2 BYTES RECORDS         words before these calls: their allowance, and everything is permitted
//! 4 WORDS BYTES RECORDS LENGTH LIST
//!                           the same with the list of permitted opcodes: how many bytes it has, then its bytes, zeros behind them up to a whole word;
//!                           a load takes no list
//! 5 POS FOUND LINE          a line lookup in this map: position, 1 or 0 for none, line or 0
//! 6 LENGTH NAME             the end of a group of answers, and its name
//! 7 W0 .. W8 N R0 .. R8 V S an examination of these bytes, as a load
//! 8 W0 .. W8 N R0 .. R9 S F LENGTH CHOICES
//!                           a follow of these bytes along choices, over a frame table of F words: refusal's number or 0, then finished,
//!                           record, offset, found, line, frames and four zeros, the sum of all lent words, the frame table's last
//! 9 LOOKUP REC INDEX N A B C D E
//!                           a lookup in these bytes and nine tables: refusal's number or 0, then the fields of its answer, zeros behind them
//! 10 REC INDEX N KIND PLACE LENGTH INT FLOAT
//!                           a constant's lookup; INT has eight bytes, high byte first, FLOAT eight, low byte first
//! 11 W0 .. W8 N R0 .. R8 V S REC
//!                           an examination of a single record of these bytes, as a load, and the record's number
//! ```
//!
//! The nine tables are those of `model::NAMES`, always in this order, with rows of `model::ROW_WORDS` words. The first has at most three rows more
//! than 1,024, the others 8,192 words.
//! A frame table has at most 2,048 words. There are at most 512 words of kind 4. A load, an examination or a follow is under the allowance and for the
//! list of the words that stand last, if they are two or more, and so is an examination of a single record. The kinds 0 to 7 are Z, B, BB, S, BBB, BS, W, BSS.
//! Lookups are numbered from 0: instructions, handler, pool, symbol, name, debug file, line.
//! The sum begins with 0; for each word w, table by table, it becomes (sum * 65599 + w + 1) modulo 4294967291.
//! A replay fills the lent words with anything but the answer before each call, so that the sum shows every word written.
//!
//! Answers of load are the model's, held against the original before they are stored; 1, 6, 8, 14, 27, 28 and 29 have no counterpart there,
//! and for files with zeros inside pool strings their twins are held (`held.rs`).
//! Answers of fetch and of line lookups in maps are the original's. Those of examination, follow and the seven lookups are the model's:
//! the original has none of them.

use crate::Stop;
use crate::allowance::read_all;
use crate::allowed::{self, Allowed, Asked};
use crate::args::Args;
use crate::chosen;
use crate::examine::NOT_PASSING;
use crate::expected;
use crate::fetch;
use crate::follow;
use crate::generate::{Generator, overwrite, state_size};
use crate::held::Held;
use crate::lines;
use crate::listed::{self, Listed};
use crate::load::{ANSWERS, Counts, corpus, garbage, one, other_sizes};
use crate::lookups;
use crate::oracle::{self, NO_ROW, Outcome, TOO_LONG};
use crate::parents;
use crate::rng::Rng;
use crate::sample::{Examined, FINISHED, Run, file_a, stands_at};
use crate::singled;
use crate::subject::{Answer, Fetch, Follow, Found, LOOKUPS, Lookup, Model, Subject, subjects};
use crate::visits;
use model::{
    Allowance, EVERYTHING, FILE_LIMIT, HEADER, OPCODES, RECORD_LIMIT, RECORD_WORDS, ROW_WORDS,
    Refusal, Sizes, Tables,
};
use original::rite::rite::line_at;
use std::collections::BTreeMap;
use std::fs;

/// The most bytes of a generated file, but for those at a limit.
const LONGEST: usize = 700;
/// The most rows that are lent of a table beside those that a file needs.
const MORE_ROWS: usize = 3;
/// The most words of each lent table: records for the most that a file may have, and more.
const MOST: [usize; 9] = {
    let mut most = [8_192; 9];
    most[RECORDS] = (RECORD_LIMIT + MORE_ROWS) * RECORD_WORDS;
    most
};
/// The numbers of the tables that samples use.
const RECORDS: usize = 0;
const POOL: usize = 2;
const SYMBOLS: usize = 3;
const STRINGS: usize = 4;
const FILE_NAMES: usize = 6;
/// Tables of one row each.
const ONE_ROW: Sizes = Sizes(ROW_WORDS);
/// The most words of a frame table.
const MOST_FRAMES: usize = 2_048;
/// The most words of a stored item of words.
const MOST_WORDS: usize = 512;
/// The kind of an examination of a single record.
const SINGLE: u32 = 11;

/// `compare store`
pub fn write(args: &Args) -> Result<(), Stop> {
    args.only(&["--seed", "--count", "--calls", "--lookups"])
        .map_err(Stop::Usage)?;
    let seed = args.number("--seed", 1).map_err(Stop::Usage)?;
    let count = args.number("--count", 200).map_err(Stop::Usage)?;
    let mut counts = Counts::default();
    let mut calls = Store::default();
    samples(&mut calls).map_err(Stop::Difference)?;
    chosen_samples(&mut calls).map_err(Stop::Difference)?;
    visited_samples(&mut calls).map_err(Stop::Difference)?;
    nested_samples(&mut calls).map_err(Stop::Difference)?;
    allowed_samples(&mut calls).map_err(Stop::Difference)?;
    listed_samples(&mut calls).map_err(Stop::Difference)?;
    listed_group(&mut calls, &singled::group()).map_err(Stop::Difference)?;
    loads(&mut calls, seed, count as usize, &mut counts).map_err(Stop::Difference)?;
    examinable_files(&mut calls, seed)?;
    let mut lookups = Store::default();
    constant_samples(&mut lookups).map_err(Stop::Difference)?;
    fetches(&mut lookups, seed).map_err(Stop::Difference)?;
    maps(&mut lookups, seed);
    looked_up(&mut lookups, seed)?;
    print!("{}", counts.words());
    calls.end(args, "--calls")?;
    lookups.end(args, "--lookups")
}

/// What calls state beside the file: the allowance and the permitted opcodes.
#[derive(Debug, Clone, PartialEq, Eq)]
struct Terms {
    allowance: Allowance,
    permitted: Vec<u8>,
}

impl Default for Terms {
    fn default() -> Terms {
        Terms::with_everything(Allowance::DESKTOP)
    }
}

impl Terms {
    /// An allowance, with everything permitted.
    fn with_everything(allowance: Allowance) -> Terms {
        Terms {
            allowance,
            permitted: EVERYTHING.to_vec(),
        }
    }

    /// The words that state these terms.
    fn words(&self) -> Vec<u32> {
        if *self == Terms::default() {
            return Vec::new();
        }
        let Allowance { bytes, records } = self.allowance;
        if self.permitted == EVERYTHING {
            return vec![bytes, records];
        }
        let mut words = vec![bytes, records, self.permitted.len() as u32];
        for part in self.permitted.chunks(4) {
            let mut word = [0; 4];
            word[..part.len()].copy_from_slice(part);
            words.push(u32::from_be_bytes(word));
        }
        words
    }

    /// The terms that words state.
    fn of(words: &[u32]) -> Result<Terms, String> {
        let [bytes, records, ref list @ ..] = *words else {
            return Ok(Terms::default());
        };
        let mut terms = Terms::with_everything(Allowance { bytes, records });
        if let [length, list @ ..] = list {
            let bytes: Vec<u8> = list.iter().flat_map(|word| word.to_be_bytes()).collect();
            let permitted = bytes.get(..*length as usize);
            terms.permitted = permitted.ok_or("a list's bytes are missing")?.to_vec();
        }
        Ok(terms)
    }
}

#[derive(Default)]
struct Store {
    bytes: Vec<u8>,
    /// The terms of the calls that come next.
    terms: Terms,
}

impl Store {
    /// States the terms of the calls that come next.
    fn state(&mut self, terms: Terms) {
        if terms == self.terms {
            return;
        }
        self.words(&terms.words());
        self.terms = terms;
    }

    /// An item of words.
    fn words(&mut self, words: &[u32]) {
        assert!(words.len() <= MOST_WORDS, "more words than a replay has");
        self.item(4, [&[words.len() as u32], words].concat());
    }

    fn item(&mut self, kind: u32, numbers: impl IntoIterator<Item = u32>) {
        self.bytes.extend(kind.to_be_bytes());
        for number in numbers {
            self.bytes.extend(number.to_be_bytes());
        }
    }

    fn bytes(&mut self, kind: u32, bytes: &[u8]) {
        self.item(kind, [bytes.len() as u32]);
        self.bytes.extend(bytes);
    }

    /// Ends the items and writes them to the path that an option names.
    fn end(mut self, args: &Args, option: &str) -> Result<(), Stop> {
        let path = args
            .text(option)
            .ok_or(Stop::Usage(format!("{option} is missing")))?;
        self.item(0, []);
        fs::write(path, &self.bytes).map_err(|error| Stop::Usage(format!("{path}: {error}")))?;
        println!("{path}: {} bytes", self.bytes.len());
        Ok(())
    }

    /// A load, an examination or the first numbers of a follow; an answer has eleven.
    fn call(&mut self, kind: u32, sizes: &Sizes, answer: [u32; 11], sum: u32) {
        let words = sizes.0.map(|words| words as u32);
        self.item(kind, [&words[..], &answer, &[sum]].concat());
    }

    fn follow(
        &mut self,
        sizes: &Sizes,
        answer: &Follow,
        tables: &Tables,
        frames: &[u32],
        choices: &[u8],
    ) {
        let sum = sum(tables, frames);
        self.call(8, sizes, of_follow(answer), sum);
        self.bytes.extend((frames.len() as u32).to_be_bytes());
        self.bytes.extend((choices.len() as u32).to_be_bytes());
        self.bytes.extend(choices);
    }
}

/// The sum of the words of nine tables and of the frame table.
fn sum(tables: &Tables, frames: &[u32]) -> u32 {
    let step = |sum: u64, word: &u32| (sum * 65_599 + u64::from(*word) + 1) % 4_294_967_291;
    tables.iter().flatten().chain(frames).fold(0, step) as u32
}

/// The numbers of a load's or an examination's answer.
fn of_load(answer: &Answer) -> [u32; 11] {
    let mut numbers = [0; 11];
    numbers[0] = answer.refusal;
    numbers[1..10].copy_from_slice(&answer.rows);
    numbers[10] = answer.visits;
    numbers
}

/// The numbers of a follow's answer.
fn of_follow(followed: &Follow) -> [u32; 11] {
    let mut numbers = [0; 11];
    numbers[0] = followed.refusal;
    numbers[1..7].copy_from_slice(&followed.numbers);
    numbers
}

/// Where the pool and the symbols of File A's record begin, and where its END does.
const A_LISTS: usize = 52;
const A_END: usize = 56;

/// The papers' samples of loading, examination and runs that are run by a program, with the papers' own answers.
fn samples(store: &mut Store) -> Result<(), String> {
    let a = file_a();
    let followed_by = |zeros: usize| [&a[..], &vec![0; zeros]].concat();
    // "The 32- and 31-byte samples then carry size 31."
    let end_alone = |size: u8| {
        let mut file = [&a[..HEADER], b"END\0\0\0\0", &[size], &[0; 4]].concat();
        state_size(&mut file, 31);
        file
    };
    let mut jump = [&a[..48], &[38, 255, 252], &a[52..]].concat();
    state_size(&mut jump, 63);
    jump[27] = 35;
    jump[35] = 23;
    jump[47] = 3;
    for (file, refusal, records) in [
        (followed_by(0), 0, 1),
        (followed_by(3), 0, 1),
        (followed_by(4), 5, 0),
        (end_alone(12), 0, 0),
        (end_alone(0), 8, 0),
        (end_alone(12)[..31].to_vec(), 4, 0),
    ] {
        sample(store, 2, &file, refusal, of_records(records))?;
    }
    header_samples(store, &a)?;
    text_samples(store)?;
    sample(store, 7, &end_alone(12), 15, [0; 9])?;
    sample(store, 7, &jump, 18, [0; 9])?;
    let runs = [(vec![0], stands_at(0, 2, 1)), (vec![0, 0], FINISHED)];
    sample_runs(store, &a, &runs)?;
    store.bytes(6, b"samples of the papers");
    Ok(())
}

/// File A with another ident, size or major, and its first bytes with them: the borders and the order of 27 and 28.
fn header_samples(store: &mut Store, a: &[u8]) -> Result<(), String> {
    for (ident, size, major, length, refusal) in [
        (b"RITE", 0, b"04", 64, 0),
        (b"RITE", 65, b"04", 64, 28),
        (b"RITE", 64 << 24, b"04", 64, 28),
        (b"RITe", 64, b"04", 64, 27),
        (b"ETIR", 64, b"04", 64, 27),
        (b"\x89PNG", u32::MAX as usize, b"03", 19, 2),
        (b"\x89PNG", u32::MAX as usize, b"03", 20, 27),
        (b"\x89PNG", 64, b"04", 31, 27),
        (b"RITE", 32, b"03", 31, 28),
        (b"RITE", 32, b"04", 31, 28),
        (b"RITE", 31, b"03", 31, 3),
    ] {
        let mut file = a.to_vec();
        overwrite(&mut file, 0, ident);
        state_size(&mut file, size);
        overwrite(&mut file, 4, major);
        loaded_and_examined(store, &file[..length], refusal, RECORDS)?;
    }
    Ok(())
}

/// File A with these bytes for its pool and symbols, and with these sections before END.
fn file_a_with(lists: &[u8], sections: &[u8]) -> Vec<u8> {
    let a = file_a();
    let mut file = [&a[..A_LISTS], lists, sections, &a[A_END..]].concat();
    let more = (lists.len() - (A_END - A_LISTS)) as u32;
    overwrite(&mut file, 24, &(36 + more).to_be_bytes());
    overwrite(&mut file, 32, &(24 + more).to_be_bytes());
    let length = file.len();
    state_size(&mut file, length);
    file
}

/// The pool of one string of this kind, with a byte behind its text, and no symbols.
fn pool_of_text(kind: u8, text: &[u8], last: u8) -> Vec<u8> {
    let head = [0, 1, kind, 0, text.len() as u8];
    [&head[..], text, &[last, 0, 0]].concat()
}

/// File A with a text at each place where one can stand: "Pool strings may have zero bytes inside; the last byte must still be zero."
fn text_samples(store: &mut Store) -> Result<(), String> {
    for text in [&b""[..], b"ab", b"a\0b", b"a\0", b"\0b", b"\0", b"\0\0\0"] {
        let counted = [&[0, text.len() as u8][..], text].concat();
        for kind in [0, 2] {
            for (last, refusal) in [(0, 0), (1, 9), (255, 9)] {
                let file = file_a_with(&pool_of_text(kind, text, last), &[]);
                loaded_and_examined(store, &file, refusal, POOL)?;
            }
        }
        // "Symbols, local names and file names keep their rule."
        let refusal = if text.contains(&0) { 9 } else { 0 };
        let symbol = [&[0, 0, 0, 1][..], &counted, &[0]].concat();
        loaded_and_examined(store, &file_a_with(&symbol, &[]), refusal, SYMBOLS)?;
        let size = counted.len() as u8;
        let local = [&b"LVAR\0\0\0"[..], &[12 + size, 0, 0, 0, 1], &counted].concat();
        loaded_and_examined(store, &file_a_with(&[0; 4], &local), refusal, STRINGS)?;
        let name = [&b"DBG\0\0\0\0"[..], &[10 + size, 0, 1], &counted].concat();
        loaded_and_examined(store, &file_a_with(&[0; 4], &name), refusal, FILE_NAMES)?;
    }
    order_samples(store)
}

/// File A with pool strings that have a zero inside: which number is met first.
fn order_samples(store: &mut Store) -> Result<(), String> {
    // The byte behind the text is END's last but one, its last, or past the file.
    let long = |length: u8| vec![0, 1, 0, 0, length, b'a', 0];
    for (lists, refusal) in [
        (long(8), 7),
        (long(9), 9),
        (long(10), 7),
        // A second constant: of an unknown kind, with another last byte, good but without a row.
        (vec![0, 2, 0, 0, 1, 0, 0, 4, 0, 0], 10),
        (vec![0, 2, 0, 0, 1, 0, 0, 2, 0, 1, 0, 1, 0, 0], 9),
        (vec![0, 2, 0, 0, 1, 0, 0, 2, 0, 1, 0, 0, 0, 0], 14),
        // A symbol with a zero inside.
        (vec![0, 1, 2, 0, 1, 0, 0, 0, 1, 0, 1, 0, 0], 9),
    ] {
        loaded_and_examined(store, &file_a_with(&lists, &[]), refusal, POOL)?;
    }
    Ok(())
}

/// A load and an examination of a sample: refused, or with a row of the record and one of this table, of which strings come with a visit.
fn loaded_and_examined(
    store: &mut Store,
    file: &[u8],
    refusal: u32,
    table: usize,
) -> Result<(), String> {
    let one = u32::from(refusal == 0);
    let mut rows = of_records(one);
    rows[table] = one;
    let visits = if table == STRINGS { one } else { 0 };
    let right = Answer {
        refusal,
        rows,
        visits,
    };
    sample_over(store, 2, &ONE_ROW, file, right)?;
    sample_again(store, 7, &ONE_ROW, file, right)
}

/// The rows of a load that uses so many records and no other row.
fn of_records(records: u32) -> [u32; 9] {
    [records, 0, 0, 0, 0, 0, 0, 0, 0]
}

/// Chosen files, examined and followed, with the answers of requests c), b) and j).
fn chosen_samples(store: &mut Store) -> Result<(), String> {
    for group in chosen::groups() {
        let wrong = |why: String| format!("{}: {why}", group.name);
        sample_examinations(store, &group.examined).map_err(wrong)?;
        for (file, runs) in &group.followed {
            sample_runs(store, file, runs).map_err(wrong)?;
        }
        store.bytes(6, group.name.as_bytes());
    }
    Ok(())
}

/// Examinations of files over tables that fit them.
fn sample_examinations(store: &mut Store, files: &[Examined]) -> Result<(), String> {
    for (file, refusal) in files {
        let used = read_all(file).rows.used();
        let rows = match refusal {
            0 => used.map(|rows| rows as u32),
            _ => [0; 9],
        };
        let right = Answer {
            refusal: *refusal,
            rows,
            visits: 0,
        };
        sample_over(store, 7, &Sizes::of_rows(used), file, right)?;
    }
    Ok(())
}

/// Loads and examinations of files with an LVAR section, with the visits of request m).
fn visited_samples(store: &mut Store) -> Result<(), String> {
    for visited in visits::files() {
        let right = Answer {
            refusal: 0,
            rows: of_records(visited.records),
            visits: visited.visits,
        };
        tree_sample(store, &visited.file, visited.records.max(1), right)?;
    }
    store.bytes(6, b"visits of the LVAR walk");
    Ok(())
}

/// Loads and examinations of trees of every shape, with the depths and parents of request a), and a row that no record uses.
fn nested_samples(store: &mut Store) -> Result<(), String> {
    for nested in parents::files() {
        let rows = read_all(&nested.file).rows;
        let records = rows.records.rows.iter();
        let places: Vec<[u32; 2]> = records.map(|r| [r.depth, r.parent]).collect();
        if places != nested.places {
            return Err(format!("a sample's depths and parents are {places:?}"));
        }
        let used = places.len() as u32;
        let right = Answer {
            refusal: 0,
            rows: of_records(used),
            visits: rows.visits as u32,
        };
        tree_sample(store, &nested.file, used + 1, right)?;
    }
    store.bytes(6, b"depths and parents");
    Ok(())
}

/// Calls on files under allowances, with the answers of request h).
fn allowed_samples(store: &mut Store) -> Result<(), String> {
    for allowed in allowed::files() {
        store.bytes(1, &allowed.file);
        calls_under_allowances(store, &allowed)?;
    }
    store.bytes(6, b"allowances, loaded, examined and followed");
    Ok(())
}

/// Calls under allowances on the file that stands last.
fn calls_under_allowances(store: &mut Store, allowed: &Allowed) -> Result<(), String> {
    for call in &allowed.calls {
        store.state(Terms::with_everything(call.allowance));
        let passed = Answer {
            refusal: 0,
            rows: of_records(allowed.records),
            visits: 0,
        };
        let right = (call.refusal, passed);
        sample_call(store, &call.asked, &call.sizes(), &allowed.file, right)?;
    }
    store.state(Terms::default());
    Ok(())
}

/// Calls on files for lists of permitted opcodes, with the answers of request n).
fn listed_samples(store: &mut Store) -> Result<(), String> {
    for group in listed::groups() {
        listed_group(store, &group)?;
    }
    Ok(())
}

/// Calls on the files of a group, with its answers.
fn listed_group(store: &mut Store, group: &listed::Group) -> Result<(), String> {
    for listed in &group.files {
        let wrong = |why: String| format!("{}: {why}", group.name);
        calls_for_lists(store, listed).map_err(wrong)?;
    }
    store.state(Terms::default());
    store.bytes(6, group.name.as_bytes());
    Ok(())
}

/// The calls of a group, as they are stored, and nothing else.
#[cfg(test)]
pub fn group_alone(group: &listed::Group) -> Vec<u8> {
    let mut store = Store::default();
    listed_group(&mut store, group).expect("calls have their answers");
    store.item(0, []);
    store.bytes
}

/// A file, and calls on it for lists.
fn calls_for_lists(store: &mut Store, listed: &Listed) -> Result<(), String> {
    let rows = read_all(&listed.file).rows;
    let passed = Answer {
        refusal: 0,
        rows: rows.used().map(|rows| rows as u32),
        visits: rows.visits as u32,
    };
    store.bytes(1, &listed.file);
    for call in &listed.calls {
        store.state(Terms {
            allowance: call.allowance,
            permitted: call.list.clone(),
        });
        let right = (call.refusal, passed);
        sample_call(store, &call.asked, &call.sizes, &listed.file, right)?;
    }
    Ok(())
}

/// A call on the file that stands last: refused, or with what a load answers.
fn sample_call(
    store: &mut Store,
    asked: &Asked,
    sizes: &Sizes,
    file: &[u8],
    (refusal, passed): (Refusal, Answer),
) -> Result<(), String> {
    let is_refused = refusal != 0;
    let right = if is_refused { refused(refusal) } else { passed };
    match asked {
        Asked::Load => sample_again(store, 2, sizes, file, right),
        Asked::Examination => sample_again(store, 7, sizes, file, right),
        Asked::Record(record) => sample_single(store, sizes, file, *record, right),
        Asked::Run(words, choices, numbers) => {
            let right = Follow {
                refusal,
                numbers: if is_refused { [0; 6] } else { *numbers },
            };
            sample_run(store, sizes, *words, file, choices, right)
        }
    }
}

/// What a call answers that is refused.
fn refused(refusal: Refusal) -> Answer {
    Answer {
        refusal,
        rows: [0; 9],
        visits: 0,
    }
}

/// A file that has nothing but records and names, loaded and examined over so many rows of records.
fn tree_sample(store: &mut Store, file: &[u8], records: u32, right: Answer) -> Result<(), String> {
    let sizes = Sizes::of_rows(of_records(records).map(|rows| rows as usize));
    sample_over(store, 2, &sizes, file, right)?;
    let rows = read_all(file).rows;
    let examined = match model::passes(file, &EVERYTHING, &rows) {
        Ok(()) => right,
        Err(refusal) => refused(refusal),
    };
    sample_again(store, 7, &sizes, file, examined)
}

/// A load or an examination over tables of one row each, without LVAR: the refusal's number or 0, and the rows.
fn sample(
    store: &mut Store,
    kind: u32,
    file: &[u8],
    refusal: u32,
    rows: [u32; 9],
) -> Result<(), String> {
    let right = Answer {
        refusal,
        rows,
        visits: 0,
    };
    sample_over(store, kind, &ONE_ROW, file, right)
}

/// A load or an examination over tables of these sizes.
fn sample_over(
    store: &mut Store,
    kind: u32,
    sizes: &Sizes,
    file: &[u8],
    right: Answer,
) -> Result<(), String> {
    store.bytes(1, file);
    sample_again(store, kind, sizes, file, right)
}

/// The same of the file that stands last.
fn sample_again(
    store: &mut Store,
    kind: u32,
    sizes: &Sizes,
    file: &[u8],
    right: Answer,
) -> Result<(), String> {
    answered(store, kind, sizes, right, |terms, tables| match kind {
        2 => Model.load(file, terms.allowance, tables),
        _ => Model.examine(file, terms.allowance, &terms.permitted, tables),
    })
}

/// An examination of a single record of the file that stands last.
fn sample_single(
    store: &mut Store,
    sizes: &Sizes,
    file: &[u8],
    record: u32,
    right: Answer,
) -> Result<(), String> {
    answered(store, SINGLE, sizes, right, |terms, tables| {
        Model.examine_record(file, terms.allowance, &terms.permitted, tables, record)
    })?;
    store.bytes.extend(record.to_be_bytes());
    Ok(())
}

/// A call of a kind that answers so, over tables of these sizes.
fn answered(
    store: &mut Store,
    kind: u32,
    sizes: &Sizes,
    right: Answer,
    call: impl FnOnce(&Terms, &mut Tables) -> Answer,
) -> Result<(), String> {
    replayable(sizes)?;
    let mut tables = garbage(sizes, &mut Rng::new(0, 0));
    let answer = call(&store.terms, &mut tables);
    if answer != right {
        return Err(format!("a sample's answer is {answer:?}, not {right:?}"));
    }
    store.call(kind, sizes, of_load(&answer), sum(&tables, &[]));
    Ok(())
}

/// Runs of a file that are not refused, over tables of a row at least and with place for a frame of each record.
fn sample_runs(store: &mut Store, file: &[u8], runs: &[Run]) -> Result<(), String> {
    let used = read_all(file).rows.used();
    let sizes = Sizes::of_rows(used.map(|rows| rows.max(1)));
    replayable(&sizes)?;
    store.bytes(1, file);
    for (choices, numbers) in runs {
        let right = Follow {
            refusal: 0,
            numbers: *numbers,
        };
        sample_run(store, &sizes, 2 * used[RECORDS], file, choices, right)?;
    }
    Ok(())
}

/// A run of the file that stands last, over so many words of frames.
fn sample_run(
    store: &mut Store,
    sizes: &Sizes,
    words: usize,
    file: &[u8],
    choices: &[u8],
    right: Follow,
) -> Result<(), String> {
    let mut tables = garbage(sizes, &mut Rng::new(0, 0));
    let mut frames = vec![1; words];
    let Terms {
        allowance,
        ref permitted,
    } = store.terms;
    let answer = Model.follow(
        file,
        allowance,
        permitted,
        &mut tables,
        &mut frames,
        choices,
    );
    if answer != right {
        return Err(format!("along {choices:?} a sample's answer is {answer:?}"));
    }
    store.follow(sizes, &answer, &tables, &frames, choices);
    Ok(())
}

/// The corpus, then generated files by their answer: two in five load, the others are spread over the refusals.
fn loads(store: &mut Store, seed: u64, count: usize, counts: &mut Counts) -> Result<(), String> {
    let corpus = corpus();
    for (i, (_, file)) in corpus.iter().enumerate() {
        let mut rng = Rng::new(seed, u64::MAX - i as u64);
        one_file(store, file, &mut rng, counts)?;
        examinations(store, file, &mut rng)?;
        runs(store, file, 3, &mut rng)?;
    }
    store.bytes(6, b"real files, loaded, examined and followed");
    let generator = Generator {
        corpus: corpus.into_iter().map(|(_, file)| file).collect(),
    };
    let mut groups = BTreeMap::from(ANSWERS.map(|number| (number, Group::of(number, count))));
    // One file on each side of the limit of 1,024 records.
    let mut at_the_limit = [1, 1];
    for index in 0.. {
        let left = groups.values().map(|group| &group.left);
        let all = left.chain(&at_the_limit).all(|n| *n == 0);
        if all || index > 100 * count as u64 + 100_000 {
            break;
        }
        let (_, file) = generator.file(seed, index);
        let reading = read_all(&file);
        let number = reading.end.err().unwrap_or(0);
        let used = reading.rows.used();
        // Room is left for the rows that other sizes add.
        if used
            .iter()
            .zip(model::ROW_WORDS)
            .zip(MOST)
            .any(|((n, row), most)| (n + MORE_ROWS) * row > most)
        {
            continue;
        }
        let limit = match (number, used[0]) {
            (0, 1_024) => Some(0),
            (NO_ROW, _) => Some(1),
            _ => None,
        };
        let group = groups.get_mut(&number).ok_or("no load answers so")?;
        let left = match limit {
            Some(side) => &mut at_the_limit[side],
            None if !is_stored(number, &file) => continue,
            None => &mut group.left,
        };
        if *left == 0 {
            continue;
        }
        *left -= 1;
        one_file(&mut group.store, &file, &mut Rng::new(!seed, index), counts)?;
        group.last = file;
    }
    for (number, group) in groups {
        store.bytes.extend(&group.store.bytes);
        let name = match number {
            0 => "generated files that load".to_owned(),
            n => format!("generated files of {n}"),
        };
        store.bytes(6, name.as_bytes());
        if number == TOO_LONG {
            // Its many bytes are not stored again.
            calls_under_allowances(store, &allowed::too_long(group.last))?;
            store.bytes(6, b"the file of 1, loaded under allowances");
        }
    }
    Ok(())
}

/// Whether a generated file away from the limit of records is stored: a short one, or one a byte too long that meets 27 but for that.
fn is_stored(number: Refusal, file: &[u8]) -> bool {
    if number == TOO_LONG {
        return file.len() == FILE_LIMIT + 1 && !file.starts_with(b"RITE");
    }
    file.len() <= LONGEST
}

/// The stored files of one answer, and how many of them are still to come.
struct Group {
    store: Store,
    left: usize,
    /// The file that stands last.
    last: Vec<u8>,
}

impl Group {
    /// A group without files yet, of so many in all groups.
    fn of(number: Refusal, count: usize) -> Group {
        let refused = count * 3 / 5;
        let left = match number {
            0 => count - refused,
            // Files of these two need many bytes.
            TOO_LONG => 1,
            NO_ROW => 0,
            _ => refused / (ANSWERS.len() - 2) + 1,
        };
        Group {
            store: Store::default(),
            left,
            last: Vec::new(),
        }
    }
}

/// A file over tables that fit it, over longer ones, and over any.
fn one_file(
    store: &mut Store,
    file: &[u8],
    rng: &mut Rng,
    counts: &mut Counts,
) -> Result<(), String> {
    let subjects = subjects();
    // What is stored does not depend on how many subjects there are.
    let mut other = Rng::new(rng.next(), 0);
    let number = one(&subjects, file, &mut other, counts)?;
    let reading = read_all(file);
    let held = Held::of(file, &reading)?;
    let bytes = held.bytes(file);
    let outcome = bytes.and_then(|bytes| oracle::load_of(number, bytes));
    let needed = reading.rows.used();
    let mut lent = vec![Sizes::of_rows(needed)];
    if rng.one_in(2) {
        lent.push(Sizes::of_rows(needed.map(|rows| rows + 1)));
    }
    lent.push(other_sizes(needed, rng));
    store.bytes(1, file);
    for sizes in &lent {
        replayable(sizes)?;
        let mut tables = garbage(sizes, rng);
        let answer = Model.load(file, Allowance::DESKTOP, &mut tables);
        if answer.refusal == 0
            && let (Some(bytes), Some(Outcome::Loaded(rite))) = (bytes, &outcome)
        {
            expected::compare(&Model, bytes, rite, &answer, &tables)?;
        }
        store.call(2, sizes, of_load(&answer), sum(&tables, &[]));
    }
    Ok(())
}

/// Whether a replay has so many words.
fn replayable(sizes: &Sizes) -> Result<(), String> {
    if sizes.0.iter().zip(MOST).any(|(words, most)| *words > most) {
        return Err(format!("{:?} words are more than a replay has", sizes.0));
    }
    Ok(())
}

/// Examinations of the file that stands last: over tables that fit it, and over any.
fn examinations(store: &mut Store, file: &[u8], rng: &mut Rng) -> Result<(), String> {
    let needed = read_all(file).rows.used();
    for sizes in [Sizes::of_rows(needed), other_sizes(needed, rng)] {
        replayable(&sizes)?;
        let mut tables = garbage(&sizes, rng);
        let answer = Model.examine(file, Allowance::DESKTOP, &EVERYTHING, &mut tables);
        store.call(7, &sizes, of_load(&answer), sum(&tables, &[]));
    }
    Ok(())
}

/// Runs of the file that stands last, along any choices.
fn runs(store: &mut Store, file: &[u8], number: usize, rng: &mut Rng) -> Result<(), String> {
    let needed = read_all(file).rows.used();
    let sizes = Sizes::of_rows(needed);
    replayable(&sizes)?;
    for _ in 0..number {
        let words = follow::frame_words(needed[0], rng).min(MOST_FRAMES);
        let mut choices = follow::choices_of(file, &sizes, words, rng);
        choices.truncate(60);
        let mut tables = garbage(&sizes, rng);
        let mut frames = vec![1; words];
        let followed = Model.follow(
            file,
            Allowance::DESKTOP,
            &EVERYTHING,
            &mut tables,
            &mut frames,
            &choices,
        );
        store.follow(&sizes, &followed, &tables, &frames, &choices);
    }
    Ok(())
}

/// Generated files by the examination's answer, with runs of those that pass.
fn examinable_files(store: &mut Store, seed: u64) -> Result<(), Stop> {
    let generator = Generator { corpus: Vec::new() };
    for number in [0].into_iter().chain(NOT_PASSING) {
        let mut left = if number == 0 { 20 } else { 8 };
        for index in 0.. {
            if left == 0 {
                break;
            }
            let file = if number == 0 {
                generator.runnable(seed, index)
            } else {
                generator.examinable(seed, index)
            };
            let reading = read_all(&file);
            let examined = reading
                .end
                .and_then(|()| model::passes(&file, &EVERYTHING, &reading.rows));
            let large = file.len() > 500 || number == 0 && reading.rows.used()[0] < 2;
            if large || examined.err().unwrap_or(0) != number {
                continue;
            }
            left -= 1;
            let mut rng = Rng::new(!seed, index);
            store.bytes(1, &file);
            examinations(store, &file, &mut rng).map_err(Stop::Difference)?;
            let number = if number == 0 { 5 } else { 1 };
            runs(store, &file, number, &mut rng).map_err(Stop::Difference)?;
        }
        let name = match number {
            0 => "generated files that pass, examined and followed".to_owned(),
            n => format!("generated files of {n}, examined and followed"),
        };
        store.bytes(6, name.as_bytes());
    }
    Ok(())
}

/// Numbers and texts as constants of File A, with the papers' answers: integers high byte first, floats low byte first.
fn constant_samples(store: &mut Store) -> Result<(), String> {
    let integers = [
        1,
        -1,
        i64::MIN,
        i64::MAX,
        0x0102_0304_0506_0708,
        -0x0102_0304_0506_0708,
        255,
        -256,
        1 << 32,
        123_456_789_012,
    ];
    let mut constants = Vec::new();
    let mut answers = Vec::new();
    for integer in integers {
        constants.push([&[3][..], &integer.to_be_bytes()].concat());
        answers.push([1, 0, 0, integer as u64, 0]);
    }
    for integer in [1, -2, 0x0102_0304] {
        constants.push([&[1][..], &i32::to_be_bytes(integer)].concat());
        answers.push([1, 0, 0, i64::from(integer) as u64, 0]);
    }
    for float in [1.0, -0.1, f64::MAX] {
        constants.push([&[5][..], &f64::to_le_bytes(float)].concat());
        answers.push([2, 0, 0, 0, float.to_bits()]);
    }
    // The constants begin behind the pool's count.
    let mut place = (A_LISTS + 2 + constants.concat().len()) as u64;
    for (kind, text) in [(0, &b"a\0b"[..]), (2, b"\0"), (0, b"\0\0"), (2, b"")] {
        let head = [kind, 0, text.len() as u8];
        constants.push([&head[..], text, &[0]].concat());
        answers.push([0, place + 3, text.len() as u64, 0, 0]);
        place += 4 + text.len() as u64;
    }
    let count = [0, constants.len() as u8];
    let file = file_a_with(&[&count[..], &constants.concat(), &[0, 0]].concat(), &[]);
    let reading = read_all(&file);
    let tables = reading
        .rows
        .loaded(&Sizes::of_rows(reading.rows.used()))
        .tables;
    for (index, numbers) in (0..).zip(answers) {
        let found = Model.lookup(Lookup::Pool, &file, &tables, 0, index);
        if found
            != (Found {
                refusal: 0,
                numbers,
            })
        {
            return Err(format!("constant {index} of a sample is {found:?}"));
        }
    }
    lookups_in(store, &file, &tables, lookups::of_load(&reading.rows));
    store.bytes(6, b"constants of the papers");
    Ok(())
}

/// Lookups in the tables of loads, and in any tables.
fn looked_up(store: &mut Store, seed: u64) -> Result<(), Stop> {
    let generator = Generator { corpus: Vec::new() };
    let mut left = 10;
    for index in 0.. {
        if left == 0 {
            break;
        }
        let (_, file) = generator.file(seed, index);
        let reading = read_all(&file);
        let used = reading.rows.used();
        let lent = Sizes::of_rows(used);
        // Few rows, and of most tables some.
        if reading.end.is_err()
            || lent.0.iter().sum::<usize>() > 160
            || used.iter().filter(|rows| **rows == 0).count() > 1
        {
            continue;
        }
        left -= 1;
        let tables = reading.rows.loaded(&lent).tables;
        let mut asked = lookups::of_load(&reading.rows);
        asked.retain(|(lookup, _, offset)| *lookup != Lookup::Line || offset % 5 == 0);
        lookups_in(store, &file, &tables, asked);
    }
    store.bytes(6, b"lookups after loads");
    let mut left = 24;
    for index in 0.. {
        if left == 0 {
            break;
        }
        let (_, file) = generator.file(seed, index);
        let mut rng = Rng::new(!seed, index);
        let (file, tables) = lookups::hostile_tables(&file, &mut rng);
        let words = tables.iter().flatten().count();
        let asked = lookups::asked(&file, &tables, &mut rng);
        let (mut kept, refused): (Vec<_>, Vec<_>) = asked
            .into_iter()
            .partition(|(l, r, i)| Model.lookup(*l, &file, &tables, *r, *i).refusal == 0);
        if file.len() > 300 || !(20..=160).contains(&words) || kept.len() < 6 {
            continue;
        }
        left -= 1;
        kept.extend(&refused[..refused.len().min(8)]);
        lookups_in(store, &file, &tables, kept);
    }
    store.bytes(6, b"lookups in any tables");
    Ok(())
}

/// A file, nine tables and lookups in them.
fn lookups_in(store: &mut Store, file: &[u8], tables: &Tables, asked: Vec<(Lookup, u32, u32)>) {
    store.bytes(1, file);
    let lengths = tables.iter().map(|table| table.len() as u32);
    let words: Vec<u32> = lengths.chain(tables.iter().flatten().copied()).collect();
    store.words(&words);
    for (lookup, record, index) in asked {
        let Found { refusal, numbers } = Model.lookup(lookup, file, tables, record, index);
        let [a, b, c, d, e] = numbers;
        if lookup == Lookup::Pool {
            let fields = [record, index, refusal, a as u32, b as u32, c as u32];
            store.item(10, fields);
            store.bytes.extend(d.to_be_bytes());
            store.bytes.extend(e.to_le_bytes());
        } else {
            let fields = numbers.map(|number| number as u32);
            let head = [lookup as u32, record, index, refusal];
            store.item(9, [&head[..], &fields[..]].concat());
        }
    }
}

/// Every first byte with one byte, one short of its size, its size, and one more.
fn fetches(store: &mut Store, seed: u64) -> Result<(), String> {
    let mut rng = Rng::new(seed, 1);
    let mut codes = vec![Vec::new()];
    for first in 0..=255u8 {
        let size = OPCODES.get(usize::from(first)).map_or(2, |o| o.kind.size());
        let mut lengths = vec![1, size - 1, size, size + 1];
        lengths.retain(|length| *length > 0);
        lengths.sort();
        lengths.dedup();
        for length in lengths {
            let mut code = rng.bytes(length);
            code[0] = first;
            codes.push(code);
        }
    }
    for code in &codes {
        let Fetch {
            refusal,
            kind,
            operands: [a, b, c],
        } = fetch::right(code)?;
        store.bytes(1, code);
        store.item(3, [refusal, kind, a, b, c]);
    }
    store.bytes(6, b"fetches");
    Ok(())
}

fn maps(store: &mut Store, seed: u64) {
    let mut rng = Rng::new(seed, 2);
    for _ in 0..60 {
        let mut map = lines::map(&mut rng);
        map.truncate(128);
        let mut words: Vec<u32> = map.iter().flat_map(|(p, l)| [*p, *l]).collect();
        if words.len() < 256 && rng.one_in(4) {
            // An odd word is no row.
            words.push(rng.word());
        }
        store.words(&words);
        for position in lines::positions(&map, &mut rng) {
            let line = line_at(&map, position);
            store.item(5, [position, line.is_some().into(), line.unwrap_or(0)]);
        }
    }
    store.bytes(6, b"line lookups");
}

/// `compare replay`
pub fn replay(args: &Args) -> Result<(), Stop> {
    args.only(&[]).map_err(Stop::Usage)?;
    for path in &args.paths {
        let bytes =
            fs::read(path).map_err(|error| Stop::Usage(format!("{}: {error}", path.display())))?;
        for subject in subjects() {
            let groups = replay_items(&*subject, &bytes)
                .map_err(|why| Stop::Difference(format!("{}: {why}", subject.name())))?;
            for (name, answers) in groups {
                println!(
                    "{}, {name}: {answers} answers, no difference",
                    subject.name()
                );
            }
        }
    }
    Ok(())
}

/// The items left of stored answers.
struct Items<'a> {
    left: &'a [u8],
}

impl<'a> Items<'a> {
    fn bytes(&mut self, length: usize) -> Result<&'a [u8], String> {
        let (bytes, left) = self
            .left
            .split_at_checked(length)
            .ok_or("the end is missing")?;
        self.left = left;
        Ok(bytes)
    }

    fn number(&mut self) -> Result<u32, String> {
        Ok(u32::from_be_bytes(self.bytes(4)?.try_into().unwrap()))
    }

    /// The bytes of a whole number or a float.
    fn eight(&mut self) -> Result<[u8; 8], String> {
        Ok(self.bytes(8)?.try_into().unwrap())
    }

    fn numbers<const N: usize>(&mut self) -> Result<[u32; N], String> {
        let mut numbers = [0; N];
        for number in &mut numbers {
            *number = self.number()?;
        }
        Ok(numbers)
    }
}

/// Nine tables from their lengths and words.
fn tables_of(words: &[u32]) -> Result<Tables, String> {
    let (lengths, mut left) = words
        .split_at_checked(9)
        .ok_or("nine lengths are missing")?;
    let mut tables = Tables::default();
    for (table, length) in tables.iter_mut().zip(lengths) {
        let (words, rest) = left
            .split_at_checked(*length as usize)
            .ok_or("a table's words are missing")?;
        table.extend(words);
        left = rest;
    }
    Ok(tables)
}

/// Replays stored answers with a subject; answers each group's name and number of answers.
pub fn replay_items(subject: &dyn Subject, stored: &[u8]) -> Result<Vec<(String, usize)>, String> {
    let mut rng = Rng::new(0, 0);
    let mut items = Items { left: stored };
    let mut groups = Vec::new();
    let mut answers = 0;
    let mut bytes: &[u8] = &[];
    let mut map = Vec::new();
    loop {
        let at = stored.len() - items.left.len();
        let wrong =
            |answer: &dyn std::fmt::Debug| Err(format!("byte {at}: the answer is {answer:?}"));
        let kind = items.number()?;
        match kind {
            0 if items.left.is_empty() => return Ok(groups),
            1 => {
                let length = items.number()? as usize;
                bytes = items.bytes(length)?;
            }
            9 | 10 => {
                let lookup = match kind {
                    9 => *LOOKUPS
                        .get(items.number()? as usize)
                        .ok_or("no such lookup")?,
                    _ => Lookup::Pool,
                };
                let [record, index, refusal] = items.numbers()?;
                let numbers = if lookup == Lookup::Pool {
                    let [kind, place, length] = items.numbers()?.map(|number: u32| number.into());
                    let int = u64::from_be_bytes(items.eight()?);
                    let float = u64::from_le_bytes(items.eight()?);
                    [kind, place, length, int, float]
                } else {
                    items.numbers()?.map(|number: u32| number.into())
                };
                let answer = subject.lookup(lookup, bytes, &tables_of(&map)?, record, index);
                if answer != (Found { refusal, numbers }) {
                    return wrong(&answer);
                }
                answers += 1;
            }
            2 | 7 | SINGLE => {
                let sizes = Sizes(items.numbers()?.map(|words: u32| words as usize));
                let refusal = items.number()?;
                let rows = items.numbers()?;
                let [visits, right_sum] = items.numbers()?;
                let mut tables = garbage(&sizes, &mut rng);
                let Terms {
                    allowance,
                    permitted,
                } = Terms::of(&map)?;
                let answer = match kind {
                    2 => subject.load(bytes, allowance, &mut tables),
                    7 => subject.examine(bytes, allowance, &permitted, &mut tables),
                    _ => {
                        let record = items.number()?;
                        subject.examine_record(bytes, allowance, &permitted, &mut tables, record)
                    }
                };
                let sum = sum(&tables, &[]);
                let right = Answer {
                    refusal,
                    rows,
                    visits,
                };
                if answer != right || sum != right_sum {
                    return wrong(&(answer, sum));
                }
                answers += 1;
            }
            3 => {
                let [refusal, kind, a, b, c] = items.numbers()?;
                let operands = [a, b, c];
                let answer = subject.fetch(bytes);
                if answer
                    != (Fetch {
                        refusal,
                        kind,
                        operands,
                    })
                {
                    return wrong(&answer);
                }
                answers += 1;
            }
            4 => {
                map = Vec::new();
                for _ in 0..items.number()? {
                    map.push(items.number()?);
                }
            }
            5 => {
                let [position, found, line] = items.numbers()?;
                let answer = subject.line_at(&map, position);
                if answer != (found == 1).then_some(line) {
                    return wrong(&answer);
                }
                answers += 1;
            }
            6 => {
                let length = items.number()? as usize;
                let name = String::from_utf8_lossy(items.bytes(length)?).into_owned();
                groups.push((name, answers));
                answers = 0;
            }
            8 => {
                let sizes = Sizes(items.numbers()?.map(|words: u32| words as usize));
                let (numbers, right_sum) = (items.numbers()?, items.number()?);
                let mut frames = vec![1; items.number()? as usize];
                let length = items.number()? as usize;
                let choices = items.bytes(length)?;
                let mut tables = garbage(&sizes, &mut rng);
                let Terms {
                    allowance,
                    permitted,
                } = Terms::of(&map)?;
                let answer = subject.follow(
                    bytes,
                    allowance,
                    &permitted,
                    &mut tables,
                    &mut frames,
                    choices,
                );
                let sum = sum(&tables, &frames);
                if (of_follow(&answer), sum) != (numbers, right_sum) {
                    return wrong(&(answer, sum));
                }
                answers += 1;
            }
            _ => return Err(format!("byte {at}: no item has the kind {kind}")),
        }
    }
}

#[cfg(test)]
mod tests {
    use super::*;

    fn tables(words: &[u32]) -> Tables {
        let mut tables: Tables = Default::default();
        tables[8] = words.to_vec();
        tables
    }

    /// What the model answers to stored calls.
    fn replayed(bytes: &[u8]) -> Result<Vec<(String, usize)>, String> {
        replay_items(&Model, bytes)
    }

    /// Holds that a replay sees every change of numbers: places, and how many stand there one behind the other.
    fn sees_every_number(bytes: &[u8], places: &[(usize, usize)]) {
        for (at, numbers) in places {
            for number in 0..*numbers {
                let mut changed = bytes.to_vec();
                changed[at + 4 * number + 3] ^= 1;
                assert!(replayed(&changed).is_err(), "{at} {number}");
            }
        }
    }

    #[test]
    fn a_sum_sees_every_word() {
        let sum = |words: &[u32]| super::sum(&tables(words), &[]);
        assert_eq!(sum(&[]), 0);
        assert_eq!(sum(&[0]), 1);
        assert_eq!(sum(&[0, 0]), 65_600);
        assert_eq!(sum(&[5, 7]), 6 * 65_599 + 8);
        assert_ne!(sum(&[1, 2]), sum(&[2, 1]));
        assert_eq!(sum(&[u32::MAX]), 5);
        assert_eq!(super::sum(&tables(&[5]), &[7]), sum(&[5, 7]));
    }

    #[test]
    fn a_replay_sees_a_wrong_answer() {
        let mut store = Store::default();
        store.bytes(1, &[]);
        let mut load = [0; 21];
        load[8] = 2;
        load[9] = 2;
        load[20] = 65_600;
        store.item(2, load);
        store.bytes(1, &[57]);
        store.item(3, [24, 0, 0, 0, 0]);
        store.item(4, [2, 4, 12]);
        store.item(5, [3, 0, 0]);
        store.item(5, [4, 1, 12]);
        store.bytes(6, b"all");
        store.item(0, []);
        let bytes = store.bytes;
        let groups = Ok(vec![("all".to_owned(), 4)]);
        assert_eq!(replayed(&bytes), groups);
        let [load, fetch, line] = [8, 109, 157];
        for place in [load, load + 40, load + 80, load + 84, fetch + 4, line + 12] {
            let mut changed = bytes.clone();
            changed[place + 3] ^= 1;
            assert!(replayed(&changed).is_err(), "{place}");
        }
        assert!(replayed(&bytes[..bytes.len() - 4]).is_err());
    }

    #[test]
    fn a_replay_is_under_the_allowance_that_stands_last() {
        let file = file_a();
        let allowed = |bytes, records| Allowance { bytes, records };
        let mut store = Store::default();
        store.bytes(1, &file);
        let mut calls = Vec::new();
        for (allowance, refusal) in [
            (Allowance::DESKTOP, 0),
            (allowed(64, 1), 0),
            (allowed(63, 1), 29),
            (allowed(64, 0), 29),
            (Allowance::DESKTOP, 0),
        ] {
            store.state(Terms::with_everything(allowance));
            calls.push(store.bytes.len());
            let right = Answer {
                refusal,
                rows: of_records(u32::from(refusal == 0)),
                visits: 0,
            };
            sample_again(&mut store, 2, &ONE_ROW, &file, right).unwrap();
        }
        store.bytes(6, b"all");
        store.item(0, []);
        let bytes = store.bytes;
        let groups = Ok(vec![("all".to_owned(), 5)]);
        assert_eq!(replayed(&bytes), groups);
        // The desktop's has no words, each other one two, the bytes' before the records'.
        let between = |call: usize| calls[call] - calls[call - 1];
        assert_eq!([1, 2, 3, 4].map(between), [104, 104, 104, 96]);
        for (call, before, other) in [(1, 8, 63), (2, 8, 64), (1, 4, 0), (3, 4, 1)] {
            let mut changed = bytes.clone();
            changed[calls[call] - before + 3] = other;
            assert!(replayed(&changed).is_err(), "{call} {before}");
        }
    }

    #[test]
    fn words_state_terms() {
        for length in 0..=260usize {
            let terms = Terms {
                allowance: Allowance::PREVIEW,
                permitted: (1..=length).map(|byte| byte as u8).collect(),
            };
            let words = terms.words();
            assert_eq!(words.len(), 3 + length.div_ceil(4));
            assert_eq!(words[2], length as u32);
            assert_eq!(Terms::of(&words), Ok(terms));
            if length > 0 {
                assert!(Terms::of(&words[..words.len() - 1]).is_err());
            }
        }
        for allowance in [Allowance::DESKTOP, Allowance::PREVIEW] {
            let terms = Terms::with_everything(allowance);
            assert_eq!(Terms::of(&terms.words()), Ok(terms));
        }
        assert_eq!(Terms::default().words(), []);
        assert_eq!(Terms::with_everything(Allowance::PREVIEW).words().len(), 2);
    }

    #[test]
    fn a_replay_is_for_the_list_that_stands_last() {
        let file = file_a();
        let mut needed = [0; 62];
        [needed[17], needed[61]] = [1, 2];
        let mut store = Store::default();
        store.bytes(1, &file);
        let mut calls = Vec::new();
        for (permitted, refusal) in [
            (&needed[..], 0),
            (&[], 32),
            (&[1; 61], 32),
            (&[1; 62], 0),
            (&EVERYTHING, 0),
        ] {
            store.state(Terms {
                allowance: Allowance::DESKTOP,
                permitted: permitted.to_vec(),
            });
            calls.push(store.bytes.len());
            let right = Answer {
                refusal,
                rows: of_records(u32::from(refusal == 0)),
                visits: 0,
            };
            sample_again(&mut store, 7, &ONE_ROW, &file, right).unwrap();
        }
        store.bytes(6, b"all");
        store.item(0, []);
        let bytes = store.bytes;
        let groups = Ok(vec![("all".to_owned(), 5)]);
        assert_eq!(replayed(&bytes), groups);
        // The list's bytes stand before the call, two bytes of zeros behind them.
        let list = calls[0] - 64;
        for (place, other) in [
            (list + 17, 0),
            (list + 61, 0),
            (list - 1, 61),
            (list - 8 + 2, 0),
        ] {
            let mut changed = bytes.clone();
            changed[place] = other;
            assert!(replayed(&changed).is_err(), "{place}");
        }
        let mut same = bytes.clone();
        same[list + 17] = 255;
        same[list + 62] = 1;
        assert_eq!(replayed(&same), groups);
    }

    #[test]
    fn a_replay_sees_every_number_of_examination_and_follow() {
        let file = file_a();
        let sizes = Sizes::of_rows([1, 0, 0, 0, 0, 0, 0, 0, 0]);
        let loaded = model::load(&file, Allowance::DESKTOP, &sizes);
        let mut store = Store::default();
        store.bytes(1, &file);
        let call = store.bytes.len();
        let end = sum(&loaded.tables, &[]);
        store.call(7, &sizes, of_load(&Answer::of(&loaded)), end);
        let single = store.bytes.len();
        let right = Answer::of(&loaded);
        sample_single(&mut store, &sizes, &file, 0, right).unwrap();
        let missing = store.bytes.len();
        sample_single(&mut store, &sizes, &file, 1, refused(22)).unwrap();
        let run = store.bytes.len();
        assert_eq!(
            [single - call, missing - single, run - missing],
            [88, 92, 92]
        );
        // Go on once: the frame (0, 2).
        let end = sum(&loaded.tables, &[0, 2]);
        store.call(8, &sizes, [0, 0, 0, 2, 0, 0, 1, 0, 0, 0, 0], end);
        store.bytes.extend([0, 0, 0, 2, 0, 0, 0, 1, 0]);
        let finished = store.bytes.len();
        let end = sum(&loaded.tables, &[0, 0]);
        store.call(8, &sizes, [0, 1, 0, 0, 0, 0, 0, 0, 0, 0, 0], end);
        store.bytes.extend([0, 0, 0, 2, 0, 0, 0, 2, 0, 0]);
        store.bytes(6, b"all");
        store.item(0, []);
        let groups = Ok(vec![("all".to_owned(), 5)]);
        assert_eq!(replayed(&store.bytes), groups);
        let answers = [call, run, finished, single, missing].map(|at| (at + 40, 12));
        let records = [single, missing].map(|at| (at + 88, 1));
        let places = [&answers[..], &records].concat();
        sees_every_number(&store.bytes, &places);
    }

    #[test]
    fn a_replay_sees_every_number_of_lookups() {
        let file = file_a();
        let sizes = Sizes::of_rows([1, 0, 0, 0, 0, 0, 0, 0, 0]);
        let loaded = model::load(&file, Allowance::DESKTOP, &sizes);
        let mut store = Store::default();
        lookups_in(
            &mut store,
            &file,
            &loaded.tables,
            vec![(Lookup::Instructions, 0, 0), (Lookup::Pool, 0, 0)],
        );
        let pool = store.bytes.len() - 44;
        let looked = pool - 40;
        store.bytes(6, b"all");
        store.item(0, []);
        let groups = Ok(vec![("all".to_owned(), 2)]);
        let bytes = store.bytes;
        assert_eq!(replayed(&bytes), groups);
        sees_every_number(&bytes, &[(looked + 16, 6), (pool + 12, 8)]);
    }
}
