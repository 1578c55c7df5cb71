//! Examination of single records: every subject held on numbers about a file's own, and the two laws of request i) of paper 02.

use crate::Stop;
use crate::allowance::{self, Met, read_all};
use crate::changed::{self, Change};
use crate::examination::{self, Examination, MISSING};
use crate::examine::NOT_PASSING;
use crate::load::{ANSWERS, hex, other_sizes};
use crate::oracle::BEYOND;
use crate::permitted::{self, FORBIDDEN, Sort};
use crate::rng::Rng;
use crate::singled;
use crate::subject::Subject;
use model::{Allowance, EVERYTHING, NO_PARENT, RECORD_WORDS, Reading, Refusal, Rows, Sizes};
use std::collections::BTreeMap;

/// Of a file with at most so many records each is asked.
const FEW: usize = 8;

/// The calls on generated files.
#[derive(Default)]
pub struct Counts {
    /// Calls by their number and by what they state.
    by_number: BTreeMap<Refusal, [u64; 4]>,
    /// Files of which each record is asked, by the number of the whole: those with a record that does not pass by itself, and the others.
    wholes: BTreeMap<Refusal, [u64; 2]>,
    /// Files that passed and were changed in one record, by their number then.
    changed: BTreeMap<Change, BTreeMap<Refusal, u64>>,
    /// Changes of nothing, and changed files that do not load or differ in more than a record.
    changed_otherwise: u64,
}

impl Counts {
    pub fn print(&self) {
        println!(
            "single records over tables that fit, over other sizes, under other allowances, for lists:"
        );
        let of_records = NOT_PASSING.into_iter().filter(|number| *number != 15);
        let others = [BEYOND, MISSING, FORBIDDEN].into_iter().chain(of_records);
        for number in ANSWERS.into_iter().chain(others) {
            let calls = self.by_number.get(&number).copied().unwrap_or_default();
            let calls: String = calls.iter().map(|calls| format!("{calls:>9}")).collect();
            println!("  {:<11}{calls}", answer_words(number));
        }
        println!("files whose records are all asked (with one that does not pass, without):");
        for (number, [with, without]) in &self.wholes {
            println!("  {:<11}{with:>9}{without:>9}", answer_words(*number));
        }
        println!("files that passed and were changed in one record (passed, refused):");
        for (change, by_number) in &self.changed {
            let passed = by_number.get(&0).copied().unwrap_or(0);
            let refused = by_number.iter().filter(|(number, _)| **number != 0);
            let words: Vec<String> = refused
                .map(|(number, files)| format!("{number} {files}"))
                .collect();
            let all: u64 = by_number.values().sum();
            let (name, refused, words) = (change.name(), all - passed, words.join(", "));
            println!("  {name:<13}{passed:>9}{refused:>9}  {words}");
        }
        println!("  changed otherwise: {}", self.changed_otherwise);
    }
}

/// The answer of an examination in words.
fn answer_words(number: Refusal) -> String {
    match number {
        0 => "passed".to_owned(),
        n => format!("refused {n}"),
    }
}

/// Holds every subject on chosen files against their answers; how many calls they are.
pub fn chosen(subjects: &[Box<dyn Subject>], seed: u64) -> Result<usize, Stop> {
    examination::chosen(subjects, &singled::group().files, seed)
}

/// The numbers that are asked of a file with so many records: each or some of them, and numbers that have none.
fn asked(records: usize, rng: &mut Rng) -> Vec<u32> {
    let count = records as u32;
    let mut asked: Vec<u32> = match records {
        0..=FEW => (0..count).collect(),
        _ => {
            let any = [0; 3].map(|_| rng.below(records) as u32);
            [&[0][..], &any, &[count - 1]].concat()
        }
    };
    // The low bits of the last one number a record.
    let above = rng.pick(&[1 << 8, 1 << 16, 1 << 24, 1 << 31]);
    let above = above + rng.below(records) as u32;
    asked.extend([count, count + 1, u32::MAX, rng.word(), above]);
    asked
}

/// What calls state: on the desktop over tables that fit, with rows that no record uses, or over other sizes, under another allowance, for a list.
fn stated<'a>(
    file: &'a [u8],
    reading: &'a Reading,
    rng: &mut Rng,
) -> (usize, Examination<'a>, Vec<u8>) {
    let used = reading.rows.used();
    let mut list = EVERYTHING.to_vec();
    let mut examination = Examination {
        file,
        reading,
        allowance: Allowance::DESKTOP,
        sizes: Sizes::of_rows(used),
    };
    let side = rng.pick(&[0, 0, 0, 1, 2, 3, 3]);
    match side {
        0 => {
            let more = rng.pick(&[0, 0, 1, RECORD_WORDS, 3 * RECORD_WORDS]);
            examination.sizes.0[0] += more;
        }
        1 => examination.sizes = other_sizes(used, rng),
        2 => {
            let own = allowance::own(file.len(), used[0]);
            examination.allowance = allowance::any(own, rng);
            examination.sizes = Met::of(file, reading, examination.allowance).sizes(rng);
        }
        _ => list = permitted::any(&permitted::needed(file, reading), rng).1,
    }
    (side, examination, list)
}

/// Holds every subject on single records of one file, and on the whole; where that passes, on the file changed in a record too.
pub fn one(
    subjects: &[Box<dyn Subject>],
    file: &[u8],
    rng: &mut Rng,
    counts: &mut Counts,
) -> Result<(), String> {
    let reading = &read_all(file);
    let (side, examination, list) = stated(file, reading, rng);
    let records = reading.rows.used()[0];
    let mut asked = asked(records, rng);
    if reading.end.is_err() {
        // Every number is refused alike.
        asked = vec![0, rng.word(), u32::MAX];
    }
    // The cases do not depend on how many subjects there are.
    let words = &mut Rng::new(rng.next(), 0);
    let mut numbers = Vec::new();
    for record in asked {
        let answer = examination.held_single(subjects, &list, record, words)?;
        counts.by_number.entry(answer.refusal).or_default()[side] += 1;
        numbers.push(answer.refusal);
    }
    let whole = examination.held(subjects, &list, words)?.refusal;
    if examination.load() == 0 && records <= FEW {
        let numbers = &numbers[..records];
        let right = by_records(&reading.rows, numbers);
        if whole != right {
            let list = hex(&list);
            let why = format!("for {list} the whole is {whole} and its records {numbers:?}");
            return Err(why);
        }
        let without = numbers.iter().all(|number| *number == 0);
        counts.wholes.entry(whole).or_default()[usize::from(without)] += 1;
    }
    if whole == 0 {
        one_changed(subjects, file, reading, rng, counts)?;
    }
    Ok(())
}

/// "the whole file passes exactly when its tree is whole and each record passes by itself": its number, by those of its records.
fn by_records(rows: &Rows, numbers: &[Refusal]) -> Refusal {
    if !is_one_tree(rows) {
        return 15;
    }
    let refused = numbers.iter().find(|number| **number != 0);
    refused.copied().unwrap_or(0)
}

/// Whether the walk over the rlens reaches every record, and no record claims a child past the last.
fn is_one_tree(rows: &Rows) -> bool {
    let records = &rows.records.rows;
    let children: u64 = records.iter().map(|record| u64::from(record.rlen)).sum();
    let mut below = records.iter().skip(1);
    children + 1 == records.len() as u64 && below.all(|record| record.parent != NO_PARENT)
}

/// Holds that a file that passes, changed in one record, answers as that record by itself: "this record passes by itself exactly when the whole file
/// passes".
fn one_changed(
    subjects: &[Box<dyn Subject>],
    file: &[u8],
    reading: &Reading,
    rng: &mut Rng,
    counts: &mut Counts,
) -> Result<(), String> {
    let Some(changed) = changed::any(file, &reading.rows, rng) else {
        counts.changed_otherwise += 1;
        return Ok(());
    };
    let used = changed.reading.rows.used();
    // The file passes under these allowances and for these lists.
    let own = allowance::own(file.len().max(changed.file.len()), used[0]);
    let allowance = rng.pick(&[Allowance::DESKTOP, Allowance::DESKTOP, own]);
    let sort = rng.pick(&[Sort::Everything, Sort::Needed, Sort::AllButOther]);
    let list = permitted::of_sort(sort, &permitted::needed(file, reading), rng);
    let examination = Examination {
        file: &changed.file,
        reading: &changed.reading,
        allowance,
        sizes: Sizes::of_rows(used.map(|rows| rows + rng.below(2))),
    };
    let words = &mut Rng::new(rng.next(), 0);
    let record = changed.record;
    let whole = examination.held(subjects, &list, words)?;
    let itself = examination.held_single(subjects, &list, record, words)?;
    if whole != itself {
        let (bytes, list) = (hex(&changed.file), hex(&list));
        let [whole, itself] = [whole.refusal, itself.refusal];
        let change = changed.change.name();
        return Err(format!(
            "changed ({change}) in record {record} to {bytes} for {list} the whole is {whole}, the record {itself}"
        ));
    }
    let by_number = counts.changed.entry(changed.change).or_default();
    *by_number.entry(whole.refusal).or_default() += 1;
    Ok(())
}

#[cfg(test)]
mod tests {
    use super::*;
    use crate::generate::Generator;
    use crate::subject::Model;

    #[test]
    fn generated_files_meet_every_number_by_themselves_and_changed() {
        let generator = Generator { corpus: Vec::new() };
        let mut counts = Counts::default();
        for index in 0..12_000 {
            let file = generator.examinable(1, index);
            let held = one(
                &[Box::new(Model)],
                &file,
                &mut Rng::new(!1, index),
                &mut counts,
            );
            assert_eq!(held, Ok(()), "{index}");
        }
        let of_records = [16, 17, 18, 19, 20, 25];
        for (side, numbers) in [
            (0, &[0, MISSING][..]),
            (1, &[0, 14, MISSING]),
            (2, &[0, 14, BEYOND, MISSING]),
            (3, &[0, MISSING, FORBIDDEN]),
        ] {
            for number in numbers.iter().chain(&of_records) {
                let calls = counts.by_number.get(number).copied().unwrap_or_default();
                assert!(calls[side] > 0, "{number} {side}");
            }
        }
        assert!(!counts.by_number.contains_key(&15));
        // A tree that is not whole, with a record that does not pass by itself and without.
        assert!(counts.wholes[&15].iter().all(|files| *files > 0));
        let changed = |number: Refusal| {
            let files = counts
                .changed
                .values()
                .map(|by_number| by_number.get(&number));
            files.flatten().sum::<u64>()
        };
        for number in of_records.into_iter().chain([0, FORBIDDEN]) {
            assert!(changed(number) > 0, "{number}");
        }
        assert_eq!(changed(15), 0);
        assert_eq!(counts.changed.len(), 8);
    }
}
