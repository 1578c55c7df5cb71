//! Examination for lists of permitted opcodes: every subject held on any lists, and the paper's laws.

use crate::Stop;
use crate::allowance::{self, Met, read_all};
use crate::examination::{self, Examination};
use crate::listed::{self, Listed};
use crate::load::hex;
use crate::permitted::{self, FORBIDDEN, Seen, Sort};
use crate::rng::Rng;
use crate::subject::Subject;
use model::{Allowance, EVERYTHING, Reading, Refusal, Sizes};
use std::collections::BTreeMap;

/// The examinations of generated files.
#[derive(Default)]
pub struct Counts {
    /// How many lists of a sort let a file pass, and how many end in 32 and in another number.
    by_sort: BTreeMap<Sort, [u64; 3]>,
    /// What is seen, by the answer with everything permitted.
    seen: BTreeMap<Seen, BTreeMap<Refusal, u64>>,
}

impl Counts {
    fn count(&mut self, sort: Sort, answer: Refusal) {
        let side = match answer {
            0 => 0,
            FORBIDDEN => 1,
            _ => 2,
        };
        self.by_sort.entry(sort).or_default()[side] += 1;
    }

    /// Counts what is seen where a loaded file is examined for a list on the desktop.
    fn count_seen(&mut self, file: &[u8], reading: &Reading, list: &[u8]) {
        let rows = &reading.rows;
        let everything = permitted::Met::of(file, rows, &EVERYTHING).number;
        for seen in Seen::all(file, rows, list) {
            let by_number = self.seen.entry(seen).or_default();
            *by_number.entry(everything).or_default() += 1;
        }
    }

    pub fn print(&self) {
        println!("lists of permitted opcodes (passed, refused 32, refused by another number):");
        for (sort, [passed, forbidden, other]) in &self.by_sort {
            let name = sort.name();
            println!("  {name:<20}{passed:>9}{forbidden:>9}{other:>9}");
        }
        println!("what lists meet (by the answer with everything permitted):");
        for (seen, by_number) in &self.seen {
            let files: u64 = by_number.values().sum();
            let by_number: Vec<String> = by_number
                .iter()
                .map(|(number, files)| format!("{number} {files}"))
                .collect();
            let (name, by_number) = (seen.name(), by_number.join(", "));
            println!("  {name:<32}{files:>9}  {by_number}");
        }
    }
}

/// Holds every subject on chosen files against their answers; how many examinations they are.
pub fn chosen(subjects: &[Box<dyn Subject>], seed: u64) -> Result<usize, Stop> {
    let groups = listed::groups().into_iter().flat_map(|group| group.files);
    let files: Vec<Listed> = groups.chain(listed::everywhere()).collect();
    examination::chosen(subjects, &files, seed)
}

/// Holds every subject on one file for a list, most of the time on the desktop and over tables that fit, and where it passes for one with further opcodes.
pub fn one(
    subjects: &[Box<dyn Subject>],
    file: &[u8],
    rng: &mut Rng,
    counts: &mut Counts,
) -> Result<(), String> {
    let reading = &read_all(file);
    // Of a file that does not load no list is read.
    if reading.end.is_err() && !rng.one_in(4) {
        return Ok(());
    }
    let used = reading.rows.used();
    let mut allowance = Allowance::DESKTOP;
    let mut sizes = Sizes::of_rows(used);
    if rng.one_in(8) {
        allowance = allowance::any(allowance::own(file.len(), used[0]), rng);
        sizes = Met::of(file, reading, allowance).sizes(rng);
    }
    let examination = Examination {
        file,
        reading,
        allowance,
        sizes,
    };
    let needed = permitted::needed(file, reading);
    let (sort, list) = permitted::any(&needed, rng);
    let further = permitted::further(&list, &needed, rng);
    // The cases do not depend on how many subjects there are.
    let rng = &mut Rng::new(rng.next(), 0);
    let answer = examination.held(subjects, &list, rng)?;
    counts.count(sort, answer.refusal);
    if reading.end.is_ok() && allowance == Allowance::DESKTOP {
        counts.count_seen(file, reading, &list);
    }
    // "Permitting further opcodes never turns a pass into a refusal."
    if answer.refusal == 0 && examination.held(subjects, &further, rng)? != answer {
        let (list, further) = (hex(&list), hex(&further));
        return Err(format!("passes for {list}, and for {further} not"));
    }
    Ok(())
}
