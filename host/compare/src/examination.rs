//! Examinations of a file or of a single record: the model's held against the comparison's rules, and every subject's against the model's.

use crate::Stop;
use crate::allowance::{Met, read_all};
use crate::allowed::Asked;
use crate::listed::Listed;
use crate::load::{at_work, difference, garbage, hex};
use crate::permitted::{self, FORBIDDEN};
use crate::rng::Rng;
use crate::subject::{Answer, Subject, answers_as};
use model::{Allowance, EVERYTHING, Loaded, Reading, Refusal, Sizes, Tables};

/// "A missing record is 22"
pub const MISSING: Refusal = 22;

/// A file that is read so, under an allowance, over tables of these sizes.
pub struct Examination<'a> {
    pub file: &'a [u8],
    pub reading: &'a Reading,
    pub allowance: Allowance,
    pub sizes: Sizes,
}

impl Examination<'_> {
    fn by_model(&self, list: &[u8]) -> Loaded {
        model::examine(self.file, self.allowance, list, &self.sizes)
    }

    /// The number of the load by the comparison's rules.
    pub fn load(&self) -> Refusal {
        Met::of(self.file, self.reading, self.allowance).over(&self.sizes)
    }

    /// The number for a list by the comparison's rules.
    fn right(&self, list: &[u8]) -> Refusal {
        match self.load() {
            0 => permitted::Met::of(self.file, &self.reading.rows, list).number,
            refusal => refusal,
        }
    }

    /// The number of a single record.
    fn right_of(&self, list: &[u8], record: u32) -> Refusal {
        let rows = &self.reading.rows;
        match (self.load(), rows.records.rows.get(record as usize)) {
            (0, Some(row)) => permitted::met_by(self.file, rows, row, list),
            (0, None) => MISSING,
            (refusal, _) => refusal,
        }
    }

    /// Why an answer for a list is wrong, with what the call states.
    fn wrong(&self, list: &[u8], why: &str) -> String {
        let (allowance, words, list) = (self.allowance, self.sizes.0, hex(list));
        format!("under {allowance:?} for {list} over {words:?} words {why}")
    }

    /// Holds what every subject answers against the model's answer.
    fn hold(
        &self,
        subjects: &[Box<dyn Subject>],
        right: &Loaded,
        rng: &mut Rng,
        call: impl Fn(&dyn Subject, &mut Tables) -> Answer,
    ) -> Result<(), String> {
        for subject in subjects {
            let mut tables = garbage(&self.sizes, rng);
            let found = call(&**subject, &mut tables);
            answers_as(subject.name(), found, &tables, right)?;
        }
        Ok(())
    }

    /// The model's answer for a list, held against the rule and against its answer with everything permitted, and every subject against it.
    pub fn held(
        &self,
        subjects: &[Box<dyn Subject>],
        list: &[u8],
        rng: &mut Rng,
    ) -> Result<Loaded, String> {
        let answer = self.by_model(list);
        let right = self.right(list);
        if answer.refusal != right {
            let why = format!("the model answers {}, not {right}", answer.refusal);
            return Err(self.wrong(list, &why));
        }
        // "With everything permitted the verdicts are the earlier ones", and so they are where 32 is not met.
        if right != FORBIDDEN && answer != self.by_model(&EVERYTHING) {
            let why = "the model answers otherwise than with everything permitted";
            return Err(self.wrong(list, why));
        }
        let call = |subject: &dyn Subject, tables: &mut Tables| {
            subject.examine(self.file, self.allowance, list, tables)
        };
        self.hold(subjects, &answer, rng, call)
            .map_err(|why| self.wrong(list, &why))?;
        Ok(answer)
    }

    /// The model's answer of a single record for a list, held against the rule and the load's words, and every subject against it.
    pub fn held_single(
        &self,
        subjects: &[Box<dyn Subject>],
        list: &[u8],
        record: u32,
        rng: &mut Rng,
    ) -> Result<Loaded, String> {
        let wrong = |why: String| self.wrong(list, &format!("record {record}: {why}"));
        let (file, allowance, sizes) = (self.file, self.allowance, &self.sizes);
        let answer = model::examine_single(file, allowance, list, sizes, record);
        let number = self.right_of(list, record);
        // "a refusal leaves the tables as examination's does"
        let right = match number {
            0 => model::load(file, allowance, sizes),
            _ => Loaded::refused(number, sizes),
        };
        if answer != right {
            let why = format!("the model answers {}, not {number}", answer.refusal);
            return Err(wrong(why + ", or with other rows"));
        }
        let call = |subject: &dyn Subject, tables: &mut Tables| {
            subject.examine_record(file, allowance, list, tables, record)
        };
        self.hold(subjects, &answer, rng, call).map_err(wrong)?;
        Ok(answer)
    }
}

/// Holds every subject on the examinations of chosen files against their answers; how many they are.
pub fn chosen(subjects: &[Box<dyn Subject>], files: &[Listed], seed: u64) -> Result<usize, Stop> {
    let mut number = 0;
    for listed in files {
        let file = &listed.file;
        at_work(file);
        let reading = read_all(file);
        for call in &listed.calls {
            let examination = Examination {
                file,
                reading: &reading,
                allowance: call.allowance,
                sizes: call.sizes,
            };
            let mut rng = Rng::new(seed, u64::MAX / 2 + number as u64);
            let wrong = |why: String| difference("a chosen call", file, &why);
            let list = &call.list;
            let held = match call.asked {
                Asked::Examination => examination.held(subjects, list, &mut rng),
                Asked::Record(record) => examination.held_single(subjects, list, record, &mut rng),
                Asked::Load | Asked::Run(..) => continue,
            };
            let answer = held.map_err(wrong)?.refusal;
            if answer != call.refusal {
                let why = format!("the answer is {answer}, not {}", call.refusal);
                return Err(wrong(examination.wrong(list, &why)));
            }
            number += 1;
        }
    }
    Ok(number)
}
