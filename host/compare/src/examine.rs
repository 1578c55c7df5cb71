//! Examination: the port held against the model over lent tables of any sizes, and both against the corpus, of which every file passes.

use crate::Stop;
use crate::allowance::{self, Met, read_all};
use crate::args::Args;
use crate::chosen;
use crate::for_lists;
use crate::generate::{Generator, all_steps, needed_by_step};
use crate::load::{ANSWERS, at_work, corpus, difference, garbage, other_sizes, watch};
use crate::newer::NEWER;
use crate::oracle::BEYOND;
use crate::prefixes::PREFIXES;
use crate::registers;
use crate::rng::Rng;
use crate::single;
use crate::subject::{Subject, answers_as, subjects};
use model::{Allowance, EVERYTHING, OPCODES, Record, Refusal, Sizes, Step};
use std::collections::{BTreeMap, BTreeSet};

/// The refusals of a file that loads, with everything permitted: "none of 15 to 20, 25 and 32".
pub const NOT_PASSING: [Refusal; 7] = [15, 16, 17, 18, 19, 20, 25];

/// For how many lists of permitted opcodes each real file is examined.
const REAL_LISTS: usize = 20;

/// How often single records of each real file are examined, each time with a change of it.
const REAL_SINGLES: usize = 40;

/// `compare examine`
pub fn compare(args: &Args) -> Result<(), Stop> {
    args.only(&["--files", "--seed", "--first"])
        .map_err(Stop::Usage)?;
    let files = args.number("--files", 20_000).map_err(Stop::Usage)?;
    let seed = args.number("--seed", 1).map_err(Stop::Usage)?;
    let first = args.number("--first", 0).map_err(Stop::Usage)?;
    watch();
    let subjects = subjects();
    let corpus = corpus();
    let mut by_number = BTreeMap::<Refusal, [u64; 3]>::new();
    let mut with = With::default();
    let mut listed = for_lists::Counts::default();
    let mut single = single::Counts::default();
    for (i, (name, file)) in corpus.iter().enumerate() {
        let mut rng = Rng::new(seed, u64::MAX - i as u64);
        let mut beside = rng.beside();
        let wrong = |why: String| difference(name, file, &why);
        let [fitting, ..] = one(&subjects, file, &mut rng).map_err(wrong)?;
        for _ in 0..REAL_LISTS {
            let counts = &mut for_lists::Counts::default();
            for_lists::one(&subjects, file, &mut beside, counts).map_err(wrong)?;
        }
        for _ in 0..REAL_SINGLES {
            let counts = &mut single::Counts::default();
            single::one(&subjects, file, &mut beside, counts).map_err(wrong)?;
        }
        if fitting != 0 {
            let why = format!("the answer is {fitting}, the corpus says that it passes");
            return Err(wrong(why));
        }
    }
    let chosen = chosen_files(&subjects, seed)?;
    let chosen_lists = for_lists::chosen(&subjects, seed)?;
    let chosen_singles = single::chosen(&subjects, seed)?;
    println!(
        "seed {seed}, {} corpus files as described, {chosen} chosen ones, {chosen_lists} for lists and {chosen_singles} for single records with their answers, {files} generated",
        corpus.len()
    );
    let generator = Generator {
        corpus: corpus.into_iter().map(|(_, file)| file).collect(),
    };
    for index in first..first + files {
        let file = generator.examinable(seed, index);
        let mut rng = Rng::new(!seed, index);
        let mut beside = rng.beside();
        let wrong = |why: String| difference(&format!("seed {seed} index {index}"), &file, &why);
        let answers = one(&subjects, &file, &mut rng).map_err(wrong)?;
        for_lists::one(&subjects, &file, &mut beside, &mut listed).map_err(wrong)?;
        single::one(&subjects, &file, &mut beside, &mut single).map_err(wrong)?;
        with.count(&file, answers[0]);
        for (side, answer) in answers.into_iter().enumerate() {
            by_number.entry(answer).or_default()[side] += 1;
        }
    }
    let names: Vec<&str> = subjects.iter().map(|subject| subject.name()).collect();
    println!("subjects: {}", names.join(", "));
    println!("answers over tables that fit, over other sizes, and under other allowances:");
    for number in ANSWERS.into_iter().chain([BEYOND]).chain(NOT_PASSING) {
        let [fitting, other, allowed] = by_number.get(&number).copied().unwrap_or_default();
        let name = match number {
            0 => "passed".to_owned(),
            n => format!("refused {n}"),
        };
        println!("  {name:<11}{fitting:>9}{other:>9}{allowed:>9}");
    }
    with.print();
    listed.print();
    single.print();
    println!("no difference");
    Ok(())
}

/// Holds every subject against the model on chosen files, and the model against their answers; how many they are.
fn chosen_files(subjects: &[Box<dyn Subject>], seed: u64) -> Result<usize, Stop> {
    let mut files = Vec::new();
    for group in chosen::groups() {
        files.extend(group.examined.into_iter().map(|file| (group.name, file)));
    }
    files.extend(registers::everywhere().map(|file| ("registers everywhere", file)));
    for (number, (group, (file, right))) in files.iter().enumerate() {
        let mut rng = Rng::new(seed, u64::MAX / 2 + number as u64);
        let wrong = |why: String| difference(group, file, &why);
        let [answer, ..] = one(subjects, file, &mut rng).map_err(wrong)?;
        let counts = &mut single::Counts::default();
        single::one(subjects, file, &mut rng, counts).map_err(wrong)?;
        if answer != *right {
            return Err(wrong(format!("the answer is {answer}, not {right}")));
        }
    }
    Ok(files.len())
}

/// The files that have each of the newer opcodes, an instruction behind each prefix and one that names the last register or the one behind it:
/// those that pass and those that meet 17.
#[derive(Default)]
struct With {
    newer: [[u64; 2]; NEWER.len()],
    prefixes: [[u64; 2]; PREFIXES.len()],
    border: [u64; 2],
    /// The opcodes behind each prefix in files that pass.
    behind: BTreeSet<(u8, usize)>,
    /// The opcodes that name the last register in files that pass, and the one behind it in those that meet 17.
    at_border: [BTreeSet<usize>; 2],
}

impl With {
    fn count(&mut self, file: &[u8], answer: Refusal) {
        let side = match answer {
            0 => 0,
            17 => 1,
            _ => return,
        };
        let rows = read_all(file).rows;
        let at_border: Vec<usize> = all_steps(file, &rows)
            .filter(|(record, step)| is_at_border(record, step, side as u32))
            .map(|(_, step)| step.opcode)
            .collect();
        self.border[side] += u64::from(!at_border.is_empty());
        self.at_border[side].extend(at_border);
        let steps: Vec<Step> = all_steps(file, &rows).map(|(_, step)| step).collect();
        for (count, opcode) in self.newer.iter_mut().zip(NEWER) {
            let has_it = steps.iter().any(|step| step.opcode == opcode);
            count[side] += u64::from(has_it);
        }
        for (count, prefix) in self.prefixes.iter_mut().zip(PREFIXES) {
            let has_it = steps.iter().any(|step| step.prefix == Some(prefix));
            count[side] += u64::from(has_it);
        }
        if answer == 0 {
            let prefixed = steps
                .iter()
                .filter_map(|step| Some((step.prefix?, step.opcode)));
            self.behind.extend(prefixed);
        }
    }

    fn print(&self) {
        println!(
            "files that have a newer opcode, an instruction behind a prefix, one that names the last register (refused: the one behind it), passed and refused 17:"
        );
        let newer = NEWER.into_iter().zip(self.newer);
        let prefixes = PREFIXES.into_iter().map(usize::from).zip(self.prefixes);
        for (opcode, [passed, refused]) in newer.chain(prefixes) {
            println!("  {:<11}{passed:>9}{refused:>9}", OPCODES[opcode].name);
        }
        let [passed, refused] = self.border;
        println!("  {:<11}{passed:>9}{refused:>9}", "registers");
        let [last, past] = self.at_border.each_ref().map(BTreeSet::len);
        println!("opcodes that name the last register: {last}, the one behind it: {past}");
        println!(
            "prefixes and opcodes behind them in files that pass: {}",
            self.behind.len()
        );
    }
}

/// Whether an instruction needs so many registers more than its record has, and needs one at all.
fn is_at_border(record: &Record, step: &Step, more: u32) -> bool {
    let needed = needed_by_step(step);
    needed > 0 && needed == record.nregs + more
}

/// Holds every subject against the model on one file with everything permitted; answers the numbers over tables that fit, over other sizes, and under
/// another allowance than the desktop's.
fn one(subjects: &[Box<dyn Subject>], file: &[u8], rng: &mut Rng) -> Result<[Refusal; 3], String> {
    at_work(file);
    let reading = read_all(file);
    let needed = reading.rows.used();
    let mut fitting = Sizes::of_rows(needed);
    for words in &mut fitting.0 {
        *words += rng.below(4);
    }
    let other = other_sizes(needed, rng);
    let allowance = allowance::any(allowance::own(file.len(), needed[0]), rng);
    let met = Met::of(file, &reading, allowance);
    let allowed = met.sizes(rng);
    // The cases do not depend on how many subjects there are.
    let rng = &mut Rng::new(rng.next(), 0);
    let desktop = Allowance::DESKTOP;
    let lent = [(desktop, fitting), (desktop, other), (allowance, allowed)];
    let mut numbers = [0; 3];
    for (number, (allowance, sizes)) in numbers.iter_mut().zip(lent) {
        let right = model::examine(file, allowance, &EVERYTHING, &sizes);
        let loaded = model::load(file, allowance, &sizes);
        *number = right.refusal;
        // What a load refuses is refused alike; a file that passes answers what its load answers.
        if loaded.refusal != 0 && right.refusal != loaded.refusal
            || right.refusal == 0 && right != loaded
        {
            return Err(format!(
                "over {:?} words the model loads with {} and examines with {}",
                sizes.0, loaded.refusal, right.refusal
            ));
        }
        for subject in subjects {
            let mut tables = garbage(&sizes, rng);
            let answer = subject.examine(file, allowance, &EVERYTHING, &mut tables);
            answers_as(subject.name(), answer, &tables, &right)
                .map_err(|why| format!("under {allowance:?} over {:?} words {why}", sizes.0))?;
        }
    }
    let examined = model::examine(file, allowance, &EVERYTHING, &allowed);
    let is_right = match met.over(&allowed) {
        0 => examined == model::examine(file, desktop, &EVERYTHING, &allowed),
        refusal => examined.refusal == refusal,
    };
    if !is_right {
        return Err(format!(
            "under {allowance:?} over {:?} words the model examines with {}",
            allowed.0, examined.refusal
        ));
    }
    Ok(numbers)
}
