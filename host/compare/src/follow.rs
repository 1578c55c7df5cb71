//! Follow: the port held against the model on files that pass, and on some that do not, along any choices.

use crate::Stop;
use crate::allowance::{self, Met, read_all};
use crate::allowed::Asked;
use crate::args::Args;
use crate::chosen;
use crate::examine::NOT_PASSING;
use crate::generate::{Generator, steps};
use crate::listed;
use crate::load::{ANSWERS, at_work, corpus, difference, garbage, hex, other_sizes, watch};
use crate::oracle::BEYOND;
use crate::permitted::{self, FORBIDDEN, says_yes};
use crate::prefixes::PREFIXES;
use crate::rng::Rng;
use crate::subject::{Follow, Model, Subject, first_difference, subjects};
use model::{Allowance, EVERYTHING, OPCODES, Reading, Refusal, Rows, Sizes, Step, Tables};
use std::collections::BTreeMap;

#[derive(Default)]
struct Counts {
    runs: u64,
    by_number: BTreeMap<Refusal, u64>,
    finished: u64,
    with_line: u64,
    choices: u64,
    /// Runs by the number of frames left; the last counts those of more.
    by_frames: [u64; 5],
    /// Frames that are left, by the opcode that they were entered at.
    by_entry: BTreeMap<&'static str, u64>,
    /// Of these frames, those entered behind a prefix, and those at a child whose number has two bytes.
    entered_wide: [u64; 2],
    /// Runs whose top frame stands at each prefix.
    at_prefix: [u64; PREFIXES.len()],
    /// Runs under other allowances than the desktop's.
    allowed: BTreeMap<Refusal, u64>,
    /// Runs for lists of permitted opcodes, and those of them that are refused by 32 and would else be by 21.
    listed: BTreeMap<Refusal, u64>,
    before_21: u64,
}

impl Counts {
    /// Counts the instructions at which frames were entered.
    fn count_entries(&mut self, entries: &[Step]) {
        for step in entries {
            let name = OPCODES[step.opcode].name;
            *self.by_entry.entry(name).or_default() += 1;
            let [behind, wide] = &mut self.entered_wide;
            *behind += u64::from(step.prefix.is_some());
            *wide += u64::from(step.child().is_some_and(|child| child > 255));
        }
    }

    /// Counts the instruction at which the top frame stands.
    fn count_top(&mut self, step: &Step) {
        for (count, prefix) in self.at_prefix.iter_mut().zip(PREFIXES) {
            *count += u64::from(step.prefix == Some(prefix));
        }
    }
}

/// `compare follow`
pub fn compare(args: &Args) -> Result<(), Stop> {
    args.only(&["--files", "--seed", "--first"])
        .map_err(Stop::Usage)?;
    let files = args.number("--files", 10_000).map_err(Stop::Usage)?;
    let seed = args.number("--seed", 1).map_err(Stop::Usage)?;
    let first = args.number("--first", 0).map_err(Stop::Usage)?;
    watch();
    let subjects = subjects();
    let corpus = corpus();
    let mut counts = Counts::default();
    for (i, (name, file)) in corpus.iter().enumerate() {
        let mut rng = Rng::new(seed, u64::MAX - i as u64);
        // Without a choice the answer is that of the examination.
        let sizes = Sizes::of_rows(read_all(file).rows.used());
        let records = sizes.rows()[0];
        for subject in &subjects {
            let mut frames = vec![1; 2 * records];
            let mut tables = garbage(&sizes, &mut Rng::new(seed, 0));
            let allowance = Allowance::DESKTOP;
            let answer =
                subject.follow(file, allowance, &EVERYTHING, &mut tables, &mut frames, &[]);
            if answer.refusal != 0 {
                let why = format!("{} answers {answer:?}", subject.name());
                return Err(difference(name, file, &why));
            }
        }
        for _ in 0..20 {
            one(&subjects, file, &mut rng, &mut counts)
                .map_err(|why| difference(name, file, &why))?;
        }
    }
    let chosen = chosen_runs(&subjects, seed)? + chosen_runs_for_lists(&subjects, seed)?;
    println!(
        "seed {seed}, {} corpus files, {chosen} chosen runs with their answers, {files} files generated",
        corpus.len()
    );
    let generator = Generator {
        corpus: corpus.into_iter().map(|(_, file)| file).collect(),
    };
    for index in first..first + files {
        let file = generator.runnable(seed, index);
        let mut rng = Rng::new(!seed, index);
        for _ in 0..4 {
            one(&subjects, &file, &mut rng, &mut counts)
                .map_err(|why| difference(&format!("seed {seed} index {index}"), &file, &why))?;
        }
    }
    let names: Vec<&str> = subjects.iter().map(|subject| subject.name()).collect();
    println!("subjects: {}", names.join(", "));
    println!("runs: {}", counts.runs);
    let runs_of = |number| counts.by_number.get(&number).copied().unwrap_or(0);
    let refusals = ANSWERS.into_iter().skip(1).chain(NOT_PASSING);
    for number in refusals.chain([21]) {
        println!("  refused {number:<3}{:>9}", runs_of(number));
    }
    println!(
        "  ran        {:>9}, of {} choices in all",
        runs_of(0),
        counts.choices
    );
    println!("  finished   {:>9}", counts.finished);
    println!("  with a line{:>9}", counts.with_line);
    println!(
        "  by frames, from 0 to 3 and more: {:?}\n  frames by the opcode of their entry: {:?}",
        counts.by_frames, counts.by_entry
    );
    let [behind, wide] = counts.entered_wide;
    println!("  frames entered behind a prefix: {behind}, at a child above 255: {wide}");
    println!("  top frames at each prefix: {:?}", counts.at_prefix);
    let allowed = |number| counts.allowed.get(&number).copied().unwrap_or(0);
    println!(
        "runs under other allowances: {}, of which {} ran and {} are refused 29",
        counts.allowed.values().sum::<u64>(),
        allowed(0),
        allowed(BEYOND)
    );
    let listed = |number| counts.listed.get(&number).copied().unwrap_or(0);
    println!(
        "runs for lists of permitted opcodes: {}, of which {} ran and {} are refused 32, {} of these before 21\nno difference",
        counts.listed.values().sum::<u64>(),
        listed(0),
        listed(FORBIDDEN),
        counts.before_21
    );
    Ok(())
}

/// Holds every subject against the model on chosen runs, and the model against their answers; how many they are.
fn chosen_runs(subjects: &[Box<dyn Subject>], seed: u64) -> Result<usize, Stop> {
    let mut number = 0;
    for group in chosen::groups() {
        for (file, runs) in &group.followed {
            at_work(file);
            let used = read_all(file).rows.used();
            let sizes = Sizes::of_rows(used);
            for (choices, right) in runs {
                let mut rng = Rng::new(seed, u64::MAX / 2 + number as u64);
                let call = Call {
                    file,
                    allowance: Allowance::DESKTOP,
                    permitted: &EVERYTHING,
                    sizes: &sizes,
                    words: 2 * used[0],
                    choices,
                };
                let held = call.as_model(subjects, &mut rng);
                let wrong = |why: String| difference(group.name, file, &why);
                let (answer, _) = held.map_err(wrong)?;
                if (answer.refusal, answer.numbers) != (0, *right) {
                    return Err(wrong(format!("the answer is {answer:?}, not {right:?}")));
                }
                number += 1;
            }
        }
    }
    Ok(number)
}

/// The same for lists of permitted opcodes, with runs that are refused.
fn chosen_runs_for_lists(subjects: &[Box<dyn Subject>], seed: u64) -> Result<usize, Stop> {
    let mut number = 0;
    for listed in listed::groups().iter().flat_map(|group| &group.files) {
        let file = &listed.file;
        at_work(file);
        let sizes = Sizes::of_rows(read_all(file).rows.used());
        for asked in &listed.calls {
            let Asked::Run(words, choices, right) = &asked.asked else {
                continue;
            };
            let call = Call {
                file,
                allowance: asked.allowance,
                permitted: &asked.list,
                sizes: &sizes,
                words: *words,
                choices,
            };
            let mut rng = Rng::new(seed, u64::MAX / 2 + number as u64);
            let wrong = |why: String| difference("a chosen run", file, &why);
            let (answer, _) = call.as_model(subjects, &mut rng).map_err(wrong)?;
            let right = Follow {
                refusal: asked.refusal,
                numbers: if asked.refusal == 0 { *right } else { [0; 6] },
            };
            if answer != right {
                return Err(wrong(format!("the answer is {answer:?}, not {right:?}")));
            }
            number += 1;
        }
    }
    Ok(number)
}

/// A list of choices: none, valid, long, cut, or with a kind above 4.
fn choices(rng: &mut Rng) -> Vec<u8> {
    let number = match rng.below(12) {
        0 => 0,
        1 => rng.below(2_000),
        2..=4 => rng.below(80),
        _ => rng.between(1, 12),
    };
    let leaves = rng.pick(&[0, 4, 20, 60]);
    let favourite = rng.pick(&[0, 0, 1, 2, 2]);
    let mut bytes = Vec::new();
    for _ in 0..number {
        if rng.one_in(leaves) {
            bytes.push(4);
            continue;
        }
        match rng.below(10) {
            0..4 => bytes.push(favourite),
            4 | 5 => bytes.push(0),
            6 | 7 => bytes.push(1),
            8 => bytes.push(2),
            _ => {
                let handler = match rng.below(8) {
                    0 => rng.below(65_536),
                    1 => 256,
                    _ => rng.below(4),
                };
                bytes.extend([3, (handler / 256) as u8, handler as u8]);
            }
        }
    }
    match rng.below(16) {
        0 => {
            let at = rng.below(bytes.len() + 1);
            let kind = rng.pick(&[5, 6, 127, 128, 255]);
            bytes.insert(at, kind);
        }
        1 => bytes.extend(&[3, 0][..rng.between(1, 2)]),
        2 => bytes.extend(rng.bytes(2)),
        _ => {}
    }
    bytes
}

/// How many bytes of a list lead up to, and not past, the choice that finishes the run.
fn unfinished(bytes: &[u8], finishes: impl Fn(&[u8]) -> bool) -> usize {
    let mut ends = vec![0];
    let mut at = 0;
    while at < bytes.len() {
        at += if bytes[at] == 3 { 3 } else { 1 };
        ends.push(at.min(bytes.len()));
    }
    // A finished run remains so.
    let unfinished = ends.partition_point(|end| !finishes(&bytes[..*end]));
    ends[unfinished.max(1) - 1]
}

/// A list of choices for a file, that most of the time does not finish its run.
pub fn choices_of(file: &[u8], sizes: &Sizes, frame_words: usize, rng: &mut Rng) -> Vec<u8> {
    let mut choices = choices(rng);
    if !rng.one_in(3) {
        let allowance = Allowance::DESKTOP;
        let finishes = |bytes: &[u8]| {
            model::follow(file, allowance, &EVERYTHING, sizes, frame_words, bytes).finished
        };
        choices.truncate(unfinished(&choices, finishes));
    }
    choices
}

/// The words of a frame table for so many records: as many rows, more, an odd word, too few, none.
pub fn frame_words(records: usize, rng: &mut Rng) -> usize {
    match rng.below(10) {
        0 => rng.below(2 * records + 1),
        1 => (2 * records).saturating_sub(1),
        2 => 2 * records + 1,
        3..=5 => 2 * records + rng.below(9),
        _ => 2 * records,
    }
}

/// The instructions at which the frames but the lowest were entered: each stands before the offset of the frame below.
fn entries(file: &[u8], rows: &Rows, frames: &[u32], number: u32) -> Vec<Step> {
    let below = frames
        .chunks_exact(2)
        .take(number.saturating_sub(1) as usize);
    below
        .map(|frame| {
            let is_before = |step: &Step| step.next == frame[1] as usize;
            step_of(file, rows, frame[0], is_before)
        })
        .collect()
}

/// The instruction of a record that is such a one.
fn step_of(file: &[u8], rows: &Rows, record: u32, is_such: impl Fn(&Step) -> bool) -> Step {
    let mut steps = steps(file, &rows.records.rows[record as usize]).into_iter();
    let found = steps.find(is_such);
    found.expect("a frame stands at an instruction, and behind one if it was entered from")
}

/// A run of a file: under which allowance and for which list, over which tables and how many words of frames, along which choices.
#[derive(Clone, Copy)]
struct Call<'a> {
    file: &'a [u8],
    allowance: Allowance,
    permitted: &'a [u8],
    sizes: &'a Sizes,
    words: usize,
    choices: &'a [u8],
}

impl Call<'_> {
    /// A subject's answer, with the tables and the frames that it leaves.
    fn of(&self, subject: &dyn Subject, rng: &mut Rng) -> (Follow, Tables, Vec<u32>) {
        let mut tables = garbage(self.sizes, rng);
        let mut frames = vec![rng.word() | 1; self.words];
        let answer = subject.follow(
            self.file,
            self.allowance,
            self.permitted,
            &mut tables,
            &mut frames,
            self.choices,
        );
        (answer, tables, frames)
    }

    /// Holds every subject against the model; the model's answer, and its frames.
    fn as_model(
        &self,
        subjects: &[Box<dyn Subject>],
        rng: &mut Rng,
    ) -> Result<(Follow, Vec<u32>), String> {
        // The cases do not depend on how many subjects there are.
        let rng = &mut Rng::new(rng.next(), 0);
        let (right, right_tables, right_frames) = self.of(&Model, rng);
        for subject in subjects {
            let (answer, tables, frames) = self.of(&**subject, rng);
            let what = format!("{} {}", self.words(), subject.name());
            if answer != right {
                return Err(format!("{what} answers {answer:?}, the model {right:?}"));
            }
            if let Some(difference) = first_difference(&tables, &right_tables) {
                return Err(format!("{what} and the model: {difference}"));
            }
            if frames != right_frames {
                return Err(format!(
                    "{what} leaves frames {frames:?}, the model {right_frames:?}"
                ));
            }
        }
        Ok((right, right_frames))
    }

    /// The call in words.
    fn words(&self) -> String {
        format!(
            "under {:?} for {} over {:?} and {} words along {}",
            self.allowance,
            hex(self.permitted),
            self.sizes.0,
            self.words,
            hex(self.choices)
        )
    }
}

/// Holds every subject against the model on one run under another allowance than the desktop's, and the model against the rule for 29 and against its
/// answer under the desktop's.
fn under_allowance(
    subjects: &[Box<dyn Subject>],
    file: &[u8],
    reading: &Reading,
    choices: &[u8],
    rng: &mut Rng,
) -> Result<Refusal, String> {
    let records = reading.rows.used()[0];
    let allowance = allowance::any(allowance::own(file.len(), records), rng);
    let met = Met::of(file, reading, allowance);
    let sizes = met.sizes(rng);
    let call = Call {
        file,
        allowance,
        permitted: &EVERYTHING,
        sizes: &sizes,
        words: frame_words(records, rng),
        choices,
    };
    let (answer, _) = call.as_model(subjects, rng)?;
    let desktop = Call {
        allowance: Allowance::DESKTOP,
        ..call
    };
    let is_right = match met.over(&sizes) {
        0 => call.of(&Model, rng) == desktop.of(&Model, rng),
        refusal => answer.refusal == refusal,
    };
    if !is_right {
        return Err(format!("{} the model answers {answer:?}", call.words()));
    }
    Ok(answer.refusal)
}

/// Holds every subject against the model on one file, over some choices, sizes and frame table.
fn one(
    subjects: &[Box<dyn Subject>],
    file: &[u8],
    rng: &mut Rng,
    counts: &mut Counts,
) -> Result<(), String> {
    at_work(file);
    let reading = read_all(file);
    let rows = &reading.rows;
    let needed = rows.used();
    let sizes = if rng.one_in(8) {
        other_sizes(needed, rng)
    } else {
        Sizes::of_rows(needed.map(|rows| rows + rng.below(2)))
    };
    let words = frame_words(needed[0], rng);
    let choices = choices_of(file, &sizes, words, rng);
    let call = Call {
        file,
        allowance: Allowance::DESKTOP,
        permitted: &EVERYTHING,
        sizes: &sizes,
        words,
        choices: &choices,
    };
    let (right, right_frames) = call.as_model(subjects, rng)?;
    let [finished, record, offset, found, _, frames] = right.numbers;
    counts.runs += 1;
    *counts.by_number.entry(right.refusal).or_default() += 1;
    if right.refusal == 0 {
        counts.choices += model::choices(&choices).map_or(0, |list| list.len() as u64);
        counts.finished += u64::from(finished);
        counts.with_line += u64::from(found);
        counts.by_frames[frames.min(4) as usize] += 1;
        counts.count_entries(&entries(file, rows, &right_frames, frames));
        if frames > 0 {
            let is_top = |step: &Step| step.offset == offset as usize;
            counts.count_top(&step_of(file, rows, record, is_top));
        }
    }
    let beside = &mut rng.beside();
    let refusal = under_allowance(subjects, file, &reading, &choices, beside)?;
    *counts.allowed.entry(refusal).or_default() += 1;
    if beside.one_in(2) {
        let refusal = for_list(subjects, &call, &reading, right, beside)?;
        *counts.listed.entry(refusal).or_default() += 1;
        counts.before_21 += u64::from(refusal == FORBIDDEN && right.refusal == 21);
    }
    Ok(())
}

/// Whether a number comes before examination in a run: the load's, and 14 for the frame table.
fn is_before_examination(number: Refusal) -> bool {
    ANSWERS[1..].contains(&number) || number == BEYOND
}

/// Holds every subject against the model on a run for a list of permitted opcodes, and the model against the rule for 32 and against its answer with
/// everything permitted.
fn for_list(
    subjects: &[Box<dyn Subject>],
    call: &Call,
    reading: &Reading,
    everything: Follow,
    rng: &mut Rng,
) -> Result<Refusal, String> {
    let rows = &reading.rows;
    let needed = permitted::needed(call.file, reading);
    let (_, list) = permitted::any(&needed, rng);
    let call = Call {
        permitted: &list,
        ..*call
    };
    let (answer, frames) = call.as_model(subjects, rng)?;
    let wrong = |why: &str| {
        Err(format!(
            "{} the model answers {answer:?}{why}",
            call.words()
        ))
    };
    let examined = match is_before_examination(everything.refusal) {
        true => 0,
        false => permitted::Met::of(call.file, rows, &list).number,
    };
    let is_right = match examined {
        0 => answer == everything,
        refusal => answer.refusal == refusal,
    };
    if !is_right {
        return wrong("");
    }
    // "Runs of a passing file meet permitted opcodes only."
    let left = frames.chunks_exact(2).take(answer.numbers[5] as usize);
    for frame in left {
        let is_there = |step: &Step| step.offset == frame[1] as usize;
        let step = step_of(call.file, rows, frame[0], is_there);
        let mut bytes = step.prefix.into_iter().chain([step.opcode as u8]);
        if !bytes.all(|byte| says_yes(&list, byte)) {
            return wrong(", where a frame stands at an opcode that is not permitted");
        }
    }
    Ok(answer.refusal)
}

#[cfg(test)]
mod tests {
    use super::*;

    /// The entries of the frames that are left after runs of files from a seed.
    fn entries_of_runs(files: u64) -> Vec<Step> {
        let generator = Generator { corpus: Vec::new() };
        let mut all = Vec::new();
        for index in 0..files {
            let file = generator.runnable(1, index);
            let rows = read_all(&file).rows;
            let sizes = Sizes::of_rows(rows.used());
            let words = 2 * rows.used()[0];
            let choices = choices_of(&file, &sizes, words, &mut Rng::new(!1, index));
            let allowance = Allowance::DESKTOP;
            let right = model::follow(&file, allowance, &EVERYTHING, &sizes, words, &choices);
            all.extend(entries(&file, &rows, &right.frame_table, right.frames));
        }
        all
    }

    #[test]
    fn runs_enter_at_every_child_opcode() {
        let entries = entries_of_runs(4_000);
        let at = |name: &'static str| {
            let is_such = move |step: &&Step| OPCODES[step.opcode].name == name;
            entries.iter().filter(is_such)
        };
        for name in ["LAMBDA", "BLOCK", "METHOD", "EXEC", "TDEF", "SDEF"] {
            assert!(at(name).any(|step| step.prefix.is_none()), "{name}");
            assert!(at(name).any(|step| step.prefix.is_some()), "{name}");
        }
        // The symbol's number is not the child's.
        for name in ["TDEF", "SDEF"] {
            let differ = |step: &Step| step.operands[1] != step.operands[2];
            assert!(at(name).any(differ), "{name}");
        }
        let above_255 = |step: &Step| step.child().is_some_and(|child| child > 255);
        assert!(entries.iter().any(above_255));
    }

    /// The kinds of choices that a run takes at instructions behind prefixes.
    fn at_prefixes(file: &[u8], choices: &[u8]) -> Vec<u8> {
        let reading = read_all(file);
        let sizes = Sizes::of_rows(reading.rows.used());
        let words = 2 * reading.rows.used()[0];
        let mut kinds = Vec::new();
        let mut at = 0;
        while at < choices.len() {
            let allowance = Allowance::DESKTOP;
            let taken = &choices[..at];
            let followed = model::follow(file, allowance, &EVERYTHING, &sizes, words, taken);
            let Some((record, offset)) = followed.top else {
                break;
            };
            let is_top = |step: &Step| step.offset == offset as usize;
            let step = step_of(file, &reading.rows, record, is_top);
            if step.prefix.is_some() {
                kinds.push(choices[at]);
            }
            at += if choices[at] == 3 { 3 } else { 1 };
        }
        kinds
    }

    #[test]
    fn runs_take_every_choice_behind_prefixes() {
        let generator = Generator { corpus: Vec::new() };
        let mut taken = [0; 5];
        for index in 0..300 {
            let file = generator.runnable(1, index);
            let mut rng = Rng::new(!1, index);
            let choices = choices(&mut rng);
            if choices.len() < 40 && model::choices(&choices).is_ok() {
                for kind in at_prefixes(&file, &choices) {
                    taken[usize::from(kind)] += 1;
                }
            }
        }
        assert!(taken.iter().all(|times| *times > 0), "{taken:?}");
    }
}
