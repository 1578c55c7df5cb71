//! Loads by every subject and by the original, held against each other.

use crate::Stop;
use crate::allowance::{self, Met, Seen, is_desktops, nowhere_smaller, read_all};
use crate::args::Args;
use crate::expected;
use crate::generate::{FAMILIES, Generator, state_size};
use crate::held::Held;
use crate::oracle::{self, OWN_RULE, Outcome};
use crate::parents;
use crate::rng::Rng;
use crate::subject::{Subject, answers_as, subjects};
use crate::visits;
use model::{
    Allowance, EVERYTHING, Entry, HEADER, Loaded, NAMES, NO_PARENT, RECORD_WORDS, ROW_WORDS,
    Reading, Record, Refusal, Rows, Sizes, TREE_WORDS, Tables,
};
use original::Error;
use std::collections::{BTreeMap, BTreeSet};
use std::path::PathBuf;
use std::sync::Mutex;
use std::time::{Duration, Instant};
use std::{env, fs, process, thread};

/// The answers of a load under the desktop's allowance: 0, paper 01's refusals, paper 02's of files that are not pattern files.
pub const ANSWERS: [Refusal; 17] = [0, 1, 2, 3, 4, 5, 6, 7, 8, 9, 10, 11, 12, 13, 14, 27, 28];

/// What is counted over the files of a run.
#[derive(Default)]
pub struct Counts {
    files: u64,
    by_number: BTreeMap<Refusal, u64>,
    by_end: BTreeMap<(Refusal, &'static str), u64>,
    /// Files that are left out for zeros inside pool strings, and those of them that have a twin, by their number.
    left_out: BTreeMap<Refusal, [u64; 2]>,
    by_family: [[u64; 2]; FAMILIES.len()],
    rows: [u64; 9],
    used: [u64; 9],
    pool_kinds: [u64; 8],
    shapes: BTreeMap<&'static str, u64>,
    lent: BTreeMap<&'static str, u64>,
    /// Files by what they meet under other allowances, and by their number under the desktop's.
    allowed: BTreeMap<Seen, BTreeMap<Refusal, u64>>,
}

impl Counts {
    /// The counts in words.
    pub fn words(&self) -> String {
        let mut text = format!("files: {}\n", self.files);
        for number in ANSWERS {
            let files = self.by_number.get(&number).copied().unwrap_or(0);
            let ends: Vec<String> = self
                .by_end
                .iter()
                .filter(|((n, _), _)| *n == number)
                .map(|((_, end), files)| format!("{end} {files}"))
                .collect();
            let name = answer_words(number);
            let end = match number {
                _ if files == 0 => "never met".to_owned(),
                n if OWN_RULE.contains(&n) => "left out, the comparison's own rule".to_owned(),
                _ if ends.is_empty() => "load not called, its readers one by one".to_owned(),
                _ => ends.join(", "),
            };
            text += &format!("  {name:<11}{files:>9}  {end}\n");
        }
        let called: u64 = self.by_end.values().sum();
        text += &format!("held against the original's load: {called}\n");
        text += &self.left_out_words();
        if self.by_family.iter().flatten().any(|files| *files > 0) {
            text += "families (files, loaded):\n";
            for (name, [files, loaded]) in FAMILIES.iter().zip(self.by_family) {
                text += &format!("  {name:<20}{files:>9}{loaded:>9}\n");
            }
        }
        text += "rows of loaded files (rows, files that have some):\n";
        for (t, name) in NAMES.iter().enumerate() {
            let (rows, files) = (self.rows[t], self.used[t]);
            text += &format!("  {name:<20}{rows:>9}{files:>9}\n");
        }
        text += &format!("constants by kind: {:?}\n", self.pool_kinds);
        text += "shapes of loaded files:\n";
        for (shape, files) in &self.shapes {
            text += &format!("  {shape:<22}{files:>7}\n");
        }
        text += &format!("loads over lent tables of other sizes: {:?}\n", self.lent);
        text += &self.allowed_words();
        text
    }

    /// The counts of files under other allowances in words.
    fn allowed_words(&self) -> String {
        let mut text =
            "files under other allowances (by their answer under the desktop's):\n".to_owned();
        for (seen, by_number) in &self.allowed {
            let files: u64 = by_number.values().sum();
            let by_number: Vec<String> = by_number
                .iter()
                .map(|(number, files)| format!("{} {files}", answer_words(*number)))
                .collect();
            let (name, by_number) = (seen.name(), by_number.join(", "));
            text += &format!("  {name:<24}{files:>9}  {by_number}\n");
        }
        text
    }

    /// The counts of files with zeros inside pool strings in words.
    fn left_out_words(&self) -> String {
        let sum = |side: usize| self.left_out.values().map(|files| files[side]).sum::<u64>();
        let [loaded, _] = self.left_out.get(&0).copied().unwrap_or_default();
        let mut text = format!(
            "left out for zeros inside pool strings: {}, of which {loaded} load; held by a twin: {} (files, twins):\n",
            sum(0),
            sum(1)
        );
        for (number, [files, twins]) in &self.left_out {
            text += &format!("  {:<11}{files:>9}{twins:>9}\n", answer_words(*number));
        }
        text
    }

    /// Counts what makes a loaded file special.
    fn count_shapes(&mut self, file: &[u8], rows: &Rows) {
        let records = &rows.records.rows;
        let mut has = |shape, yes| *self.shapes.entry(shape).or_default() += u64::from(yes);
        // A record takes its code and four bytes of counts at least.
        let overlaps = |two: &[Record]| two[1].place - 16 < two[0].place + two[0].ilen + 4;
        has("overlapping records", records.windows(2).any(overlaps));
        has("stated size too small", records.iter().any(|r| r.size < 20));
        has(
            "several debug files",
            records.iter().any(|r| r.files.number > 1),
        );
        let falls = |map: &[Entry]| map.windows(2).any(|two| two[1].position < two[0].position);
        let maps = |r: &Record| falls(r.lines.of(&rows.lines.rows));
        has("falling positions", records.iter().any(maps));
        let lvar = expected::section(file, b"LVAR");
        let dbg = expected::section(file, b"DBG\0");
        has("LVAR before DBG", lvar.is_some() && lvar < dbg);
        has("DBG before LVAR", dbg.is_some() && dbg < lvar);
        let number = records.len() as u64;
        has(
            "not reached by LVAR",
            lvar.is_some() && rows.visits < number,
        );
        has("LVAR past the last", rows.visits > number);
        let children: u64 = records.iter().map(|r| u64::from(r.rlen)).sum();
        let unreached = || records.iter().skip(1).filter(|r| r.parent == NO_PARENT);
        has("several records", number > 1);
        has("unreached records", unreached().next().is_some());
        has("children of unreached", unreached().any(|r| r.rlen > 0));
        has(
            "children past the last",
            unreached().next().is_none() && children >= number,
        );
        has("depth above 2", records.iter().any(|r| r.depth > 2));
        has("passing", model::passes(file, &EVERYTHING, rows).is_ok());
    }

    /// Counts a file of this number by what it meets under other allowances.
    fn count_allowed(&mut self, number: Refusal, seen: BTreeSet<Seen>) {
        for seen in seen {
            *self
                .allowed
                .entry(seen)
                .or_default()
                .entry(number)
                .or_default() += 1;
        }
    }

    fn count(&mut self, number: Refusal, held: &Held, end: Option<&'static str>, tables: &Tables) {
        self.files += 1;
        *self.by_number.entry(number).or_default() += 1;
        if held.is_left_out() {
            let [files, twins] = self.left_out.entry(number).or_default();
            *files += 1;
            *twins += u64::from(matches!(held, Held::Twin(_)));
        } else if let Some(end) = end {
            *self.by_end.entry((number, end)).or_default() += 1;
        }
        if number != 0 {
            return;
        }
        for row in tables[2].chunks_exact(3) {
            // An unused row has length 0 at place 0.
            if row[1] > 0 {
                self.pool_kinds[row[0] as usize] += 1;
            }
        }
    }
}

/// The answer of a load in words.
fn answer_words(number: Refusal) -> String {
    match number {
        0 => "loaded".to_owned(),
        n => format!("refused {n}"),
    }
}

/// The kind of an outcome's end.
fn end_of(outcome: &Outcome) -> &'static str {
    match outcome {
        Outcome::Loaded(_) => "Ok",
        Outcome::Panicked(_) => "panic",
        Outcome::Refused(error) => match error {
            Error::General => "General",
            Error::TooShort => "TooShort",
            Error::InvalidFormat => "InvalidFormat",
            Error::InvalidOpCode => "InvalidOpCode",
            Error::UnsupportedVersion(_) => "UnsupportedVersion",
            Error::UnknownPoolType(_) => "UnknownPoolType",
            Error::Internal(_) => "internal",
        },
    }
}

/// The file that is at work, for the watch.
static AT_WORK: Mutex<Option<(Instant, Vec<u8>)>> = Mutex::new(None);

/// Says to the watch which file is at work.
pub fn at_work(file: &[u8]) {
    *AT_WORK.lock().unwrap() = Some((Instant::now(), file.to_vec()));
}

/// Ends the process where one file takes too long.
pub fn watch() {
    thread::spawn(|| {
        loop {
            thread::sleep(Duration::from_secs(1));
            let at_work = AT_WORK.lock().unwrap();
            if let Some((since, file)) = &*at_work
                && since.elapsed() > Duration::from_secs(60)
            {
                println!("DIFFERENCE\nno end within a minute\nfile {}", hex(file));
                process::exit(1);
            }
        }
    });
}

/// The corpus, where it is there, by name.
pub fn corpus() -> Vec<(String, Vec<u8>)> {
    let folder = match env::var_os("BLOTHEATH_CORPUS") {
        Some(folder) => PathBuf::from(folder),
        None => PathBuf::from(env!("CARGO_MANIFEST_DIR")).join("../../../shared/corpus"),
    };
    let mut files = Vec::new();
    for entry in fs::read_dir(folder).into_iter().flatten().flatten() {
        let path = entry.path();
        if path.extension().is_some_and(|e| e == "mrb")
            && let Ok(bytes) = fs::read(&path)
        {
            files.push((entry.file_name().to_string_lossy().into_owned(), bytes));
        }
    }
    files.sort();
    files
}

pub fn hex(bytes: &[u8]) -> String {
    bytes.iter().map(|b| format!("{b:02x}")).collect()
}

pub fn difference(what: &str, file: &[u8], why: &str) -> Stop {
    Stop::Difference(format!(
        "{what}, {} bytes\n{why}\nfile {}",
        file.len(),
        hex(file)
    ))
}

/// The files that are stored for their trees.
fn chosen() -> Vec<Vec<u8>> {
    let visited = visits::files().into_iter().map(|visited| visited.file);
    let nested = parents::files().into_iter().map(|nested| nested.file);
    visited.chain(nested).collect()
}

/// `compare load`
pub fn generated(args: &Args) -> Result<(), Stop> {
    args.only(&["--files", "--seed", "--first"])
        .map_err(Stop::Usage)?;
    let files = args.number("--files", 100_000).map_err(Stop::Usage)?;
    let seed = args.number("--seed", 1).map_err(Stop::Usage)?;
    let first = args.number("--first", 0).map_err(Stop::Usage)?;
    watch();
    let subjects = subjects();
    let mut counts = Counts::default();
    let corpus = corpus();
    if first == 0 {
        for (i, (name, file)) in corpus.iter().enumerate() {
            let mut rng = Rng::new(seed, u64::MAX - i as u64);
            one(&subjects, file, &mut rng, &mut counts)
                .map_err(|why| difference(name, file, &why))?;
        }
    }
    let chosen = chosen();
    if first == 0 {
        for (number, file) in chosen.iter().enumerate() {
            let mut rng = Rng::new(seed, number as u64);
            one(&subjects, file, &mut rng, &mut counts)
                .map_err(|why| difference(&format!("chosen file {number}"), file, &why))?;
        }
    }
    println!(
        "seed {seed}, {} corpus files, {} chosen, {files} generated",
        corpus.len(),
        chosen.len()
    );
    let generator = Generator {
        corpus: corpus.into_iter().map(|(_, file)| file).collect(),
    };
    for index in first..first + files {
        let (family, file) = generator.file(seed, index);
        let mut rng = Rng::new(!seed, index);
        let number = one(&subjects, &file, &mut rng, &mut counts).map_err(|why| {
            let what = format!("seed {seed} index {index} ({})", FAMILIES[family]);
            difference(&what, &file, &why)
        })?;
        counts.by_family[family][0] += 1;
        counts.by_family[family][1] += u64::from(number == 0);
    }
    report(&subjects, &counts);
    Ok(())
}

/// `compare make`
pub fn make(args: &Args) -> Result<(), Stop> {
    args.only(&["--files", "--seed", "--first", "--number", "-o"])
        .map_err(Stop::Usage)?;
    let files = args.number("--files", 100).map_err(Stop::Usage)?;
    let seed = args.number("--seed", 1).map_err(Stop::Usage)?;
    let first = args.number("--first", 0).map_err(Stop::Usage)?;
    let wanted = args.text("--number").map(|_| args.number("--number", 0));
    let wanted = wanted.transpose().map_err(Stop::Usage)?;
    let folder = args.text("-o").ok_or(Stop::Usage("-o is missing".into()))?;
    let generator = Generator {
        corpus: corpus().into_iter().map(|(_, file)| file).collect(),
    };
    let mut written = 0;
    for index in first..first + files {
        let (_, file) = generator.file(seed, index);
        let number = read_all(&file).end.err().unwrap_or(0);
        if wanted.is_some_and(|wanted| wanted != u64::from(number)) {
            continue;
        }
        let path = PathBuf::from(folder).join(format!("{seed}-{index}-{number}.mrb"));
        fs::write(&path, file)
            .map_err(|error| Stop::Usage(format!("{}: {error}", path.display())))?;
        written += 1;
    }
    println!("{written} files in {folder}");
    Ok(())
}

/// `compare damage`
pub fn damaged() -> Result<(), Stop> {
    watch();
    let corpus = corpus();
    if corpus.is_empty() {
        return Err(Stop::Usage("the corpus is not there".to_owned()));
    }
    let subjects = subjects();
    let mut counts = Counts::default();
    let mut rng = Rng::new(0, 0);
    for (name, file) in &corpus {
        let mut hold = |file: &[u8], what: String| {
            one(&subjects, file, &mut rng, &mut counts).map_err(|why| difference(&what, file, &why))
        };
        for length in 0..=file.len() {
            hold(&file[..length], format!("{name} cut to {length}"))?;
        }
        // The size of a header that is cut is not looked at.
        for length in HEADER..file.len() {
            let mut cut = file[..length].to_vec();
            state_size(&mut cut, length);
            hold(&cut, format!("{name} cut to {length}, with that size"))?;
        }
        let mut changed = file.clone();
        for at in 0..file.len() {
            let byte = file[at];
            let mut others = vec![0, 1, 2, 3, 4, 7, 127, 128, 255];
            others.extend([byte.wrapping_add(1), byte.wrapping_sub(1), byte ^ 32]);
            others.sort();
            others.dedup();
            for other in others.into_iter().filter(|other| *other != byte) {
                changed[at] = other;
                hold(&changed, format!("{name} with {other} at {at}"))?;
            }
            changed[at] = byte;
        }
    }
    report(&subjects, &counts);
    Ok(())
}

/// `compare file`
pub fn files(args: &Args) -> Result<(), Stop> {
    args.only(&[]).map_err(Stop::Usage)?;
    watch();
    let subjects = subjects();
    let mut counts = Counts::default();
    for path in &args.paths {
        let file =
            fs::read(path).map_err(|error| Stop::Usage(format!("{}: {error}", path.display())))?;
        let mut rng = Rng::new(0, 0);
        let number = one(&subjects, &file, &mut rng, &mut counts)
            .map_err(|why| difference(&path.display().to_string(), &file, &why))?;
        match number {
            0 => println!("{}: loads", path.display()),
            n => println!("{}: refused {n}", path.display()),
        }
    }
    report(&subjects, &counts);
    Ok(())
}

fn report(subjects: &[Box<dyn Subject>], counts: &Counts) {
    let names: Vec<&str> = subjects.iter().map(|subject| subject.name()).collect();
    print!("subjects: {}\n{}", names.join(", "), counts.words());
    println!("no difference");
}

/// Tables of these sizes that hold anything.
pub fn garbage(sizes: &Sizes, rng: &mut Rng) -> Tables {
    let word = rng.word() | 1;
    sizes.0.map(|words| vec![word; words])
}

/// Holds a number against the original's readers of this file and its load; answers how its load ends, where it is called.
fn by_original(number: Refusal, file: &[u8]) -> Result<Option<Outcome<'_>>, String> {
    let exact = oracle::number(file, Allowance::DESKTOP);
    if exact != number {
        return Err(format!(
            "the model answers {number}, the original's readers {exact}"
        ));
    }
    let outcome = oracle::load_of(number, file);
    if let Some(outcome) = &outcome
        && !outcome.is_named(number)
    {
        return Err(format!(
            "the model answers {number}, the original {}",
            outcome.words()
        ));
    }
    Ok(outcome)
}

/// Holds every subject against the original on one file, or on its twin, and under other allowances than the desktop's; answers the number.
pub fn one(
    subjects: &[Box<dyn Subject>],
    file: &[u8],
    rng: &mut Rng,
    counts: &mut Counts,
) -> Result<Refusal, String> {
    at_work(file);
    let reading = read_all(file);
    let needed = reading.rows.used();
    let number = reading.end.err().unwrap_or(0);
    let visits = match number {
        0 => reading.rows.visits,
        _ => 0,
    };
    let held = Held::of(file, &reading)?;
    let bytes = held.bytes(file);
    let outcome = bytes.map(|bytes| by_original(number, bytes));
    let outcome = outcome.transpose()?.flatten();
    for subject in subjects {
        let rows = needed.map(|rows| rows + rng.below(3));
        let mut sizes = Sizes::of_rows(rows);
        for (words, row) in sizes.0.iter_mut().zip(ROW_WORDS) {
            *words += rng.below(row);
        }
        let mut tables = garbage(&sizes, rng);
        let answer = subject.load(file, Allowance::DESKTOP, &mut tables);
        let name = subject.name();
        if answer.refusal != number {
            return Err(format!("{name} answers {}, not {number}", answer.refusal));
        }
        // The original does not count its visits.
        if u64::from(answer.visits) != visits {
            return Err(format!(
                "{name} answers {} visits, not {visits}",
                answer.visits
            ));
        }
        if number == 0 {
            tree_words(&tables, &reading.rows.records.rows)
                .map_err(|why| format!("{name} and the model: {why}"))?;
        }
        if let (Some(bytes), Some(Outcome::Loaded(rite))) = (bytes, &outcome) {
            expected::compare(&**subject, bytes, rite, &answer, &tables)
                .map_err(|why| format!("{name} and the original: {why}"))?;
        }
        let has_rows = answer.rows != [0; 9] || tables.iter().flatten().any(|w| *w != 0);
        if number != 0 && has_rows {
            return Err(format!("{name} refuses and leaves rows"));
        }
        if subject.name() == "model" {
            counts.count(number, &held, outcome.as_ref().map(end_of), &tables);
            if number == 0 {
                counts.count_shapes(file, &reading.rows);
                for (t, rows) in answer.rows.iter().enumerate() {
                    counts.rows[t] += u64::from(*rows);
                    counts.used[t] += u64::from(*rows > 0);
                }
            }
        }
    }
    if held.is_left_out() {
        let sizes = Sizes::of_rows(needed);
        let allowance = Allowance::DESKTOP;
        let right = model::load(file, allowance, &sizes);
        as_model(subjects, file, allowance, &sizes, &right, rng)?;
    }
    let sizes = other_sizes(needed, rng);
    lent(subjects, file, number, needed, &sizes, rng, counts)?;
    allowed(subjects, file, &reading, bytes, rng, counts)?;
    Ok(number)
}

/// Holds the depth and the parent of each record, which the original does not know, against the model's.
fn tree_words(tables: &Tables, records: &[Record]) -> Result<(), String> {
    let rows = tables[0].chunks_exact(RECORD_WORDS);
    for (number, (record, row)) in records.iter().zip(rows).enumerate() {
        let (found, right) = (
            &row[RECORD_WORDS - TREE_WORDS..],
            [record.depth, record.parent],
        );
        if found != right {
            return Err(format!(
                "record {number}: depth and parent are {found:?}, not {right:?}"
            ));
        }
    }
    Ok(())
}

/// Sizes around those that are needed: none, too short, no multiple of the row, longer.
pub fn other_sizes(needed: [usize; 9], rng: &mut Rng) -> Sizes {
    let mut sizes = Sizes::of_rows(needed);
    if rng.one_in(8) {
        return Sizes([0; 9]);
    }
    let often = rng.pick(&[1, 2, 9]);
    for (words, row) in sizes.0.iter_mut().zip(ROW_WORDS) {
        if !rng.one_in(often) {
            *words += rng.below(3 * row);
            continue;
        }
        *words = match rng.below(5) {
            0 => 0,
            1 => words.saturating_sub(row),
            2 => words.saturating_sub(1),
            3 => rng.below(*words + 1),
            _ => *words + rng.below(2 * row),
        };
    }
    sizes
}

/// Holds every subject over other sizes against the rule for 14, and against the model word for word.
fn lent(
    subjects: &[Box<dyn Subject>],
    file: &[u8],
    number: Refusal,
    needed: [usize; 9],
    sizes: &Sizes,
    rng: &mut Rng,
    counts: &mut Counts,
) -> Result<(), String> {
    let rows = sizes.rows();
    let fits = (0..9).all(|t| needed[t] <= rows[t]);
    // The rows that were needed up to the end are those that must fit.
    let right = if fits { number } else { 14 };
    let kind = match (fits, number) {
        (false, _) => "too short",
        (true, 0) => "loaded",
        (true, _) => "refused",
    };
    *counts.lent.entry(kind).or_default() += 1;
    let loaded = model::load(file, Allowance::DESKTOP, sizes);
    if loaded.refusal != right {
        return Err(format!(
            "over {:?} words the model answers {}, not {right}",
            sizes.0, loaded.refusal
        ));
    }
    as_model(subjects, file, Allowance::DESKTOP, sizes, &loaded, rng)
}

/// Holds every subject on a file that is read so under two allowances, of which the second is nowhere smaller; for the original the bytes that are held
/// stand.
fn allowed(
    subjects: &[Box<dyn Subject>],
    file: &[u8],
    reading: &Reading,
    held: Option<&[u8]>,
    rng: &mut Rng,
    counts: &mut Counts,
) -> Result<(), String> {
    let own = allowance::own(file.len(), reading.rows.used()[0]);
    let small = allowance::any(own, rng);
    let large = nowhere_smaller(small, own, rng);
    let sizes = Met::of(file, reading, small).sizes(rng);
    let desktop = model::load(file, Allowance::DESKTOP, &sizes);
    let mut seen = BTreeSet::new();
    let mut answers = Vec::new();
    for allowance in [small, large] {
        let met = Met::of(file, reading, allowance);
        let under = |why| format!("under {allowance:?} over {:?} words {why}", sizes.0);
        if let Some(bytes) = held {
            by_readers(bytes, allowance, &met).map_err(under)?;
        }
        let loaded = model::load(file, allowance, &sizes);
        by_rule(&loaded, allowance, met.over(&sizes), &desktop).map_err(under)?;
        as_model(subjects, file, allowance, &sizes, &loaded, rng)?;
        seen.extend(met.seen(allowance, own, &sizes));
        answers.push(loaded);
    }
    // "A file accepted under one gives the same rows in the same tables under any that is nowhere smaller."
    if answers[0].refusal == 0 && answers[0] != answers[1] {
        return Err(format!(
            "accepted under {small:?}, and under {large:?} not, or with other rows"
        ));
    }
    counts.count_allowed(reading.end.err().unwrap_or(0), seen);
    Ok(())
}

/// Holds what a file meets under an allowance against the original's readers.
fn by_readers(file: &[u8], allowance: Allowance, met: &Met) -> Result<(), String> {
    let exact = oracle::number(file, allowance);
    if exact != met.number {
        return Err(format!(
            "the rule for 29 gives {}, the original's readers {exact}",
            met.number
        ));
    }
    Ok(())
}

/// Holds the model's load under an allowance against the rule's number, and against the desktop's answer where it must be the same.
fn by_rule(
    loaded: &Loaded,
    allowance: Allowance,
    right: Refusal,
    desktop: &Loaded,
) -> Result<(), String> {
    if loaded.refusal != right {
        return Err(format!("the model answers {}, not {right}", loaded.refusal));
    }
    if (right == 0 || is_desktops(allowance)) && loaded != desktop {
        return Err("the model answers otherwise than under the desktop's allowance".to_owned());
    }
    Ok(())
}

/// Holds every subject under an allowance over lent tables against the model's answer word for word.
fn as_model(
    subjects: &[Box<dyn Subject>],
    file: &[u8],
    allowance: Allowance,
    sizes: &Sizes,
    right: &Loaded,
    rng: &mut Rng,
) -> Result<(), String> {
    for subject in subjects {
        let mut tables = garbage(sizes, rng);
        let answer = subject.load(file, allowance, &mut tables);
        answers_as(subject.name(), answer, &tables, right)
            .map_err(|why| format!("under {allowance:?} over {:?} words {why}", sizes.0))?;
    }
    Ok(())
}
