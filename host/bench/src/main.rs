//! Times of load, examine and follow beside those of the original's load, and of single records beside whole files, on the same files in one run.
//!
//! Every figure is a median over rounds in which all calls take turns, so that other work on the machine meets all alike.

#![forbid(unsafe_code)]

mod hostile;
mod ladder;
mod parts;
mod timing;

use blotheath::tables::Words;
use blotheath::{Allowance, Pattern, Permitted, Refusal};
use original::rite::rite;
use std::path::{Path, PathBuf};
use std::time::Duration;
use std::{env, fs};
use timing::{Subject, medians};

fn main() {
    println!("# Times of load, examine and follow\n");
    if !blotheath::PROVED {
        println!("These are times of the model, not of the archive.\n");
    }
    let rounds = env::args().nth(1).and_then(|word| word.parse().ok());
    let rounds = rounds.unwrap_or(201);
    real_files(rounds);
    ladder_of_sizes(rounds);
    hostile_files();
    hostile_files_for_lists();
    single_records(rounds);
    hostile_single_records();
}

/// The files of the corpus that pass and that the original loads too, or the sample where there is no corpus.
fn real() -> Vec<Vec<u8>> {
    let here = Path::new(env!("CARGO_MANIFEST_DIR"));
    let folder = match env::var_os("BLOTHEATH_CORPUS") {
        Some(folder) => PathBuf::from(folder),
        None => here.join("../../../shared/corpus"),
    };
    let folder = if folder.is_dir() {
        folder
    } else {
        here.join("../samples")
    };
    let mut paths: Vec<PathBuf> = fs::read_dir(folder)
        .into_iter()
        .flatten()
        .filter_map(|entry| Some(entry.ok()?.path()))
        .filter(|path| path.extension().is_some_and(|end| end == "mrb"))
        .collect();
    paths.sort();
    let files = paths.iter().filter_map(|path| fs::read(path).ok());
    files
        .filter(|file| blotheath::examine(file).is_ok() && rite::load(file).is_ok())
        .collect()
}

fn real_files(rounds: usize) {
    let files = real();
    let bytes: usize = files.iter().map(Vec::len).sum();
    println!("## Real files\n");
    println!(
        "{} files that pass and that the original loads, {bytes} bytes, one behind the other; {rounds} rounds.\n",
        files.len()
    );
    table(&files, rounds);
}

fn ladder_of_sizes(rounds: usize) {
    println!("## A ladder of sizes\n");
    for kibibytes in [1, 4, 16, 64] {
        let file = ladder::pattern(kibibytes * 1024);
        assert!(
            blotheath::examine(&file).is_ok(),
            "the built pattern passes"
        );
        println!("{} bytes; {rounds} rounds.\n", file.len());
        table(&[file], rounds);
    }
}

/// The allowance of every call.
const ALLOWANCE: Allowance = Allowance::DESKTOP;

/// The permitted opcodes of every call but those for other lists.
const EVERYTHING: Permitted = Permitted::everything();

/// The choices that follow is timed with.
const CHOICES: [u8; 16] = [0, 0, 2, 0, 0, 0, 1, 0, 0, 2, 0, 0, 0, 0, 4, 0];

/// The tables that the host lends for a file, loaded.
fn lent_for(file: &[u8]) -> Words {
    blotheath::tables::lend(file, |words| {
        let loaded = blotheath::ffi::load(file, ALLOWANCE, words);
        (loaded.refusal, ())
    })
    .0
}

/// Prints the medians of all calls over some files.
fn table(files: &[Vec<u8>], rounds: usize) {
    let mut lent: Vec<Words> = files.iter().map(|file| lent_for(file)).collect();
    let mut again = lent.clone();
    let mut examined = lent.clone();
    let mut followed = lent.clone();
    let mut frames = vec![0; 2 * blotheath::tables::RECORD_LIMIT];
    let mut load_original = || {
        for file in files {
            timing::keep(rite::load(file).is_ok());
        }
    };
    let mut load_new = || {
        for file in files {
            timing::keep(lent_for(file));
        }
    };
    let mut load_cleared = || {
        for (file, words) in files.iter().zip(&mut lent) {
            words.iter_mut().for_each(|table| table.fill(0));
            timing::keep(blotheath::ffi::load(file, ALLOWANCE, words));
        }
    };
    let mut load_again = || {
        for (file, words) in files.iter().zip(&mut again) {
            timing::keep(blotheath::ffi::load(file, ALLOWANCE, words));
        }
    };
    let mut examine = || {
        for (file, words) in files.iter().zip(&mut examined) {
            let permitted = EVERYTHING.as_bytes();
            timing::keep(blotheath::ffi::examine(file, ALLOWANCE, permitted, words));
        }
    };
    let mut follow = || {
        for (file, words) in files.iter().zip(&mut followed) {
            timing::keep(blotheath::ffi::follow(
                file,
                ALLOWANCE,
                EVERYTHING.as_bytes(),
                words,
                &mut frames,
                &CHOICES,
            ));
        }
    };
    let mut subjects: Vec<Subject> = vec![
        ("original's load", &mut load_original),
        ("load, the same tables again", &mut load_again),
        ("load, tables cleared first", &mut load_cleared),
        ("load, tables made anew", &mut load_new),
        ("examine", &mut examine),
        ("follow, 16 bytes of choices", &mut follow),
    ];
    let times = medians(&mut subjects, rounds);
    println!("| call | microseconds | times the original's speed |\n|---|---|---|");
    for ((name, _), time) in subjects.iter().zip(&times) {
        let ratio = ratio(times[0], *time);
        println!("| {name} | {:.1} | {ratio:.2} |", micros(*time));
    }
    println!();
}

fn micros(time: Duration) -> f64 {
    time.as_secs_f64() * 1e6
}

/// The answer of an examination in words.
fn answer_of(examined: Result<Pattern, Refusal>) -> String {
    match examined {
        Ok(_) => "passes".to_owned(),
        Err(refusal) => refusal.number().to_string(),
    }
}

fn shown(time: Duration) -> String {
    format!("{:.1} ms", time.as_secs_f64() * 1e3)
}

/// Times the worst files, with the tables that the host lends for them.
fn hostile_files() {
    println!("## Hostile files\n");
    println!(
        "At most 65,536 bytes each, with the tables that the host lends, more of them after 14; medians of five, the original once.\n"
    );
    println!(
        "| file | bytes | answer | load | examine | follow | original's load |\n|---|---|---|---|---|---|---|"
    );
    let mut far = Vec::new();
    for (name, file) in hostile::files() {
        let mut load = || timing::keep(blotheath::load(&file).is_ok());
        let mut examine = || timing::keep(blotheath::examine(&file).is_ok());
        let mut follow = || timing::keep(blotheath::follow(&file, &CHOICES).is_ok());
        let mut subjects: Vec<Subject> = vec![
            ("load", &mut load),
            ("examine", &mut examine),
            ("follow", &mut follow),
        ];
        let times = medians(&mut subjects, 5);
        let answer = answer_of(blotheath::examine(&file));
        let mut load_original = || timing::keep(rite::load(&file).is_ok());
        let original = timing::once(&mut load_original);
        println!(
            "| {name} | {} | {answer} | {} | {} | {} | {} |",
            file.len(),
            shown(times[0]),
            shown(times[1]),
            shown(times[2]),
            shown(original)
        );
        if let Ok(pattern) = blotheath::load(&file)
            && pattern.counts().name_walk().is_far()
        {
            let (visits, micros) = (pattern.counts().visits, micros(times[0]));
            far.push(format!(
                "{name}: {visits} visits, load {micros:.0} microseconds"
            ));
        }
    }
    println!("\nWalks over the local names that go far beyond the records:\n");
    far.iter().for_each(|walk| println!("- {walk}"));
}

/// Times files that share code for lists of permitted opcodes.
fn hostile_files_for_lists() {
    println!("\n## Hostile files for lists of permitted opcodes\n");
    println!(
        "Of these files the last record alone has RETURN, as its last instruction; medians of five.\n"
    );
    println!("| file | bytes | permitted | answer | examine | follow |\n|---|---|---|---|---|---|");
    for hostile in hostile::ending_apart() {
        let file = &hostile.file;
        for (list, permitted) in lists_for(&hostile) {
            let examined = || blotheath::examine_within(file, ALLOWANCE, &permitted);
            let mut examine = || timing::keep(examined().is_ok());
            let mut follow = || {
                let followed = blotheath::follow_within(file, ALLOWANCE, &permitted, &CHOICES);
                timing::keep(followed.is_ok());
            };
            let mut subjects: Vec<Subject> =
                vec![("examine", &mut examine), ("follow", &mut follow)];
            let times = medians(&mut subjects, 5);
            println!(
                "| {} | {} | {list} | {} | {} | {} |",
                hostile.name,
                file.len(),
                answer_of(examined()),
                shown(times[0]),
                shown(times[1])
            );
        }
    }
}

/// Times single records of real files beside the whole files.
fn single_records(rounds: usize) {
    println!("\n## Single records\n");
    println!("A record by itself beside the whole file, over the same tables again.\n");
    let files = real();
    println!(
        "{} real files, one behind the other; {rounds} rounds.\n",
        files.len()
    );
    println!("| examined of each | microseconds | times the whole's speed |\n|---|---|---|");
    let times = whole_and_records(&files, rounds);
    let names = ["whole file", "first record", "middle record", "last record"];
    for (name, time) in names.iter().zip(&times) {
        let ratio = ratio(times[0], *time);
        println!("| {name} | {:.1} | {ratio:.2} |", micros(*time));
    }
}

/// Times single records of hostile files that pass beside the whole files.
fn hostile_single_records() {
    println!("\nHostile files that pass, each with 1,024 records; medians of five.\n");
    println!(
        "| file | whole | record 0 | record 512 | record 1,023 | times the whole's speed, the slowest |\n|---|---|---|---|---|---|"
    );
    for (name, file) in hostile::files() {
        if blotheath::examine(&file).is_err() {
            continue;
        }
        let times = whole_and_records(&[file], 5);
        let slowest = times[1..].iter().max().copied().unwrap_or_default();
        let ratio = ratio(times[0], slowest);
        let shown = times
            .iter()
            .map(|time| format!("{:.2} ms", micros(*time) / 1e3));
        let shown: Vec<String> = shown.collect();
        println!("| {name} | {} | {ratio:.0} |", shown.join(" | "));
    }
}

/// How many times as long one time is as another.
fn ratio(one: Duration, other: Duration) -> f64 {
    one.as_secs_f64() / other.as_secs_f64()
}

/// The medians of examining files whole, and their first, their middle and their last record by itself.
fn whole_and_records(files: &[Vec<u8>], rounds: usize) -> Vec<Duration> {
    let permitted = EVERYTHING.as_bytes();
    let mut whole: Vec<Words> = files.iter().map(|file| lent_for(file)).collect();
    let [mut first, mut middle, mut last] = [0; 3].map(|_| whole.clone());
    let mut numbers = Vec::new();
    for (file, words) in files.iter().zip(&mut whole) {
        let records = blotheath::ffi::load(file, ALLOWANCE, words).rows[0];
        numbers.push([0, records / 2, records - 1]);
    }
    let examine_each = |tables: &mut [Words], which: usize| {
        for ((file, words), numbers) in files.iter().zip(tables).zip(&numbers) {
            let record = numbers[which];
            let examined =
                blotheath::ffi::examine_record(file, ALLOWANCE, permitted, words, record);
            timing::keep(examined);
        }
    };
    let mut examine = || {
        for (file, words) in files.iter().zip(&mut whole) {
            timing::keep(blotheath::ffi::examine(file, ALLOWANCE, permitted, words));
        }
    };
    let mut examine_first = || examine_each(&mut first, 0);
    let mut examine_middle = || examine_each(&mut middle, 1);
    let mut examine_last = || examine_each(&mut last, 2);
    let mut subjects: Vec<Subject> = vec![
        ("whole", &mut examine),
        ("first", &mut examine_first),
        ("middle", &mut examine_middle),
        ("last", &mut examine_last),
    ];
    medians(&mut subjects, rounds)
}

/// The lists that a file is timed with.
fn lists_for(hostile: &hostile::EndingApart) -> [(&'static str, Permitted); 4] {
    let mut held = Permitted::nothing();
    hostile.held.iter().for_each(|opcode| held.permit(*opcode));
    let mut all_but_last = EVERYTHING;
    all_but_last.forbid(hostile::RETURN);
    [
        ("everything", EVERYTHING),
        ("what the file holds", held),
        ("all but RETURN", all_but_last),
        ("nothing", Permitted::nothing()),
    ]
}
