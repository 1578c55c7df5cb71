//! Times of load: the port's against the original's over the corpus, and over hostile files.

use crate::Stop;
use crate::allowance::read_all;
use crate::args::Args;
use crate::load::corpus;
use crate::port::Port;
use crate::quiet;
use crate::subject::Subject;
use model::{Allowance, Sizes, Tables};
use original::rite::rite;
use std::hint::black_box;
use std::time::{Duration, Instant};

/// `compare bench`
pub fn bench(args: &Args) -> Result<(), Stop> {
    args.only(&["--rounds"]).map_err(Stop::Usage)?;
    let rounds = args.number("--rounds", 2001).map_err(Stop::Usage)?;
    let checked = quiet::inside(original::checks_overflow) == Ok(true);
    let build = if checked { "with" } else { "without" };
    println!("the original is built {build} overflow checks");
    real_files(rounds)?;
    for (name, file) in [
        ("one long constant a record", hostile(&one_constant)),
        ("one long symbol a record", hostile(&one_symbol)),
        ("many constants a record", hostile(&many_constants)),
    ] {
        hostile_file(name, &file)?;
    }
    Ok(())
}

/// The files of the corpus that the original loads too, in rounds of the original and the port in turn.
fn real_files(rounds: u64) -> Result<(), Stop> {
    let mut files = corpus();
    files.retain(|(_, file)| rite::load(file).is_ok());
    if files.is_empty() {
        return Err(Stop::Usage("there is no corpus".into()));
    }
    let bytes: usize = files.iter().map(|(_, file)| file.len()).sum();
    println!(
        "{} real files that both load, {bytes} bytes; {rounds} rounds",
        files.len()
    );
    let mut lent: Vec<Tables> = files.iter().map(|(_, file)| fitting(file)).collect();
    let mut original = || {
        for (_, file) in &files {
            black_box(rite::load(black_box(file)).is_ok());
        }
    };
    let mut port = || {
        for ((_, file), tables) in files.iter().zip(&mut lent) {
            black_box(Port.load(black_box(file), Allowance::DESKTOP, tables));
        }
    };
    let mut times: [Vec<Duration>; 2] = Default::default();
    for round in 0..rounds {
        // Each comes first in every second round.
        if round % 2 == 0 {
            times[0].push(timed(&mut original));
            times[1].push(timed(&mut port));
        } else {
            times[1].push(timed(&mut port));
            times[0].push(timed(&mut original));
        }
    }
    let [original, fits] = times.map(median);
    // Long tables are rounds of their own: clearing them drives all else out of the caches.
    let long = |words: usize| {
        let mut tables = Sizes([words; 9]).zeros();
        let mut port = || {
            for (_, file) in &files {
                black_box(Port.load(black_box(file), Allowance::DESKTOP, &mut tables));
            }
        };
        median((0..rounds / 10 + 1).map(|_| timed(&mut port)).collect())
    };
    for (name, time) in [
        ("original", original),
        ("port, tables that fit", fits),
        ("port, 64 KiB a table", long(16_384)),
        ("port, 256 KiB a table", long(65_536)),
    ] {
        let ratio = original.as_secs_f64() / time.as_secs_f64();
        println!(
            "  {name:<28}{:>10.1} us a pass, {ratio:.2} times the original's speed",
            micros(time)
        );
    }
    Ok(())
}

/// One file, five loads by the port over tables that fit, and one by the original.
fn hostile_file(name: &str, file: &[u8]) -> Result<(), Stop> {
    let mut tables = fitting(file);
    let words: usize = tables.iter().map(Vec::len).sum();
    let answer = Port.load(file, Allowance::DESKTOP, &mut tables);
    if answer.refusal != 0 || answer.rows[0] != 1_024 {
        return Err(Stop::Difference(format!("{name}: {answer:?}")));
    }
    let port = hostile_time(file, &mut tables);
    let mut short = Sizes::of_rows([1_024; 9]).zeros();
    let refused = Port.load(file, Allowance::DESKTOP, &mut short).refusal;
    let small = hostile_time(file, &mut short);
    let original = timed(&mut || _ = black_box(rite::load(file).is_ok()));
    println!(
        "hostile, {name}: {} bytes, rows {:?}",
        file.len(),
        answer.rows
    );
    println!(
        "  {:<28}{:>10.1} ms, {words} words lent",
        "port, tables that fit",
        micros(port) / 1e3
    );
    println!(
        "  {:<28}{:>10.1} ms, answer {refused}",
        "port, 1,024 rows a table",
        micros(small) / 1e3
    );
    println!("  {:<28}{:>10.1} ms", "original", micros(original) / 1e3);
    Ok(())
}

/// The median of five loads.
fn hostile_time(file: &[u8], tables: &mut Tables) -> Duration {
    let mut load = || _ = black_box(Port.load(black_box(file), Allowance::DESKTOP, tables));
    median((0..5).map(|_| timed(&mut load)).collect())
}

/// Tables with a place for each row of a file.
fn fitting(file: &[u8]) -> Tables {
    Sizes::of_rows(read_all(file).rows.used()).zeros()
}

fn timed(pass: &mut dyn FnMut()) -> Duration {
    let start = Instant::now();
    pass();
    start.elapsed()
}

fn median(mut times: Vec<Duration>) -> Duration {
    times.sort();
    times[times.len() / 2]
}

fn micros(time: Duration) -> f64 {
    time.as_secs_f64() * 1e6
}

/// A file of 65,536 bytes: 1,024 records that overlap, each with the same constants or symbol and 65,535 children, then LVAR and DBG.
fn hostile(constants: &dyn Fn(usize) -> Vec<u8>) -> Vec<u8> {
    let mut names = Vec::new();
    names.extend(1u32.to_be_bytes());
    names.extend([0, 1, b'a']);
    names.extend([0, 0].repeat(1_024));
    let mut debug = vec![0, 1, 0, 1, b'f'];
    debug.extend([0, 0, 0, 6, 0, 0].repeat(1_024));
    // A byte is left when the walk is past the last record.
    debug.push(0);
    let behind = 8 + names.len() + 8 + debug.len() + 8;
    let shared = 32 + 20 * 1_024;
    let constants = constants(65_536 - behind - shared - 2);
    let mut file = b"RITE0400".to_vec();
    file.extend(65_536u32.to_be_bytes());
    file.extend([0; 8]);
    file.extend(b"IREP");
    file.extend(((12 + 20 * 1_024 + constants.len() + 2) as u32).to_be_bytes());
    file.extend([0; 4]);
    for record in 0..1_024 {
        let start = 32 + 20 * record;
        let size = if record == 1_023 { 65_536 } else { 20 };
        file.extend((size as u32).to_be_bytes());
        file.extend([0, 2, 0, 1, 255, 255, 0, 0]);
        file.extend(((shared - start - 16) as u32).to_be_bytes());
        file.extend([0; 4]);
    }
    file.extend(constants);
    file.extend([0, 0]);
    for (mark, content) in [(b"LVAR", names), (b"DBG\0", debug), (b"END\0", Vec::new())] {
        file.extend(mark);
        file.extend((content.len() as u32 + 8).to_be_bytes());
        file.extend(content);
    }
    file
}

/// What comes before a text, and the text with its length and its zero, so many bytes in all.
fn one_text(before: &[u8], bytes: usize) -> Vec<u8> {
    let mut pool = before.to_vec();
    pool.extend(((bytes - before.len() - 3) as u16).to_be_bytes());
    pool.resize(bytes - 1, b'a');
    pool.push(0);
    pool
}

/// A pool of one text that fills so many bytes.
fn one_constant(bytes: usize) -> Vec<u8> {
    one_text(&[0, 1, 0], bytes)
}

/// No pool, and one symbol that fills so many bytes; those behind it are not read.
fn one_symbol(bytes: usize) -> Vec<u8> {
    one_text(&[0, 0, 0, 1], bytes)
}

/// A pool of as many constants as fit into so many bytes, in the shortest form, and one that fills the rest.
fn many_constants(bytes: usize) -> Vec<u8> {
    let number = (bytes - 2) / 3;
    let mut pool = (number as u16).to_be_bytes().to_vec();
    for _ in 1..number {
        pool.extend([7, 0, 0]);
    }
    let rest = bytes - pool.len();
    pool.extend([7, rest as u8 - 3]);
    pool.resize(bytes, 0);
    pool
}
