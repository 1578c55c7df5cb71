//! The seven lookups: the port held against the model over the tables of loads and over tables of any words.

use crate::Stop;
use crate::allowance::read_all;
use crate::args::Args;
use crate::generate::Generator;
use crate::load::{at_work, corpus, difference, watch};
use crate::rng::Rng;
use crate::subject::{Found, LOOKUPS, Lookup, Subject, subjects};
use model::{Allowance, ROW_WORDS, Record, Rows, Sizes, Tables};

/// Lookups of each kind, and how many of them were refused.
type Counts = [[u64; 2]; 7];

/// `compare lookup`
pub fn compare(args: &Args) -> Result<(), Stop> {
    args.only(&["--tables", "--seed", "--first"])
        .map_err(Stop::Usage)?;
    let number = args.number("--tables", 10_000).map_err(Stop::Usage)?;
    let seed = args.number("--seed", 1).map_err(Stop::Usage)?;
    let first = args.number("--first", 0).map_err(Stop::Usage)?;
    watch();
    let subjects = subjects();
    let corpus = corpus();
    let mut loaded = Counts::default();
    let mut hostile = Counts::default();
    let mut loads = 0;
    for (name, file) in &corpus {
        loads +=
            after_load(&subjects, file, &mut loaded).map_err(|why| difference(name, file, &why))?;
    }
    let generator = Generator {
        corpus: corpus.into_iter().map(|(_, file)| file).collect(),
    };
    for index in first..first + number {
        let (_, file) = generator.file(seed, index);
        let what = format!("seed {seed} index {index}");
        if index % 4 == 0 {
            loads += after_load(&subjects, &file, &mut loaded)
                .map_err(|why| difference(&what, &file, &why))?;
        }
        let mut rng = Rng::new(!seed, index);
        let (file, tables) = hostile_tables(&file, &mut rng);
        for (lookup, record, index) in asked(&file, &tables, &mut rng) {
            hold(
                &subjects,
                lookup,
                &file,
                &tables,
                record,
                index,
                &mut hostile,
            )
            .map_err(|why| difference(&what, &file, &format!("{why}\ntables {tables:?}")))?;
        }
    }
    let names: Vec<&str> = subjects.iter().map(|subject| subject.name()).collect();
    println!("seed {seed}, subjects: {}", names.join(", "));
    println!("lookups after {loads} loads, and in {number} other tables (answered, refused):");
    for (i, lookup) in LOOKUPS.iter().enumerate() {
        let name = format!("{lookup:?}");
        let [all, refused] = loaded[i];
        print!("  {name:<13}{:>10}{refused:>10}", all - refused);
        let [all, refused] = hostile[i];
        println!("{:>10}{refused:>10}", all - refused);
    }
    println!("no difference");
    Ok(())
}

/// Holds every subject against the model in one lookup; answers it.
fn hold(
    subjects: &[Box<dyn Subject>],
    lookup: Lookup,
    file: &[u8],
    tables: &Tables,
    record: u32,
    index: u32,
    counts: &mut Counts,
) -> Result<Found, String> {
    let mut right = None;
    for subject in subjects {
        let before = tables.clone();
        let found = subject.lookup(lookup, file, tables, record, index);
        let what = || format!("{lookup:?} of {record}, {index}: {}", subject.name());
        if before != *tables {
            return Err(format!("{} changes a table", what()));
        }
        if found.refusal != 0 && (found.refusal != 22 || found.numbers != [0; 5]) {
            return Err(format!("{} refuses by {found:?}", what()));
        }
        match right {
            None => right = Some(found),
            Some(right) if right != found => {
                return Err(format!("{} answers {found:?}, the model {right:?}", what()));
            }
            _ => {}
        }
    }
    let found = right.expect("the model is a subject");
    let count = &mut counts[lookup as usize];
    count[0] += 1;
    count[1] += u64::from(found.refusal != 0);
    Ok(found)
}

/// Every lookup of every record and index after a load, and one past; answers how many loads that were.
fn after_load(
    subjects: &[Box<dyn Subject>],
    file: &[u8],
    counts: &mut Counts,
) -> Result<u64, String> {
    at_work(file);
    let reading = read_all(file);
    let records = &reading.rows.records.rows;
    // Many records have as many lookups each; a few files of them are enough elsewhere.
    if reading.end.is_err() || records.len() > 200 {
        return Ok(0);
    }
    let sizes = Sizes::of_rows(reading.rows.used());
    let tables = model::load(file, Allowance::DESKTOP, &sizes).tables;
    for (lookup, number, index) in of_load(&reading.rows) {
        let found = hold(subjects, lookup, file, &tables, number, index, counts)?;
        // A load's rows point at what they were loaded from.
        let right = listed(records, lookup, number).is_some_and(|rows| index < rows);
        if (found.refusal == 0) != right {
            return Err(format!("{lookup:?} of {number}, {index} is {found:?}"));
        }
    }
    Ok(1)
}

/// How many rows a record lists for a lookup; any index is good for instructions and line.
fn listed(records: &[Record], lookup: Lookup, number: u32) -> Option<u32> {
    let record = records.get(number as usize)?;
    Some(match lookup {
        Lookup::Instructions | Lookup::Line => return Some(u32::MAX),
        Lookup::Handler => record.handlers.number,
        Lookup::Pool => record.pool.number,
        Lookup::Symbol => record.symbols.number,
        Lookup::Name => record.names.number,
        Lookup::DebugFile => record.files.number,
    })
}

/// Every lookup of every record and index of a load, and one past.
pub fn of_load(rows: &Rows) -> Vec<(Lookup, u32, u32)> {
    let records = &rows.records.rows;
    let mut asked = Vec::new();
    for (number, record) in (0..).zip(records) {
        asked.push((Lookup::Instructions, number, 0));
        for lookup in &LOOKUPS[1..6] {
            let rows = listed(records, *lookup, number).unwrap_or(0);
            asked.extend((0..=rows).map(|index| (*lookup, number, index)));
        }
        let offsets = (0..=record.ilen.min(200)).chain([record.ilen, u32::MAX - 1]);
        asked.extend(offsets.map(|offset| (Lookup::Line, number, offset)));
    }
    for lookup in LOOKUPS {
        asked.extend([records.len() as u32, u32::MAX].map(|past| (lookup, past, 0)));
    }
    asked
}

/// A file and tables of any words: random, small, or those of its load with changes; of any lengths.
pub fn hostile_tables(file: &[u8], rng: &mut Rng) -> (Vec<u8>, Tables) {
    let loaded = read_all(file);
    let lent = Sizes::of_rows(loaded.rows.used());
    if loaded.end.is_ok() && !rng.one_in(3) {
        let mut tables = loaded.rows.loaded(&lent).tables;
        let mut file = file.to_vec();
        for _ in 0..rng.below(6) {
            damage(&mut tables, file.len(), rng);
        }
        if rng.one_in(4) {
            file.truncate(rng.below(file.len() + 1));
        }
        return (file, tables);
    }
    let bound = rng.pick(&[2, 4, 8, 40, 1 << 32]);
    let mut tables = Tables::default();
    for (table, row) in tables.iter_mut().zip(ROW_WORDS) {
        let rows = rng.below(5);
        let rest = rng.pick(&[0, 0, row - 1, 1 % row]);
        let words = if rng.one_in(8) { 0 } else { rows * row + rest };
        table.extend((0..words).map(|_| match rng.below(20) {
            0 => rng.word(),
            1 => u32::MAX - rng.below(3) as u32,
            _ => rng.below(bound) as u32,
        }));
    }
    let length = rng.pick(&[0, 1, 8, 40, 40, 200]);
    let length = rng.below(length + 1);
    (rng.bytes(length), tables)
}

/// Changes a word of a table, or its length.
fn damage(tables: &mut Tables, file: usize, rng: &mut Rng) {
    let t = match rng.below(3) {
        0 => 0,
        _ => rng.below(9),
    };
    let lengths: [usize; 9] = std::array::from_fn(|t| tables[t].len() / ROW_WORDS[t]);
    let rows = rng.pick(&lengths) as u32;
    let table = &mut tables[t];
    if table.is_empty() {
        return;
    }
    if rng.one_in(6) {
        table.truncate(rng.below(table.len() + 1));
        return;
    }
    let at = rng.below(table.len());
    let word = table[at];
    table[at] = match rng.below(10) {
        0 => 0,
        1 => word.wrapping_add(1),
        2 => word.wrapping_sub(1),
        3 => u32::MAX - rng.below(4) as u32,
        4 => rows,
        5 => file as u32,
        6 => (file as u32).wrapping_sub(rng.below(10) as u32),
        7 => rng.word(),
        8 => rng.pick(&[1, 2, 3, 4, 5, 6, 7, 8]),
        _ => rng.pick(&[65_534, 65_535, 65_536, 1 << 31]),
    };
}

/// Lookups to ask of tables: each kind, of records and indexes that are there, beside them, or any.
pub fn asked(file: &[u8], tables: &Tables, rng: &mut Rng) -> Vec<(Lookup, u32, u32)> {
    at_work(file);
    let mut asked = Vec::new();
    for lookup in LOOKUPS {
        for _ in 0..4 {
            let (record, bound) = record_with(tables, lookup, rng);
            let index = match rng.below(12) {
                0 => rng.word(),
                1 => u32::MAX - rng.below(2) as u32,
                2 => bound,
                3 => rng.below(8) as u32,
                _ => rng.below(bound as usize) as u32,
            };
            asked.push((lookup, record, index));
        }
    }
    asked
}

/// A record, one that lists something for a lookup if a few tries find it, and how much it lists.
fn record_with(tables: &Tables, lookup: Lookup, rng: &mut Rng) -> (u32, u32) {
    let word = match lookup {
        Lookup::Instructions => 3,
        Lookup::Handler => 8,
        Lookup::Pool => 10,
        Lookup::Symbol => 12,
        Lookup::Name => 14,
        Lookup::DebugFile => 16,
        Lookup::Line => 5,
    };
    let rows = tables[0].len() / ROW_WORDS[0];
    match rng.below(12) {
        0 => return (rng.word(), 8),
        1 => return (rows as u32, 8),
        _ => {}
    }
    let mut record = 0;
    for _ in 0..6 {
        record = rng.below(rows);
        if let Some(number) = tables[0].get(record * ROW_WORDS[0] + word)
            && *number > 0
        {
            return (record as u32, *number);
        }
    }
    (record as u32, 0)
}
