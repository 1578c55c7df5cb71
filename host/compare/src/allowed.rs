//! Files and calls on them under allowances, with the answers of request h) of paper 02.

use crate::generate::{be2, be4, exact, overwrite, state_size};
use crate::sample::{BARE, Counts, FINISHED, STOP, bare_record, file, record, stands_at, tree};
use model::{Allowance, HEADER, Refusal, Sizes};

/// A file, and calls on it.
pub struct Allowed {
    pub file: Vec<u8>,
    /// How many records a load uses, which uses no row of another table.
    pub records: u32,
    pub calls: Vec<Call>,
}

/// A call under an allowance, over so many rows of records and none of the other tables.
pub struct Call {
    pub asked: Asked,
    pub allowance: Allowance,
    pub rows: usize,
    pub refusal: Refusal,
}

pub enum Asked {
    Load,
    Examination,
    /// An examination of a single record.
    Record(u32),
    /// A run over so many words of frames along choices, and what it answers where it is not refused.
    Run(usize, Vec<u8>, [u32; 6]),
}

#[cfg(test)]
impl Asked {
    /// What the model answers.
    pub fn by_model(
        &self,
        file: &[u8],
        allowance: Allowance,
        list: &[u8],
        sizes: &Sizes,
    ) -> model::Loaded {
        match self {
            Asked::Load => model::load(file, allowance, sizes),
            Asked::Examination => model::examine(file, allowance, list, sizes),
            Asked::Record(record) => model::examine_single(file, allowance, list, sizes, *record),
            Asked::Run(words, choices, _) => {
                model::follow(file, allowance, list, sizes, *words, choices).loaded
            }
        }
    }
}

/// Bytes, records, rows of records and the refusal of a call.
type Under = (u32, u32, usize, Refusal);

impl Call {
    /// The tables that are lent.
    pub fn sizes(&self) -> Sizes {
        let mut rows = [0; 9];
        rows[0] = self.rows;
        Sizes::of_rows(rows)
    }

    fn of(asked: Asked, (bytes, records, rows, refusal): Under) -> Call {
        Call {
            asked,
            allowance: Allowance { bytes, records },
            rows,
            refusal,
        }
    }
}

impl Allowed {
    fn of(file: Vec<u8>, records: u32) -> Allowed {
        let calls = Vec::new();
        Allowed {
            file,
            records,
            calls,
        }
    }

    fn loads(mut self, under: &[Under]) -> Allowed {
        let calls = under.iter().map(|under| Call::of(Asked::Load, *under));
        self.calls.extend(calls);
        self
    }

    fn examinations(mut self, under: &[Under]) -> Allowed {
        let calls = under
            .iter()
            .map(|under| Call::of(Asked::Examination, *under));
        self.calls.extend(calls);
        self
    }

    fn run(mut self, words: usize, choices: &[u8], right: [u32; 6], under: Under) -> Allowed {
        let asked = Asked::Run(words, choices.to_vec(), right);
        self.calls.push(Call::of(asked, under));
        self
    }
}

/// "A larger number in it counts as the desktop's": the largest.
const MOST: u32 = u32::MAX;
/// The desktop's numbers.
const BYTES: u32 = Allowance::DESKTOP.bytes;
const RECORDS: u32 = Allowance::DESKTOP.records;
/// The preview's.
const PREVIEW: (u32, u32) = (Allowance::PREVIEW.bytes, Allowance::PREVIEW.records);

/// The bytes of a record whose code is STOP, and the place of the first record.
const BARE_BYTES: usize = 21;
const FIRST: usize = HEADER + 12;

/// The bytes of a record's header.
const RECORD_HEADER: usize = 16;

/// A whole tree of three records.
fn three() -> Vec<u8> {
    tree(&[2, 0, 0], &[])
}

/// So many records in few bytes: each but the last begins six bytes behind the one before it, and reads the sizes of those behind it as its own children
/// and as the length of its code.
pub fn many(records: usize) -> Vec<u8> {
    let mut content = [0, 0, 0, 6, 0, 0].repeat(records - 1);
    // The last reaches into the section behind it, where the last but two finds its counts.
    content.extend([0, 0, 0, 28]);
    content.extend([0; 16]);
    file(&[content], &[exact(b"END\0", &[0; 8])])
}

/// The borders of a file's own bytes and records, and of the rows that are lent.
fn borders() -> Allowed {
    let file = three();
    let n = file.len() as u32;
    let (bytes, records) = PREVIEW;
    Allowed::of(file, 3)
        .loads(&[
            (n, 3, 3, 0),
            (n + 1, 4, 4, 0),
            (bytes, records, 3, 0),
            (BYTES, RECORDS, 3, 0),
            (n - 1, 3, 3, 29),
            (n, 2, 3, 29),
            (n - 1, 2, 3, 29),
            (0, 3, 3, 29),
            (n, 0, 3, 29),
            (0, 0, 3, 29),
            (1, 1, 3, 29),
            // Each number by itself.
            (BYTES + 1, 3, 3, 0),
            (n, RECORDS + 1, 3, 0),
            (MOST, MOST, 5, 0),
            (n - 1, MOST, 3, 29),
            (MOST, 2, 3, 29),
            // "where the lent table is too short as well, 14"
            (n, 2, 2, 14),
            (n, 2, 1, 14),
            (n, 2, 4, 29),
            (n, 3, 2, 14),
            (n, 1, 1, 14),
            (n, 1, 2, 29),
            (n, 0, 0, 14),
            (n, 0, 1, 29),
            // Bytes come before rows.
            (n - 1, 3, 2, 29),
            (n - 1, 0, 0, 29),
        ])
        .examinations(&[
            (n, 3, 3, 0),
            (MOST, MOST, 4, 0),
            (bytes, records, 3, 0),
            (n - 1, 3, 3, 29),
            (n, 2, 3, 29),
            (n, 2, 2, 14),
        ])
        .run(6, &[], stands_at(0, 0, 1), (n, 3, 3, 0))
        .run(7, &[0], FINISHED, (MOST, MOST, 3, 0))
        // The load comes before the frame table and the list.
        .run(5, &[5], FINISHED, (n - 1, 3, 3, 29))
        .run(0, &[5], FINISHED, (n, 2, 3, 29))
        .run(6, &[0], FINISHED, (n, 2, 2, 14))
        .run(5, &[0], FINISHED, (n, 3, 3, 14))
}

/// Files that are refused by their first bytes: 29 comes before all but 1.
fn first_refusals() -> Vec<Allowed> {
    let good = three();
    let changed = |at: usize, bytes: &[u8]| {
        let mut file = good.clone();
        overwrite(&mut file, at, bytes);
        file
    };
    let mut short = good[..31].to_vec();
    state_size(&mut short, 31);
    let mut files = vec![Allowed::of(Vec::new(), 0).loads(&[(0, 0, 1, 2), (MOST, MOST, 1, 2)])];
    for (file, refusal) in [
        (good[..1].to_vec(), 2),
        (good[..19].to_vec(), 2),
        (changed(0, b"RITF"), 27),
        (changed(8, &[255; 4]), 28),
        (changed(4, b"05"), 3),
        (short, 4),
        ([&good[..], &[0; 4]].concat(), 5),
    ] {
        let n = file.len() as u32;
        let under = [(n, 3, 3, refusal), (n - 1, 3, 3, 29), (0, 0, 3, 29)];
        files.push(Allowed::of(file, 0).loads(&under));
    }
    files
}

/// Two records and a third of these bytes.
fn with_third(third: Vec<u8>) -> Vec<u8> {
    let first = Counts {
        children: 2,
        ..BARE
    };
    file(&[record(&[STOP], &[], first), bare_record(), third], &[])
}

/// A record with a constant and these bytes at places from its end.
pub fn with_constant(changes: &[(usize, u8)]) -> Vec<u8> {
    let counts = Counts {
        constants: 1,
        ..BARE
    };
    let mut record = record(&[STOP], &[], counts);
    let end = record.len();
    for (before, byte) in changes {
        record[end - before] = *byte;
    }
    record
}

/// A third record that is refused: under two records 29 comes before its content.
fn contents() -> Vec<Allowed> {
    let changed = |at: usize, bytes: &[u8]| {
        let mut third = bare_record();
        overwrite(&mut third, at, bytes);
        third
    };
    let thirds = [
        // Its code passes the file's end, its size is 0.
        (changed(12, &[255; 4]), 7),
        (changed(0, &[0; 4]), 8),
        // The byte behind its text is not zero, its constant has no kind, its constant has no row.
        (with_constant(&[(3, 1)]), 9),
        (with_constant(&[(6, 9)]), 10),
        (with_constant(&[]), 14),
    ];
    let under = |refusal| [(BYTES, 3, 3, refusal), (BYTES, 2, 3, 29), (BYTES, 2, 2, 14)];
    thirds
        .into_iter()
        .map(|(third, refusal)| Allowed::of(with_third(third), 0).loads(&under(refusal)))
        .collect()
}

/// Three records that end so many bytes behind the third's start, which the section and the header state.
fn cut(length: usize) -> Vec<u8> {
    let mut file = three()[..FIRST + 2 * BARE_BYTES + length].to_vec();
    let size = file.len();
    overwrite(&mut file, HEADER + 4, &be4(size - HEADER));
    state_size(&mut file, size);
    file
}

/// The third record's 16 bytes come before 29.
fn headers() -> Vec<Allowed> {
    let cut_short = Allowed::of(cut(RECORD_HEADER - 1), 0);
    let cut_behind = Allowed::of(cut(RECORD_HEADER), 0);
    vec![
        cut_short.loads(&[(BYTES, 3, 3, 7), (BYTES, 2, 3, 7), (BYTES, 2, 2, 7)]),
        cut_behind.loads(&[(BYTES, 3, 3, 7), (BYTES, 2, 3, 29), (BYTES, 2, 2, 14)]),
    ]
}

/// Records are counted as they are read, and sections behind them come after.
fn counted() -> Vec<Allowed> {
    let mut bad_second = with_third(bare_record());
    overwrite(&mut bad_second, FIRST + BARE_BYTES + 17, &be2(1));
    overwrite(&mut bad_second, FIRST + BARE_BYTES + 19, &[9]);
    // The first record's size leads to the section's end.
    let mut first_alone = three();
    overwrite(&mut first_alone, FIRST, &be4(3 * BARE_BYTES));
    let second_section = tree(&[2, 0, 0], &[exact(b"IREP", &[0; 4])]);
    let unknown_section = tree(&[2, 0, 0], &[exact(b"IRIP", &[0; 4])]);
    vec![
        Allowed::of(bad_second, 0).loads(&[
            (BYTES, 3, 3, 10),
            (BYTES, 2, 3, 10),
            (BYTES, 1, 3, 29),
        ]),
        Allowed::of(first_alone, 1)
            .loads(&[(BYTES, 1, 1, 0), (BYTES, 0, 1, 29), (BYTES, 1, 0, 14)])
            .examinations(&[(BYTES, 1, 1, 15), (BYTES, 0, 1, 29)]),
        Allowed::of(second_section, 0).loads(&[(BYTES, 3, 3, 6), (BYTES, 2, 3, 29)]),
        Allowed::of(unknown_section, 0).loads(&[(BYTES, 3, 3, 5), (BYTES, 2, 3, 29)]),
    ]
}

/// A file without records loads under an allowance of none.
fn without_records() -> Allowed {
    let file = tree(&[], &[]);
    let n = file.len() as u32;
    Allowed::of(file, 0)
        .loads(&[(n, 0, 0, 0), (MOST, 0, 1, 0), (n - 1, 0, 0, 29)])
        .examinations(&[(n, 0, 0, 15), (n - 1, 0, 0, 29)])
}

/// A tree that is not whole, and code that does not pass: 29 comes first.
fn not_passing() -> Vec<Allowed> {
    let not_whole = tree(&[1, 0, 0], &[]);
    let mut bad_code = three();
    overwrite(&mut bad_code, FIRST + RECORD_HEADER, &[200]);
    let mut files = Vec::new();
    for (file, refusal) in [(not_whole, 15), (bad_code, 16)] {
        let n = file.len() as u32;
        let under = [
            (n, 3, 3, refusal),
            (n, 2, 3, 29),
            (n, 2, 2, 14),
            (n - 1, 3, 3, 29),
        ];
        let run = (n, 2, 3, 29);
        let file = Allowed::of(file, 3).examinations(&under);
        files.push(file.run(6, &[0], FINISHED, run));
    }
    files
}

/// A record and so many children.
fn siblings(children: u16) -> Vec<u8> {
    let mut rlens = vec![0; usize::from(children) + 1];
    rlens[0] = children;
    tree(&rlens, &[])
}

/// As many records as the preview takes and one more, examined and followed.
fn at_the_preview() -> Vec<Allowed> {
    let (bytes, records) = PREVIEW;
    vec![
        Allowed::of(siblings(63), 64)
            .examinations(&[(bytes, records, 64, 0), (bytes, records, 70, 0)])
            .run(128, &[0], FINISHED, (bytes, records, 64, 0)),
        Allowed::of(siblings(64), 65)
            .examinations(&[
                (bytes, records, 65, 29),
                (bytes, records, 64, 14),
                (bytes, records + 1, 65, 0),
            ])
            .run(130, &[0], FINISHED, (bytes, records, 65, 29))
            .run(130, &[0], FINISHED, (bytes, records, 64, 14)),
    ]
}

/// Records at the preview's and the desktop's numbers.
fn many_records() -> Vec<Allowed> {
    let (bytes, records) = PREVIEW;
    vec![
        Allowed::of(many(64), 64).loads(&[
            (bytes, records, 64, 0),
            (bytes, records, 63, 14),
            (bytes, records - 1, 64, 29),
        ]),
        Allowed::of(many(65), 65).loads(&[
            (bytes, records, 65, 29),
            (bytes, records, 64, 14),
            (bytes, records + 1, 65, 0),
        ]),
        Allowed::of(many(100), 100).loads(&[
            (bytes, records, 70, 29),
            (bytes, records, 65, 29),
            (bytes, records, 64, 14),
            (bytes, 100, 100, 0),
            (bytes, 99, 100, 29),
        ]),
        Allowed::of(many(1_025), 1_025).loads(&[
            // "beyond the caller's allowance but within the desktop's"
            (BYTES, records, 1_025, 29),
            (BYTES, records, 64, 14),
            (BYTES, RECORDS - 1, 1_025, 29),
            (BYTES, RECORDS - 1, 1_023, 14),
            (BYTES, RECORDS, 1_025, 14),
            (BYTES, RECORDS + 1, 1_025, 14),
            (BYTES, MOST, 1_027, 14),
        ]),
    ]
}

/// All files with their calls.
pub fn files() -> Vec<Allowed> {
    let mut files = vec![borders()];
    files.extend(first_refusals());
    files.extend(contents());
    files.extend(headers());
    files.extend(counted());
    files.push(without_records());
    files.extend(not_passing());
    files.extend(at_the_preview());
    files.extend(many_records());
    files
}

/// Loads of a file of more than 65,536 bytes: 1 under every allowance.
pub fn too_long(file: Vec<u8>) -> Allowed {
    let (bytes, records) = PREVIEW;
    Allowed::of(file, 0).loads(&[
        (0, 0, 1, 1),
        (bytes, records, 1, 1),
        (BYTES, RECORDS, 1, 1),
        (BYTES + 1, RECORDS, 1, 1),
        (MOST, MOST, 1, 1),
    ])
}

#[cfg(test)]
mod tests {
    use super::*;
    use crate::allowance::{self, Met, read_all};
    use crate::generate::Generator;
    use crate::rng::Rng;
    use model::{EVERYTHING, FILE_LIMIT, RECORD_LIMIT};

    /// A load: its file, allowance and tables.
    struct Load {
        file: Vec<u8>,
        allowance: Allowance,
        sizes: Sizes,
    }

    impl Load {
        fn right(&self) -> Refusal {
            self.under(self.allowance)
        }

        /// The refusal under another allowance.
        fn under(&self, allowance: Allowance) -> Refusal {
            model::load(&self.file, allowance, &self.sizes).refusal
        }

        /// The refusal under another allowance with a row for every record.
        fn with_all_rows(&self, allowance: Allowance) -> Refusal {
            let mut rows = self.sizes.rows();
            rows[0] = RECORD_LIMIT + 1;
            model::load(&self.file, allowance, &Sizes::of_rows(rows)).refusal
        }

        fn is_beyond_bytes(&self) -> bool {
            self.file.len() <= FILE_LIMIT && self.file.len() > self.allowance.bytes as usize
        }

        fn is_beyond_records(&self) -> bool {
            self.right() == 29 && !self.is_beyond_bytes()
        }
    }

    /// The loads that are stored.
    fn stored() -> Vec<Load> {
        let mut files = files();
        let too_long = [&b"PNG"[..], &[1; FILE_LIMIT - 2]].concat();
        files.push(super::too_long(too_long));
        let mut loads = Vec::new();
        for allowed in files {
            let calls = allowed.calls.iter();
            loads.extend(
                calls
                    .filter(|call| matches!(call.asked, Asked::Load))
                    .map(|call| Load {
                        file: allowed.file.clone(),
                        allowance: call.allowance,
                        sizes: call.sizes(),
                    }),
            );
        }
        loads
    }

    /// The first loads under allowances of generated files.
    fn generated(files: u64) -> Vec<Load> {
        let generator = Generator { corpus: Vec::new() };
        let mut loads = Vec::new();
        for index in 0..files {
            let (_, file) = generator.file(1, index);
            let reading = read_all(&file);
            let mut rng = Rng::new(!1, index);
            let own = allowance::own(file.len(), reading.rows.used()[0]);
            let allowance = allowance::any(own, &mut rng);
            let sizes = Met::of(&file, &reading, allowance).sizes(&mut rng);
            loads.push(Load {
                file,
                allowance,
                sizes,
            });
        }
        loads
    }

    #[test]
    fn stored_calls_have_their_answers() {
        for (number, allowed) in files().iter().enumerate() {
            for (at, call) in allowed.calls.iter().enumerate() {
                let (file, allowance) = (&allowed.file, call.allowance);
                let asked = &call.asked;
                let loaded = asked.by_model(file, allowance, &EVERYTHING, &call.sizes());
                assert_eq!(loaded.refusal, call.refusal, "{number} {at}");
                if loaded.refusal == 0 {
                    assert_eq!(loaded.rows[0], allowed.records, "{number} {at}");
                    assert_eq!(loaded.rows[1..], [0; 8], "{number} {at}");
                }
            }
        }
    }

    /// A mistaken reading: its name, and the refusal of a load by it.
    type Mistake = (&'static str, fn(&Load) -> Refusal);

    /// The allowance with other numbers.
    fn moved(allowance: Allowance, bytes: i64, records: i64) -> Allowance {
        let add = |number: u32, more: i64| (i64::from(number) + more).clamp(0, MOST.into()) as u32;
        Allowance {
            bytes: add(allowance.bytes, bytes),
            records: add(allowance.records, records),
        }
    }

    /// The refusal of a file beyond the allowed bytes, if a test of these numbers comes before 29.
    fn bytes_after(load: &Load, before: &[Refusal]) -> Refusal {
        let met = load.under(moved(load.allowance, MOST.into(), 0));
        match load.is_beyond_bytes() && before.contains(&met) {
            true => met,
            false => load.right(),
        }
    }

    /// Whether a file's IREP section, which comes first and ends within the file, states more records than are allowed; the last may be cut.
    fn states_more(load: &Load) -> bool {
        let file = &load.file;
        let four = |at: usize| {
            let bytes = file.get(at..at + 4)?;
            Some(u32::from_be_bytes(bytes.try_into().unwrap()) as usize)
        };
        let end = match (file.get(HEADER..HEADER + 4), four(HEADER + 4)) {
            (Some(b"IREP"), Some(size)) if HEADER + size <= file.len() => HEADER + size,
            _ => return false,
        };
        let mut place = FIRST;
        let mut records = 0;
        while place < end {
            records += 1;
            match four(place) {
                None | Some(0) => break,
                Some(stated) => place += stated,
            }
        }
        records > load.allowance.granted().records
    }

    const MISTAKES: [Mistake; 22] = [
        ("a record less", |load| {
            load.under(moved(load.allowance, 0, -1))
        }),
        ("a record more", |load| {
            load.under(moved(load.allowance, 0, 1))
        }),
        ("a byte less", |load| {
            load.under(moved(load.allowance, -1, 0))
        }),
        ("a byte more", |load| {
            load.under(moved(load.allowance, 1, 0))
        }),
        ("no allowance", |load| load.under(Allowance::DESKTOP)),
        ("bytes alone", |load| {
            load.under(moved(load.allowance, 0, MOST.into()))
        }),
        ("records alone", |load| {
            load.under(moved(load.allowance, MOST.into(), 0))
        }),
        (
            "the preview's for all smaller ones",
            |load| match allowance::is_desktops(load.allowance) {
                true => load.right(),
                false => load.under(Allowance::PREVIEW),
            },
        ),
        (
            "29 where the lent table is too short as well",
            |load| match load.with_all_rows(load.allowance) {
                29 => 29,
                _ => load.right(),
            },
        ),
        ("14 for records", |load| match load.is_beyond_records() {
            true => 14,
            false => load.right(),
        }),
        ("1 for bytes", |load| match load.is_beyond_bytes() {
            true => 1,
            false => load.right(),
        }),
        ("29 before 1", |load| match load.file.len() {
            n if n > load.allowance.bytes as usize => 29,
            _ => load.right(),
        }),
        ("bytes after 2", |load| bytes_after(load, &[2])),
        ("bytes after 27", |load| bytes_after(load, &[2, 27])),
        ("bytes after 28", |load| bytes_after(load, &[2, 27, 28])),
        ("bytes after 4", |load| {
            bytes_after(load, &[2, 27, 28, 3, 4])
        }),
        ("more bytes than the desktop's", |load| {
            let more = load.allowance.bytes as usize > FILE_LIMIT;
            match load.right() {
                1 if more => {
                    let cut = load.file[..FILE_LIMIT].to_vec();
                    let sizes = load.sizes;
                    model::load(&cut, Allowance::DESKTOP, &sizes).refusal
                }
                refusal => refusal,
            }
        }),
        ("more records than the desktop's", |load| {
            let more = load.allowance.records as usize > RECORD_LIMIT;
            match (load.right(), read_all(&load.file).end) {
                (14, Err(14)) if more && load.sizes.rows()[0] > RECORD_LIMIT => 0,
                (refusal, _) => refusal,
            }
        }),
        ("a larger number is the desktop's for both", |load| {
            let Allowance { bytes, records } = load.allowance;
            match bytes > BYTES || records > RECORDS {
                true => load.under(Allowance::DESKTOP),
                false => load.right(),
            }
        }),
        ("records before their 16 bytes", |load| {
            let longer = Load {
                file: [&load.file[..], &[0; RECORD_HEADER]].concat(),
                allowance: moved(load.allowance, MOST.into(), 0),
                ..*load
            };
            match load.right() {
                7 if states_more(load) => longer.right(),
                refusal => refusal,
            }
        }),
        ("records after their content", |load| {
            let reading = read_all(&load.file);
            let read = reading.rows.used()[0];
            let last = read == load.allowance.records as usize + 1;
            match reading.end {
                Err(number @ 7..=10) if last && load.is_beyond_records() => number,
                _ => load.right(),
            }
        }),
        ("the section's records", |load| {
            match load.with_all_rows(load.allowance) {
                7..=10 if states_more(load) => 29,
                _ => load.right(),
            }
        }),
    ];

    fn tell_all(loads: &[Load]) {
        for (name, mistaken) in MISTAKES {
            let told = loads.iter().any(|load| mistaken(load) != load.right());
            assert!(told, "{name}");
        }
    }

    #[test]
    fn stored_loads_tell_mistakes() {
        tell_all(&stored());
    }

    #[test]
    fn generated_loads_tell_mistakes() {
        tell_all(&generated(20_000));
    }
}
