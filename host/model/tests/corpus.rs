//! The files of the corpus, where it is there.

use model::*;
use std::path::PathBuf;
use std::{env, fs};

/// The names and bytes of the corpus, none where it is not there.
fn corpus() -> Vec<(String, Vec<u8>)> {
    let folder = match env::var_os("BLOTHEATH_CORPUS") {
        Some(folder) => PathBuf::from(folder),
        None => PathBuf::from(env!("CARGO_MANIFEST_DIR")).join("../../../shared/corpus"),
    };
    let Ok(entries) = fs::read_dir(&folder) else {
        println!("no corpus at {}", folder.display());
        return Vec::new();
    };
    let mut files = Vec::new();
    for entry in entries {
        let path = entry.unwrap().path();
        if path.extension().is_some_and(|e| e == "mrb") {
            let name = path.file_stem().unwrap().to_string_lossy().into_owned();
            files.push((name, fs::read(&path).unwrap()));
        }
    }
    files.sort();
    files
}

/// Tables that fit the file exactly.
fn exact(file: &[u8]) -> Sizes {
    Sizes::of_rows(read(file, Allowance::DESKTOP, [usize::MAX; 9]).rows.used())
}

/// The files of one program of the corpus, without and with debug sections.
fn program(name: &str) -> impl Iterator<Item = Vec<u8>> {
    let names = [name.to_owned(), format!("{name}-g")];
    let files = corpus().into_iter();
    files.filter_map(move |(name, file)| names.contains(&name).then_some(file))
}

/// The constants of a file's first record.
fn constants(file: &[u8]) -> Vec<Constant> {
    let tables = load(file, Allowance::DESKTOP, &exact(file)).tables;
    (0..)
        .map_while(|index| pool(file, &tables, 0, index).ok())
        .collect()
}

#[test]
fn whole_numbers_are_those_of_the_program() {
    for file in program("13_constants_big") {
        let numbers = [
            123_456_789_012,
            -123_456_789_012,
            9_223_372_036_854_775_807,
            -9_223_372_036_854_775_807,
            0xdead_beef_cafe,
        ];
        assert_eq!(constants(&file), numbers.map(Constant::Int));
    }
}

#[test]
fn texts_with_zeros_are_those_of_the_program() {
    for file in program("25_zero_in_string") {
        let texts = constants(&file).into_iter().map(|constant| match constant {
            Constant::Text(text) => text.of(&file).to_vec(),
            other => panic!("{other:?} is no text"),
        });
        let said: [&[u8]; 2] = [b"a\0b", b"\0"];
        assert_eq!(texts.collect::<Vec<_>>(), said);
    }
}

#[test]
fn all_pass() {
    for (name, file) in corpus() {
        assert_eq!(
            examine(&file, Allowance::DESKTOP, &EVERYTHING, &exact(&file)).refusal,
            0,
            "{name}"
        );
    }
}

/// The instructions of a record.
fn steps(code: &[u8]) -> Vec<Step> {
    let mut steps = Vec::new();
    let mut offset = 0;
    while offset < code.len() {
        let step = step_at(code, offset).unwrap();
        offset = step.next;
        steps.push(step);
    }
    steps
}

/// The instructions of a file's records.
fn all_steps(file: &[u8]) -> Vec<Vec<Step>> {
    let loaded = load(file, Allowance::DESKTOP, &exact(file));
    let records = 0..loaded.rows[0];
    records
        .map(|record| steps(instructions(file, &loaded.tables, record).unwrap().of(file)))
        .collect()
}

#[test]
fn only_27_wide_operands_has_prefixes() {
    for (name, file) in corpus() {
        let records = all_steps(&file);
        let prefixed = records.iter().flatten().any(|step| step.prefix.is_some());
        assert_eq!(prefixed, name.starts_with("27_wide_operands"), "{name}");
    }
}

#[test]
fn wide_operands_are_those_of_the_program() {
    for file in program("27_wide_operands") {
        let steps = all_steps(&file).concat();
        let seconds = |name: &str| -> Vec<u32> {
            let such = steps
                .iter()
                .filter(|step| OPCODES[step.opcode].name == name);
            such.map(|step| step.operands[1]).collect()
        };
        // Line after line a text goes to a variable; the first symbol is a method's.
        let texts = 0..300;
        assert_eq!(seconds("STRING"), texts.clone().collect::<Vec<_>>());
        assert_eq!(seconds("SETGV"), texts.map(|n| n + 1).collect::<Vec<_>>());
    }
}

#[test]
fn no_file_has_a_newer_opcode() {
    let newer = ["GETIDX0", "SSEND0", "SEND0", "TDEF", "SDEF"];
    for (name, file) in corpus() {
        let has_newer = |step: &Step| newer.contains(&OPCODES[step.opcode].name);
        assert!(!all_steps(&file).iter().flatten().any(has_newer), "{name}");
    }
}

#[test]
fn lookups_answer_throughout() {
    for (name, file) in corpus() {
        let loaded = load(&file, Allowance::DESKTOP, &exact(&file));
        let t = &loaded.tables;
        for r in 0..loaded.rows[0] {
            let row = &t[0][r as usize * RECORD_WORDS..][..RECORD_WORDS];
            assert!(instructions(&file, t, r).is_ok(), "{name}");
            assert!((0..row[8]).all(|i| handler(t, r, i).is_ok()), "{name}");
            assert!((0..row[10]).all(|i| pool(&file, t, r, i).is_ok()), "{name}");
            assert!((0..row[12]).all(|i| symbol(&file, t, r, i).is_ok()));
            assert!((0..row[14]).all(|i| is_named(&file, t, r, i)), "{name}");
            assert!((0..row[16]).all(|i| debug_file(&file, t, r, i).is_ok()));
            assert_eq!(row[14], row[1] - 1, "{name}");
            assert_eq!(name.ends_with("-g"), row[18] > 0, "{name}");
            assert_eq!(line(t, r, 0).unwrap().is_some(), row[18] > 0, "{name}");
        }
    }
}

fn is_named(file: &[u8], tables: &Tables, record: u32, index: u32) -> bool {
    model::name(file, tables, record, index).is_ok()
}

#[test]
fn every_choice_keeps_the_frames_within_the_records() {
    for (name, file) in corpus() {
        let lent = exact(&file);
        let records = load(&file, Allowance::DESKTOP, &lent).rows[0];
        let mut seed = file.len() as u64;
        for _ in 0..40 {
            let mut choices = Vec::new();
            for _ in 0..60 {
                seed = seed.wrapping_mul(6_364_136_223_846_793_005) + 1;
                match (seed >> 33) % 16 {
                    0..=6 => choices.push(0),
                    7..=9 => choices.push(1),
                    10..=13 => choices.push(2),
                    14 => choices.extend([3, 0, (seed >> 60) as u8 % 3]),
                    _ => choices.push(4),
                }
            }
            let followed = follow(
                &file,
                Allowance::DESKTOP,
                &EVERYTHING,
                &lent,
                records as usize * 2,
                &choices,
            );
            assert_eq!(followed.loaded.refusal, 0, "{name}");
            assert!(followed.frames <= records, "{name}");
            assert_eq!(followed.finished, followed.frames == 0, "{name}");
        }
    }
}
