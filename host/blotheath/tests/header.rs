//! include/blotheath.h: it compiles as C and as C++, its numbers are the host's, and what it says of slices without elements holds.

mod common;

use blotheath::answer::NO_PARENT;
use blotheath::tables::{RECORD_WORDS, ROW_WORDS, rows, usual};
use blotheath::{Allowance, LOAD_STACK, Opcode, Permitted, Refusal, STACK};
use common::Folder;
use std::fs;
use std::path::{Path, PathBuf};
use std::process::Command;

fn repository() -> PathBuf {
    Path::new(env!("CARGO_MANIFEST_DIR")).join("../..")
}

fn header() -> String {
    fs::read_to_string(repository().join("include/blotheath.h")).unwrap()
}

/// The lines of the header's list that tell a refusal.
fn told(header: &str, number: u32) -> usize {
    let start = format!("   {number:>2}  ");
    header
        .lines()
        .filter(|line| line.starts_with(&start))
        .count()
}

#[test]
fn every_refusal_stands_in_the_header_once() {
    let header = header();
    for number in 0..100 {
        let is_known = Refusal::all().any(|refusal| refusal.number() == number);
        assert_eq!(told(&header, number), usize::from(is_known), "{number}");
    }
}

/// The header tells the words of each kind of row, those of records twice: in its table and as a macro.
#[test]
fn the_widths_are_those_of_the_host() {
    let header = header();
    for (name, words) in model::NAMES.iter().zip(ROW_WORDS) {
        let start = format!("   {}, {words}: ", name.replace('_', ""));
        assert!(
            header.lines().any(|line| line.starts_with(&start)),
            "{start}"
        );
    }
    assert!(header.contains(&format!("#define BLOTHEATH_RECORD_WORDS {RECORD_WORDS}\n")));
    assert!(header.contains(&format!("#define BLOTHEATH_NO_PARENT {NO_PARENT}\n")));
    assert_eq!(ROW_WORDS, model::ROW_WORDS);
}

#[test]
fn the_rows_to_lend_are_those_that_the_host_lends() {
    let header = header();
    let (_, table) = header.split_once("How much to lend").unwrap();
    for (kind, name) in model::NAMES.iter().enumerate() {
        let name = name.replace('_', "");
        let row = table
            .lines()
            .find(|line| line.split_whitespace().next() == Some(&name))
            .unwrap();
        let divisors: Vec<usize> = row
            .split('/')
            .skip(1)
            .map(|part| part.split([' ', ',']).nth(1).unwrap().parse().unwrap())
            .collect();
        for length in [0, 1, 64, 4_096, 20_479, 65_536] {
            assert_eq!(usual(length)[kind], length / divisors[0] + 1, "{name}");
            let most = if kind == 0 { 1_024 } else { length };
            assert_eq!(
                rows(length, 1)[kind],
                most.min(length / divisors[1]),
                "{name}"
            );
        }
    }
}

#[test]
fn the_allowances_are_those_of_the_host() {
    let header = header();
    for (name, allowance) in [
        ("DESKTOP", Allowance::DESKTOP),
        ("PREVIEW", Allowance::PREVIEW),
    ] {
        for (of, number) in [("BYTES", allowance.bytes), ("RECORDS", allowance.records)] {
            let line = format!("#define BLOTHEATH_{name}_{of} {number}\n");
            assert!(header.contains(&line), "{line}");
        }
    }
}

/// The calls that the header declares, each with its parameters.
fn calls(header: &str) -> Vec<(&str, String)> {
    let (_, declared) = header.split_once("extern \"C\"").unwrap();
    let calls = declared.split("\nBlotheath").skip(1).map(|call| {
        let (_, call) = call.split_once(" blotheath_").unwrap();
        let (name, rest) = call.split_once('(').unwrap();
        let (parameters, _) = rest.split_once(");").unwrap();
        let words: Vec<&str> = parameters.split_whitespace().collect();
        (name, words.join(" "))
    });
    calls.collect()
}

/// The calls whose parameters begin so; no other has one with this word in it.
fn taking<'h>(header: &'h str, start: &str, word: &str) -> Vec<&'h str> {
    let (taking, others): (Vec<_>, Vec<_>) = calls(header)
        .into_iter()
        .partition(|(_, parameters)| parameters.starts_with(start));
    for (name, parameters) in others {
        assert!(!parameters.contains(word), "{name}");
    }
    taking.into_iter().map(|(name, _)| name).collect()
}

/// The calls that read a whole file take an allowance directly behind it, those that examine it permitted opcodes behind that, and no others.
#[test]
fn the_terms_stand_behind_the_file() {
    let header = header();
    let allowance =
        "const uint8_t *file, size_t file_len, uint32_t max_bytes, uint32_t max_records,";
    let all = [
        "load",
        "load_records",
        "examine",
        "examine_record",
        "follow",
    ];
    assert_eq!(taking(&header, allowance, "max_"), all);
    let permitted = format!("{allowance} const uint8_t *permitted, size_t permitted_len,");
    assert_eq!(taking(&header, &permitted, "permitted"), all[2..]);
}

/// The examination of a single record takes what that of the whole file takes, and the record last.
#[test]
fn the_record_stands_last() {
    let header = header();
    let calls = calls(&header);
    let of = |wanted: &str| {
        let call = calls.iter().find(|(name, _)| *name == wanted);
        call.unwrap().1.clone()
    };
    let right = format!("{}, uint32_t rec", of("examine"));
    assert_eq!(of("examine_record"), right);
}

#[test]
fn the_opcodes_are_those_of_the_host() {
    let number = Permitted::everything().as_bytes().len();
    assert_eq!(number, Opcode::all().count());
    let header = header();
    assert!(header.contains(&format!("#define BLOTHEATH_OPCODES {number}\n")));
    assert!(header.contains(&format!(" {number} opcodes (BLOTHEATH_OPCODES)")));
}

/// The header's table of registers has the opcodes that touch more than their operands name, each once.
#[test]
fn registers_stand_in_the_header() {
    let header = header();
    let (_, table) = header.split_once("where n or k is 15.\n").unwrap();
    let (table, _) = table.split_once("*/").unwrap();
    let words = table.split(|c: char| !c.is_ascii_uppercase() && !"_2".contains(c));
    let mut told: Vec<&str> = words.filter(|word| word.len() > 1).collect();
    let touches_more = |opcode: &Opcode| opcode.registers.iter().any(|words| words.len() > 1);
    let mut names: Vec<&str> = Opcode::all()
        .filter(touches_more)
        .map(|opcode| opcode.name)
        .collect();
    told.sort();
    names.sort();
    assert_eq!(told, names);
}

#[test]
fn the_stack_is_that_of_the_header() {
    let header = header();
    for bytes in [LOAD_STACK, STACK] {
        assert!(header.contains(&format!("at most {} KiB", bytes >> 10)));
    }
}

/// The folder of the archive.
fn archive() -> PathBuf {
    match std::env::var_os("BLOTHEATH_ARCHIVE") {
        Some(folder) => PathBuf::from(folder),
        None => repository().join("target/staticlib"),
    }
}

/// Compiles and runs tests/header.c; the program ends with 0 where all that it tries holds.
#[test]
#[cfg_attr(feature = "model", ignore = "the archive is not linked")]
fn c_and_cpp_call_the_archive() {
    let folder = Folder::new("header");
    let source = Path::new(env!("CARGO_MANIFEST_DIR")).join("tests/header.c");
    for (compiler, language) in [("cc", "c"), ("c++", "c++")] {
        let program = folder.path().join(compiler);
        let compiled = Command::new(compiler)
            .args(["-Wall", "-Wextra", "-Werror", "-pedantic", "-x", language])
            .arg(&source)
            .args(["-x", "none", "-I"])
            .arg(repository().join("include"))
            .arg(archive().join("libblotheath.a"))
            .arg("-o")
            .arg(&program)
            .status();
        match compiled {
            Ok(status) => assert!(status.success(), "{compiler}"),
            Err(error) => {
                println!("{compiler} was not tried: {error}");
                continue;
            }
        }
        let ran = Command::new(&program).output().unwrap();
        let told = String::from_utf8_lossy(&ran.stdout);
        assert!(ran.status.success(), "{compiler}: {told}");
    }
}
