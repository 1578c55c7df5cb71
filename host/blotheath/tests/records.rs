//! Record rows as structs: each says what its words say, on real and on damaged files.

mod common;

use blotheath::answer::BlotheathRecord;
use blotheath::tables::{self, RECORD_WORDS, RECORDS, Words};
use blotheath::{Allowance, ffi};
use common::{Numbers, build, damaged, files, sample_bytes};
use std::collections::BTreeSet;
use std::fs;

/// The fields in the order of include/blotheath.h.
fn words(row: &BlotheathRecord) -> [u32; RECORD_WORDS] {
    [
        row.size,
        row.nlocals,
        row.nregs,
        row.rlen,
        row.clen,
        row.ilen,
        row.place,
        row.handlers,
        row.nhandlers,
        row.pool,
        row.npool,
        row.symbols,
        row.nsymbols,
        row.names,
        row.nnames,
        row.files,
        row.nfiles,
        row.lines,
        row.nlines,
        row.depth,
        row.parent,
    ]
}

/// The words of a row that no record has.
const ZEROS: [u32; RECORD_WORDS] = [0; RECORD_WORDS];

/// Tables and rows that hold garbage before the call.
fn garbage(file: &[u8], overlap: usize, rows: usize) -> (Words, Vec<BlotheathRecord>) {
    let tables = tables::zeros(tables::rows(file.len(), overlap))
        .map(|table| vec![0xdead_beef; table.len()]);
    let row = BlotheathRecord {
        size: 7,
        place: 7,
        nlines: 7,
        parent: 7,
        ..Default::default()
    };
    (tables, vec![row; rows])
}

/// Loads a file with so many lent rows, and holds rows, tables and answer against a load without rows. Answers the refusal's number.
fn check(file: &[u8], overlap: usize, lent: usize) -> u32 {
    let (mut tables, mut rows) = garbage(file, overlap, lent);
    let answer = ffi::load_records(file, Allowance::DESKTOP, &mut tables, &mut rows);
    let (mut expected, _) = garbage(file, overlap, 0);
    assert_eq!(answer, ffi::load(file, Allowance::DESKTOP, &mut expected));
    assert_eq!(tables, expected);
    assert_eq!(rows.len(), lent);
    let mut whole = tables[RECORDS].chunks_exact(RECORD_WORDS);
    for row in &rows {
        let row = words(row);
        match whole.next() {
            Some(expected) => assert_eq!(row, *expected),
            None => assert_eq!(row, ZEROS),
        }
    }
    if answer.refusal != 0 {
        assert!(rows.iter().all(|row| words(row) == ZEROS));
    } else {
        let used = lent.min(answer.rows[RECORDS] as usize);
        assert!(rows[..used].iter().all(|row| row.size != 0));
        assert!(rows[used..].iter().all(|row| words(row) == ZEROS));
    }
    answer.refusal
}

/// Fewer rows than records, as many as the table has, and more.
fn check_lengths(file: &[u8], overlap: usize) -> u32 {
    let rows = tables::rows(file.len(), overlap)[RECORDS];
    let mut refusals = [0, 1, 2, rows, rows + 3].map(|lent| check(file, overlap, lent));
    refusals.sort_unstable();
    assert_eq!(refusals[0], refusals[4]);
    refusals[0]
}

#[test]
fn the_sample_has_a_struct_for_each_record() {
    assert_eq!(check_lengths(&sample_bytes(), 1), 0);
}

#[test]
fn rows_of_real_files() {
    let mut loaded = 0;
    for path in files() {
        let file = fs::read(&path).unwrap();
        loaded += u32::from(check_lengths(&file, 1) == 0);
    }
    assert!(loaded > 0);
}

#[test]
fn rows_of_damaged_files() {
    let mut numbers = Numbers(6);
    let mut refusals = BTreeSet::new();
    let files: Vec<Vec<u8>> = files().iter().map(|path| fs::read(path).unwrap()).collect();
    for round in 0..4_000 {
        let file = damaged(&files[round % files.len()], &mut numbers);
        refusals.insert(check_lengths(&file, 1));
    }
    assert!(refusals.contains(&0) && refusals.len() > 5);
}

/// A table whose length is no multiple of a row: the words behind the last whole row are no row.
#[test]
fn rows_behind_the_last_whole_row_are_zeros() {
    let file = sample_bytes();
    for length in 0..120 {
        let (mut tables, mut rows) = garbage(&file, 1, 8);
        tables[RECORDS].resize(length, 9);
        let answer = ffi::load_records(&file, Allowance::DESKTOP, &mut tables, &mut rows);
        let whole = length / RECORD_WORDS;
        assert!(rows.iter().skip(whole).all(|row| words(row) == ZEROS));
        if answer.refusal != 0 {
            assert!(rows.iter().all(|row| words(row) == ZEROS));
        }
    }
}

/// Files that are too short, too long, of another kind, cut, or of another version.
#[test]
fn refused_files_give_rows_of_zeros() {
    let sample = sample_bytes();
    let mut other = sample.clone();
    other[4] = b'9';
    for (file, refusal) in [
        (vec![], 2),
        (build::resized(&sample, 70_000), 1),
        (build::drawing(500), 27),
        (sample[..500].to_vec(), 28),
        (other, 3),
    ] {
        assert_eq!(check(&file, 1, 5), refusal);
    }
}
