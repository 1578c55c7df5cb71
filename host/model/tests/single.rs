//! Request i) of paper 02: "A call loads the file and examines a single record, without 15."

mod parts;

use model::*;
use parts::{file, file_with, lent, record, section, without};

const NOP: u8 = 0;
const MOVE: u8 = 1;
const JMP: u8 = 38;
const BLOCK: u8 = 98;
const EXT1: u8 = 115;
const STOP: u8 = 118;

/// The number of a single record on the desktop, for a list.
fn single_for(file: &[u8], list: &[u8], record: u32) -> Refusal {
    examine_single(file, Allowance::DESKTOP, list, &lent(), record).refusal
}

fn single(file: &[u8], record: u32) -> Refusal {
    single_for(file, &EVERYTHING, record)
}

fn whole(file: &[u8]) -> Refusal {
    examine(file, Allowance::DESKTOP, &EVERYTHING, &lent()).refusal
}

/// The numbers of each record by itself, and of the one behind the last.
fn singles(file: &[u8], records: u32) -> Vec<Refusal> {
    (0..=records).map(|record| single(file, record)).collect()
}

/// A record that passes, with so many children.
fn good(children: u16) -> Vec<u8> {
    record(&[STOP], children, &[])
}

/// Paper 01's File A.
fn file_a() -> Vec<u8> {
    let mut record = record(&[17, 1, 61, 1], 0, &[]);
    // Without the symbol.
    record.truncate(24);
    record[3] = 24;
    record[23] = 0;
    file(&[record])
}

/// A DBG section in which each record's map has two lines at these positions.
fn map(records: &[[u8; 2]]) -> Vec<u8> {
    let mut content = vec![0, 1, 0, 0];
    for [first, second] in records {
        content.extend([0, 0, 0, 29, 0, 1, 0, 0, 0, 0, 0, 0, 0, 0, 0, 2, 1]);
        content.extend([0, 0, 0, *first, 0, 1, 0, 0, 0, *second, 0, 2]);
    }
    section(b"DBG\0", &content)
}

#[test]
fn a_missing_record_is_22() {
    for record in [1, 2, 255, 256, 1_024, 65_535, 65_536, 1 << 31, u32::MAX] {
        assert_eq!(single(&file_a(), record), 22, "{record}");
    }
    assert_eq!(file_a().len(), 64);
    assert_eq!(single(&file_a(), 0), 0);
}

#[test]
fn a_file_without_records_has_none_to_examine() {
    let none = file(&[]);
    assert_eq!(whole(&none), 15);
    for record in [0, 1, u32::MAX] {
        assert_eq!(single(&none, record), 22);
    }
}

/// "without 15"
#[test]
fn a_tree_does_not_count() {
    for rlens in [&[1][..], &[0, 0], &[2, 0], &[1, 1], &[0, 1], &[65_535]] {
        let records: Vec<Vec<u8>> = rlens.iter().map(|rlen| good(*rlen)).collect();
        let file = file(&records);
        assert_eq!(whole(&file), 15, "{rlens:?}");
        let mut right = vec![0; rlens.len()];
        right.push(22);
        assert_eq!(singles(&file, rlens.len() as u32), right, "{rlens:?}");
    }
}

/// A child is held against rlen, and need not be there.
#[test]
fn children_are_held_against_rlen_alone() {
    for (rlen, child, refusal) in [(1, 0, 0), (1, 1, 17), (7, 6, 0), (7, 7, 17), (0, 0, 17)] {
        let file = file(&[record(&[BLOCK, 0, child, STOP], rlen, &[])]);
        assert_eq!(single(&file, 0), refusal, "{rlen} {child}");
    }
}

#[test]
fn the_number_of_records_counts_and_not_that_of_rows() {
    let two = file(&[good(1), good(0)]);
    for rows in 2..6 {
        let lent = Sizes::of_rows([rows, 0, 0, 2, 0, 0, 0, 0, 0]);
        let refusal = |record: u32| {
            examine_single(&two, Allowance::DESKTOP, &EVERYTHING, &lent, record).refusal
        };
        assert_eq!([0, 1, 2, 3, 4].map(refusal), [0, 0, 22, 22, 22]);
    }
}

#[test]
fn loads_refusals_come_first() {
    let two = file(&[good(1), good(0)]);
    let n = two.len() as u32;
    let changed = |at: usize, byte: u8| {
        let mut file = two.clone();
        file[at] = byte;
        file
    };
    // The zero behind record 0's symbol stands last in it.
    let last = 32 + good(1).len() - 1;
    for (file, refusal) in [
        (two[..19].to_vec(), 2),
        (changed(0, b'r'), 27),
        (changed(8, 255), 28),
        (changed(4, b'9'), 3),
        ([&two[..], &[1; 4]].concat(), 5),
        (changed(last, 1), 9),
    ] {
        for record in [0, 1, 2, u32::MAX] {
            assert_eq!(single(&file, record), refusal, "{record}");
        }
    }
    for (bytes, records, rows, refusal) in [
        (n, 2, 2, 0),
        (n - 1, 2, 2, 29),
        (n, 1, 2, 29),
        (n, 1, 1, 14),
        (n, 2, 1, 14),
        (0, 0, 0, 29),
        (u32::MAX, u32::MAX, 2, 0),
    ] {
        let allowance = Allowance { bytes, records };
        let lent = Sizes::of_rows([rows, 0, 0, 2, 0, 0, 0, 0, 0]);
        let asked = |record| examine_single(&two, allowance, &EVERYTHING, &lent, record).refusal;
        let missing = if refusal == 0 { 22 } else { refusal };
        assert_eq!([0, 1, 2].map(asked), [refusal, refusal, missing]);
    }
}

/// Records that meet each number, for a list without NOP.
fn meeting() -> Vec<(Vec<u8>, Refusal)> {
    vec![
        (record(&[STOP], 0, &[]), 0),
        (record(&[], 0, &[]), 16),
        (record(&[NOP, 119], 0, &[]), 16),
        (record(&[NOP, EXT1], 0, &[]), 25),
        (record(&[MOVE, 9, 0, NOP, STOP], 0, &[9]), 32),
        (record(&[MOVE, 9, 0, STOP], 0, &[9]), 17),
        (record(&[JMP, 0, 9, MOVE, 9, 0, STOP], 0, &[9]), 18),
        (record(&[STOP], 0, &[0, 9]), 19),
    ]
}

#[test]
fn other_records_do_not_count() {
    let list = without(&[NOP]);
    let records = meeting();
    for (first, of_first) in &records {
        for (second, of_second) in &records {
            let file = file(&[first.clone(), second.clone()]);
            let asked = [0, 1, 2].map(|record| single_for(&file, &list, record));
            assert_eq!(asked, [*of_first, *of_second, 22]);
        }
    }
    // Positions that fall.
    let two = [good(1), good(0)];
    let falling = file_with(&two, &[map(&[[0, 1], [1, 0]])]);
    assert_eq!(singles(&falling, 2), [0, 20, 22]);
    let falling = file_with(&two, &[map(&[[1, 0], [0, 1]])]);
    assert_eq!(singles(&falling, 2), [20, 0, 22]);
}

#[test]
fn a_refusal_leaves_zeros_and_a_pass_what_a_load_does() {
    let list = without(&[NOP]);
    let records = [good(1), record(&[NOP, STOP], 0, &[])];
    let file = file(&records);
    let asked = |record| examine_single(&file, Allowance::DESKTOP, &list, &lent(), record);
    assert_eq!(asked(0), load(&file, Allowance::DESKTOP, &lent()));
    assert_eq!(asked(1), Loaded::refused(32, &lent()));
    assert_eq!(asked(2), Loaded::refused(22, &lent()));
}

/// "the whole file passes exactly when its tree is whole and each record passes by itself"
#[test]
fn the_whole_and_its_records() {
    let list = without(&[NOP]);
    let examined = |file: &[u8]| examine(file, Allowance::DESKTOP, &list, &lent()).refusal;
    let mut passing = 0;
    for (first, _) in meeting() {
        for (second, _) in meeting() {
            for rlen in [0, 1, 2] {
                let mut first = first.clone();
                first[9] = rlen;
                let file = file(&[first, second.clone()]);
                let asked = [0, 1].map(|record| single_for(&file, &list, record));
                let is_whole = rlen == 1;
                let passes = examined(&file) == 0;
                assert_eq!(passes, is_whole && asked == [0, 0]);
                passing += u32::from(passes);
            }
        }
    }
    assert_eq!(passing, 1);
}

/// "this record passes by itself exactly when the whole file passes"
#[test]
fn a_file_that_passed_and_is_changed_in_one_record() {
    let list = without(&[NOP]);
    let around = [good(2), good(0), good(0)];
    for changed in 0..3 {
        for (record, refusal) in meeting() {
            let mut records = around.to_vec();
            let rlen = records[changed][9];
            records[changed] = record;
            records[changed][9] = rlen;
            let file = file(&records);
            let number = changed as u32;
            let whole = examine(&file, Allowance::DESKTOP, &list, &lent());
            let itself = examine_single(&file, Allowance::DESKTOP, &list, &lent(), number);
            assert_eq!((whole.refusal, &whole), (refusal, &itself));
        }
    }
}

#[test]
fn the_last_of_1_024_records() {
    let mut records = vec![good(0); RECORD_LIMIT];
    records[0] = good(1_023);
    records[1_023] = record(&[119], 0, &[]);
    let file = file(&records);
    let lent = Sizes::of_rows([RECORD_LIMIT + 1; 9]);
    let asked =
        |record| examine_single(&file, Allowance::DESKTOP, &EVERYTHING, &lent, record).refusal;
    assert_eq!([0, 1_022, 1_023, 1_024].map(asked), [0, 0, 16, 22]);
}
