//! Request h) of paper 02: "One loader serves both, with the allowance as an argument".

use model::*;

/// The bytes of the file's header and of the section's before the first record.
const FIRST_RECORD: usize = 32;

/// The bytes of each record.
const RECORD: usize = 21;

/// A file of so many records, each the parent of the next.
fn file(records: usize) -> Vec<u8> {
    let mut content = vec![0; 4];
    for number in 0..records {
        let rlen = u8::from(number + 1 < records);
        content.extend([0, 0, 0, RECORD as u8, 0, 1, 0, 1, 0, rlen]);
        content.extend([0, 0, 0, 0, 0, 1, 118, 0, 0, 0, 0]);
    }
    let mut file = b"RITE0400\0\0\0\0\0\0\0\0\0\0\0\0IREP".to_vec();
    file.extend((content.len() as u32 + 8).to_be_bytes());
    file.extend(content);
    file.extend(b"END\0\0\0\0\x08");
    file
}

/// The file with bytes put over its own.
fn changed(file: &[u8], at: usize, bytes: &[u8]) -> Vec<u8> {
    let mut file = file.to_vec();
    file[at..at + bytes.len()].copy_from_slice(bytes);
    file
}

fn allowance(bytes: u32, records: u32) -> Allowance {
    Allowance { bytes, records }
}

fn of_bytes(bytes: usize) -> Allowance {
    allowance(bytes as u32, 1_024)
}

fn of_records(records: u32) -> Allowance {
    allowance(65_536, records)
}

/// So many record rows, and rows enough of the others.
fn lent(records: usize) -> Sizes {
    let mut rows = [64; 9];
    rows[0] = records;
    Sizes::of_rows(rows)
}

fn refusal(file: &[u8], allowance: Allowance) -> Refusal {
    load(file, allowance, &lent(1_100)).refusal
}

#[test]
fn the_two_allowances_are_the_papers() {
    assert_eq!(Allowance::PREVIEW, allowance(16_384, 64));
    assert_eq!(Allowance::DESKTOP, allowance(65_536, 1_024));
}

/// "A larger number in it counts as the desktop's", each by itself.
#[test]
fn larger_numbers_count_as_the_desktops() {
    let granted = |bytes, records| allowance(bytes, records).granted();
    assert_eq!(granted(65_537, 3), allowance(65_536, 3));
    assert_eq!(granted(3, 1_025), allowance(3, 1_024));
    assert_eq!(granted(u32::MAX, u32::MAX), Allowance::DESKTOP);
    assert_eq!(granted(0, 0), allowance(0, 0));
    for bytes in [65_536, 65_537, u32::MAX] {
        for records in [1_024, 1_025, u32::MAX] {
            let larger = allowance(bytes, records);
            assert_eq!(refusal(&file(1_024), larger), 0);
            assert_eq!(refusal(&file(1_025), larger), 14);
            assert_eq!(refusal(&[0; 65_536], larger), 27);
            assert_eq!(refusal(&[0; 65_537], larger), 1);
        }
    }
}

#[test]
fn bytes() {
    let good = file(3);
    for (more, number) in [(0, 0), (1, 0), (-1, 29), (-20, 29)] {
        let bytes = good.len().checked_add_signed(more).unwrap();
        assert_eq!(refusal(&good, of_bytes(bytes)), number, "{bytes}");
    }
    assert_eq!(refusal(&good, of_bytes(0)), 29);
    assert_eq!(refusal(&good, Allowance::PREVIEW), 0);
    let long = [good, vec![0; 16_385]].concat();
    assert_eq!(refusal(&long[..16_384], Allowance::PREVIEW), 5);
    assert_eq!(refusal(&long[..16_385], Allowance::PREVIEW), 29);
}

/// "at 1's place for bytes": behind 1 alone.
#[test]
fn bytes_come_before_2_27_28_3_and_4() {
    let good = file(1);
    let ident = changed(&good, 0, b"RITF");
    let size = changed(&good, 8, &[255; 4]);
    let major = changed(&good, 4, b"05");
    for (file, number) in [
        (&good[..1], 2),
        (&good[..19], 2),
        (&ident[..], 27),
        (&size[..], 28),
        (&major[..], 3),
        (&good[..31], 4),
        (&[&good[..], &[0; 4]].concat()[..], 5),
    ] {
        assert_eq!(refusal(file, of_bytes(file.len())), number);
        assert_eq!(refusal(file, of_bytes(file.len() - 1)), 29, "{number}");
    }
    for bytes in [0, 1, 65_536] {
        assert_eq!(refusal(&[0; 65_537], of_bytes(bytes)), 1);
        assert_eq!(refusal(&[], of_bytes(bytes)), 2);
    }
}

#[test]
fn records() {
    for records in [1, 2, 63, 64, 65, 1_023, 1_024] {
        let file = file(records);
        let own = records as u32;
        assert_eq!(refusal(&file, of_records(own)), 0, "{records}");
        assert_eq!(refusal(&file, of_records(own + 1)), 0, "{records}");
        assert_eq!(refusal(&file, of_records(own - 1)), 29, "{records}");
        assert_eq!(refusal(&file, of_records(0)), 29, "{records}");
    }
    assert_eq!(refusal(&file(0), of_records(0)), 0);
    // The 65th record is within the desktop's.
    assert_eq!(refusal(&file(1_025), of_records(64)), 29);
    assert_eq!(refusal(&file(1_025), of_records(1_023)), 29);
    assert_eq!(refusal(&file(1_025), of_records(1_024)), 14);
}

/// "where the lent table is too short as well, 14".
#[test]
fn a_lent_table_that_is_too_short_as_well_is_14() {
    let file = file(100);
    let number = |rows, records| load(&file, of_records(records), &lent(rows)).refusal;
    for (rows, records, right) in [
        (64, 64, 14),
        (65, 64, 29),
        (70, 64, 29),
        (63, 64, 14),
        (0, 0, 14),
        (1, 0, 29),
        (99, 100, 14),
        (100, 100, 0),
        (100, 99, 29),
        (99, 99, 14),
    ] {
        assert_eq!(number(rows, records), right, "{rows} {records}");
    }
    // A word short of the row.
    let mut short = lent(65);
    short.0[0] -= 1;
    assert_eq!(load(&file, of_records(64), &short).refusal, 14);
}

/// "at .. 14's [place] for records": behind the record's 16 bytes, before its content.
#[test]
fn records_come_where_14_comes() {
    let good = file(3);
    let third = FIRST_RECORD + 2 * RECORD;
    for (file, allowed, under_2) in [
        // The third record's code passes the file's end.
        (changed(&good, third + 12, &[255; 4]), 7, 29),
        // Its size is 0.
        (changed(&good, third, &[0; 4]), 8, 29),
        // Its constant has no kind.
        (changed(&good, third + 17, &[0, 1, 9, 0]), 10, 29),
        // Its 16 bytes are not all there.
        (good[..third + 15].to_vec(), 7, 7),
        (good[..third + 16].to_vec(), 7, 29),
        // What is met before it.
        (changed(&good, third - RECORD, &[0; 4]), 8, 8),
        // The section's end passes the file's.
        (changed(&good, 24, &[0, 0, 1, 0]), 7, 7),
    ] {
        let size = ((file.len() - 20) as u32).to_be_bytes();
        let file = if file.len() < good.len() {
            changed(&file, 24, &size)
        } else {
            file
        };
        assert_eq!(refusal(&file, of_records(3)), allowed);
        assert_eq!(refusal(&file, of_records(2)), under_2, "{allowed}");
    }
    // No row of another kind is needed before the record's.
    let mut rows = lent(3);
    rows.0[2] = 0;
    let constants = changed(&good, third + 17, &[0, 1, 1, 0]);
    assert_eq!(load(&constants, of_records(2), &rows).refusal, 29);
    assert_eq!(load(&constants, of_records(3), &rows).refusal, 14);
}

/// "its record number": of the records that are read, not of those that the section has.
#[test]
fn records_are_counted_as_they_are_read() {
    let bad_second = changed(&file(100), FIRST_RECORD + RECORD + 12, &[255; 4]);
    assert_eq!(refusal(&bad_second, of_records(64)), 7);
    assert_eq!(refusal(&bad_second, of_records(1)), 29);
}

#[test]
fn both_at_once() {
    let file = file(3);
    let long = file.len() as u32;
    assert_eq!(refusal(&file, allowance(long, 3)), 0);
    assert_eq!(refusal(&file, allowance(long - 1, 2)), 29);
    assert_eq!(load(&file, allowance(long - 1, 2), &lent(2)).refusal, 29);
    assert_eq!(load(&file, allowance(long, 2), &lent(2)).refusal, 14);
}

/// "A file accepted under one gives the same rows in the same tables under any that is nowhere smaller."
#[test]
fn the_same_rows_under_any_that_is_nowhere_smaller() {
    for records in [0, 1, 5, 64] {
        let file = file(records);
        let lent = lent(64);
        let own = allowance(file.len() as u32, records as u32);
        let right = load(&file, own, &lent);
        assert_eq!(right.refusal, 0);
        assert_eq!(right.rows[0], records as u32);
        for bytes in [own.bytes, own.bytes + 1, 16_384, 65_536, u32::MAX] {
            for records in [own.records, own.records + 1, 64, 1_024, u32::MAX] {
                assert_eq!(load(&file, allowance(bytes, records), &lent), right);
            }
        }
    }
}

/// The run of a file with every opcode permitted.
fn run(file: &[u8], allowed: Allowance, frame_words: usize, choices: &[u8]) -> Followed {
    follow(file, allowed, &EVERYTHING, &lent(9), frame_words, choices)
}

/// A refusal leaves zeros, and an examination and a run answer what the load meets.
#[test]
fn examination_and_a_run_load_first() {
    let file = file(3);
    let lent = lent(9);
    let bytes = of_bytes(file.len() - 1);
    let bad = changed(&file, FIRST_RECORD + 16, &[200]);
    for small in [bytes, of_records(2), of_records(0), allowance(0, 0)] {
        for file in [&file, &bad] {
            let refused = Loaded::refused(29, &lent);
            assert_eq!(load(file, small, &lent), refused);
            assert_eq!(examine(file, small, &EVERYTHING, &lent), refused);
            // Neither the frame table's 14 nor 21 comes before it.
            let followed = run(file, small, 0, &[5]);
            assert_eq!(followed.loaded, refused);
        }
    }
    assert_eq!(examine(&bad, of_records(3), &EVERYTHING, &lent).refusal, 16);
    let own = allowance(file.len() as u32, 3);
    let passed = examine(&file, own, &EVERYTHING, &lent);
    assert_eq!(passed, load(&file, Allowance::DESKTOP, &lent));
    let followed = run(&file, own, 6, &[0]);
    assert!(followed.finished);
    assert_eq!(followed.loaded, passed);
    assert_eq!(run(&file, own, 5, &[]).loaded.refusal, 14);
}
