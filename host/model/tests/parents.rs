//! Request a) of paper 02: the depth and the parent of every record, "by the walk over the rlens, with or without LVAR".

use model::*;

/// A record of one byte of code with so many children.
fn record(rlen: u16) -> Vec<u8> {
    let mut record = vec![0, 0, 0, 21, 0, 1, 0, 1];
    record.extend(rlen.to_be_bytes());
    record.extend([0, 0, 0, 0, 0, 1, 118, 0, 0, 0, 0]);
    record
}

fn section(mark: &[u8; 4], content: &[u8]) -> Vec<u8> {
    let size = 8 + content.len() as u32;
    [&mark[..], &size.to_be_bytes(), content].concat()
}

/// A file of records with so many children, and of these sections behind them.
fn file(rlens: &[u16], sections: &[Vec<u8>]) -> Vec<u8> {
    let records: Vec<u8> = rlens.iter().flat_map(|rlen| record(*rlen)).collect();
    let irep = section(b"IREP", &[&[0; 4], &records[..]].concat());
    let end = section(b"END\0", &[]);
    let mut file = [&b"RITE0400"[..], &[0; 12], &irep, &sections.concat(), &end].concat();
    let size = file.len() as u32;
    file[8..12].copy_from_slice(&size.to_be_bytes());
    file
}

/// An LVAR section without strings.
fn lvar() -> Vec<u8> {
    section(b"LVAR", &[0; 4])
}

/// The depth and the parent of each record, by the words of its row.
fn places(file: &[u8]) -> Vec<(u32, u32)> {
    let loaded = load(file, Allowance::DESKTOP, &Sizes::of_rows([RECORD_LIMIT; 9]));
    assert_eq!(loaded.refusal, 0);
    let (used, unused) = loaded.tables[0].split_at(loaded.rows[0] as usize * RECORD_WORDS);
    assert!(unused.iter().all(|word| *word == 0));
    used.chunks(RECORD_WORDS)
        .map(|row| (row[RECORD_WORDS - 2], row[RECORD_WORDS - 1]))
        .collect()
}

/// Record 0, and records that the walk never reaches.
const NONE: (u32, u32) = (0, NO_PARENT);

#[test]
fn records_have_their_depth_and_parent() {
    for (rlens, right) in [
        (&[][..], vec![]),
        (&[0][..], vec![NONE]),
        // Whole trees.
        (&[1, 0], vec![NONE, (1, 0)]),
        (&[1, 1, 1, 0], vec![NONE, (1, 0), (2, 1), (3, 2)]),
        (&[3, 0, 0, 0], vec![NONE, (1, 0), (1, 0), (1, 0)]),
        (
            &[3, 2, 0, 0, 1, 0, 0],
            vec![NONE, (1, 0), (2, 1), (2, 1), (1, 0), (2, 4), (1, 0)],
        ),
        // More children than records.
        (&[65_535], vec![NONE]),
        (&[65_535, 2, 65_535], vec![NONE, (1, 0), (2, 1)]),
        (&[2, 0], vec![NONE, (1, 0)]),
        // Records that are never reached open no subtree.
        (&[0, 1, 0], vec![NONE, NONE, NONE]),
        (&[1, 0, 3, 0], vec![NONE, (1, 0), NONE, NONE]),
        (
            &[2, 1, 0, 0, 65_535, 0],
            vec![NONE, (1, 0), (2, 1), (1, 0), NONE, NONE],
        ),
    ] {
        assert_eq!(places(&file(rlens, &[])), right, "{rlens:?}");
        assert_eq!(places(&file(rlens, &[lvar()])), right, "{rlens:?}");
    }
}

/// DBG's walk ends "once the section is used up", this one does not.
#[test]
fn a_used_up_section_ends_no_walk() {
    let dbg = section(b"DBG\0", &[0, 0]);
    let right = [NONE, (1, 0), (2, 1)];
    assert_eq!(places(&file(&[1, 1, 0], &[dbg])), right);
}

#[test]
fn the_deepest_tree() {
    let right: Vec<(u32, u32)> = (0..1_024)
        .map(|r| if r == 0 { NONE } else { (r, r - 1) })
        .collect();
    assert_eq!(places(&file(&[65_535; RECORD_LIMIT], &[])), right);
    let mut chain = [1; RECORD_LIMIT];
    chain[RECORD_LIMIT - 1] = 0;
    assert_eq!(places(&file(&chain, &[])), right);
}

/// "In a whole tree any other record's index and depth are above its parent's, the depth by one", and it is a child of its parent.
#[test]
fn whole_trees() {
    let mut trees = 0;
    let mut rlens = [0u16; 6];
    while rlens[0] < 6 {
        let wide = rlens.map(u32::from);
        if is_whole(&wide) {
            trees += 1;
            let places = places(&file(&rlens, &[]));
            assert_eq!(places[0], NONE);
            for (record, (depth, parent)) in places.iter().enumerate().skip(1) {
                let above = *parent as usize;
                assert!(above < record);
                assert_eq!(*depth, places[above].0 + 1);
                assert!((0..wide[above]).any(|k| child(&wide, above, k) == record));
            }
        }
        count_up(&mut rlens, 6);
    }
    // The ordered trees of six records.
    assert_eq!(trees, 42);
}

/// The next of all lists of numbers up to a bound, which the first alone passes in the end.
fn count_up(numbers: &mut [u16], bound: u16) {
    let mut at = numbers.len() - 1;
    numbers[at] += 1;
    while numbers[at] == bound && at > 0 {
        numbers[at] = 0;
        at -= 1;
        numbers[at] += 1;
    }
}

#[test]
fn a_refused_load_leaves_zeros() {
    let mut file = file(&[1, 0], &[]);
    *file.last_mut().unwrap() = 255;
    let lent = Sizes::of_rows([4; 9]);
    assert_eq!(
        load(&file, Allowance::DESKTOP, &lent),
        Loaded::refused(7, &lent)
    );
}
