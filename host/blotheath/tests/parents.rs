//! Depths and parents of records: the rows of a load, the library, and every form that shows them.

mod common;

use blotheath::answer::{BlotheathRecord, NO_PARENT};
use blotheath::tables::{RECORD_WORDS, RECORDS, rows, zeros};
use blotheath::{Allowance, Tree, examine, ffi, load};
use common::build::{self, BLOCK, STOP};
use common::json::{Value, parse};
use common::{EVERYTHING, Folder, Numbers, Ran, damaged, files, run, sample, sample_bytes};
use std::fs;

/// The most children that a record states, and the most records of a file.
const MOST_CHILDREN: u16 = u16::MAX;
const MOST_RECORDS: usize = 1_024;

/// A file of records with so many children, and an LVAR section without strings where it is asked for.
fn tree(rlens: &[u16], with_names: bool) -> Vec<u8> {
    let records: Vec<Vec<u8>> = rlens
        .iter()
        .map(|rlen| build::record(*rlen, &[STOP], &[], &[]))
        .collect();
    let mut sections = vec![build::irep(&records.concat())];
    if with_names {
        sections.push(build::section(b"LVAR", &[0; 4]));
    }
    build::file(&sections)
}

/// The depth and the parent of each record, as the library has them.
fn places(file: &[u8]) -> Vec<(u32, Option<u32>)> {
    let pattern = load(file).unwrap();
    pattern
        .records()
        .map(|record| (record.depth, record.parent))
        .collect()
}

/// Record 0, and records that are never reached.
const NONE: (u32, Option<u32>) = (0, None);

/// A record at a depth inside another.
const fn inside(parent: u32, depth: u32) -> (u32, Option<u32>) {
    (depth, Some(parent))
}

#[test]
fn whole_trees() {
    for (rlens, right) in [
        (&[0][..], vec![NONE]),
        (&[1, 0], vec![NONE, inside(0, 1)]),
        (&[1, 1, 0], vec![NONE, inside(0, 1), inside(1, 2)]),
        (&[2, 0, 0], vec![NONE, inside(0, 1), inside(0, 1)]),
        (
            &[2, 2, 0, 0, 1, 0],
            vec![
                NONE,
                inside(0, 1),
                inside(1, 2),
                inside(1, 2),
                inside(0, 1),
                inside(4, 2),
            ],
        ),
    ] {
        for with_names in [false, true] {
            let file = tree(rlens, with_names);
            assert_eq!(places(&file), right, "{rlens:?}");
            assert!(examine(&file).is_ok(), "{rlens:?}");
        }
    }
}

#[test]
fn trees_that_are_not_whole() {
    for (rlens, right) in [
        (&[][..], vec![]),
        (&[MOST_CHILDREN][..], vec![NONE]),
        (
            &[MOST_CHILDREN, 2, MOST_CHILDREN],
            vec![NONE, inside(0, 1), inside(1, 2)],
        ),
        (&[3, 0, 0], vec![NONE, inside(0, 1), inside(0, 1)]),
        // A record that is never reached opens no subtree.
        (&[0, 1, 0], vec![NONE; 3]),
        (&[1, 0, 2, 0, 0], vec![NONE, inside(0, 1), NONE, NONE, NONE]),
    ] {
        for with_names in [false, true] {
            let file = tree(rlens, with_names);
            assert_eq!(places(&file), right, "{rlens:?}");
            assert_eq!(examine(&file).unwrap_err().number(), 15, "{rlens:?}");
        }
    }
}

#[test]
fn the_most_records_with_the_most_children() {
    let file = tree(&[MOST_CHILDREN; MOST_RECORDS], false);
    let places = places(&file);
    assert_eq!(places.len(), MOST_RECORDS);
    assert_eq!(places[0], NONE);
    for (record, place) in (1..).zip(&places[1..]) {
        assert_eq!(*place, inside(record - 1, record));
    }
}

/// A parent stands before the records in it, they are one deeper, and the tree of the library has them as its children in turn.
#[test]
fn parents_and_children_agree() {
    let mut numbers = Numbers(21);
    let files: Vec<Vec<u8>> = files().iter().map(|path| fs::read(path).unwrap()).collect();
    let hurt: Vec<Vec<u8>> = (0..3_000)
        .map(|round| damaged(&files[round % files.len()], &mut numbers))
        .collect();
    let mut unreached = 0;
    for file in files.iter().chain(&hurt) {
        let Ok(pattern) = load(file) else { continue };
        let tree = Tree::of(&pattern);
        let records: Vec<_> = pattern.records().collect();
        for (number, record) in (0..).zip(&records) {
            let Some(parent) = record.parent else {
                assert_eq!(record.depth, 0);
                unreached += u32::from(number > 0);
                continue;
            };
            assert!(parent < number);
            let above = &records[parent as usize];
            assert_eq!(record.depth, above.depth + 1);
            let children = tree.children(parent);
            assert!(children.contains(&number) && children.len() <= above.rlen as usize);
        }
        if model::is_whole(
            &records
                .iter()
                .map(|record| record.rlen)
                .collect::<Vec<u32>>(),
        ) {
            assert!(records.iter().skip(1).all(|record| record.parent.is_some()));
        }
    }
    assert!(unreached > 0);
}

/// Structs, words and rows past the last record.
#[test]
fn structs_say_what_the_words_say() {
    for rlens in [
        &[1, 1, 0][..],
        &[0, 1, 0],
        &[MOST_CHILDREN, 2, MOST_CHILDREN],
    ] {
        let file = tree(rlens, true);
        let mut words = zeros(rows(file.len(), 1));
        let mut structs = vec![BlotheathRecord::default(); 5];
        assert_eq!(
            ffi::load_records(&file, Allowance::DESKTOP, &mut words, &mut structs).refusal,
            0
        );
        let lines = words[RECORDS].chunks_exact(RECORD_WORDS);
        for (number, (row, line)) in structs.iter().zip(lines).enumerate() {
            assert_eq!(line[RECORD_WORDS - 2..], [row.depth, row.parent]);
            let right = match places(&file).get(number) {
                Some((depth, parent)) => (*depth, parent.unwrap_or(NO_PARENT)),
                None => (0, 0),
            };
            assert_eq!((row.depth, row.parent), right, "{rlens:?} {number}");
        }
    }
}

#[test]
fn a_refused_load_leaves_zeros() {
    let mut file = tree(&[1, 0], false);
    *file.last_mut().unwrap() = 255;
    let mut words = zeros(rows(file.len(), 1)).map(|table| vec![9; table.len()]);
    let mut structs = vec![
        BlotheathRecord {
            parent: 9,
            ..Default::default()
        };
        3
    ];
    assert_ne!(
        ffi::load_records(&file, Allowance::DESKTOP, &mut words, &mut structs).refusal,
        0
    );
    assert!(structs.iter().all(|row| (row.depth, row.parent) == (0, 0)));
    assert!(words.iter().flatten().all(|word| *word == 0));
    // Examination refuses what load loads.
    let file = tree(&[1, 0, 0], false);
    assert_eq!(ffi::load(&file, Allowance::DESKTOP, &mut words).refusal, 0);
    let permitted = EVERYTHING.as_bytes();
    assert_eq!(
        ffi::examine(&file, Allowance::DESKTOP, permitted, &mut words).refusal,
        15
    );
    assert!(words.iter().flatten().all(|word| *word == 0));
}

/// What the command says of a file of these bytes.
fn told(folder: &Folder, words: &[&str], file: &[u8]) -> Ran {
    let path = folder.file("tree.mrb", file);
    let mut all = words.to_vec();
    all.insert(1, &path);
    run(&all)
}

/// The heads of the records that `steps` shows, up to what they are made of.
fn heads(out: &str) -> Vec<&str> {
    let heads = out.lines().filter(|line| line.starts_with("record "));
    heads.map(|head| head.split(" (").next().unwrap()).collect()
}

#[test]
fn steps_tell_a_records_place() {
    let folder = Folder::new("parents-steps");
    let first = "record 0, main, outermost, depth 0";
    for (rlens, second, third) in [
        (
            [1, 1, 0],
            "record 1, inside 0, depth 1",
            "record 2, inside 1, depth 2",
        ),
        (
            [0, 1, 0],
            "record 1, never reached",
            "record 2, never reached",
        ),
    ] {
        let shown = told(&folder, &["steps"], &tree(&rlens, false));
        assert_eq!(heads(&shown.out), [first, second, third]);
    }
    let shown = run(&["steps", sample().to_str().unwrap()]);
    assert_eq!(
        heads(&shown.out),
        [
            "record 0, main, outermost, depth 0",
            "record 1, class Oval, inside 0, depth 1",
            "record 2, method initialize, inside 1, depth 2",
            "record 3, method rim, inside 1, depth 2",
            "record 4, method rods, inside 1, depth 2",
            "record 5, block, inside 0, depth 1",
        ]
    );
}

/// The last two cells of each row of the records' table.
fn cells(out: &str) -> Vec<[&str; 2]> {
    let rows = out
        .lines()
        .skip_while(|line| !line.starts_with("records ("));
    let rows = rows.skip(2).take_while(|line| !line.is_empty());
    rows.map(|row| {
        let mut cells = row.split_whitespace().rev();
        let parent = cells.next().unwrap();
        [cells.next().unwrap(), parent]
    })
    .collect()
}

#[test]
fn load_shows_depth_and_parent() {
    let folder = Folder::new("parents-load");
    let out = told(&folder, &["load"], &tree(&[2, 1, 0, 0, 1, 0], false)).out;
    let head = out
        .lines()
        .find(|line| line.contains(" registers "))
        .unwrap();
    assert!(head.ends_with("  depth  parent"), "{out}");
    assert_eq!(
        cells(&out),
        [
            ["0", "-"],
            ["1", "0"],
            ["2", "1"],
            ["1", "0"],
            ["0", "-"],
            ["0", "-"]
        ]
    );
}

/// The depth and the parent of each object that JSON has of records or frames.
fn json_places(items: &[Value]) -> Vec<(u32, Option<u32>)> {
    let number = |value: &Value| value.number() as u32;
    items
        .iter()
        .map(|item| {
            let parent = match item.get("parent") {
                Value::Null => None,
                parent => Some(number(parent)),
            };
            (number(item.get("depth")), parent)
        })
        .collect()
}

#[test]
fn json_has_depth_and_parent() {
    let folder = Folder::new("parents-json");
    for file in [
        sample_bytes(),
        tree(&[2, 1, 0, 0, 1, 0], true),
        tree(&[MOST_CHILDREN, 2, MOST_CHILDREN], false),
    ] {
        for command in ["load", "steps"] {
            let json = parse(&told(&folder, &[command, "--json"], &file).out);
            let records = json.get("records").items();
            assert_eq!(json_places(records), places(&file), "{command}");
        }
    }
}

/// A block in a block: record 0 enters record 1, which enters record 2.
fn blocks() -> Vec<u8> {
    let enters = build::record(1, &[BLOCK, 1, 0, STOP], &[], &[]);
    let last = build::record(0, &[STOP], &[], &[]);
    build::file(&[build::irep(&[enters.clone(), enters, last].concat())])
}

#[test]
fn follow_tells_what_contains_a_frame() {
    let folder = Folder::new("parents-follow");
    let out = told(&folder, &["follow", "2 enter"], &blocks()).out;
    let rows: Vec<&str> = out.lines().collect();
    for (row, start) in rows.iter().zip([
        "    record 0, offset 3, no line, outermost, depth 0 ",
        "    record 1, offset 3, no line, inside 0, depth 1 ",
        "  ▶ record 2, offset 0, no line, inside 1, depth 2 ",
    ]) {
        assert!(row.starts_with(start), "{out}");
        assert!(row.ends_with(" STOP"), "{out}");
    }
    let json = parse(&told(&folder, &["follow", "2 enter", "--json"], &blocks()).out);
    let frames = json.get("standings").items()[0].get("frames").items();
    assert_eq!(json_places(frames), [NONE, inside(0, 1), inside(1, 2)]);
}

/// The frame below one that was entered stands in the record that contains it.
#[test]
fn stepping_out_leads_to_the_frame_below() {
    let path = sample();
    let words = [
        "follow",
        path.to_str().unwrap(),
        "--json",
        "7 go enter 2 go enter",
    ];
    let json = parse(&run(&words).out);
    let frames = json.get("standings").items()[0].get("frames").items();
    assert!(frames.len() > 1);
    for two in frames.windows(2) {
        assert_eq!(two[1].get("parent").number(), two[0].get("record").number());
    }
}
