//! Visits of the walk over the local names: the library's counts, and every form that shows them.

mod common;

use blotheath::tables::{rows, usual, zeros};
use blotheath::{Allowance, NameWalk, examine, ffi, load};
use common::build::{self, STOP};
use common::json::parse;
use common::{EVERYTHING, Folder, Ran, files, run};
use std::fs;
use std::time::{Duration, Instant};

/// The most children that a record states, and the most records of a file.
const MOST_CHILDREN: u16 = u16::MAX;
const MOST_RECORDS: usize = 1_024;

/// A file of records with so many children, which have no locals to name, and an LVAR section without strings.
fn tree(rlens: &[u16]) -> Vec<u8> {
    let records: Vec<Vec<u8>> = rlens
        .iter()
        .map(|rlen| build::record(*rlen, &[STOP], &[], &[]))
        .collect();
    build::file(&[
        build::irep(&records.concat()),
        build::section(b"LVAR", &[0; 4]),
    ])
}

/// The file whose walk goes farthest.
fn farthest() -> Vec<u8> {
    tree(&[MOST_CHILDREN; MOST_RECORDS])
}

fn visits(file: &[u8]) -> u32 {
    load(file).unwrap().counts().visits
}

#[test]
fn without_local_names_there_is_no_visit() {
    let file = build::one(&[STOP], &[], &[]);
    assert_eq!(visits(&file), 0);
    assert_eq!(examine(&file).unwrap().counts().visits, 0);
}

#[test]
fn visits_are_one_and_the_children_of_the_records_visited() {
    for (rlens, right) in [
        (&[][..], 1),
        (&[0][..], 1),
        (&[1], 2),
        (&[MOST_CHILDREN], 65_536),
        (&[1, 0], 2),
        (&[0, MOST_CHILDREN], 1),
        (&[2, 1, 0, 0, 9], 4),
        (&[2, 1, 0, 0], 4),
    ] {
        assert_eq!(visits(&tree(rlens)), right, "{rlens:?}");
    }
}

#[test]
fn a_file_that_passes_makes_a_visit_to_each_record() {
    for path in files() {
        let file = fs::read(&path).unwrap();
        let Ok(pattern) = examine(&file) else {
            continue;
        };
        let counts = pattern.counts();
        assert_eq!(load(&file).unwrap().counts(), counts);
        match counts.name_walk() {
            NameWalk::None => assert_eq!((counts.visits, counts.names), (0, 0)),
            walk => {
                assert_eq!(walk, NameWalk::Whole, "{}", path.display());
                assert_eq!(counts.visits, counts.records);
            }
        }
    }
}

/// Records that the walk does not reach are those behind as many as it makes visits.
#[test]
fn a_record_that_is_never_reached_has_no_names() {
    let mut records: Vec<Vec<u8>> = [1, 0, 0]
        .iter()
        .map(|rlen| build::record(*rlen, &[STOP], &[], &[]))
        .collect();
    for record in &mut records {
        record[build::NLOCALS].copy_from_slice(&2u16.to_be_bytes());
    }
    // Two entries, of which none names a string.
    let lvar = build::section(b"LVAR", &[0, 0, 0, 0, 255, 255, 255, 255]);
    let file = build::file(&[build::irep(&records.concat()), lvar]);
    let pattern = load(&file).unwrap();
    assert_eq!(
        pattern.counts().name_walk(),
        NameWalk::Short { unreached: 1 }
    );
    let names: Vec<u32> = pattern
        .records()
        .map(|record| record.names.number)
        .collect();
    assert_eq!(names, [1, 1, 0]);
}

/// 67 million visits past the last record are counted, not made.
#[test]
fn the_farthest_walk_takes_no_time() {
    let file = farthest();
    let mut words = zeros(rows(file.len(), 1));
    let mut least = Duration::MAX;
    for _ in 0..if cfg!(feature = "model") { 1 } else { 20 } {
        let start = Instant::now();
        let loaded = ffi::load(&file, Allowance::DESKTOP, &mut words);
        least = least.min(start.elapsed());
        assert_eq!(loaded.refusal, 0);
        assert_eq!(loaded.visits, 67_107_841);
    }
    // The model makes them one by one.
    assert!(
        cfg!(feature = "model") || least < Duration::from_millis(1),
        "{least:?}"
    );
    assert_eq!(examine(&file).unwrap_err().number(), 15);
}

#[test]
fn a_refused_load_has_no_visits() {
    let mut file = tree(&[1, 0]);
    let end = file.len() - 1;
    file[end] = 255;
    let mut words = zeros(usual(file.len()));
    let loaded = ffi::load(&file, Allowance::DESKTOP, &mut words);
    assert_eq!((loaded.refusal, loaded.visits), (7, 0));
    assert_eq!(load(&tree(&[0])).unwrap().counts().visits, 1);
    // Examination refuses what load loads.
    let file = tree(&[1]);
    assert_eq!(ffi::load(&file, Allowance::DESKTOP, &mut words).visits, 2);
    let permitted = EVERYTHING.as_bytes();
    let examined = ffi::examine(&file, Allowance::DESKTOP, permitted, &mut words);
    assert_eq!((examined.refusal, examined.visits), (15, 0));
}

/// What the command says of a file of these bytes.
fn told(folder: &Folder, words: &[&str], file: &[u8]) -> Ran {
    let path = folder.path().join("tree.mrb");
    fs::write(&path, file).unwrap();
    let mut all = words.to_vec();
    all.push(path.to_str().unwrap());
    run(&all)
}

#[test]
fn load_tells_how_far_the_walk_goes() {
    let folder = Folder::new("visits");
    for (file, sentence) in [
        (
            build::one(&[STOP], &[], &[]),
            "the file has no local names (no LVAR section), so no visit is made",
        ),
        (
            tree(&[1, 0]),
            "the walk over the local names makes 2 visits, one to each record",
        ),
        (
            tree(&[0]),
            "the walk over the local names makes 1 visit, one to each record",
        ),
        (
            tree(&[0, 0]),
            "the walk over the local names makes 1 visit; 1 record is never reached, and its locals have no names",
        ),
        (
            tree(&[0, 0, 0]),
            "the walk over the local names makes 1 visit; 2 records are never reached, and their locals have no names",
        ),
        (
            tree(&[3]),
            "the walk over the local names makes 4 visits for 1 record, 3 of them past the last",
        ),
        (
            farthest(),
            "the walk over the local names makes 67,107,841 visits for 1,024 records, 67,106,817 of them past the last: the records claim far more children than there are, and a program that makes these visits one by one loads the file slowly",
        ),
    ] {
        let shown = told(&folder, &["load"], &file);
        assert_eq!(shown.status, 0);
        let line = shown.out.lines().nth(1).unwrap();
        assert_eq!(line, format!("  {sentence}"));
        let json = parse(&told(&folder, &["load", "--json"], &file).out);
        assert_eq!(json.get("visits").number(), visits(&file).into());
        assert_eq!(json.get("name_walk").text(), sentence);
    }
}

#[test]
fn examination_in_json_and_the_page_tell_it_too() {
    let folder = Folder::new("visits-examined");
    let json = parse(&told(&folder, &["examine", "--json"], &tree(&[1, 0])).out);
    let file = &json.get("files").items()[0];
    assert_eq!(file.get("visits").number(), 2.0);
    let page = told(&folder, &["report"], &farthest()).out;
    assert!(page.contains(
        "67,106,817 of them past the last: the records claim far more children than there are"
    ));
    let page = told(&folder, &["report"], &tree(&[1, 0])).out;
    assert!(!page.contains("walk over the local names"));
}
