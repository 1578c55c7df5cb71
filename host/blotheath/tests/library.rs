//! The library: lookups over real files, sizes of tables, and the place of a refusal.

mod common;

use blotheath::*;
use common::{Numbers, build, damaged, files, sample_bytes};
use std::collections::BTreeSet;
use std::fs;

#[test]
fn every_row_of_a_real_file_can_be_looked_up() {
    for path in files() {
        let file = fs::read(&path).unwrap();
        let Ok(pattern) = load(&file) else {
            continue;
        };
        let records = pattern.counts().records;
        assert_eq!(pattern.records().count(), records as usize);
        for (number, record) in (0..).zip(pattern.records()) {
            let code = pattern.instructions(number).unwrap();
            assert_eq!(code.bytes.len(), record.ilen as usize);
            for index in 0..record.constants.number {
                pattern.constant(number, index).unwrap();
                pattern.constant_bytes(number, index).unwrap();
            }
            assert!((0..record.symbols.number).all(|i| pattern.symbol(number, i).is_ok()));
            assert!((0..record.names.number).all(|i| pattern.name(number, i).is_ok()));
            assert!((0..record.files.number).all(|i| pattern.debug_file(number, i).is_ok()));
            assert!((0..record.clen).all(|i| pattern.handler(number, i).is_ok()));
            assert_eq!(
                pattern.symbol(number, record.symbols.number),
                Err(Refusal(22))
            );
            assert_eq!(
                pattern.constant(number, record.constants.number),
                Err(Refusal(22))
            );
            assert_eq!(pattern.handler(number, record.clen), Err(Refusal(22)));
            assert_eq!(pattern.name(number, record.names.number), Err(Refusal(22)));
        }
        assert!(pattern.record(records).is_none());
        assert_eq!(pattern.line(records, 0), Err(Refusal(22)));
    }
}

#[test]
fn constants_of_the_sample() {
    let file = sample_bytes();
    let pattern = examine(&file).unwrap();
    let Ok(Constant::Text(text)) = pattern.constant(0, 0) else {
        panic!("no text");
    };
    assert_eq!(text.bytes, b"stake");
    assert_eq!(&file[text.place as usize..][..5], b"stake");
    assert_eq!(pattern.constant(0, 2), Ok(Constant::Float(18.5)));
    let (kind, bytes) = pattern.constant_bytes(0, 2).unwrap();
    assert_eq!((kind, bytes.bytes), (5, &18.5f64.to_le_bytes()[..]));
    assert_eq!(pattern.line(0, 0), Ok(Some(3)));
    assert_eq!(pattern.line(0, 40), Ok(Some(25)));
    let sources = pattern.sources(0);
    assert_eq!(sources.at(&pattern, 40).unwrap().name.bytes, b"oval.rb");
    assert_eq!(pattern.name(0, 0).unwrap().unwrap().bytes, b"oval");
}

#[test]
fn a_run_of_the_sample() {
    let file = sample_bytes();
    let at = |choices: &[Choice]| match follow(&file, &bytes_of(choices)).unwrap() {
        Standing::Finished => None,
        Standing::At { top, line, frames } => {
            assert_eq!(frames.last(), Some(&top));
            Some((top.record, top.offset, line, frames.len()))
        }
    };
    use Choice::*;
    assert_eq!(at(&[]), Some((0, 0, Some(3), 1)));
    assert_eq!(at(&[GoOn; 4]), Some((0, 12, Some(5), 1)));
    let into_class = [GoOn, GoOn, GoOn, GoOn, GoOn, GoOn, GoOn, Enter];
    assert_eq!(at(&into_class), Some((1, 0, Some(6), 2)));
    assert_eq!(at(&[Caught(0)]), Some((0, 83, Some(27), 1)));
    assert_eq!(at(&[Leave]), None);
    assert_eq!(at(&[Leave, GoOn]), None);
    assert_eq!(follow(&file, &[5]), Err(Refusal(21)));
    assert_eq!(follow(&file, &[3, 0]), Err(Refusal(21)));
    assert_eq!(follow(b"", &[]), Err(Refusal(2)));
}

#[test]
fn line_maps() {
    let map = [0, 10, 4, 12, 9, 11];
    assert_eq!(line_at(&map, 3), Some(10));
    assert_eq!(line_at(&map, 4), Some(12));
    assert_eq!(line_at(&map[2..], 3), None);
    assert_eq!(line_at(&[0, 1, 0, 2, 7], 0), Some(2));
}

/// Tables are lent so that nothing but the 1,024 records and the memory meets 14.
#[test]
fn overlapping_records_get_their_rows() {
    let file = build::shared_constants(200);
    let pattern = load(&file).unwrap();
    assert_eq!(pattern.counts().constants, 200 * 1_024);
    assert_eq!(
        load(&build::shared_constants(15_000)).unwrap_err(),
        Refusal(14)
    );
    let records = vec![build::record(0, &[118], &[], &[]); 1_025].concat();
    let many = build::file(&[build::irep(&records)]);
    assert_eq!(load(&many).unwrap_err(), Refusal(14));
}

#[test]
fn refusals_have_places() {
    let place = |code: &[u8]| {
        let file = build::one(code, &[], &[b"s"]);
        let refusal = examine(&file).unwrap_err();
        let pattern = load(&file).unwrap();
        let place = locate(&file, Some(&pattern), refusal).unwrap();
        (refusal.number(), place.record, place.offset)
    };
    assert_eq!(place(&[]), (16, Some(0), Some(0)));
    assert_eq!(place(&[0, 119]), (16, Some(0), Some(1)));
    assert_eq!(place(&[0, 17]), (16, Some(0), Some(1)));
    assert_eq!(place(&[0, 0, 116, 119]), (16, Some(0), Some(2)));
    assert_eq!(place(&[0, 0, 116]), (25, Some(0), Some(2)));
    assert_eq!(place(&[0, 117, 115, 118]), (25, Some(0), Some(1)));
    assert_eq!(place(&[0, 17, 8, 118]), (17, Some(0), Some(1)));
    assert_eq!(place(&[110, 1, 118]), (17, Some(0), Some(0)));
    assert_eq!(place(&[38, 255, 252, 118]), (18, Some(0), Some(0)));
    assert_eq!(place(&[118, 0]), (18, Some(0), Some(1)));
}

/// The search finds a place for every refusal of examination: it meets the same number.
#[test]
fn the_search_agrees_with_the_verdict() {
    let mut numbers = Numbers(1);
    let mut found = BTreeSet::new();
    let mut files: Vec<Vec<u8>> = files().iter().map(|path| fs::read(path).unwrap()).collect();
    // Few files have prefixes, or touch the last of their registers.
    files.extend(vec![build::wide(); 8]);
    files.extend(vec![build::touching(); 8]);
    files.push(build::newer());
    for round in 0..6_000 {
        let file = damaged(&files[round % files.len()], &mut numbers);
        let Err(refusal) = examine(&file) else {
            continue;
        };
        found.insert(refusal.number());
        match load(&file) {
            Ok(pattern) => {
                assert!(refusal.is_of_examination(), "{refusal}");
                assert!(
                    locate(&file, Some(&pattern), refusal).is_some(),
                    "{refusal} {file:?}"
                );
                let mut others = Refusal::all().filter(|other| *other != refusal);
                assert!(others.all(|other| locate(&file, Some(&pattern), other).is_none()));
            }
            Err(other) => assert_eq!(refusal, other),
        }
    }
    for number in [7, 16, 17, 18, 25] {
        assert!(found.contains(&number), "no file meets {number}");
    }
}

#[test]
fn one_register_too_many_in_the_last_of_many_records() {
    let (records, _) = build::CODE;
    let file = build::shared_code(0);
    assert_eq!(examine(&file).unwrap().counts().records, records as u32);
    let file = build::shared_code(17);
    let refusal = examine(&file).unwrap_err();
    assert_eq!(refusal, Refusal(17));
    let place = locate(&file, load(&file).ok().as_ref(), refusal).unwrap();
    assert_eq!(place.record, Some(records as u32 - 1));
}

#[test]
fn files_longer_than_the_limit() {
    for length in [FILE_LIMIT + 1, 70_000] {
        let file = build::resized(&sample_bytes(), length);
        assert_eq!(load(&file).unwrap_err(), Refusal(1));
        assert_eq!(examine(&file).unwrap_err(), Refusal(1));
    }
}

/// A file that breaks every rule of its length and its header; each is mended in turn.
#[test]
fn the_order_of_the_first_refusals() {
    let mut file = vec![255; FILE_LIMIT + 1];
    let meets = |file: &[u8], number| {
        assert_eq!(load(file).unwrap_err(), Refusal(number));
        assert_eq!(examine(file).unwrap_err(), Refusal(number));
        assert_eq!(follow(file, &[]), Err(Refusal(number)));
    };
    meets(&file, 1);
    meets(&file[..19], 2);
    file.truncate(31);
    meets(&file, 27);
    file[..4].copy_from_slice(b"RITE");
    meets(&file, 28);
    file[build::SIZE].copy_from_slice(&32u32.to_be_bytes());
    meets(&file, 28);
    build::state_length(&mut file);
    meets(&file, 3);
    file[4..6].copy_from_slice(b"04");
    meets(&file, 4);
    file.push(255);
    meets(&file, 5);
}
