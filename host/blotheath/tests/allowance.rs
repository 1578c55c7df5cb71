//! Allowances: what is beyond one, the same rows under a larger one, and every form that tells it.

mod common;

use blotheath::answer::{BlotheathLoaded, BlotheathRecord};
use blotheath::tables::{RECORD_LIMIT, RECORDS, Words, rows, zeros};
use blotheath::*;
use common::build::{self, STOP};
use common::json::{Value, parse};
use common::{
    EVERYTHING, Folder, Numbers, damaged, files, run, run_in_64_mb, run_with, sample_bytes, told,
};
use std::fs;

const ALL: u32 = u32::MAX;

fn within(bytes: u32, records: u32) -> Allowance {
    Allowance { bytes, records }
}

/// So many records, each the child of the first, and nothing but STOP in each.
fn records(number: usize) -> Vec<u8> {
    let children = number.saturating_sub(1) as u16;
    let first = build::record(children, &[STOP], &[], &[]);
    let other = build::record(0, &[STOP], &[], &[]);
    let all = (0..number).flat_map(|n| if n == 0 { first.clone() } else { other.clone() });
    build::file(&[build::irep(&all.collect::<Vec<u8>>())])
}

/// The bytes of such a record, and where the first begins.
const RECORD_BYTES: usize = 16 + 1 + 4;
const FIRST: usize = 20 + 12;

/// A file of so many bytes that passes: one record with a text in it.
fn of_length(length: usize) -> Vec<u8> {
    let around = build::one(&[STOP], &[&build::text(b"")], &[]).len();
    let text = build::text(&vec![b'x'; length - around]);
    let file = build::one(&[STOP], &[&text], &[]);
    assert_eq!(file.len(), length);
    file
}

/// The number that a load, an examination and a run answer alike, 0 for none.
fn number(file: &[u8], allowance: Allowance) -> u32 {
    let of = |refusal: Option<Refusal>| refusal.map_or(0, Refusal::number);
    let loaded = of(load_within(file, allowance).err());
    assert_eq!(
        of(examine_within(file, allowance, &EVERYTHING).err()),
        loaded
    );
    assert_eq!(
        of(follow_within(file, allowance, &EVERYTHING, &[]).err()),
        loaded
    );
    loaded
}

#[test]
fn bytes_at_a_border() {
    for length in [200, 16_383, 16_384, 16_385, 40_000, 65_535, 65_536] {
        let file = of_length(length);
        let length = length as u32;
        for (bytes, right) in [
            (0, 29),
            (1, 29),
            (length - 1, 29),
            (length, 0),
            (length + 1, 0),
            (65_536, 0),
            (65_537, 0),
            (ALL, 0),
        ] {
            assert_eq!(number(&file, within(bytes, ALL)), right, "{length} {bytes}");
        }
        let preview = if length > 16_384 { 29 } else { 0 };
        assert_eq!(number(&file, Allowance::PREVIEW), preview);
    }
}

#[test]
fn records_at_a_border() {
    for have in [1, 2, 63, 64, 65, 100, 1_023, 1_024] {
        let file = records(have);
        let have = have as u32;
        for (allowed, right) in [
            (0, 29),
            (have - 1, 29),
            (have, 0),
            (have + 1, 0),
            (1_024, 0),
            (1_025, 0),
            (ALL, 0),
        ] {
            assert_eq!(
                number(&file, within(ALL, allowed)),
                right,
                "{have} {allowed}"
            );
        }
        // 1,024 records are longer than the preview's bytes, which are tested first.
        let preview = if have > 64 { 29 } else { 0 };
        assert_eq!(number(&file, Allowance::PREVIEW), preview);
    }
}

/// The record that is read decides: a file of 1,025 records is beyond every allowance, and meets 14 under the desktop's alone.
#[test]
fn more_records_than_the_desktop_has() {
    let file = records(1_025);
    for (allowed, right) in [(0, 29), (64, 29), (1_023, 29), (1_024, 14), (ALL, 14)] {
        assert_eq!(number(&file, within(ALL, allowed)), right, "{allowed}");
    }
}

/// A file without bytes is too short under every allowance, and one without records loads under 0 records.
#[test]
fn nothing_is_within_every_allowance() {
    assert_eq!(number(b"", within(0, 0)), 2);
    assert_eq!(number(b"R", within(0, 0)), 29);
    let none = build::file(&[build::irep(&[])]);
    let length = none.len() as u32;
    let loaded = load_within(&none, within(length, 0)).unwrap();
    assert_eq!(loaded.counts().records, 0);
    assert_eq!(
        load_within(&none, within(length - 1, 0)).unwrap_err(),
        Refusal(29)
    );
    // Without a record there is no whole tree.
    assert_eq!(
        examine_within(&none, within(length, 0), &EVERYTHING).unwrap_err(),
        Refusal(15)
    );
}

/// Every file beyond 65,536 bytes is refused by 1, whatever is allowed.
#[test]
fn one_comes_before_29() {
    let file = build::resized(&sample_bytes(), FILE_LIMIT + 1);
    for bytes in [0, 16_384, 65_536, 65_537, ALL] {
        assert_eq!(number(&file, within(bytes, ALL)), 1, "{bytes}");
    }
}

/// Bytes are tested behind 1 and before all else: the file breaks every later rule, and each is mended in turn.
#[test]
fn the_order_of_29_for_bytes() {
    let mut file = vec![255; 31];
    let meets = |file: &[u8], right| {
        assert_eq!(number(file, within(file.len() as u32, 0)), right);
        assert_eq!(
            number(file, within(file.len() as u32 - 1, 0)),
            29,
            "{right}"
        );
        assert_eq!(number(file, within(0, ALL)), 29, "{right}");
    };
    meets(&file[..19], 2);
    meets(&file, 27);
    file[..4].copy_from_slice(b"RITE");
    meets(&file, 28);
    build::state_length(&mut file);
    meets(&file, 3);
    file[4..6].copy_from_slice(b"04");
    meets(&file, 4);
    file.push(255);
    meets(&file, 5);
}

/// A record's 16 bytes are read before it is counted, and nothing else of it is.
#[test]
fn the_place_of_29_for_records() {
    let whole = records(65);
    let last = FIRST + 64 * RECORD_BYTES;
    let preview = |file: &[u8]| {
        load_within(file, Allowance::PREVIEW)
            .err()
            .map(Refusal::number)
    };
    assert_eq!(preview(&whole), Some(29));
    // The section ends where the file is cut, so that its size passes no end.
    let cut = |length: usize| {
        let mut file = build::resized(&whole, length);
        file[24..28].copy_from_slice(&(length as u32 - 20).to_be_bytes());
        file
    };
    assert_eq!(preview(&cut(last)), None);
    assert_eq!(preview(&cut(last + 1)), Some(7));
    assert_eq!(preview(&cut(last + 15)), Some(7));
    assert_eq!(preview(&cut(last + 16)), Some(29));
    // What the record holds is not read: its size, its code, its constants.
    for (place, field) in [(0, [0; 4]), (12, [255; 4]), (17, [0, 1, 9, 9])] {
        let mut broken = whole.clone();
        broken[last + place..last + place + 4].copy_from_slice(&field);
        assert!(load(&broken).is_err(), "{place}");
        assert_eq!(preview(&broken), Some(29), "{place}");
    }
    // What is met in the 64th record comes first.
    let mut broken = whole.clone();
    broken[last - RECORD_BYTES..last - RECORD_BYTES + 4].fill(0);
    assert_eq!(preview(&broken), Some(8));
}

/// Tables of garbage for a file, with so many rows of records.
fn garbage(file: &[u8], lent: usize) -> Words {
    let mut sizes = rows(file.len(), 1);
    sizes[RECORDS] = lent;
    zeros(sizes).map(|table| vec![0xdead_beef; table.len()])
}

/// Whether nothing but zeros is in the tables.
fn is_clear(words: &Words) -> bool {
    words.iter().flatten().all(|word| *word == 0)
}

/// The number of an answer; with a refusal every count and every word is 0.
fn checked(answer: BlotheathLoaded, words: &Words) -> u32 {
    let refusal = answer.refusal;
    if refusal != 0 {
        let refused = BlotheathLoaded {
            refusal,
            ..Default::default()
        };
        assert_eq!(answer, refused);
        assert!(is_clear(words));
    }
    refusal
}

/// What the four calls answer with so many rows of records lent, and the tables of a load.
fn answered(file: &[u8], allowance: Allowance, lent: usize) -> ([u32; 4], Words) {
    let mut loaded = garbage(file, lent);
    let load = checked(ffi::load(file, allowance, &mut loaded), &loaded);
    let mut words = garbage(file, lent);
    let other = BlotheathRecord {
        size: 9,
        parent: 9,
        ..Default::default()
    };
    let mut structs = vec![other; 3];
    let filled = ffi::load_records(file, allowance, &mut words, &mut structs);
    let filled = checked(filled, &words);
    assert_eq!(words, loaded);
    let none = BlotheathRecord::default();
    assert!(filled == 0 || structs.iter().all(|row| *row == none));
    let mut words = garbage(file, lent);
    let permitted = EVERYTHING.as_bytes();
    let examined = ffi::examine(file, allowance, permitted, &mut words);
    let examined = checked(examined, &words);
    let mut words = garbage(file, lent);
    let mut frames = vec![9; 2 * RECORD_LIMIT];
    let followed = ffi::follow(file, allowance, permitted, &mut words, &mut frames, &[]);
    let followed = followed.refusal;
    let is_empty = is_clear(&words) && frames.iter().all(|word| *word == 0);
    assert!(followed == 0 || is_empty);
    ([load, filled, examined, followed], loaded)
}

/// Where the lent table has no row for the record either, it is 14.
#[test]
fn short_tables() {
    let file = records(100);
    for (allowed, lent, right) in [
        (64, 70, 29),
        (64, 65, 29),
        (64, 64, 14),
        (64, 10, 14),
        (99, 100, 29),
        (99, 99, 14),
        (100, 100, 0),
        (100, 99, 14),
        (0, 1, 29),
        (0, 0, 14),
        (ALL, 100, 0),
    ] {
        let (numbers, _) = answered(&file, within(ALL, allowed), lent);
        assert_eq!(numbers, [right; 4], "{allowed} {lent}");
    }
    // More rows than the desktop's records.
    let file = records(1_025);
    for (allowed, lent, right) in [(1_023, 1_024, 29), (1_023, 1_023, 14), (ALL, 1_030, 14)] {
        let (numbers, _) = answered(&file, within(ALL, allowed), lent);
        assert_eq!(numbers, [right; 4], "{allowed} {lent}");
    }
    // Bytes need no row.
    assert_eq!(answered(&file, within(100, 0), 0).0, [29; 4]);
}

/// A file that is accepted under one allowance has the same rows in the same tables under any that is nowhere smaller.
#[test]
fn the_same_rows_under_a_larger_allowance() {
    let mut numbers = Numbers(29);
    let stock: Vec<Vec<u8>> = files().iter().map(|path| fs::read(path).unwrap()).collect();
    let mut accepted = 0;
    for round in 0..400 {
        let file = match round % 4 {
            0 => stock[round % stock.len()].clone(),
            1 => records(1 + numbers.below(80)),
            _ => damaged(&stock[round % stock.len()], &mut numbers),
        };
        let length = file.len() as u32;
        let found = load(&file).map_or(3, |pattern| pattern.counts().records);
        let least = within(length, found);
        let lent = rows(file.len(), 1)[0];
        let (right, words) = answered(&file, least, lent);
        for larger in [
            within(length + 1, found),
            within(length, found + 1),
            within(
                length + numbers.below(70_000) as u32,
                found + numbers.below(2_000) as u32,
            ),
            Allowance::DESKTOP,
            within(ALL, ALL),
        ] {
            let (answer, again) = answered(&file, larger, lent);
            if right[0] == 0 {
                assert_eq!((answer, &again), (right, &words), "{larger:?}");
            } else if right[0] != 29 {
                assert_eq!(answer, right, "{larger:?}");
            }
        }
        accepted += u32::from(right[0] == 0);
        if found > 0 && right[0] == 0 {
            let (answer, _) = answered(&file, within(length, found - 1), lent);
            assert_eq!(answer, [29; 4]);
        }
    }
    assert!(accepted > 100);
}

/// The archive answers as the model does, near the borders of both numbers and over tables that fit or are short of rows.
#[test]
fn the_model_answers_alike() {
    let mut numbers = Numbers(31);
    for _ in 0..300 {
        let have = numbers.below(70);
        let mut file = records(have);
        if numbers.below(3) == 0 {
            let place = numbers.below(file.len());
            file[place] = numbers.next() as u8;
        }
        let near =
            |number: usize, numbers: &mut Numbers| (number + numbers.below(5)).saturating_sub(2);
        let allowance = within(
            near(file.len(), &mut numbers) as u32,
            near(have, &mut numbers) as u32,
        );
        let lent = near(have, &mut numbers);
        let (answer, words) = answered(&file, allowance, lent);
        let sizes = model::Sizes(std::array::from_fn(|table| words[table].len()));
        let Allowance { bytes, records } = allowance;
        let right = model::load(&file, model::Allowance { bytes, records }, &sizes);
        assert_eq!(
            (answer[0], &words),
            (right.refusal, &right.tables),
            "{allowance:?} {lent}"
        );
    }
}

#[test]
fn places() {
    let locate = |file: &[u8], allowance, refusal| {
        locate_within(file, allowance, &EVERYTHING, None, refusal)
    };
    let place = |file: &[u8], allowance| locate(file, allowance, Refusal(29)).unwrap();
    let found = place(&of_length(20_000), Allowance::PREVIEW);
    assert_eq!(
        (found.section, found.byte, found.record),
        (None, Some(16_384), None)
    );
    assert_eq!(found.what, "the file goes on behind its last allowed byte");
    let found = place(&build::drawing(20_000), Allowance::PREVIEW);
    assert!(
        found
            .what
            .ends_with("allowed byte; it looks like a PNG picture")
    );
    let found = place(&records(100), Allowance::PREVIEW);
    let byte = (FIRST + 64 * RECORD_BYTES) as u32;
    assert_eq!(
        (found.section, found.byte, found.record),
        (Some("IREP"), Some(byte), Some(64))
    );
    assert_eq!(found.what, "a record begins here, and 64 are allowed");
    // Another number has no place where 29 is met, and 29 none where it is not.
    for (file, allowance, right) in [
        (records(100), Allowance::PREVIEW, 29),
        (records(100), Allowance::DESKTOP, 0),
        (records(1_025), Allowance::DESKTOP, 14),
        (of_length(20_000), Allowance::PREVIEW, 29),
        (
            build::resized(&sample_bytes(), FILE_LIMIT + 1),
            Allowance::PREVIEW,
            1,
        ),
        (sample_bytes()[..300].to_vec(), Allowance::PREVIEW, 28),
    ] {
        for refusal in Refusal::all() {
            let place = locate(&file, allowance, refusal);
            assert_eq!(place.is_some(), refusal.number() == right, "{refusal}");
        }
    }
}

/// Which of the two is exceeded, by how much, and what the desktop says.
#[test]
fn how_far_a_file_is_beyond_its_allowance() {
    let both = |file: &[u8], allowance| {
        let refusal = load_within(file, allowance).err().unwrap_or(Refusal(0));
        (
            Excess::of_load(file, allowance, refusal),
            Excess::of_examination(file, allowance, &EVERYTHING, refusal),
        )
    };
    let refused = |number| Desktop::Refuses(Refusal(number));
    let bytes = |desktop| {
        Some(Excess {
            of: Limit::Bytes,
            allowed: 16_384,
            has: Some(20_000),
            desktop,
        })
    };
    let found = both(&of_length(20_000), Allowance::PREVIEW);
    assert_eq!(found, (bytes(Desktop::Loads), bytes(Desktop::Passes)));
    assert_eq!(found.0.unwrap().by(), Some(3_616));
    let found = both(&build::drawing(20_000), Allowance::PREVIEW);
    assert_eq!(found, (bytes(refused(27)), bytes(refused(27))));
    let records_of = |has, desktop| {
        Some(Excess {
            of: Limit::Records,
            allowed: 64,
            has,
            desktop,
        })
    };
    let hundred = |desktop| records_of(Some(100), desktop);
    let found = both(&records(100), Allowance::PREVIEW);
    assert_eq!(found, (hundred(Desktop::Loads), hundred(Desktop::Passes)));
    assert_eq!(found.1.unwrap().by(), Some(36));
    // A file that the desktop loads and does not pass.
    let found = both(&broken_code(), Allowance::PREVIEW);
    assert_eq!(found, (hundred(Desktop::Loads), hundred(refused(16))));
    // One that it does not load: how many records it has is not known.
    let found = both(&records(1_025), within(ALL, 64));
    let unknown = records_of(None, refused(14));
    assert_eq!(found, (unknown, unknown));
    assert_eq!(found.0.unwrap().by(), None);
    // Where both are exceeded, bytes are told.
    let (found, _) = both(&records(1_000), Allowance::PREVIEW);
    assert_eq!(found.unwrap().of, Limit::Bytes);
    // No other refusal has an excess, nor has a file that is accepted.
    for file in [
        records(64),
        build::resized(&sample_bytes(), FILE_LIMIT + 1),
        sample_bytes()[..300].to_vec(),
    ] {
        assert_eq!(both(&file, Allowance::PREVIEW), (None, None));
    }
    assert_eq!(both(&records(1_025), Allowance::DESKTOP), (None, None));
}

/// A hundred records, of which the first has an unknown opcode.
fn broken_code() -> Vec<u8> {
    let mut file = records(100);
    file[FIRST + 16] = 119;
    file
}

/// The commands that read a file, each with the words in front of the file and behind it.
const COMMANDS: [(&[&str], &[&str]); 5] = [
    (&["examine"], &[]),
    (&["load"], &[]),
    (&["steps"], &[]),
    (&["follow"], &["go"]),
    (&["report", "-o", "/dev/null"], &[]),
];

#[test]
fn every_command_tells_the_allowance_where_it_is_not_the_desktops() {
    for (options, line) in [
        (
            &["--preview"][..],
            Some("allowance: 16,384 bytes and 64 records, the preview's"),
        ),
        (
            &["--max-bytes", "2000"],
            Some("allowance: 2,000 bytes and 1,024 records"),
        ),
        (
            &["--max-records=6"],
            Some("allowance: 65,536 bytes and 6 records"),
        ),
        (
            &["--preview", "--max-records=100"],
            Some("allowance: 16,384 bytes and 100 records"),
        ),
        (&[], None),
        (&["--max-bytes=65536", "--max-records=1024"], None),
        (&["--max-bytes=65537", "--max-records=4294967302"], None),
        (&["--max-bytes=99999999999999999999999999999999"], None),
    ] {
        for command in COMMANDS {
            let ran = told(command, options, &sample_bytes());
            assert_eq!(ran.status, 0, "{command:?} {options:?} {}", ran.err);
            let first = ran.out.lines().next().unwrap();
            match line {
                Some(line) => assert_eq!(first, line, "{command:?}"),
                None => assert!(!first.contains("allowance"), "{command:?} {first}"),
            }
            let rest = ran.out.lines().skip(usize::from(line.is_some()));
            let plain = told(command, &[], &sample_bytes()).out;
            assert!(rest.eq(plain.lines()), "{command:?} {options:?}");
        }
    }
}

/// The line by which a file is refused under the preview's allowance, behind the file's name.
fn refused(command: (&[&str], &[&str]), file: &[u8]) -> String {
    let ran = told(command, &["--preview"], file);
    assert_eq!(ran.status, 1, "{command:?}");
    let line = ran.out.lines().nth(1).unwrap();
    line.strip_prefix("standard input: ").unwrap().to_owned()
}

#[test]
fn every_command_tells_how_far_a_file_is_beyond_it() {
    let start = "refused by 29: the file has more bytes or more records than its allowance";
    let unknown = "refused by 16: the instructions of a record cannot be read: an unknown opcode, a cut instruction, or none";
    for command in COMMANDS {
        let takes = match command.0[0] {
            "load" => "loads",
            _ => "passes",
        };
        let place = "byte 16384: the file goes on behind its last allowed byte";
        let right = format!(
            "{start} ({place}); it has 20,000 bytes, 3,616 more than the 16,384 allowed; under the desktop's allowance it {takes}"
        );
        assert_eq!(refused(command, &of_length(20_000)), right);
        let right = format!(
            "{start} ({place}; it looks like a PNG picture); it has 20,000 bytes, 3,616 more than the 16,384 allowed; under the desktop's allowance it is {}",
            Refusal(27)
        );
        assert_eq!(refused(command, &build::drawing(20_000)), right);
        let place = "IREP, record 64, byte 1376: a record begins here, and 64 are allowed";
        let far = "it has 100 records, 36 more than the 64 allowed";
        let right = format!("{start} ({place}); {far}; under the desktop's allowance it {takes}");
        assert_eq!(refused(command, &records(100)), right);
        let takes = match takes {
            "loads" => takes.to_owned(),
            _ => format!("is {unknown}"),
        };
        let right = format!("{start} ({place}); {far}; under the desktop's allowance it {takes}");
        assert_eq!(refused(command, &broken_code()), right);
    }
    let ran = told(COMMANDS[0], &["--max-records", "64"], &records(1_025));
    let right = "it has more records than the 64 allowed; under the desktop's allowance it is refused by 14: ";
    assert!(ran.out.contains(right), "{}", ran.out);
}

/// What each command says in JSON: the allowance, and the verdict.
fn in_json(options: &[&str], file: &[u8]) -> [(Value, Value); 4] {
    let read = |index: usize| {
        let ran = told(COMMANDS[index], &[&["--json"], options].concat(), file);
        parse(&ran.out)
    };
    let of = |value: Value| (value.get("allowance").clone(), value);
    let examined = of(read(0).get("files").items()[0].clone());
    let followed = read(3);
    let standing = followed.get("standings").items()[0].clone();
    [
        examined,
        of(read(1)),
        of(read(2)),
        (followed.get("allowance").clone(), standing),
    ]
}

#[test]
fn json_has_the_allowance_in_every_verdict() {
    for (options, bytes, records) in [
        (&[][..], 65_536.0, 1_024.0),
        (&["--preview"], 16_384.0, 64.0),
        (&["--max-bytes", "0"], 0.0, 1_024.0),
        (&["--max-records", "0"], 65_536.0, 0.0),
        (&["--max-bytes=4294967296"], 65_536.0, 1_024.0),
        (&["--preview", "--max-bytes=70000"], 65_536.0, 64.0),
    ] {
        for (allowance, verdict) in in_json(options, &sample_bytes()) {
            assert_eq!(allowance.get("bytes").number(), bytes);
            assert_eq!(allowance.get("records").number(), records);
            let is_beyond = bytes == 0.0 || records == 0.0;
            assert_eq!(verdict.has("excess"), is_beyond, "{options:?}");
            assert_eq!(verdict.has("refusal"), is_beyond, "{options:?}");
        }
    }
}

#[test]
fn json_tells_how_far_a_file_is_beyond_it() {
    let numbers = |excess: &Value| {
        let numbers = ["allowed", "has", "by"].map(|name| excess.get(name).number());
        (excess.get("of").text().to_owned(), numbers)
    };
    for (file, of, right, desktop) in [
        (of_length(20_000), "bytes", [16_384.0, 20_000.0, 3_616.0], 0),
        (records(100), "records", [64.0, 100.0, 36.0], 0),
        (broken_code(), "records", [64.0, 100.0, 36.0], 16),
        (
            build::drawing(20_000),
            "bytes",
            [16_384.0, 20_000.0, 3_616.0],
            27,
        ),
    ] {
        for (index, (_, verdict)) in in_json(&["--preview"], &file).iter().enumerate() {
            assert_eq!(verdict.get("refusal").number(), 29.0);
            let excess = verdict.get("excess");
            assert_eq!(numbers(excess), (of.to_owned(), right));
            let says = excess.get("desktop");
            let (is_load, takes) = match index {
                1 => (true, "loads"),
                _ => (false, "passes"),
            };
            match desktop {
                0 => assert!(says.get(takes).is_true()),
                16 if is_load => assert!(says.get(takes).is_true()),
                number => {
                    assert_eq!(says.get("refusal").number(), number.into());
                    assert_eq!(says.get("sentence").text(), Refusal(number).sentence());
                }
            }
        }
    }
    for (_, verdict) in in_json(&["--max-records=64"], &records(1_025)) {
        let excess = verdict.get("excess");
        assert_eq!(excess.get("has"), &Value::Null);
        assert_eq!(excess.get("by"), &Value::Null);
        assert_eq!(excess.get("desktop").get("refusal").number(), 14.0);
    }
}

/// A file is read as far as its length can be told: 1 and 29 by its own length, from a file and from standard input.
#[test]
fn long_files() {
    let folder = Folder::new("allowance-long");
    for (length, number, far) in [
        (16_384, 0, ""),
        (
            16_385,
            29,
            "it has 16,385 bytes, 1 more than the 16,384 allowed",
        ),
        (
            65_536,
            29,
            "it has 65,536 bytes, 49,152 more than the 16,384 allowed",
        ),
        (65_537, 1, ""),
        (200_000, 1, ""),
    ] {
        let file = match length > FILE_LIMIT {
            true => build::resized(&sample_bytes(), length),
            false => of_length(length),
        };
        let path = folder.file("long.mrb", &file);
        for ran in [
            run(&["examine", "--preview", &path]),
            told(COMMANDS[0], &["--preview"], &file),
        ] {
            let line = ran.out.lines().nth(1).unwrap();
            match number {
                0 => assert!(line.contains(": passes: "), "{line}"),
                number => assert!(line.contains(&format!(": refused by {number}: ")), "{line}"),
            }
            assert!(line.contains(far), "{line}");
            assert_eq!(line.contains("allowed"), number == 29, "{line}");
        }
    }
}

/// Files whose rows take all the memory that the desktop lends are told of in 64 MB too.
#[test]
fn hostile_files_in_64_mb() {
    let folder = Folder::new("allowance-hostile");
    let most = build::shared_constants(15_000);
    for (file, says) in [
        (build::shared_constants(200), "it is refused by 15: "),
        (most, "it is refused by 14: "),
    ] {
        let path = folder.file("hostile.mrb", &file);
        let ran = run_in_64_mb(&["examine", "--max-records", "4", &path]);
        assert_eq!(ran.status, 1, "{}", ran.err);
        assert!(ran.out.contains(": refused by 29: "), "{}", ran.out);
        assert!(ran.out.contains(says), "{}", ran.out);
    }
}

#[test]
fn what_is_no_number_is_wrong_usage() {
    for option in ["--max-bytes", "--max-records"] {
        for value in ["ten", "-1", "1.5", "16,384", "", "64\u{1b}[1m"] {
            let ran = run(&["examine", "a", &format!("{option}={value}")]);
            assert_eq!((ran.status, &ran.out[..]), (2, ""), "{value}");
            let told = match value {
                "" => format!("blotheath: {option} has no value\n"),
                _ => format!("blotheath: {option} takes a whole number, in digits alone; "),
            };
            assert!(ran.err.starts_with(&told), "{}", ran.err);
            assert!(!common::steers(&ran.err));
        }
    }
    assert_eq!(run(&["opcodes", "--preview"]).status, 2);
    for command in ["examine", "watch", "load", "steps", "follow", "report"] {
        let help = run(&["help", command]).out;
        for words in [
            "[--preview]",
            "--max-bytes N",
            "--max-records N",
            "refused by 29",
        ] {
            assert!(help.contains(words), "{command} {words}");
        }
    }
}

/// Choices that are asked for, and the rows of a file that is as large as is allowed.
#[test]
fn runs_and_rows_under_an_allowance() {
    let folder = Folder::new("allowance-runs");
    let path = folder.file("oval.mrb", &sample_bytes());
    let length = sample_bytes().len().to_string();
    let options = ["--max-bytes", &length, "--max-records", "6"];
    let words = [&["follow", &path], &options[..]].concat();
    let ran = run_with(&words, b"go\n");
    assert_eq!(ran.status, 0, "{}", ran.err);
    let answers = ran.out.lines().last().unwrap();
    assert!(answers.starts_with("1 choice: "), "{answers}");
    for command in ["load", "steps"] {
        let given = run(&[&[command, "--json", &path], &options[..]].concat()).out;
        let plain = run(&[command, "--json", &path]).out;
        let records = |text: &str| parse(text).get("records").clone();
        assert_eq!(records(&given), records(&plain));
    }
    let refused = within(sample_bytes().len() as u32, 5);
    assert_eq!(number(&sample_bytes(), refused), 29);
}

#[test]
fn the_page_tells_the_allowance() {
    let page =
        |options: &[&str], file: &[u8]| run_with(&[&["report", "-"], options].concat(), file).out;
    let note =
        |words: &str| format!("<p class=\"note\">Examined under an allowance of {words}.</p>");
    for (options, words) in [
        (&[][..], "65,536 bytes and 1,024 records, the desktop&#39;s"),
        (
            &["--preview"],
            "16,384 bytes and 64 records, the preview&#39;s",
        ),
        (&["--max-records", "6"], "65,536 bytes and 6 records"),
    ] {
        let page = page(options, &sample_bytes());
        assert!(page.contains(&note(words)), "{words}");
        assert!(page.contains("<strong>Passes</strong>"));
        assert!(!page.contains("class=\"caution\""));
    }
    let refused = page(&["--preview"], &records(100));
    assert!(refused.contains(&note("16,384 bytes and 64 records, the preview&#39;s")));
    assert!(refused.contains("<strong>Refused by 29</strong> <span>The file has more bytes or more records than its allowance.</span>"));
    assert!(refused.contains("<p class=\"place\">IREP, record 64, byte 1376: a record begins here, and 64 are allowed.</p>"));
    assert!(refused.contains("<p class=\"caution\">It has 100 records, 36 more than the 64 allowed; under the desktop&#39;s allowance it passes.</p>"));
    assert!(refused.contains("Byte 1,376, 00, is marked"));
    assert!(refused.contains("<tr class=\"broken\"><td class=\"number\">1 to 14, 27 to 29</td>"));
    assert!(!refused.contains("<h2>Steps</h2>"));
    let refused = page(&["--preview"], &broken_code());
    assert!(refused.contains("under the desktop&#39;s allowance it is refused by 16: "));
}
