//! Places of refusals of loading: the section, the byte and a few words.

mod common;

use blotheath::{Allowance, FILE_LIMIT, Refusal, load, load_within, locate_within};
use common::json::{Value, parse};
use common::{
    EVERYTHING, Folder, Numbers, build, damaged, files, refused, run, run_with, sample_bytes,
    steers,
};
use std::collections::BTreeSet;
use std::fs;

/// What a place of a file that does not load is expected to say.
type Expected = (u32, Option<&'static str>, u32, Option<u32>, &'static str);

fn check(file: &[u8], expected: Expected) {
    let (number, place) = refused(file);
    let found = (
        number,
        place.section,
        place.byte.unwrap(),
        place.record,
        place.what.as_str(),
    );
    assert_eq!(found, expected);
    assert_eq!((place.offset, place.line), (None, None));
}

/// A handler, of which nothing is read but its bytes.
const HANDLER: [u8; 13] = [0; 13];

/// A record of one child or none, with a handler and these constants.
fn record(nlocals: u16, rlen: u16, constants: &[&[u8]]) -> Vec<u8> {
    let mut record = build::record(rlen, &[118], constants, &[b"puts", b"x"]);
    record[build::NLOCALS].copy_from_slice(&nlocals.to_be_bytes());
    record[10..12].copy_from_slice(&1u16.to_be_bytes());
    record.splice(17..17, HANDLER);
    let size = record.len() as u32;
    record[..4].copy_from_slice(&size.to_be_bytes());
    record
}

/// Constants of every kind.
const CONSTANTS: [&[u8]; 6] = [
    &[0, 0, 2, b'a', b'b', 0],
    &[1, 0, 0, 0, 7],
    &[2, 0, 1, b'c', 0],
    &[3, 1, 2, 3, 4, 5, 6, 7, 8],
    &[5, 0, 0, 0, 0, 0, 0, 0xf0, 0x3f],
    &[7, 2, 10, b'1', b'2'],
];

/// The records, names and lines of a file that has something of everything.
fn sections() -> [Vec<u8>; 3] {
    let records = [record(3, 1, &CONSTANTS), record(2, 0, &[CONSTANTS[1]])].concat();
    let names = [
        &[0, 0, 0, 2, 0, 1, b'a', 0, 2, b'b', b'c'][..],
        &[0, 1, 255, 255, 0, 0],
    ];
    let lines = [
        debug_record(&[
            debug_file(0, 0, 0, 2, &[0, 7, 0, 8]),
            debug_file(2, 1, 2, 5, &[1, 2, 129, 1, 3]),
        ]),
        debug_record(&[debug_file(0, 1, 1, 1, &[0, 0, 0, 0, 0, 9])]),
    ];
    let debug = [&[0, 2, 0, 1, b'p', 0, 1, b'q'], &lines.concat()[..]].concat();
    [
        build::irep(&records),
        build::section(b"LVAR", &names.concat()),
        build::section(b"DBG\0", &debug),
    ]
}

fn debug_record(files: &[Vec<u8>]) -> Vec<u8> {
    let content = files.concat();
    let size = 6 + content.len() as u32;
    let count = files.len() as u16;
    [&size.to_be_bytes()[..], &count.to_be_bytes(), &content].concat()
}

fn debug_file(start: u32, name: u16, kind: u8, count: u32, lines: &[u8]) -> Vec<u8> {
    let mut file = start.to_be_bytes().to_vec();
    file.extend(name.to_be_bytes());
    file.extend(count.to_be_bytes());
    file.push(kind);
    file.extend(lines);
    file
}

/// A file that has something of everything and loads.
fn rich() -> Vec<u8> {
    let [records, names, lines] = sections();
    let end = build::section(b"END\0", &[]);
    build::file(&[records, names, lines, end])
}

#[test]
fn the_rich_file_loads() {
    assert!(load(&rich()).is_ok());
}

#[test]
fn headers() {
    let long = build::resized(&rich(), FILE_LIMIT + 1);
    let what = "the file goes on behind its 65,536th byte";
    check(&long, (1, None, 65_536, None, what));
    let what = "the file ends here, after 19 bytes";
    check(&rich()[..19], (2, Some("header"), 19, None, what));
    let what = "the file ends here, after 31 bytes";
    check(&build::resized(&rich(), 31), (4, None, 31, None, what));
}

#[test]
fn the_version_that_was_found() {
    let version = |version: &[u8; 4], what: &'static str| {
        let mut file = rich();
        file[4..8].copy_from_slice(version);
        check(&file, (3, Some("header"), 4, None, what));
    };
    version(b"0300", "the version is 0300, mruby 3.x");
    version(b"0006", "the version is 0006");
    version(b"03\n\0", r#"the version is "03\n\x00", mruby 3.x"#);
}

/// The first byte that is none of RITE, and what the file looks like.
#[test]
fn the_ident_that_was_found() {
    let begins = |start: &[u8], byte, what: &'static str| {
        let mut file = rich();
        file[..start.len()].copy_from_slice(start);
        check(&file, (27, Some("header"), byte, None, what));
    };
    begins(b"\0", 0, r#"the file begins with "\x00ITE""#);
    begins(b"RITe", 3, r#"the file begins with "RITe""#);
    begins(b"R\"\x1b", 1, r#"the file begins with "R\"\x1bE""#);
    begins(
        b"\x89PNG\r\n\x1a\n",
        0,
        r#"the file begins with "\x89PNG"; it looks like a PNG picture"#,
    );
    begins(
        b"ETIR0006",
        0,
        "the file begins with \"ETIR\"; it looks like a pattern of an older mruby, low byte first, which has to be compiled anew",
    );
}

#[test]
fn a_size_beyond_the_file() {
    let length = rich().len() as u32;
    let stating = |size: u32| {
        let mut file = rich();
        file[build::SIZE].copy_from_slice(&size.to_be_bytes());
        file
    };
    for size in [length + 1, u32::MAX] {
        let what = format!("the header states {size} bytes, and the file has {length}");
        check(&stating(size), (28, Some("header"), 8, None, what.leak()));
    }
    for size in [0, 1, length - 1, length] {
        assert!(load(&stating(size)).is_ok(), "{size}");
    }
}

/// What a file looks like is also told where its length is refused first.
#[test]
fn other_files_by_their_length() {
    check(
        &build::drawing(FILE_LIMIT + 1),
        (
            1,
            None,
            65_536,
            None,
            "the file goes on behind its 65,536th byte; it looks like a PNG picture",
        ),
    );
    check(
        b"puts 1\n",
        (
            2,
            Some("header"),
            7,
            None,
            "the file ends here, after 7 bytes; it looks like plain text, perhaps the Ruby source, which has to be compiled first",
        ),
    );
}

#[test]
fn sections_and_their_sizes() {
    let [records, names, lines] = sections();
    let end = 20 + records.len() as u32;
    let unknown = build::section(b"A\"\0\x1b", &[0; 20]);
    check(
        &build::file(&[records.clone(), unknown]),
        (5, None, end, None, r#"the mark is "A\"\x00\x1b""#),
    );
    check(
        &build::file(&[records.clone(), records.clone()]),
        (6, Some("IREP"), end, None, "a second section IREP"),
    );
    check(
        &build::file(&[lines.clone(), records.clone()]),
        (6, Some("DBG"), 20, None, "DBG comes before IREP"),
    );
    let mut long = build::file(&[records.clone(), lines]);
    let size = end as usize + 4;
    long[size..size + 4].copy_from_slice(&900u32.to_be_bytes());
    let what = "the section's size is 900, and 76 bytes are left from its mark on";
    check(&long, (7, Some("DBG"), end + 4, None, what));
    let cut = [&build::file(std::slice::from_ref(&records))[..], b"END\0\0"].concat();
    let what = "the section's size needs 4 bytes here, and 1 are left";
    check(&cut, (7, Some("END"), end + 4, None, what));
    let mut none = build::file(&[records, names]);
    none[size..size + 4].fill(0);
    let what = "the section's size is 0";
    check(&none, (8, Some("LVAR"), end + 4, None, what));
}

#[test]
fn records_and_what_they_hold() {
    let mut file = rich();
    let second = 32 + record(3, 1, &CONSTANTS).len();
    let at = second as u32;
    file[second..second + 4].fill(0);
    let what = "the record's size is 0";
    check(&file, (8, Some("IREP"), at, Some(1), what));
    let mut file = rich();
    file[second + 12..second + 16].copy_from_slice(&5_000u32.to_be_bytes());
    let left = file.len() - second - 16;
    let what = format!("the record's code needs 5000 bytes here, and {left} are left");
    check(&file, (7, Some("IREP"), at + 16, Some(1), what.leak()));
    let mut file = rich();
    file[POOL] = 9;
    let what = "constant 0 is of kind 9";
    check(&file, (10, Some("IREP"), POOL as u32, Some(0), what));
}

/// Where the constants of record 0 begin: behind its header, its code, a handler and their number.
const POOL: usize = 32 + 16 + 1 + HANDLER.len() + 2;

/// Where a constant of record 0 begins; one past the last, where they end.
fn constant_at(index: usize) -> usize {
    POOL + CONSTANTS[..index].concat().len()
}

/// The rich file with other bytes at these places.
fn rich_with(changes: &[(usize, u8)]) -> Vec<u8> {
    let mut file = rich();
    for (place, byte) in changes {
        file[*place] = *byte;
    }
    file
}

/// A text constant has any bytes inside, and a zero byte behind it.
#[test]
fn zero_bytes_of_text_constants() {
    for index in [0, 2] {
        let first = constant_at(index) + 3;
        let end = constant_at(index + 1) - 1;
        let what = format!("constant {index} does not end with a zero byte");
        let what: &'static str = what.leak();
        for inside in [0, b'z'] {
            let mut file = rich_with(&[(first, inside)]);
            assert!(load(&file).is_ok());
            file[end] = b'z';
            check(&file, (9, Some("IREP"), end as u32, Some(0), what));
        }
    }
}

/// A symbol has no zero byte inside, and one behind it; the one inside is met first.
#[test]
fn zero_bytes_of_symbols() {
    // Behind the constants come the number of symbols and the length of the first, "puts".
    let first = constant_at(CONSTANTS.len()) + 2 + 2;
    let (zero, end) = (first + 2, first + 4);
    let inside = "symbol 0 has a zero byte inside";
    let behind = "symbol 0 does not end with a zero byte";
    for (changes, place, what) in [
        (&[(zero, 0)][..], zero, inside),
        (&[(zero, 0), (end, 1)], zero, inside),
        (&[(end, 1)], end, behind),
    ] {
        let expected = (9, Some("IREP"), place as u32, Some(0), what);
        check(&rich_with(changes), expected);
    }
}

#[test]
fn examine_tells_of_zero_bytes() {
    let sentence = "a symbol or a name has a zero byte inside, or a symbol or a constant's text does not end with one";
    let end = constant_at(1) - 1;
    let ran = run_with(&["examine", "-"], &rich_with(&[(end - 1, 0), (end, 1)]));
    let place = format!("IREP, record 0, byte {end}: constant 0 does not end with a zero byte");
    let line = format!("standard input: refused by 9: {sentence} ({place})");
    assert_eq!(ran.out.lines().next(), Some(line.as_str()));
}

/// A text that passes the file's end is refused for that, whatever bytes it has.
#[test]
fn a_text_past_the_end() {
    let text = [0, 255, 255, 0, b'a', 0];
    let file = build::one(&[118], &[&text], &[]);
    let place = 32 + 16 + 1 + 2 + 3;
    let left = file.len() - place;
    let what = format!("constant 0 needs 65536 bytes here, and {left} are left");
    check(&file, (7, Some("IREP"), place as u32, Some(0), what.leak()));
}

#[test]
fn names() {
    let [records, _, _] = sections();
    let names = 20 + records.len();
    let at = names as u32;
    let mut file = rich();
    file[36..38].fill(0);
    let what = "the record's number of locals is 0";
    check(&file, (11, Some("IREP"), 36, Some(0), what));
    let mut file = rich();
    let index = names + 8 + 11;
    file[index + 5] = 2;
    let what = "local 1 has name 2, and there are 2";
    check(&file, (11, Some("LVAR"), at + 23, Some(1), what));
    let file = rich_with(&[(names + 14, 0)]);
    let what = "name 0 has a zero byte inside";
    check(&file, (9, Some("LVAR"), at + 14, None, what));
}

#[test]
fn zero_bytes_of_file_names() {
    let [records, names, _] = sections();
    // Behind the section's head, the number of names and the length of the first.
    let place = 20 + records.len() + names.len() + 8 + 2 + 2;
    let what = "file name 0 has a zero byte inside";
    let expected = (9, Some("DBG"), place as u32, None, what);
    check(&rich_with(&[(place, 0)]), expected);
}

/// A file of these debug files for its one record, and where they begin.
fn lines(files: &[Vec<u8>]) -> (Vec<u8>, u32) {
    let records = build::irep(&build::record(0, &[118], &[], &[]));
    let begin = 20 + records.len() as u32 + 8 + 5 + 6;
    let debug = [&[0, 1, 0, 1, b'p'], &debug_record(files)[..]].concat();
    (
        build::file(&[records, build::section(b"DBG\0", &debug)]),
        begin,
    )
}

#[test]
fn debug_records() {
    let same = || debug_file(3, 0, 1, 0, &[]);
    for (files, number, byte, what) in [
        (
            vec![same(), same()],
            12,
            11,
            "debug file 1 starts at 3, behind one at 3",
        ),
        (
            vec![debug_file(0, 4, 0, 0, &[])],
            12,
            4,
            "debug file 0 has name 4, and there are 1",
        ),
        (
            vec![debug_file(0, 0, 3, 0, &[])],
            12,
            10,
            "debug file 0 is of kind 3",
        ),
        (
            vec![debug_file(0, 0, 2, 6, &[1, 255, 255, 255, 255, 143])],
            12,
            16,
            "the line of a line entry goes on behind its fifth byte",
        ),
        (
            vec![debug_file(u32::MAX, 0, 0, 2, &[0, 1, 0, 2])],
            13,
            13,
            "line entry 1 of a debug file that starts at 4294967295",
        ),
        (
            vec![debug_file(0, 0, 1, 2, &[0, 0, 0, 0, 0, 1])],
            7,
            17,
            "the position of line entry 1 needs 4 bytes here, and 0 are left",
        ),
    ] {
        let (file, begin) = lines(&files);
        let section = Some("DBG");
        check(&file, (number, section, begin + byte, Some(0), what));
    }
    let (mut file, begin) = lines(&[same()]);
    file[begin as usize - 3] += 1;
    let what = "the debug record's size is 18, and it has 17 bytes";
    check(&file, (12, Some("DBG"), begin - 6, Some(0), what));
}

#[test]
fn rows_that_are_missing() {
    let records = build::record(0, &[118], &[], &[]).repeat(1_025);
    let size = records.len() as u32 / 1_025;
    let what = "a record begins here, and 1024 came before it";
    check(
        &build::file(&[build::irep(&records)]),
        (14, Some("IREP"), 32 + 1_024 * size, Some(1_024), what),
    );
    let (number, place) = refused(&build::shared_constants(15_000));
    assert_eq!((number, place.section), (14, Some("IREP")));
    assert!(place.what.starts_with("a row is needed here"), "{place:?}");
}

/// A byte of the file is also told of refusals by 16 to 19 and 25.
#[test]
fn bytes_of_examined_records() {
    let place = |code: &[u8]| {
        let (_, place) = refused(&build::one(code, &[], &[b"s"]));
        (place.section, place.byte, place.offset)
    };
    assert_eq!(place(&[0, 119]), (Some("IREP"), Some(49), Some(1)));
    // The opcode's byte behind a prefix, and the prefix's.
    assert_eq!(place(&[0, 115, 119]), (Some("IREP"), Some(50), Some(1)));
    assert_eq!(place(&[0, 115]), (Some("IREP"), Some(49), Some(1)));
    assert_eq!(place(&[0, 115, 117]), (Some("IREP"), Some(49), Some(1)));
    // The operand's byte, the first of two where it is wide.
    assert_eq!(place(&[0, 17, 8, 118]), (Some("IREP"), Some(50), Some(1)));
    let wide = [0, 117, 1, 0, 1, 1, 0, 118];
    assert_eq!(place(&wide), (Some("IREP"), Some(53), Some(1)));
    let mut file = build::file(&[build::irep(&record(1, 0, &[]))]);
    let target = 32 + 16 + 1 + 9;
    file[target + 3] = 1;
    let (number, place) = refused(&file);
    assert_eq!((number, place.section), (19, Some("IREP")));
    assert_eq!(place.byte, Some(target as u32));
}

/// The header of a file with another ident, another version or another size.
fn change_header(file: &mut [u8], numbers: &mut Numbers) {
    let length = file.len() as u32;
    let (place, field) = match numbers.below(3) {
        0 => (
            0,
            *[b"RITF", b"ETIR", b"\x89PNG", b"puts"][numbers.below(4)],
        ),
        1 => (4, *[b"0300", b"0499", b"0500", b"4040"][numbers.below(4)]),
        _ => {
            let sizes = [0, length, length.wrapping_add(1), u32::MAX];
            (build::SIZE.start, sizes[numbers.below(4)].to_be_bytes())
        }
    };
    if let Some(bytes) = file.get_mut(place..place + 4) {
        bytes.copy_from_slice(&field);
    }
}

/// A damaged file with some fields set to numbers at which answers change.
fn changed(file: &[u8], numbers: &mut Numbers) -> Vec<u8> {
    let mut bytes = damaged(file, numbers);
    if numbers.below(8) == 0 {
        change_header(&mut bytes, numbers);
    }
    for _ in 0..numbers.below(3) {
        let width = [1, 2, 4][numbers.below(3)];
        if bytes.len() > 20 + width {
            let place = 20 + numbers.below(bytes.len() - 20 - width);
            let value = [0, 1, 2, 9, 255, 256, 1_025, u32::MAX][numbers.below(8)];
            bytes[place..place + width].copy_from_slice(&value.to_be_bytes()[4 - width..]);
        }
    }
    bytes
}

/// Files whose sections come in any order and number.
fn shuffled(numbers: &mut Numbers) -> Vec<u8> {
    let [records, names, lines] = sections();
    let end = build::section(b"END\0", &[]);
    let all = [records, names, lines, end];
    let chosen: Vec<Vec<u8>> = (0..numbers.below(6))
        .map(|_| all[numbers.below(4)].clone())
        .collect();
    build::file(&chosen)
}

/// The desktop's allowance, or one near what a file has.
fn near(file: &[u8], numbers: &mut Numbers) -> Allowance {
    let mut allowance = Allowance::DESKTOP;
    match numbers.below(6) {
        0 => allowance.bytes = (file.len() + 1).saturating_sub(numbers.below(4)) as u32,
        1 => allowance.records = numbers.below(8) as u32,
        2 => allowance = Allowance::PREVIEW,
        _ => {}
    }
    allowance
}

/// Every refusal of loading has a place in the file or at its end, and none by another number has one there.
#[test]
fn every_file_that_does_not_load_has_a_place() {
    let mut numbers = Numbers(13);
    let mut stock: Vec<Vec<u8>> = files().iter().map(|path| fs::read(path).unwrap()).collect();
    stock.push(rich());
    stock.push(lines(&[debug_file(u32::MAX, 0, 0, 2, &[0, 1, 0, 2])]).0);
    stock.push(build::file(&[build::irep(
        &build::record(0, &[118], &[], &[]).repeat(1_025),
    )]));
    stock.push(build::resized(&rich(), FILE_LIMIT + 1));
    let mut found = BTreeSet::new();
    for round in 0..24_000 {
        let file = match round % 4 {
            0 => changed(&stock[numbers.below(stock.len())], &mut numbers),
            1 => changed(&shuffled(&mut numbers), &mut numbers),
            2 => shuffled(&mut numbers),
            _ => changed(&rich(), &mut numbers),
        };
        let allowance = near(&file, &mut numbers);
        let Allowance { bytes, records } = allowance;
        let model = model::read(&file, model::Allowance { bytes, records }, [1 << 20; 9]).end;
        let Err(refusal) = load_within(&file, allowance) else {
            assert_eq!(model, Ok(()));
            continue;
        };
        assert_eq!(model, Err(refusal.number()));
        found.insert(refusal);
        let located = |refusal| locate_within(&file, allowance, &EVERYTHING, None, refusal);
        let place = located(refusal);
        let place = place.unwrap_or_else(|| panic!("{refusal} has no place in {file:?}"));
        assert!(place.byte.unwrap() as usize <= file.len(), "{place:?}");
        assert!(!steers(&place.what), "{place:?}");
        let mut others = Refusal::all().filter(|other| *other != refusal);
        assert!(others.all(|other| located(other).is_none()));
    }
    for refusal in Refusal::all().filter(|one| one.is_of_loading()) {
        assert!(found.contains(&refusal), "no file is {refusal}");
    }
}

/// One refused file is shown with the bytes around the place, several are shown in a line each.
#[test]
fn examine_shows_the_bytes() {
    let folder = Folder::new("bytes");
    let file = rich_with(&[(POOL, 9)]);
    let path = folder.file("bad.mrb", &file);
    let ran = run(&["examine", &path]);
    assert_eq!(ran.status, 1);
    let lines: Vec<&str> = ran.out.lines().collect();
    assert!(
        lines[0].ends_with(
            "refused by 10: a constant is of an unknown kind (IREP, record 0, byte 64: constant 0 is of kind 9)"
        ),
        "{}",
        lines[0]
    );
    assert_eq!(lines.len(), 4);
    assert_eq!(
        lines[2],
        "       64 [09]00 02 61 62 00 01 00 00 00 07 02 00 01 63 00"
    );
    assert!(lines[1].starts_with("       48  76 00 "), "{}", lines[1]);
    assert!(lines[3].starts_with("       80  03 01 "), "{}", lines[3]);
    let other = folder.file("other.mrb", &file[..19]);
    let ran = run(&["examine", &path, &other]);
    assert_eq!(ran.out.lines().count(), 3, "{}", ran.out);
    let ran = run(&["examine", &other]);
    assert!(
        ran.out.ends_with("\n       16  00 00 00[  ]\n"),
        "{}",
        ran.out
    );
}

/// Every command that reads a file tells the place, in words and in JSON.
#[test]
fn commands_tell_the_place() {
    let mut file = sample_bytes();
    file[4..8].copy_from_slice(b"0300");
    for words in [
        &["examine", "-"][..],
        &["load", "-"],
        &["steps", "-"],
        &["follow", "-", "go"],
    ] {
        let out = run_with(words, &file).out;
        let told = "(header, byte 4: the version is 0300, mruby 3.x)";
        assert!(out.contains(told), "{words:?}: {out}");
    }
    let value = parse(&run_with(&["examine", "--json", "-"], &file).out);
    check_version(value.get("files").items()[0].get("place"));
    for command in ["load", "steps"] {
        let value = parse(&run_with(&[command, "--json", "-"], &file).out);
        check_version(value.get("place"));
    }
}

fn check_version(place: &Value) {
    assert_eq!(place.get("section").text(), "header");
    assert_eq!(place.get("byte").number(), 4.0);
    assert_eq!(place.get("what").text(), "the version is 0300, mruby 3.x");
}
