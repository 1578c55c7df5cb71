//! One record by itself: its refusals and their order, tables, places, the two laws, which record alone changed, and the command.

mod common;

use blotheath::answer::BlotheathLoaded;
use blotheath::tables::{Words, rows, zeros};
use blotheath::*;
use common::build::{
    self, ADD, CLASS, EXT1, FIRST_CODE, JMP, LAMBDA, LOADNIL, NLOCALS, NREGS, STOP,
};
use common::json::parse;
use common::{
    EVERYTHING, Folder, Numbers, damaged, files, run, run_in_64_mb, run_with, sample, sample_bytes,
};
use std::fs;

const DESKTOP: Allowance = Allowance::DESKTOP;

/// The number that the examination of a record answers, 0 for none.
fn number(file: &[u8], record: u32) -> u32 {
    number_for(file, &EVERYTHING, record)
}

fn number_for(file: &[u8], permitted: &Permitted, record: u32) -> u32 {
    let examined = examine_record_within(file, DESKTOP, permitted, record);
    examined.err().map_or(0, Refusal::number)
}

/// The number that the examination of the whole file answers.
fn whole(file: &[u8], permitted: &Permitted) -> u32 {
    let examined = examine_within(file, DESKTOP, permitted);
    examined.err().map_or(0, Refusal::number)
}

/// The place of a record's refusal.
fn place(file: &[u8], permitted: &Permitted, record: u32) -> Place {
    let refusal = examine_record_within(file, DESKTOP, permitted, record).unwrap_err();
    let pattern = load(file).ok();
    locate_record_within(file, DESKTOP, permitted, pattern.as_ref(), record, refusal)
        .unwrap_or_else(|| panic!("{refusal} of record {record} has no place in {file:?}"))
}

/// A file of these records.
fn of(records: &[Vec<u8>]) -> Vec<u8> {
    build::file(&[build::irep(&records.concat())])
}

/// A record of this code and so many children.
fn record(rlen: u16, code: &[u8]) -> Vec<u8> {
    build::record(rlen, code, &[], &[])
}

/// Every opcode but one.
fn without(name: &str) -> Permitted {
    let mut permitted = EVERYTHING;
    permitted.forbid_named(name).unwrap();
    permitted
}

/// A file of no record.
fn empty() -> Vec<u8> {
    build::file(&[build::section(b"END\0", &[0; 4])])
}

#[test]
fn each_record_answers_for_itself() {
    let records = [
        record(3, &[STOP]),
        record(0, &[LOADNIL, 9, STOP]),
        record(0, &[119]),
        record(0, &[LOADNIL, 1, STOP]),
    ];
    let file = of(&records);
    let answers: Vec<u32> = (0..4).map(|record| number(&file, record)).collect();
    assert_eq!(answers, [0, 17, 16, 0]);
    assert_eq!(whole(&file, &EVERYTHING), 17);
    for missing in [4, 5, 1_024, 65_536, u32::MAX] {
        assert_eq!(number(&file, missing), 22, "{missing}");
    }
    assert_eq!(number(&empty(), 0), 22);
}

#[test]
fn the_tree_does_not_count() {
    // A child operand is held against the number of children that the record claims.
    let claims = |child| of(&[record(5, &[LAMBDA, 1, child, STOP])]);
    assert_eq!(number(&claims(4), 0), 0);
    assert_eq!(number(&claims(5), 0), 17);
    assert_eq!(whole(&claims(4), &EVERYTHING), 15);
    // A record that the tree does not reach.
    let unreached = of(&[record(0, &[STOP]), record(0, &[LOADNIL, 1, STOP])]);
    assert_eq!(number(&unreached, 1), 0);
    assert_eq!(number(&unreached, 2), 22);
}

#[test]
fn the_order_of_the_refusals() {
    // Behind whatever refuses a load comes 22, and then the record.
    for missing in [0, 9] {
        assert_eq!(number(b"", missing), 2);
        assert_eq!(number(&sample_bytes()[..500], missing), 28);
        assert_eq!(number(&build::drawing(100), missing), 27);
        let none = Allowance {
            bytes: 9,
            records: 9,
        };
        let file = sample_bytes();
        let refused = examine_record_within(&file, none, &EVERYTHING, missing);
        assert_eq!(refused.unwrap_err(), Refusal(29));
    }
    let no_add = without("ADD");
    for (code, right) in [
        (&[][..], 16),
        (&[ADD, 1, 119], 16),
        (&[ADD, 9, EXT1], 25),
        (&[LOADNIL, 9, ADD, 1, STOP], 32),
        (&[JMP, 0, 9, LOADNIL, 9, STOP], 18),
        (&[LOADNIL, 9, JMP, 0, 9, STOP], 17),
        (&[JMP, 0, 9, STOP], 18),
        (&[STOP], 0),
    ] {
        // The record before it is refused by another number, and the tree is not whole.
        let file = of(&[record(9, &[119]), record(0, code)]);
        assert_eq!(number_for(&file, &no_add, 1), right, "{code:?}");
    }
    // 17 before 19; a list says no to what the record holds, and to no other.
    assert_eq!(
        number(&build::with_handlers(&[LOADNIL, 9, STOP], &[1]), 0),
        17
    );
    assert_eq!(
        number(&build::with_handlers(&[LOADNIL, 1, STOP], &[1]), 0),
        19
    );
    assert_eq!(
        number(&build::with_handlers(&[LOADNIL, 1, STOP], &[2]), 0),
        0
    );
    let class = build::class();
    let answers = [0, 1].map(|record| number_for(&class, &without("CLASS"), record));
    assert_eq!(answers, [32, 0]);
}

/// What a call leaves in tables of garbage with so many rows lent.
fn answered(
    file: &[u8],
    overlap: usize,
    call: impl Fn(&mut Words) -> BlotheathLoaded,
) -> (BlotheathLoaded, Words) {
    let mut words = zeros(rows(file.len(), overlap)).map(|table| vec![7; table.len()]);
    let answer = call(&mut words);
    (answer, words)
}

/// What the call answers for a record, and the tables behind it.
fn single(file: &[u8], permitted: &[u8], record: u32) -> (BlotheathLoaded, Words) {
    answered(file, 1, |words| {
        ffi::examine_record(file, DESKTOP, permitted, words, record)
    })
}

#[test]
fn a_pass_leaves_rows_and_a_refusal_zeros() {
    let file = sample_bytes();
    let loaded = answered(&file, 1, |words| ffi::load(&file, DESKTOP, words));
    for record in 0..6 {
        assert_eq!(single(&file, EVERYTHING.as_bytes(), record), loaded);
    }
    let (class, list) = (build::class(), [1; 119]);
    for (file, permitted, asked, right) in [
        (&file, &list[..], 6, 22),
        (&file, &list, u32::MAX, 22),
        (&file, &[], 0, 32),
        (&class, &list[..103], 0, 32),
        (&empty(), &list, 0, 22),
        (&of(&[record(0, &[119])]), &list, 0, 16),
    ] {
        let (answer, words) = single(file, permitted, asked);
        assert_eq!(answer.refusal, right);
        assert_eq!((answer.rows, answer.visits), ([0; 9], 0));
        assert!(words.iter().flatten().all(|word| *word == 0), "{right}");
    }
    let mut none = zeros([0; 9]);
    let answer = ffi::examine_record(&file, DESKTOP, &list, &mut none, 9);
    assert_eq!(answer.refusal, 14);
}

/// The place is that of the record that is asked for, whatever refuses the whole file.
#[test]
fn places() {
    let bad = [
        record(9, &[119]),
        record(0, &[STOP, LOADNIL, 9, STOP]),
        record(0, &[STOP]),
    ];
    let file = of(&bad);
    assert_eq!(whole(&file, &EVERYTHING), 15);
    let found = place(&file, &EVERYTHING, 1);
    assert_eq!((found.section, found.record), (Some("IREP"), Some(1)));
    assert_eq!((found.offset, found.line), (Some(1), None));
    assert_eq!(
        found.what,
        "the first operand of LOADNIL names register 9, counted from 0, and the record has 8"
    );
    let found = place(&file, &EVERYTHING, 0);
    assert_eq!((found.record, found.offset), (Some(0), Some(0)));
    assert_eq!(found.byte, Some(FIRST_CODE as u32));
    for (file, record, what) in [
        (&file, 3, "the file has 3 records, 0 to 2"),
        (&file, u32::MAX, "the file has 3 records, 0 to 2"),
        (&of(&bad[..1]), 1, "the file has 1 record, record 0"),
        (&empty(), 0, "the file has no record"),
    ] {
        let found = place(file, &EVERYTHING, record);
        assert_eq!(found.what, what);
        assert_eq!((found.section, found.byte), (None, None));
        assert_eq!((found.record, found.offset, found.line), (None, None, None));
    }
    // A place is told for the very number that is met, and a load's for the file's bytes.
    let pattern = load(&file).unwrap();
    for refusal in Refusal::all() {
        let found = locate_record(&file, Some(&pattern), 1, refusal);
        assert_eq!(found.is_some(), refusal == Refusal(17), "{refusal}");
        let found = locate_record(&file, Some(&pattern), 2, refusal);
        assert_eq!(found, None);
    }
    let cut = &sample_bytes()[..500];
    let found = locate_record(cut, None, 3, Refusal(28));
    assert_eq!(found, locate(cut, None, Refusal(28)));
}

#[test]
fn the_line_is_that_of_the_record() {
    let mut file = sample_bytes();
    let row = load(&file).unwrap().record(3).unwrap();
    let place_of_nregs = row.place as usize - 16 + NREGS.start;
    file[place_of_nregs..][..2].copy_from_slice(&[0, 1]);
    let found = place(&file, &EVERYTHING, 3);
    let line = load(&file).unwrap().line(3, found.offset.unwrap());
    assert_eq!((found.record, Ok(found.line)), (Some(3), line));
    assert_eq!(found.line, Some(12));
}

#[test]
fn how_far_a_file_is_beyond_its_allowance() {
    let file = build::class();
    let small = Allowance {
        bytes: 9,
        records: 9,
    };
    let desktop = |permitted: &Permitted, record| {
        let excess = Excess::of_record(&file, small, permitted, record, Refusal(29));
        excess.unwrap().desktop
    };
    assert_eq!(desktop(&EVERYTHING, 1), Desktop::RecordPasses(1));
    assert_eq!(desktop(&without("CLASS"), 1), Desktop::RecordPasses(1));
    assert_eq!(desktop(&without("CLASS"), 0), Desktop::Refuses(Refusal(32)));
    assert_eq!(desktop(&EVERYTHING, 2), Desktop::Refuses(Refusal(22)));
    let other = Excess::of_record(&file, small, &EVERYTHING, 1, Refusal(17));
    assert_eq!(other, None);
}

/// Whether the records of a pattern are one whole tree, by their numbers of children.
fn is_whole(pattern: &Pattern) -> bool {
    let rlens: Vec<u32> = pattern.records().map(|record| record.rlen).collect();
    model::is_whole(&rlens)
}

/// Real and built files to damage.
fn stock() -> Vec<Vec<u8>> {
    let mut stock: Vec<Vec<u8>> = files().iter().map(|path| fs::read(path).unwrap()).collect();
    stock.extend([build::class(), build::touching(), build::newer()]);
    stock.retain(|file| load(file).unwrap().counts().records < 40);
    stock
}

/// A list with a no for a few opcodes, or for none.
fn some_list(numbers: &mut Numbers) -> Permitted {
    let mut permitted = EVERYTHING;
    for _ in 0..numbers.below(3) {
        permitted.forbid(numbers.below(119) as u8);
    }
    permitted
}

/// The whole file passes exactly where its tree is whole and each record passes by itself; else the first record that does not gives the number.
/// Every answer is the model's, and every refusal has its place in the record that is asked for.
#[test]
fn the_first_law() {
    let mut numbers = Numbers(9);
    let stock = stock();
    let (mut passed, mut refused) = (0, 0);
    for round in 0..600 {
        let file = damaged(&stock[round % stock.len()], &mut numbers);
        let permitted = some_list(&mut numbers);
        let lent = model::Sizes(rows(file.len(), 64).map(|rows| 21 * rows));
        let answer = |record| {
            let list = permitted.as_bytes();
            let allowance = model::Allowance::DESKTOP;
            let right = model::examine_single(&file, allowance, list, &lent, record);
            assert_eq!(number_for(&file, &permitted, record), right.refusal);
            right.refusal
        };
        let Ok(pattern) = load(&file) else {
            assert_eq!(answer(0), whole(&file, &permitted));
            continue;
        };
        let records = pattern.counts().records;
        assert_eq!(answer(records), 22);
        let answers: Vec<u32> = (0..records).map(answer).collect();
        for (record, number) in (0..).zip(&answers) {
            if *number > 0 {
                refused += 1;
                assert_eq!(place(&file, &permitted, record).record, Some(record));
            }
        }
        let first = answers.into_iter().find(|number| *number > 0);
        let right = match is_whole(&pattern) {
            true => first.unwrap_or(0),
            false => 15,
        };
        assert_eq!(whole(&file, &permitted), right);
        passed += usize::from(right == 0);
    }
    assert!(passed > 100 && refused > 50, "{passed} {refused}");
}

/// Where one record alone changed in a file that passed, its examination answers what that of the whole file does, in number and in tables.
fn hold_second_law(before: &[u8], after: &[u8], permitted: &Permitted) -> Option<Changed> {
    assert_eq!(whole(before, permitted), 0);
    let changed = changed_alone(&load(before).unwrap(), &load(after).ok()?);
    let record = match changed {
        Changed::Nothing => 0,
        Changed::Record(number) => number,
        Changed::More => return Some(changed),
    };
    let list = permitted.as_bytes();
    let right = answered(after, 8, |words| ffi::examine(after, DESKTOP, list, words));
    let by_one = answered(after, 8, |words| {
        ffi::examine_record(after, DESKTOP, list, words, record)
    });
    assert_eq!(by_one, right);
    Some(changed)
}

#[test]
fn the_second_law() {
    let mut numbers = Numbers(11);
    let stock = stock();
    let (mut alone, mut nothing, mut more, mut refused) = (0, 0, 0, 0);
    for round in 0..3_000 {
        let before = &stock[round % stock.len()];
        let after = damaged(before, &mut numbers);
        match hold_second_law(before, &after, &EVERYTHING) {
            Some(Changed::Nothing) => nothing += 1,
            Some(Changed::Record(_)) => {
                alone += 1;
                refused += usize::from(whole(&after, &EVERYTHING) != 0);
            }
            Some(Changed::More) => more += 1,
            None => {}
        }
    }
    assert!(alone > 200 && nothing > 50 && more > 50 && refused > 50);
}

/// What an examination looks at in a record, by lookups, as text.
fn looked_at(pattern: &Pattern, number: u32) -> String {
    let row = pattern.record(number).unwrap();
    let handlers: Vec<Handler> = (0..row.handlers.number)
        .map(|index| pattern.handler(number, index).unwrap())
        .collect();
    let lines: Vec<Entry> = (0..row.lines.number)
        .map(|index| pattern.entry(row.lines.first + index).unwrap())
        .collect();
    let counts = (row.nlocals, row.nregs, row.rlen);
    let things = (row.constants.number, row.symbols.number);
    let code = pattern.instructions(number).unwrap().bytes;
    format!("{counts:?} {things:?} {code:?} {handlers:?} {lines:?}")
}

/// Every byte of the sample, changed: which record changed is what the records say one by one.
#[test]
fn every_byte_changed() {
    let file = sample_bytes();
    let before = load(&file).unwrap();
    let records = before.counts().records;
    let (mut alone, mut nothing, mut more) = (vec![0; records as usize], 0, 0);
    for place in 0..file.len() {
        for change in [1, 128] {
            let mut other = file.clone();
            other[place] ^= change;
            let Ok(after) = load(&other) else {
                continue;
            };
            let right = match after.counts().records == records {
                false => Changed::More,
                true => {
                    let is_other =
                        |number: &u32| looked_at(&before, *number) != looked_at(&after, *number);
                    let changed: Vec<u32> = (0..records).filter(is_other).collect();
                    let rlen = |pattern: &Pattern, number| pattern.record(number).unwrap().rlen;
                    match changed[..] {
                        [] => Changed::Nothing,
                        [one] if rlen(&before, one) == rlen(&after, one) => Changed::Record(one),
                        _ => Changed::More,
                    }
                }
            };
            assert_eq!(changed_alone(&before, &after), right, "{place}");
            assert_eq!(hold_second_law(&file, &other, &EVERYTHING), Some(right));
            match right {
                Changed::Nothing => nothing += 1,
                Changed::Record(number) => alone[number as usize] += 1,
                Changed::More => more += 1,
            }
        }
    }
    assert!(alone.iter().all(|alone| *alone > 10), "{alone:?}");
    assert!(nothing > 100 && more > 10, "{nothing} {more}");
}

/// What changed from one file to another.
fn changed(before: &[u8], after: &[u8]) -> Changed {
    changed_alone(&load(before).unwrap(), &load(after).unwrap())
}

/// A chain of three records, of which the second has this code, these constants and symbols.
fn chain(code: &[u8], constants: &[&[u8]], symbols: &[&[u8]]) -> [Vec<u8>; 3] {
    [
        record(1, &[STOP]),
        build::record(1, code, constants, symbols),
        record(0, &[STOP]),
    ]
}

#[test]
fn one_record_alone_changed() {
    let code = [LOADNIL, 1, STOP];
    let text = build::text(b"rod");
    let base = chain(&code, &[&text], &[b"rods"]);
    let file = of(&base);
    assert_eq!(changed(&file, &file), Changed::Nothing);
    // Values and texts may change, and where things stand.
    let longer = build::text(b"a long rod");
    for records in [
        chain(&code, &[&longer], &[b"rods"]),
        chain(&code, &[&text], &[b"weavers"]),
        chain(&code, &[&[1, 0, 0, 0, 7]], &[b"rods"]),
    ] {
        assert_eq!(changed(&file, &of(&records)), Changed::Nothing);
        assert_eq!(changed(&of(&records), &file), Changed::Nothing);
    }
    // Its code, how much of it, and its numbers of constants and symbols.
    for records in [
        chain(&[LOADNIL, 2, STOP], &[&text], &[b"rods"]),
        chain(&[LOADNIL, 1, STOP, STOP], &[&text], &[b"rods"]),
        chain(&[], &[&text], &[b"rods"]),
        chain(&code, &[], &[b"rods"]),
        chain(&code, &[&text, &text], &[b"rods"]),
        chain(&code, &[&text], &[]),
        chain(&code, &[&text], &[b"rods", b"rods"]),
    ] {
        assert_eq!(changed(&file, &of(&records)), Changed::Record(1));
        assert_eq!(changed(&of(&records), &file), Changed::Record(1));
    }
    // Its numbers of locals and registers, and how many children it has.
    for (number, field, right) in [
        (0, NLOCALS, Changed::Record(0)),
        (2, NLOCALS, Changed::Record(2)),
        (1, NREGS, Changed::Record(1)),
        (2, NREGS, Changed::Record(2)),
        (1, RLEN, Changed::More),
    ] {
        let mut records = base.clone();
        records[number][field].copy_from_slice(&[0, 3]);
        assert_eq!(changed(&file, &of(&records)), right);
    }
}

/// Where a record's header has its number of children.
const RLEN: std::ops::Range<usize> = 8..10;

#[test]
fn more_than_one_record_changed() {
    let base = chain(&[STOP], &[], &[]);
    let file = of(&base);
    for numbers in [[0, 1], [0, 2], [1, 2]] {
        let mut records = base.clone();
        for number in numbers {
            records[number][NREGS].copy_from_slice(&[0, 9]);
        }
        assert_eq!(changed(&file, &of(&records)), Changed::More);
    }
    // A record more, a record less, and two that change places.
    let more = [&base[..], &[record(0, &[STOP])]].concat();
    let swapped = of(&[base[0].clone(), base[2].clone(), base[1].clone()]);
    for other in [of(&more), of(&base[..2]), swapped] {
        assert_eq!(changed(&file, &other), Changed::More);
        assert_eq!(changed(&other, &file), Changed::More);
    }
    assert_eq!(changed(&empty(), &empty()), Changed::Nothing);
}

#[test]
fn handlers_count() {
    let code = [LOADNIL, 1, STOP];
    let file = build::with_handlers(&code, &[0, 2]);
    for targets in [&[0, 0][..], &[2, 0], &[0], &[0, 2, 2], &[]] {
        let other = build::with_handlers(&code, targets);
        assert_eq!(changed(&file, &other), Changed::Record(0), "{targets:?}");
    }
    // What a handler covers is part of it.
    let mut other = file.clone();
    other[FIRST_CODE + code.len() + 8] = 2;
    assert_eq!(changed(&file, &other), Changed::Record(0));
}

/// Records that share their code, but for a step that the last one alone has; a step that they share changes all.
#[test]
fn records_over_each_other() {
    let (passing, refused) = (build::shared_code(0), build::shared_code(17));
    let last = build::CODE.0 as u32 - 1;
    let right = Some(Changed::Record(last));
    assert_eq!(hold_second_law(&passing, &refused, &EVERYTHING), right);
    let answers = [last - 1, last, last + 1].map(|record| number(&refused, record));
    assert_eq!(answers, [0, 17, 22]);
    let mut shared = passing.clone();
    let step = FIRST_CODE + build::CODE.1 / 2;
    shared[step..][..5].copy_from_slice(&[LOADNIL, 1, LOADNIL, 2, STOP]);
    assert_eq!(changed(&passing, &shared), Changed::More);
}

fn path() -> String {
    sample().to_str().unwrap().to_owned()
}

#[test]
fn the_command_examines_one_record() {
    let path = path();
    let ran = run(&["examine", "--record", "3", &path]);
    let right = "record 3 passes by itself: 17 steps, 2 constants, 3 names, 3 lines; this says nothing of the rest of the file";
    assert_eq!((ran.status, ran.out), (0, format!("{path}: {right}\n")));
    let ran = run_with(&["examine", "-", "--record=0"], &sample_bytes());
    assert!(
        ran.out
            .starts_with("standard input: record 0 passes by itself: "),
        "{}",
        ran.out
    );
    let ran = run(&["examine", &path, "--record", "6"]);
    let right = "refused by 22: the record or the row that is asked for does not exist, or the row points outside (the file has 6 records, 0 to 5)";
    assert_eq!((ran.status, ran.out), (1, format!("{path}: {right}\n")));
}

#[test]
fn the_command_tells_the_place_in_that_record() {
    let folder = Folder::new("single-place");
    let file = of(&[
        record(7, &[119]),
        record(0, &[STOP]),
        record(0, &[LOADNIL, 9, STOP]),
    ]);
    let path = folder.file("three.mrb", &file);
    let ran = run(&["examine", &path]);
    assert!(ran.out.contains("refused by 15: "), "{}", ran.out);
    let told = |record: &str| {
        let ran = run(&["examine", &path, "--record", record]);
        let line = ran.out.lines().next().unwrap().to_owned();
        (ran.status, line.split_once(": ").unwrap().1.to_owned())
    };
    let (status, line) = told("0");
    assert_eq!(status, 1);
    assert!(line.starts_with("refused by 16: "), "{line}");
    assert!(
        line.contains("(IREP, record 0, offset 0, byte 48: "),
        "{line}"
    );
    let (status, line) = told("1");
    assert_eq!(status, 0);
    assert!(
        line.starts_with("record 1 passes by itself: 1 step, "),
        "{line}"
    );
    let (status, line) = told("2");
    assert_eq!(status, 1);
    assert!(line.starts_with("refused by 17: "), "{line}");
    assert!(line.contains("(IREP, record 2, offset 0, byte "), "{line}");
}

#[test]
fn the_command_in_json() {
    let path = path();
    let read = |record: &str| {
        let ran = run(&["examine", "--json", "--record", record, &path]);
        let value = parse(&ran.out);
        (ran.status, value.get("files").items()[0].clone())
    };
    let (status, file) = read("3");
    assert_eq!(status, 0);
    assert_eq!(file.get("record").number(), 3.0);
    assert!(file.get("passes").is_true());
    assert_eq!(file.get("rows").get("records").number(), 6.0);
    let (status, file) = read("99999999999999999999");
    assert_eq!(status, 1);
    assert_eq!(file.get("record").number(), f64::from(u32::MAX));
    assert!(!file.get("passes").is_true());
    assert_eq!(file.get("refusal").number(), 22.0);
    assert_eq!(
        file.get("place").get("what").text(),
        "the file has 6 records, 0 to 5"
    );
    let whole = parse(&run(&["examine", "--json", &path]).out);
    assert!(!whole.get("files").items()[0].has("record"));
}

#[test]
fn several_files() {
    let folder = Folder::new("single-several");
    folder.file("a.mrb", &sample_bytes());
    folder.file("b.mrb", &build::class());
    folder.file("c.mrb", b"RITE");
    let ran = run(&["examine", folder.path().to_str().unwrap(), "--record", "2"]);
    assert_eq!(ran.status, 1);
    let last = ran.out.lines().last().unwrap();
    assert_eq!(
        last,
        "3 files, record 2 of each by itself: 1 passed, 2 refused"
    );
}

#[test]
fn the_terms_count_for_one_record() {
    let path = path();
    let told = |options: &[&str]| {
        let ran = run(&[&["examine", &path, "--record"], options].concat());
        (ran.status, ran.out)
    };
    let (status, out) = told(&["1", "--preview"]);
    assert_eq!(status, 0);
    assert!(out.starts_with("allowance: 16,384 bytes and 64 records, the preview's\n"));
    let (status, out) = told(&["1", "--max-records", "3"]);
    assert_eq!(status, 1);
    let right = "it has 6 records, 3 more than the 3 allowed; under the desktop's allowance record 1 passes by itself\n";
    assert!(out.contains(right), "{out}");
    let (status, out) = told(&["7", "--max-bytes", "9"]);
    assert_eq!(status, 1);
    let right = "under the desktop's allowance it is refused by 22: ";
    assert!(out.contains(right), "{out}");
    // Record 0 alone holds CLASS and EXEC.
    let (status, out) = told(&["0", "--forbid", "class-definitions"]);
    assert_eq!(status, 1);
    assert!(out.contains(": CLASS is not permitted)"), "{out}");
    let right = "; the record also holds EXEC, not permitted either\n";
    assert!(out.contains(right), "{out}");
    let (status, out) = told(&["1", "--forbid", "CLASS,EXEC"]);
    assert_eq!(status, 0, "{out}");
    assert!(out.contains("record 1 passes by itself: "), "{out}");
    assert_eq!(build::class()[FIRST_CODE + build::AT_CLASS as usize], CLASS);
}

#[test]
fn what_is_no_number_is_wrong_usage() {
    for value in ["x", "-1", "1.5", "three"] {
        let ran = run(&["examine", "a", &format!("--record={value}")]);
        assert_eq!((ran.status, ran.out.as_str()), (2, ""));
        let right = format!(
            "blotheath: --record takes a whole number, in digits alone; \"{value}\" is none\n"
        );
        assert!(ran.err.starts_with(&right), "{}", ran.err);
    }
    for command in ["load", "steps", "follow", "report"] {
        let ran = run(&[command, "a", "--record", "0"]);
        assert_eq!(ran.status, 2);
        let right = format!("blotheath: {command} has no option \"--record\"");
        assert!(ran.err.starts_with(&right), "{}", ran.err);
    }
}

#[test]
fn hostile_files_in_64_mb() {
    let folder = Folder::new("single-hostile");
    for (name, file) in [
        ("code", build::shared_code(17)),
        ("constants", build::shared_constants(200)),
        ("registers", build::all_registers()),
    ] {
        let path = folder.file(name, &file);
        for record in ["0", "199", "1023", "1024"] {
            let ran = run_in_64_mb(&["examine", "--record", record, &path]);
            assert!(ran.status < 2, "{name} {ran:?}");
        }
    }
}
