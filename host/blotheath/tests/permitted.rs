//! Permitted opcodes: what a file holds, lists of every length, the order of 32 among the refusals, and its place.

mod common;

use blotheath::tables::{RECORD_LIMIT, Words, rows, zeros};
use blotheath::*;
use common::build::{
    self, ADD, AT_CLASS, AT_EXEC, CLASS, EXT1, EXT2, EXT3, FIRST_CODE, JMP, LOADNIL, NOP, STOP,
};
use common::{EVERYTHING, Numbers, damaged, files, held, sample_bytes};
use std::fs;

const DESKTOP: Allowance = Allowance::DESKTOP;

/// Every opcode but these.
fn without(names: &[&str]) -> Permitted {
    let mut permitted = EVERYTHING;
    for name in names {
        permitted.forbid_named(name).unwrap();
    }
    permitted
}

/// These opcodes alone.
fn only(names: &[&str]) -> Permitted {
    let mut permitted = Permitted::nothing();
    for name in names {
        permitted.permit_named(name).unwrap();
    }
    permitted
}

/// The number that an examination and a run answer alike, 0 for none.
fn number(file: &[u8], permitted: &Permitted) -> u32 {
    let of = |refusal: Option<Refusal>| refusal.map_or(0, Refusal::number);
    let examined = of(examine_within(file, DESKTOP, permitted).err());
    let followed = follow_within(file, DESKTOP, permitted, &[]).err();
    assert_eq!(of(followed), examined);
    examined
}

/// The place of a refusal by 32.
fn place(file: &[u8], permitted: &Permitted) -> Place {
    assert_eq!(number(file, permitted), 32);
    located(file, permitted, Refusal(32)).unwrap()
}

fn located(file: &[u8], permitted: &Permitted, refusal: Refusal) -> Option<Place> {
    let pattern = load(file).ok();
    locate_within(file, DESKTOP, permitted, pattern.as_ref(), refusal)
}

#[test]
fn a_pattern_that_defines_a_class() {
    let file = build::class();
    assert_eq!(number(&file, &EVERYTHING), 0);
    for names in [&["CLASS"][..], &["EXEC"], &["classes"], &["103"]] {
        assert_eq!(number(&file, &without(names)), 32, "{names:?}");
    }
    for names in [&["MODULE", "SCLASS", "globals", "prefixes"][..], &["EXT1"]] {
        assert_eq!(number(&file, &without(names)), 0, "{names:?}");
    }
    let held = ["LOADNIL", "CLASS", "EXEC", "RETURN", "STOP"];
    assert_eq!(number(&file, &only(&held)), 0);
    for index in 0..held.len() {
        let mut others = held.to_vec();
        others.remove(index);
        assert_eq!(number(&file, &only(&others)), 32, "{others:?}");
    }
    assert_eq!(number(&file, &Permitted::nothing()), 32);
}

#[test]
fn steps_that_no_run_reaches_count() {
    let file = build::one(&[JMP, 0, 1, NOP, STOP], &[], &[]);
    assert_eq!(number(&file, &without(&["NOP"])), 32);
    assert_eq!(place(&file, &without(&["NOP"])).offset, Some(3));
    let file = build::one(&[STOP, CLASS, 0, 0, STOP], &[], &[b"A"]);
    assert_eq!(number(&file, &without(&["CLASS"])), 32);
}

#[test]
fn operands_are_no_opcodes() {
    // LOADI of CLASS's number, and a wide one whose bytes are those of two prefixes.
    let file = build::one(&[3, 1, CLASS, EXT2, 3, 1, EXT1, EXT3, STOP], &[], &[]);
    let held = ["LOADI", "EXT2", "STOP"];
    assert_eq!(number(&file, &only(&held)), 0);
    assert_eq!(number(&file, &without(&["CLASS", "EXT1", "EXT3"])), 0);
}

#[test]
fn a_prefix_needs_its_own_yes() {
    let file = build::one(&[NOP, EXT2, LOADNIL, 1, STOP], &[], &[]);
    let bytes = |permitted: &Permitted| {
        let place = place(&file, permitted);
        assert_eq!((place.record, place.offset), (Some(0), Some(1)));
        (place.byte.unwrap() as usize - FIRST_CODE, place.what)
    };
    for (names, byte, what) in [
        (
            &["EXT2"][..],
            1,
            "the prefix EXT2 before LOADNIL is not permitted",
        ),
        (
            &["LOADNIL"],
            2,
            "LOADNIL behind the prefix EXT2 is not permitted",
        ),
        (
            &["EXT2", "LOADNIL"],
            1,
            "the prefix EXT2 and LOADNIL behind it are not permitted",
        ),
    ] {
        assert_eq!(bytes(&without(names)), (byte, what.to_owned()));
    }
    assert_eq!(number(&file, &without(&["EXT1", "EXT3"])), 0);
    assert_eq!(number(&file, &only(&["NOP", "EXT2", "LOADNIL", "STOP"])), 0);
    for prefix in [EXT1, EXT2, EXT3] {
        let file = build::one(&[prefix, LOADNIL, 0, 1, STOP], &[], &[]);
        let passes = number(&file, &without(&["prefixes"])) == 0;
        assert!(!passes, "{prefix}");
    }
}

/// What a list of any length is read as.
#[test]
fn lists_of_every_length() {
    let file = build::class();
    let length = file.len();
    let answer = |permitted: &[u8]| {
        let mut words = zeros(rows(length, 1)).map(|table| vec![7; table.len()]);
        let examined = ffi::examine(&file, DESKTOP, permitted, &mut words).refusal;
        let zero = words.iter().flatten().all(|word| *word == 0);
        assert_eq!(zero, examined != 0);
        let mut frames = vec![7; 2 * RECORD_LIMIT];
        let mut words: Words = zeros(rows(length, 1));
        let followed = ffi::follow(&file, DESKTOP, permitted, &mut words, &mut frames, &[2]);
        assert_eq!(followed.refusal, examined);
        let zero = words.iter().flatten().chain(&frames).all(|word| *word == 0);
        assert_eq!(zero, examined != 0);
        examined
    };
    for said in [1, 2, 128, 255] {
        for length in [0, 1, 17, 18, 103, 104, 114, 115, 117, 118, 119, 120, 200] {
            let right = if length > usize::from(STOP) { 0 } else { 32 };
            assert_eq!(answer(&vec![said; length]), right, "{length} of {said}");
        }
    }
    // What stands behind the 119th byte changes nothing.
    for behind in [&[0; 81][..], &[1; 1], &[255; 137]] {
        assert_eq!(answer(&[&[1; 119], behind].concat()), 0);
        assert_eq!(answer(&[&[0; 119], behind].concat()), 32);
        assert_eq!(
            answer(&[&[1; 103][..], &[0], &[1; 15], behind].concat()),
            32
        );
    }
}

/// A file of two records: the first with this code, its child with that.
fn two(first: &[u8], second: &[u8]) -> Vec<u8> {
    let records = [
        build::record(1, first, &[], &[]),
        build::record(0, second, &[], &[]),
    ];
    build::file(&[build::irep(&records.concat())])
}

#[test]
fn the_order_of_32() {
    let no_add = without(&["ADD"]);
    let stop: &[u8] = &[STOP];
    for (first, second, right, without_it) in [
        // Behind 16 and 25 of its record, wherever they are met, and behind an empty one.
        (&[ADD, 1, 119][..], stop, 16, 16),
        (&[ADD, 1, ADD], stop, 16, 16),
        (&[ADD, 1, EXT1], stop, 25, 25),
        (&[ADD, 1, EXT1, EXT2], stop, 25, 25),
        (&[], &[ADD, 1, STOP], 16, 16),
        // Before 17 and 18 of its record, wherever it stands.
        (&[LOADNIL, 9, ADD, 1, STOP], stop, 32, 17),
        (&[JMP, 0, 9, ADD, 1, STOP], stop, 32, 18),
        (&[ADD, 9, STOP], stop, 32, 17),
        (&[ADD, 1], stop, 32, 18),
        // Behind every number of the records before it, and before those of the records behind it.
        (&[LOADNIL, 9, STOP], &[ADD, 1, STOP], 17, 17),
        (&[JMP, 0, 9, STOP], &[ADD, 1, STOP], 18, 18),
        (stop, &[LOADNIL, 9, ADD, 1, STOP], 32, 17),
        (&[ADD, 1, STOP], &[119], 32, 16),
        (&[ADD, 1, STOP], &[EXT1], 32, 25),
        (&[ADD, 1, STOP], stop, 32, 0),
    ] {
        let file = two(first, second);
        let told = format!("{first:?} {second:?}");
        assert_eq!(number(&file, &no_add), right, "{told}");
        assert_eq!(number(&file, &EVERYTHING), without_it, "{told}");
        for refusal in Refusal::all() {
            let place = located(&file, &no_add, refusal);
            assert_eq!(place.is_some(), refusal.number() == right, "{told}");
        }
    }
    // Before 19 and 20 of its record, behind 15 and whatever refuses a load.
    let handlers = build::with_handlers(&[ADD, 1, STOP], &[1]);
    assert_eq!(
        (number(&handlers, &no_add), number(&handlers, &EVERYTHING)),
        (32, 19)
    );
    let lone = build::file(&[build::irep(&build::record(1, &[ADD, 1, STOP], &[], &[]))]);
    assert_eq!(
        (number(&lone, &no_add), number(&lone, &EVERYTHING)),
        (15, 15)
    );
    assert_eq!(number(&build::class()[..40], &Permitted::nothing()), 28);
    let small = Allowance {
        bytes: 3,
        records: 9,
    };
    let file = build::class();
    let beyond = examine_within(&file, small, &no_add);
    assert_eq!(beyond.unwrap_err(), Refusal(29));
}

/// The place is the first step of the first record that has one, with its source line.
#[test]
fn places() {
    let file = build::class();
    let found = place(&file, &without(&["classes"]));
    assert_eq!(
        (found.section, found.record, found.offset),
        (Some("IREP"), Some(0), Some(AT_CLASS))
    );
    assert_eq!(found.byte, Some(FIRST_CODE as u32 + AT_CLASS));
    assert_eq!(
        (found.line, &found.what[..]),
        (None, "CLASS is not permitted")
    );
    assert_eq!(place(&file, &without(&["EXEC"])).offset, Some(AT_EXEC));
    let found = place(&sample_bytes(), &without(&["classes"]));
    assert_eq!(
        (found.record, found.offset, found.line),
        (Some(0), Some(16), Some(5))
    );
    let found = place(&sample_bytes(), &without(&["SETIV"]));
    assert_eq!((found.record, found.line), (Some(2), Some(7)));
}

/// A file beyond its allowance is told what the desktop says of it with the same opcodes permitted.
#[test]
fn the_desktop_permits_no_more() {
    let small = Allowance {
        bytes: 9,
        records: 9,
    };
    for (permitted, right) in [
        (EVERYTHING, Desktop::Passes),
        (without(&["CLASS"]), Desktop::Refuses(Refusal(32))),
    ] {
        let excess = Excess::of_examination(&build::class(), small, &permitted, Refusal(29));
        assert_eq!(excess.unwrap().desktop, right);
    }
}

/// A list that says yes to all but a few opcodes, or to a few alone.
fn some_list(numbers: &mut Numbers) -> Permitted {
    let mut permitted = match numbers.below(8) {
        0 => return EVERYTHING,
        1 => return Permitted::nothing(),
        _ => EVERYTHING,
    };
    for _ in 0..=numbers.below(4) {
        permitted.forbid(numbers.below(119) as u8);
    }
    permitted
}

/// The archive answers as the model does; every 32 has its place, at a step that is not permitted; more that is permitted never refuses what passed;
/// runs of what passes meet permitted opcodes only.
#[test]
fn lists_over_many_files() {
    let mut numbers = Numbers(32);
    let mut stock: Vec<Vec<u8>> = files().iter().map(|path| fs::read(path).unwrap()).collect();
    stock.extend([
        build::class(),
        build::wide(),
        build::touching(),
        build::newer(),
    ]);
    let (mut refused, mut passed) = (0, 0);
    for round in 0..1_500 {
        let file = &stock[round % stock.len()];
        let file = match round % 3 {
            0 => file.clone(),
            _ => damaged(file, &mut numbers),
        };
        let permitted = some_list(&mut numbers);
        let lent = model::Sizes(rows(file.len(), 64).map(|rows| 21 * rows));
        let right = model::examine(
            &file,
            model::Allowance::DESKTOP,
            permitted.as_bytes(),
            &lent,
        );
        let answer = number(&file, &permitted);
        assert_eq!(answer, right.refusal);
        let everything = examine(&file).err().map_or(0, Refusal::number);
        let mut further = permitted;
        further.permit(numbers.below(119) as u8);
        match answer {
            0 => {
                passed += 1;
                assert_eq!((everything, number(&file, &further)), (0, 0));
                check_passing(&file, &permitted, &mut numbers);
            }
            32 => {
                refused += 1;
                let place = place(&file, &permitted);
                let pattern = load(&file).unwrap();
                let (record, offset) = (place.record.unwrap(), place.offset.unwrap());
                let step = pattern.step_at(Frame { record, offset }).unwrap();
                let forbidden: Vec<u8> = permitted.forbidden_of(&step).collect();
                let byte = file[place.byte.unwrap() as usize];
                assert_eq!(Some(&byte), forbidden.first());
            }
            // What is met before 32 is met whatever is permitted.
            other => assert_eq!((everything, number(&file, &further)), (other, other)),
        }
    }
    assert!(refused > 150 && passed > 150, "{refused} {passed}");
}

/// A file that passes holds permitted opcodes only, and so do the steps of a run along choices.
fn check_passing(file: &[u8], permitted: &Permitted, numbers: &mut Numbers) {
    let pattern = load(file).unwrap();
    assert!(held(&pattern).iter().all(|byte| permitted.permits(*byte)));
    let tree = Tree::of(&pattern);
    let mut run = Run::new(&pattern, &tree);
    let mut choices = Vec::new();
    for _ in 0..numbers.below(30) {
        let choice = match numbers.below(6) {
            0 => Choice::Jump,
            1 | 2 => Choice::Enter,
            3 => Choice::Caught(numbers.below(3) as u16),
            _ => Choice::GoOn,
        };
        run.take(choice);
        choices.push(choice);
        let Some(step) = run.step() else {
            break;
        };
        assert_eq!(permitted.forbidden_of(&step).count(), 0);
    }
    let answer = follow_within(file, DESKTOP, permitted, &bytes_of(&choices));
    assert_eq!(answer, Ok(run.standing()));
}
