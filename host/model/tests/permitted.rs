//! Request n) of paper 02: "32 when a record holds an opcode not permitted".

mod parts;

use model::*;
use parts::{file, lent, record, without};

const NOP: u8 = 0;
const MOVE: u8 = 1;
const LOADI: u8 = 3;
const LOADNIL: u8 = 17;
const JMP: u8 = 38;
const CALL: u8 = 53;
const RETURN: u8 = 61;
const CLASS: u8 = 103;
const EXT1: u8 = 115;
const STOP: u8 = 118;

fn coded(code: &[u8]) -> Vec<u8> {
    file(&[record(code, 0, &[])])
}

/// A record of this code and a child of that.
fn two(first: &[u8], second: &[u8]) -> Vec<u8> {
    file(&[record(first, 1, &[]), record(second, 0, &[])])
}

fn examined(file: &[u8], list: &[u8]) -> Refusal {
    examine(file, Allowance::DESKTOP, list, &lent()).refusal
}

/// These alone.
fn just(bytes: &[u8]) -> Vec<u8> {
    let mut list = vec![0; 119];
    for byte in bytes {
        list[usize::from(*byte)] = 1;
    }
    list
}

#[test]
fn zero_is_no_and_all_else_yes() {
    for said in 0..=255u8 {
        let mut list = [0; 119];
        list[usize::from(MOVE)] = said;
        assert_eq!(permits(&list, MOVE), said != 0, "{said}");
        assert!(!permits(&list, LOADNIL));
    }
}

#[test]
fn a_missing_byte_is_no_and_one_past_119_is_not_read() {
    for length in 0..=256 {
        let list = vec![1; length];
        for byte in 0..=255 {
            let is_read = usize::from(byte) < length.min(119);
            assert_eq!(permits(&list, byte), is_read, "{length} {byte}");
        }
    }
    let file = coded(&[LOADNIL, 0, STOP]);
    assert_eq!(examined(&file, &[]), 32);
    assert_eq!(examined(&file, &[1; 118]), 32);
    for behind in [0, 1] {
        let longer = |read: u8| [vec![read; 119], vec![behind; 137]].concat();
        assert_eq!(examined(&file, &longer(1)), 0);
        assert_eq!(examined(&file, &longer(0)), 32);
    }
    // A yes for a byte that is no opcode.
    assert_eq!(examined(&coded(&[119]), &[1; 256]), 16);
}

/// No operand is asked: all of them are NOP's number.
#[test]
fn every_opcode_is_asked_by_its_own_byte() {
    for byte in 0..STOP {
        let operands = vec![NOP; OPCODES[usize::from(byte)].kind.size() - 1];
        let file = coded(&[vec![byte], operands, vec![STOP]].concat());
        let everything = examined(&file, &EVERYTHING);
        assert_eq!(examined(&file, &just(&[byte, STOP])), everything, "{byte}");
        for list in [without(&[byte]), just(&[STOP]), without(&[STOP])] {
            assert_eq!(examined(&file, &list), 32, "{byte}");
        }
    }
}

#[test]
fn some_schools_forbid_classes() {
    let list = without(&[CLASS]);
    assert_eq!(examined(&coded(&[CLASS, 0, 0, STOP]), &list), 32);
    assert_eq!(examined(&coded(&[LOADI, 0, CLASS, STOP]), &list), 0);
}

#[test]
fn a_prefix_needs_its_own_yes() {
    for prefix in EXT1..=117 {
        let file = coded(&[prefix, NOP, STOP]);
        for (list, refusal) in [
            (just(&[prefix, NOP, STOP]), 0),
            (just(&[NOP, STOP]), 32),
            (just(&[prefix, STOP]), 32),
            (without(&[prefix]), 32),
            (without(&[NOP]), 32),
            (vec![1; 115], 32),
            (vec![1; usize::from(prefix)], 32),
            (EVERYTHING.to_vec(), 0),
        ] {
            assert_eq!(examined(&file, &list), refusal, "{prefix} {list:?}");
        }
        for other in (EXT1..=117).filter(|other| *other != prefix) {
            assert_eq!(examined(&file, &without(&[other])), 0);
        }
        // As an operand it needs none.
        assert_eq!(
            examined(&coded(&[LOADI, 0, prefix, STOP]), &without(&[prefix])),
            0
        );
    }
}

/// "after 16 and 25 over that record, before any 17 there"
#[test]
fn order_within_a_record() {
    let list = without(&[NOP]);
    for (code, refusal) in [
        (&[NOP, 119][..], 16),
        (&[NOP, MOVE, 0], 16),
        (&[], 16),
        (&[NOP, EXT1], 25),
        (&[NOP, EXT1, EXT1, STOP], 25),
        // Before 17 and 18, wherever they are.
        (&[MOVE, 9, 0, NOP, STOP], 32),
        (&[NOP, MOVE, 9, 0, STOP], 32),
        (&[JMP, 0, 9, NOP, STOP], 32),
        (&[NOP], 32),
        // Nothing leads to it.
        (&[STOP, NOP, STOP], 32),
        (&[MOVE, 9, 0, STOP], 17),
        (&[JMP, 0, 9], 18),
    ] {
        assert_eq!(examined(&coded(code), &list), refusal, "{code:?}");
    }
    let with_handler = |code: &[u8]| file(&[record(code, 0, &[9])]);
    assert_eq!(examined(&with_handler(&[NOP, STOP]), &list), 32);
    assert_eq!(examined(&with_handler(&[STOP]), &list), 19);
}

#[test]
fn order_of_records() {
    let list = without(&[NOP]);
    let forbidden = [NOP, STOP];
    for (other, refusal) in [
        (&[119][..], 16),
        (&[EXT1], 25),
        (&[MOVE, 9, 0, STOP], 17),
        (&[JMP, 0, 9], 18),
        (&[STOP], 32),
    ] {
        assert_eq!(examined(&two(other, &forbidden), &list), refusal);
        assert_eq!(examined(&two(&forbidden, other), &list), 32);
    }
    // The tree comes first.
    let apart = file(&[record(&forbidden, 0, &[]), record(&[STOP], 0, &[])]);
    assert_eq!(examined(&apart, &list), 15);
}

/// "Permitting further opcodes never turns a pass into a refusal."
#[test]
fn further_opcodes() {
    let file = coded(&[MOVE, 1, 0, JMP, 0, 0, EXT1, LOADNIL, 0, 1, CALL]);
    let mut list = just(&[MOVE, JMP, EXT1, LOADNIL, CALL]);
    let right = examine(&file, Allowance::DESKTOP, &list, &lent());
    assert_eq!(right.refusal, 0);
    for byte in 0..119 {
        list[byte] = 255;
        assert_eq!(examine(&file, Allowance::DESKTOP, &list, &lent()), right);
    }
    // It turns 32 into another refusal.
    let past = coded(&[MOVE, 9, 0, STOP]);
    assert_eq!(examined(&past, &just(&[MOVE])), 32);
    assert_eq!(examined(&past, &just(&[MOVE, STOP])), 17);
}

#[test]
fn a_refusal_leaves_zeros_and_a_pass_what_a_load_does() {
    let file = coded(&[LOADNIL, 0, RETURN, 0]);
    let examine = |list: &[u8]| examine(&file, Allowance::DESKTOP, list, &lent());
    assert_eq!(examine(&[]), Loaded::refused(32, &lent()));
    let loaded = load(&file, Allowance::DESKTOP, &lent());
    assert_eq!(examine(&just(&[LOADNIL, RETURN])), loaded);
    assert_eq!(examine(&EVERYTHING), loaded);
    // The load's numbers come first.
    let bytes = file.len() as u32 - 1;
    let small = Allowance { bytes, records: 1 };
    assert_eq!(model::examine(&file, small, &[], &lent()).refusal, 29);
}

#[test]
fn runs() {
    let file = coded(&[LOADNIL, 0, RETURN, 0]);
    let run = |list: &[u8], words: usize, choices: &[u8]| {
        follow(&file, Allowance::DESKTOP, list, &lent(), words, choices)
    };
    let needed = just(&[LOADNIL, RETURN]);
    for choices in [&[][..], &[0], &[0, 0], &[5]] {
        assert_eq!(run(&needed, 2, choices), run(&EVERYTHING, 2, choices));
    }
    assert_eq!(run(&needed, 2, &[0]).top, Some((0, 2)));
    // 14 for the frame table comes before it, 21 after it.
    let refusal = |words: usize, choices: &[u8]| run(&[], words, choices).loaded.refusal;
    assert_eq!(refusal(1, &[5]), 14);
    assert_eq!(refusal(2, &[5]), 32);
    assert_eq!(refusal(2, &[]), 32);
    assert_eq!(run(&[], 2, &[]).frame_table, [0, 0]);
}
