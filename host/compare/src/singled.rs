//! Files and calls for single records of them, with the answers of request i) of paper 02.

use crate::allowed::{many, with_constant};
use crate::listed::{BLOCK, CALL, EXT1, NOP, UNKNOWN};
use crate::listed::{GOOD, NO_OPCODE, OUT, PAST, STRAY, WITH_NOP};
use crate::listed::{Group, Listed, all_but, alone, map, two, with_registers};
use crate::permitted::FORBIDDEN;
use crate::sample::{BARE, Counts, MOST_CHILDREN, file, file_a, lvar, record, tree};
use model::{EVERYTHING, Refusal};

impl Listed {
    /// Single records with everything permitted, each with its number.
    fn singles(self, records: &[(u32, Refusal)]) -> Listed {
        self.singles_for(&EVERYTHING, records)
    }

    /// The same for a list.
    fn singles_for(self, list: &[u8], records: &[(u32, Refusal)]) -> Listed {
        let one = |listed: Listed, (record, refusal): &(u32, Refusal)| {
            listed.single(*record, list, *refusal)
        };
        records.iter().fold(self, one)
    }

    /// The whole file with everything permitted.
    fn whole(self, refusal: Refusal) -> Listed {
        self.examine(&EVERYTHING, refusal)
    }
}

/// All files and calls with their answers.
pub fn group() -> Group {
    let mut files = vec![numbered(), without_records(), above_255()];
    files.extend(not_whole());
    files.extend(beside_others());
    files.extend(unloaded());
    files.push(with_names_and_lines());
    Group {
        name: "single records, examined",
        files,
    }
}

/// Numbers of records of File A, which has one: "A missing record is 22".
fn numbered() -> Listed {
    let file = file_a();
    let bytes = file.len();
    let missing = |listed: Listed, refusal: Refusal| listed.singles(&[(1, refusal)]);
    let mut listed = Listed::of(file).whole(0);
    listed = listed.singles(&[
        (0, 0),
        (1, 22),
        (1 << 16, 22),
        (1 << 31, 22),
        (u32::MAX, 22),
    ]);
    // A row that no record uses is none.
    listed = missing(listed, 22).over(2);
    listed = listed.singles(&[(0, 0)]).over(2);
    // The load's refusals come first.
    listed = missing(listed, 14).over(0);
    listed = missing(listed, 29).under(bytes - 1, 1);
    listed = missing(listed, 29).under(bytes, 0);
    listed = missing(listed, 22).under(bytes, 1);
    listed = listed.singles(&[(0, 0)]).under(bytes, 1);
    // A missing record holds nothing that is not permitted.
    listed.singles_for(&[], &[(0, FORBIDDEN), (1, 22)])
}

/// A file without records, which is no whole tree.
fn without_records() -> Listed {
    let listed = Listed::of(tree(&[], &[])).whole(15);
    listed.singles(&[(0, 22), (0, 22)]).over(1)
}

/// More records than a byte numbers, of which one alone meets 17.
fn above_255() -> Listed {
    Listed::of(many(260)).singles(&[(1, 16), (257, 17), (260, 22)])
}

/// "without 15": a child is held against rlen alone and need not be there.
fn not_whole() -> Vec<Listed> {
    let with_child = |child: u8, children: u16| {
        let code = [BLOCK, 0, child, CALL];
        Listed::of(file(&[with_registers(&code, children)], &[]))
    };
    vec![
        with_child(0, 1).whole(15).singles(&[(0, 0), (1, 22)]),
        with_child(1, 1).whole(15).singles(&[(0, 17)]),
        with_child(255, MOST_CHILDREN).singles(&[(0, 0)]),
        Listed::of(tree(&[0, 0], &[]))
            .whole(15)
            .singles(&[(0, 0), (1, 0), (2, 22)]),
    ]
}

/// Records beside others that meet other numbers, for a list without NOP too.
fn beside_others() -> Vec<Listed> {
    let no_nop = all_but(usize::from(CALL) + 1, &[NOP]);
    let leaf = |code: &[u8]| with_registers(code, 0);
    let handled = |code: &[u8]| record(code, &[9], BARE);
    let by_code = [
        with_registers(&GOOD, 3),
        leaf(&NO_OPCODE),
        leaf(&PAST),
        leaf(&WITH_NOP),
    ];
    let by_lists = [
        with_registers(&GOOD, 3),
        leaf(&STRAY),
        leaf(&OUT),
        handled(&[CALL]),
    ];
    let falling = [map(&[[1, 0]])];
    // Each meets two numbers or more.
    let in_order = [
        with_registers(&[NOP, UNKNOWN], 4),
        leaf(&[NOP, EXT1]),
        leaf(&[&PAST[..], &WITH_NOP].concat()),
        leaf(&[&PAST[..], &OUT].concat()),
        leaf(&[&OUT[..], &PAST].concat()),
    ];
    vec![
        Listed::of(file(&by_code, &[]))
            .whole(16)
            .singles(&[(0, 0), (1, 16), (2, 17), (3, 0), (4, 22)])
            .singles_for(&no_nop, &[(2, 17), (3, FORBIDDEN)]),
        Listed::of(two(&WITH_NOP, &GOOD))
            .examine(&no_nop, FORBIDDEN)
            .singles_for(&no_nop, &[(0, FORBIDDEN), (1, 0)]),
        Listed::of(file(&in_order, &[])).singles_for(
            &no_nop,
            &[(0, 16), (1, 25), (2, FORBIDDEN), (3, 17), (4, 18)],
        ),
        Listed::of(file(&by_lists, &falling)).whole(20).singles(&[
            (0, 20),
            (1, 25),
            (2, 18),
            (3, 19),
        ]),
        Listed::of(file(&[handled(&[CALL])], &falling)).singles(&[(0, 19)]),
    ]
}

/// Files that do not load: a bad record refuses the one before it too, and the missing one.
fn unloaded() -> Vec<Listed> {
    let bad_text = file(&[with_registers(&GOOD, 1), with_constant(&[(3, 1)])], &[]);
    let rest = [alone(&GOOD), vec![1; 4]].concat();
    vec![
        Listed::of(bad_text).singles(&[(0, 9), (2, 9)]),
        Listed::of(rest).singles(&[(0, 5), (1, 5)]),
    ]
}

/// A file that passes with names and lines, whose rows and visits each of its records answers.
fn with_names_and_lines() -> Listed {
    let counts = Counts {
        children: 1,
        ..BARE
    };
    let first = record(&[BLOCK, 0, 0, CALL], &[3], counts);
    let sections = [lvar(), map(&[[0, 3], [0, 0]])];
    Listed::of(file(&[first, record(&[CALL], &[], BARE)], &sections))
        .whole(0)
        .singles(&[(0, 0), (1, 0), (2, 22)])
}

#[cfg(test)]
mod tests {
    use super::*;
    use crate::examination::chosen;
    use crate::subject::Model;

    #[test]
    fn calls_have_their_answers() {
        let files = group().files;
        let calls: usize = files.iter().map(|listed| listed.calls.len()).sum();
        let held = chosen(&[Box::new(Model)], &files, 1);
        match held {
            Ok(number) => assert_eq!(number, calls),
            Err(crate::Stop::Difference(why) | crate::Stop::Usage(why)) => panic!("{why}"),
        }
    }
}
