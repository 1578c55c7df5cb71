//! Files and calls on them for lists of permitted opcodes, with the answers of request n) of paper 02.

use crate::allowance::read_all;
use crate::allowed::Asked;
use crate::generate::{be2, exact};
use crate::permitted::{FORBIDDEN, LIST};
use crate::prefixes::{PREFIXES, instruction, opcodes, widths};
use crate::sample::{BARE, Counts, FINISHED, STOP};
use crate::sample::{coded, file, file_a, record, stands_at, with_children};
use model::{Allowance, EVERYTHING, OPCODES, RECORD_WORDS, Refusal, Sizes};

pub const NOP: u8 = 0;
const MOVE: u8 = 1;
const LOADI: u8 = 3;
const LOADNIL: u8 = 17;
const JMP: u8 = 38;
pub const CALL: u8 = 53;
const RETURN: u8 = 61;
pub const BLOCK: u8 = 98;
const METHOD: u8 = 99;
const OCLASS: u8 = 102;
const CLASS: u8 = 103;
const EXEC: u8 = 105;
pub const EXT1: u8 = 115;
const EXT2: u8 = 116;
const EXT3: u8 = 117;

/// The first byte that is no opcode.
pub const UNKNOWN: u8 = 119;

/// A file, and calls on it, over tables that fit where nothing else is said.
pub struct Listed {
    pub file: Vec<u8>,
    fitting: Sizes,
    pub calls: Vec<Call>,
}

/// A call under an allowance for a list of permitted opcodes, over lent tables.
pub struct Call {
    pub asked: Asked,
    pub allowance: Allowance,
    pub list: Vec<u8>,
    pub sizes: Sizes,
    pub refusal: Refusal,
}

/// The files and calls of a name.
pub struct Group {
    pub name: &'static str,
    pub files: Vec<Listed>,
}

impl Listed {
    pub fn of(file: Vec<u8>) -> Listed {
        let fitting = Sizes::of_rows(read_all(&file).rows.used());
        Listed {
            file,
            fitting,
            calls: Vec::new(),
        }
    }

    fn call(mut self, asked: Asked, list: &[u8], refusal: Refusal) -> Listed {
        self.calls.push(Call {
            asked,
            allowance: Allowance::DESKTOP,
            list: list.to_vec(),
            sizes: self.fitting,
            refusal,
        });
        self
    }

    fn load(self, list: &[u8], refusal: Refusal) -> Listed {
        self.call(Asked::Load, list, refusal)
    }

    pub fn examine(self, list: &[u8], refusal: Refusal) -> Listed {
        self.call(Asked::Examination, list, refusal)
    }

    /// An examination of a single record.
    pub fn single(self, record: u32, list: &[u8], refusal: Refusal) -> Listed {
        self.call(Asked::Record(record), list, refusal)
    }

    /// A run over so many words of frames that is refused.
    fn refused_run(self, words: usize, choices: &[u8], list: &[u8], refusal: Refusal) -> Listed {
        let asked = Asked::Run(words, choices.to_vec(), FINISHED);
        self.call(asked, list, refusal)
    }

    /// A run over so many words of frames that answers so.
    fn run(self, words: usize, choices: &[u8], list: &[u8], right: [u32; 6]) -> Listed {
        let asked = Asked::Run(words, choices.to_vec(), right);
        self.call(asked, list, 0)
    }

    /// Puts the last call over so many rows of records.
    pub fn over(mut self, records: usize) -> Listed {
        if let Some(call) = self.calls.last_mut() {
            call.sizes.0[0] = records * RECORD_WORDS;
        }
        self
    }

    /// Puts the last call under an allowance.
    pub fn under(mut self, bytes: usize, records: u32) -> Listed {
        let bytes = bytes as u32;
        if let Some(call) = self.calls.last_mut() {
            call.allowance = Allowance { bytes, records };
        }
        self
    }
}

/// A file that is examined for one list.
fn examined(file: Vec<u8>, list: &[u8], refusal: Refusal) -> Listed {
    Listed::of(file).examine(list, refusal)
}

/// A list of so many bytes that says yes for all but these.
pub fn all_but(length: usize, forbidden: &[u8]) -> Vec<u8> {
    let mut list = vec![1; length];
    for byte in forbidden {
        list[usize::from(*byte)] = 0;
    }
    list
}

/// A list that says yes, by these bytes, for these opcodes alone and ends behind the last of them.
fn only(yes: &[(u8, u8)]) -> Vec<u8> {
    let last = yes.iter().map(|(opcode, _)| *opcode).max();
    let mut list = vec![0; last.map_or(0, |last| usize::from(last) + 1)];
    for (opcode, byte) in yes {
        list[usize::from(*opcode)] = *byte;
    }
    list
}

/// A list that says yes for these opcodes alone, by 1.
fn just(opcodes: &[u8]) -> Vec<u8> {
    let yes: Vec<(u8, u8)> = opcodes.iter().map(|opcode| (*opcode, 1)).collect();
    only(&yes)
}

/// All files and calls with their answers.
pub fn groups() -> Vec<Group> {
    vec![
        Group {
            name: "permitted opcodes, loaded and examined",
            files: [lists(), classes(), halves()]
                .into_iter()
                .flatten()
                .collect(),
        },
        Group {
            name: "permitted opcodes before and after other numbers, examined",
            files: orders(),
        },
        Group {
            name: "permitted prefixes, examined",
            files: prefixes(),
        },
        Group {
            name: "permitted opcodes, followed",
            files: runs(),
        },
    ]
}

/// Lists of every sort for File A, which has LOADNIL and RETURN.
fn lists() -> Vec<Listed> {
    let file = file_a();
    let bytes = file.len();
    let needed = just(&[LOADNIL, RETURN]);
    let up_to_return = usize::from(RETURN) + 1;
    let past = |read: u8, behind: u8| [vec![read; LIST], vec![behind; 5]].concat();
    let listed = Listed::of(file)
        .examine(&needed, 0)
        .examine(&needed, 0)
        .under(bytes, 1)
        .examine(&needed, 29)
        .under(bytes - 1, 1)
        .examine(&just(&[LOADNIL]), FORBIDDEN)
        .examine(&all_but(LIST, &[RETURN]), FORBIDDEN)
        .examine(&all_but(LIST, &[LOADNIL]), FORBIDDEN)
        // "0 for no, else yes"
        .examine(&only(&[(LOADNIL, 2), (RETURN, 128)]), 0)
        .examine(&only(&[(LOADNIL, 255), (RETURN, 64)]), 0)
        // "a missing byte is no"
        .examine(&vec![1; up_to_return], 0)
        .examine(&vec![1; up_to_return - 1], FORBIDDEN)
        .examine(&[], FORBIDDEN)
        // "one past 119 is not read"
        .examine(&past(0, 1), FORBIDDEN)
        // "With everything permitted the verdicts are the earlier ones", and File A has no prefix and no STOP.
        .examine(&[255; LIST], 0)
        .examine(&[1; EXT1 as usize], 0)
        // A load takes no list.
        .load(&[], 0);
    // Everything permitted has the last opcode.
    let last = Listed::of(alone(&[NOP, STOP]))
        .examine(&[1; STOP as usize], FORBIDDEN)
        .examine(&past(1, 0), 0);
    vec![listed, last]
}

/// "Some schools forbid patterns that define classes."
fn classes() -> Vec<Listed> {
    let counts = Counts {
        registers: 2,
        constants: 0,
        symbols: 1,
        children: 1,
    };
    let with_class = coded(&[OCLASS, 0, CLASS, 0, 0, EXEC, 0, 0, STOP], counts);
    let with_method = coded(&[METHOD, 0, 0, STOP], counts);
    let list = all_but(LIST, &[CLASS]);
    vec![
        examined(with_class, &list, FORBIDDEN),
        examined(with_method, &list, 0),
    ]
}

/// Every second opcode but the prefixes, all operands 0.
fn every_second(first: u8) -> Vec<u8> {
    opcodes()
        .filter(|opcode| opcode % 2 == first)
        .flat_map(|opcode| with_zeros(None, opcode))
        .collect()
}

/// An instruction whose operands are 0.
fn with_zeros(prefix: Option<u8>, opcode: u8) -> Vec<u8> {
    let operands = widths(prefix, OPCODES[usize::from(opcode)].kind).len();
    instruction(prefix, opcode, &vec![0; operands])
}

/// What an instruction whose operands are 0 needs.
const FOR_ZEROS: Counts = Counts {
    registers: 3,
    constants: 1,
    symbols: 1,
    children: 1,
};

/// Files with every second opcode, for lists that say yes for these and no for the others.
fn halves() -> Vec<Listed> {
    let with_code = |code: &[u8], end: u8| {
        let child = record(&[end], &[], BARE);
        file(&[record(code, &[], FOR_ZEROS), child], &[])
    };
    let half = |first: u8, [end, other_end]: [u8; 2]| {
        let list: Vec<u8> = (0..LIST as u8)
            .map(|byte| u8::from(byte % 2 == first))
            .collect();
        let code = [every_second(first), vec![end]].concat();
        // Its last instruction but one is of the other half.
        let other = [every_second(first), vec![other_end, end]].concat();
        [
            examined(with_code(&code, end), &list, 0),
            examined(with_code(&other, end), &list, FORBIDDEN),
        ]
    };
    [half(0, [STOP, CALL]), half(1, [CALL, STOP])]
        .into_iter()
        .flatten()
        .collect()
}

/// A record with this code and so many children, two registers and nothing else.
pub fn with_registers(code: &[u8], children: u16) -> Vec<u8> {
    let counts = Counts {
        registers: 2,
        children,
        ..BARE
    };
    record(code, &[], counts)
}

/// A file of this code.
pub fn alone(code: &[u8]) -> Vec<u8> {
    file(&[with_registers(code, 0)], &[])
}

/// A record of this code, and one of that.
pub fn two(first: &[u8], second: &[u8]) -> Vec<u8> {
    file(&[with_registers(first, 1), with_registers(second, 0)], &[])
}

/// A DBG section in which the lines of each record's map have these positions.
pub fn map(records: &[[u8; 2]]) -> Vec<u8> {
    let mut content = vec![0, 1, 0, 0];
    for positions in records {
        // One file of two lines, kind 1: positions and lines.
        content.extend([0, 0, 0, 29, 0, 1, 0, 0, 0, 0, 0, 0, 0, 0, 0, 2, 1]);
        for (line, position) in (1..).zip(positions) {
            content.extend([0, 0, 0, *position]);
            content.extend(be2(line));
        }
    }
    exact(b"DBG\0", &content)
}

/// Code that meets 17, 18, 16 and 25.
pub const PAST: [u8; 4] = [MOVE, 2, 0, CALL];
pub const OUT: [u8; 4] = [JMP, 0, 9, CALL];
pub const NO_OPCODE: [u8; 1] = [UNKNOWN];
pub const STRAY: [u8; 2] = [CALL, EXT1];

/// Code that meets nothing, without NOP and with it.
pub const GOOD: [u8; 4] = [MOVE, 0, 1, CALL];
pub const WITH_NOP: [u8; 2] = [NOP, CALL];

/// Files that meet several numbers, for a list without NOP: "after 16 and 25 over that record, before any 17 there".
fn orders() -> Vec<Listed> {
    let no_nop = all_but(usize::from(CALL) + 1, &[NOP]);
    let with_nop = vec![1; usize::from(CALL) + 1];
    let behind = |code: &[u8], nop: &[u8]| alone(&[code, nop].concat());
    let of = |file: Vec<u8>, number: Refusal| examined(file, &no_nop, number);
    let handler = |code: &[u8], children: u16| {
        let counts = Counts { children, ..BARE };
        record(code, &[9], counts)
    };
    let falling = map(&[[1, 0]]);
    let mut files = vec![
        // Operands are no opcodes.
        of(alone(&GOOD), 0),
        of(alone(&WITH_NOP), FORBIDDEN),
        of(behind(&GOOD, &WITH_NOP), FORBIDDEN),
        of(alone(&[JMP, 0, 1, NOP, CALL]), FORBIDDEN),
        // In one record: 16 and 25 come before it.
        of(alone(&[NOP, UNKNOWN]), 16),
        of(alone(&[NOP, MOVE, 0]), 16),
        of(alone(&[NOP, EXT1]), 25),
        of(alone(&[NOP, EXT1, EXT2, CALL]), 25),
        // 17, 18, 19 and 20 come after it.
        of(behind(&PAST, &WITH_NOP), FORBIDDEN),
        of(behind(&WITH_NOP, &PAST), FORBIDDEN),
        of(behind(&OUT, &WITH_NOP), FORBIDDEN),
        of(alone(&[CALL, NOP]), FORBIDDEN),
        of(with_children(handler(&WITH_NOP, 0), 0), FORBIDDEN),
        of(file(&[with_registers(&WITH_NOP, 0)], &[falling]), FORBIDDEN),
        // In a tree that is not whole.
        of(file(&[with_registers(&WITH_NOP, 1)], &[]), 15),
        // In a later record.
        of(two(&GOOD, &WITH_NOP), FORBIDDEN),
        of(two(&PAST, &WITH_NOP), 17),
        of(two(&OUT, &WITH_NOP), 18),
        of(
            file(&[handler(&[CALL], 1), with_registers(&WITH_NOP, 0)], &[]),
            19,
        ),
        of(two(&NO_OPCODE, &WITH_NOP), 16),
        of(two(&STRAY, &WITH_NOP), 25),
        // In an earlier one.
        of(two(&WITH_NOP, &NO_OPCODE), FORBIDDEN),
        of(two(&WITH_NOP, &STRAY), FORBIDDEN),
        of(two(&WITH_NOP, &PAST), FORBIDDEN),
    ];
    let records = [with_registers(&GOOD, 1), with_registers(&WITH_NOP, 0)];
    let falling = map(&[[1, 0], [0, 1]]);
    files.push(of(file(&records, &[falling]), 20));
    // A further opcode turns 32 into 17; a yes past 119 is none for what is no opcode.
    files.push(examined(behind(&PAST, &WITH_NOP), &with_nop, 17));
    files.push(examined(alone(&NO_OPCODE), &[1; LIST + 1], 16));
    files
}

/// "A prefix needs its own yes."
fn prefixes() -> Vec<Listed> {
    let up_to_prefixes = usize::from(EXT3) + 1;
    let behind = |prefix: u8| alone(&[prefix, NOP, CALL]);
    let mut files = Vec::new();
    for forbidden in PREFIXES {
        let list = all_but(up_to_prefixes, &[forbidden]);
        for prefix in PREFIXES {
            let number = if prefix == forbidden { FORBIDDEN } else { 0 };
            files.push(examined(behind(prefix), &list, number));
        }
    }
    // The opcode behind it needs one too, and an operand needs none.
    let no_nop = all_but(up_to_prefixes, &[NOP]);
    let no_prefix = vec![1; usize::from(CALL) + 1];
    files.extend([
        examined(behind(EXT2), &no_nop, FORBIDDEN),
        examined(behind(EXT1), &just(&[EXT1, NOP, CALL]), 0),
        examined(behind(EXT1), &no_prefix, FORBIDDEN),
        examined(alone(&[NOP, CALL]), &no_prefix, 0),
        examined(alone(&[LOADI, 0, EXT1, CALL]), &no_prefix, 0),
        // Everything permitted has the prefixes.
        examined(behind(EXT3), &[1; EXT1 as usize], FORBIDDEN),
    ]);
    files
}

/// Runs for lists: "Runs of a passing file meet permitted opcodes only."
fn runs() -> Vec<Listed> {
    let counts = Counts {
        registers: 1,
        children: 1,
        ..BARE
    };
    // 0: the child; 3: to 7; 6: left out; 7: behind a prefix.
    let code = [BLOCK, 0, 0, JMP, 0, 1, NOP, EXT1, LOADNIL, 0, 0, CALL];
    let child = record(&[RETURN, 0], &[], BARE);
    let nested = file(&[record(&code, &[], counts), child], &[]);
    let needed = just(&[NOP, LOADNIL, JMP, CALL, RETURN, BLOCK, EXT1]);
    let no_nop = just(&[LOADNIL, JMP, CALL, RETURN, BLOCK, EXT1]);
    let listed = Listed::of(nested)
        .run(4, &[], &needed, stands_at(0, 0, 1))
        .run(4, &[2], &needed, stands_at(1, 0, 2))
        .run(4, &[2, 0, 0], &needed, stands_at(0, 7, 1))
        .run(4, &[0, 1, 0], &needed, stands_at(0, 11, 1))
        .run(4, &[2, 0, 0, 0, 0], &needed, FINISHED)
        .refused_run(4, &[5], &needed, 21)
        .refused_run(3, &[], &needed, 14)
        // What no run meets is in the record all the same.
        .refused_run(4, &[2], &no_nop, FORBIDDEN)
        // "before 21", and behind the frame table's 14.
        .refused_run(4, &[3, 0], &no_nop, FORBIDDEN)
        .refused_run(3, &[5], &no_nop, 14)
        .refused_run(4, &[5], &[], FORBIDDEN);
    let past = Listed::of(alone(&[&PAST[..], &WITH_NOP].concat()))
        .refused_run(2, &[5], &[], FORBIDDEN)
        .refused_run(2, &[5], &EVERYTHING, 17)
        .refused_run(2, &[5], &[1; 1], FORBIDDEN);
    vec![listed, past]
}

/// Every opcode, without a prefix and behind each, for lists that have all but one of its bytes and just these.
pub fn everywhere() -> Vec<Listed> {
    let forms = opcodes().flat_map(|opcode| {
        let prefixes = PREFIXES.map(Some).into_iter().chain([None]);
        prefixes.map(move |prefix| (prefix, opcode))
    });
    forms
        .map(|(prefix, opcode)| {
            let code = [with_zeros(prefix, opcode), vec![STOP]].concat();
            let bytes: Vec<u8> = prefix.into_iter().chain([opcode, STOP]).collect();
            let mut listed = Listed::of(coded(&code, FOR_ZEROS)).examine(&just(&bytes), 0);
            for byte in &bytes {
                let yes: Vec<u8> = bytes.iter().copied().filter(|b| b != byte).collect();
                listed = listed
                    .examine(&all_but(LIST, &[*byte]), FORBIDDEN)
                    .examine(&just(&yes), FORBIDDEN);
            }
            listed
        })
        .collect()
}

#[cfg(test)]
mod tests {
    use super::*;

    #[test]
    fn opcodes_have_their_names() {
        for (opcode, name) in [
            (NOP, "NOP"),
            (MOVE, "MOVE"),
            (LOADI, "LOADI"),
            (LOADNIL, "LOADNIL"),
            (JMP, "JMP"),
            (CALL, "CALL"),
            (RETURN, "RETURN"),
            (BLOCK, "BLOCK"),
            (METHOD, "METHOD"),
            (OCLASS, "OCLASS"),
            (CLASS, "CLASS"),
            (EXEC, "EXEC"),
            (EXT1, "EXT1"),
            (EXT2, "EXT2"),
            (EXT3, "EXT3"),
        ] {
            assert_eq!(OPCODES[usize::from(opcode)].name, name);
        }
        assert_eq!(usize::from(UNKNOWN), OPCODES.len());
    }

    #[test]
    fn files_load_and_calls_have_their_answers() {
        let groups = groups().into_iter().flat_map(|group| group.files);
        for (number, listed) in groups.chain(everywhere()).enumerate() {
            assert_eq!(read_all(&listed.file).end, Ok(()), "{number}");
            for (at, call) in listed.calls.iter().enumerate() {
                let (asked, allowance) = (&call.asked, call.allowance);
                let answer = asked.by_model(&listed.file, allowance, &call.list, &call.sizes);
                assert_eq!(answer.refusal, call.refusal, "{number} {at}");
            }
        }
    }
}
