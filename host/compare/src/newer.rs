//! Files with opcodes that insn.rs does not comment, and the answers of request c) of paper 02.

use crate::chosen::Group;
use crate::sample::{Counts, Examined, FINISHED, Run, STOP};
use crate::sample::{bare_record, coded, file, record, stands_at};

const GETIDX0: u8 = 36;
const MATCHERR: u8 = 46;
const SSEND0: u8 = 48;
const SEND0: u8 = 51;
const BLKCALL: u8 = 54;
const ADDILV: u8 = 73;
const SUBILV: u8 = 74;
const TDEF: u8 = 107;
const SDEF: u8 = 108;

/// The opcodes that have roles by request c).
pub const NEWER: [usize; 5] = [
    GETIDX0 as usize,
    SSEND0 as usize,
    SEND0 as usize,
    TDEF as usize,
    SDEF as usize,
];

/// Those of them whose third operand is a child.
pub const CHILD_THIRD: [usize; 2] = [TDEF as usize, SDEF as usize];

/// Counts that are all different, of which registers or children are most and constants less or more than symbols.
const COUNTS: [Counts; 2] = [
    Counts {
        registers: 5,
        constants: 3,
        symbols: 4,
        children: 2,
    },
    Counts {
        registers: 2,
        constants: 4,
        symbols: 3,
        children: 5,
    },
];

/// The largest operand of one byte, which a plain one may be.
const LARGEST: u16 = 255;

/// The opcodes without a comment that have operands, and what each operand is below; a plain one is below nothing.
fn limits(counts: Counts) -> [(u8, Vec<Option<u16>>); 9] {
    let register = Some(counts.registers);
    let symbol = Some(counts.symbols);
    let child = Some(counts.children);
    let plain = None;
    [
        // "GETIDX0's second operand is a register. In SSEND0 and SEND0 the second is a symbol."
        (GETIDX0, vec![register, register]),
        (SSEND0, vec![register, symbol]),
        (SEND0, vec![register, symbol]),
        // "In TDEF and SDEF the second is a symbol and the third a child."
        (TDEF, vec![register, symbol, child]),
        (SDEF, vec![register, symbol, child]),
        // "The other opcodes without a comment keep paper 01's roles."
        (MATCHERR, vec![register]),
        (BLKCALL, vec![register, plain]),
        (ADDILV, vec![register, plain, plain]),
        (SUBILV, vec![register, plain, plain]),
    ]
}

/// The files and runs with their answers.
pub fn group() -> Group {
    Group {
        name: "newer opcodes, examined and followed",
        examined: examined(),
        followed: vec![followed()],
    }
}

/// Files with one of these instructions, and the answers of their examination.
fn examined() -> Vec<Examined> {
    let inside = COUNTS.into_iter().flat_map(|counts| {
        let limits = limits(counts).into_iter();
        limits.flat_map(move |(opcode, limits)| around(opcode, &limits, counts))
    });
    let last = [TDEF, SDEF].into_iter().flat_map(at_the_end);
    inside.chain(last).collect()
}

/// Files whose code ends with an opcode that has a child and does not end: 18, and 17 before it.
fn at_the_end(opcode: u8) -> [Examined; 2] {
    let [counts, _] = COUNTS;
    let with = |child: u16| coded(&[opcode, 0, 0, child as u8], counts);
    [(with(counts.children - 1), 18), (with(counts.children), 17)]
}

/// Files with an instruction whose operands are just below their limits, and with one operand at its limit.
fn around(opcode: u8, limits: &[Option<u16>], counts: Counts) -> Vec<Examined> {
    let below = limits
        .iter()
        .map(|limit| limit.map_or(LARGEST, |limit| limit - 1) as u8);
    let code: Vec<u8> = [opcode].into_iter().chain(below).chain([STOP]).collect();
    let mut files = vec![(coded(&code, counts), 0)];
    for (operand, limit) in limits.iter().enumerate() {
        if let Some(limit) = *limit {
            let mut code = code.clone();
            code[1 + operand] = limit as u8;
            files.push((coded(&code, counts), 17));
        }
    }
    files
}

/// A file whose TDEF and SDEF number children otherwise than their symbols: the rlens are 3, 1, 0, 0, 0.
fn nested() -> Vec<u8> {
    let outer = Counts {
        registers: 1,
        constants: 0,
        symbols: 4,
        children: 3,
    };
    let inner = Counts {
        registers: 1,
        constants: 0,
        symbols: 2,
        children: 1,
    };
    let code = [TDEF, 0, 0, 2, SDEF, 0, 3, 0, SDEF, 0, 2, 1, STOP];
    let bare = bare_record();
    let records = [
        record(&code, &[], outer),
        record(&[TDEF, 0, 1, 0, STOP], &[], inner),
        bare.clone(),
        bare.clone(),
        bare,
    ];
    file(&records, &[])
}

/// A file with TDEF and SDEF and runs that enter through them: "TDEF and SDEF can be entered like METHOD."
fn followed() -> (Vec<u8>, Vec<Run>) {
    let at = stands_at;
    let runs = [
        // TDEF: its child is the last, with number rlen - 1.
        (&[2][..], at(4, 0, 2)),
        (&[2, 0], at(0, 4, 1)),
        (&[0], at(0, 4, 1)),
        (&[1], at(0, 4, 1)),
        // SDEF: its child is the first, which has a TDEF.
        (&[0, 2], at(1, 0, 2)),
        (&[0, 2, 2], at(2, 0, 3)),
        (&[0, 2, 2, 4], at(1, 4, 2)),
        (&[0, 2, 0], at(1, 4, 2)),
        // The second SDEF: its child stands behind the first one's subtree.
        (&[0, 0, 2], at(3, 0, 2)),
        (&[0, 2, 4, 2], at(3, 0, 2)),
        (&[2, 4, 2, 2, 0, 0, 2], at(3, 0, 2)),
        (&[0, 0, 2, 4, 2], FINISHED),
    ];
    let runs = runs.map(|(choices, answer)| (choices.to_vec(), answer));
    (nested(), runs.to_vec())
}

#[cfg(test)]
mod tests {
    use super::*;
    use model::OPCODES;

    #[test]
    fn opcodes_have_their_names() {
        let names = NEWER.map(|opcode| OPCODES[opcode].name);
        assert_eq!(names, ["GETIDX0", "SSEND0", "SEND0", "TDEF", "SDEF"]);
        let others = [MATCHERR, BLKCALL, ADDILV, SUBILV, STOP];
        let names = others.map(|opcode| OPCODES[usize::from(opcode)].name);
        assert_eq!(names, ["MATCHERR", "BLKCALL", "ADDILV", "SUBILV", "STOP"]);
    }
}
