//! The registers that a step touches: those that the comments of insn.rs name, as request j) of paper 02 reads them.

use crate::opcode::{Role, name};
use crate::step::Step;
use std::fmt;

/// Registers of a record one behind the other: that of an operand, and those behind it that the step touches too.
#[derive(Debug, Clone, Copy, PartialEq, Eq)]
pub struct Registers {
    /// The place of the operand, counted from 0.
    pub operand: usize,
    /// The operand's own register.
    pub first: u32,
    pub last: u32,
}

/// `R4`, or `R4..R6` where there is more than one.
impl fmt::Display for Registers {
    fn fmt(&self, f: &mut fmt::Formatter) -> fmt::Result {
        match self.first == self.last {
            true => write!(f, "R{}", self.first),
            false => write!(f, "R{}..R{}", self.first, self.last),
        }
    }
}

impl Step {
    /// The registers that the step touches: for each operand that names a register, that one and those behind it.
    ///
    /// A record that has fewer registers is refused by 17. The last may be as high as 196,605.
    pub fn registers(&self) -> impl Iterator<Item = Registers> {
        self.register_operands().map(|operand| Registers {
            operand,
            first: self.operands[operand],
            last: (touched(self.opcode, operand).last)(self.operands),
        })
    }

    /// The same in the letters of the operands, a, b and c.
    ///
    /// n is the low four bits of the last operand, k the next four.
    pub(crate) fn register_words(&self) -> impl Iterator<Item = &'static str> {
        let operands = self.register_operands();
        operands.map(|operand| touched(self.opcode, operand).words)
    }

    /// The places of the operands that name registers.
    fn register_operands(&self) -> impl Iterator<Item = usize> {
        let operands = self.with_roles().enumerate();
        operands.filter_map(|(place, (_, role))| (role == Role::Register).then_some(place))
    }
}

/// The registers that an opcode touches from an operand on: in words, and the last by the operands.
struct Touched {
    words: &'static str,
    last: fn([u32; 3]) -> u32,
}

/// What an opcode touches from the operand at a place on, whose own register always counts.
fn touched(opcode: u8, place: usize) -> Touched {
    let touched = |words, last| Touched { words, last };
    match (name(opcode).unwrap_or_default(), place) {
        (
            "SETMCNST" | "GETIDX" | "ADD" | "SUB" | "MUL" | "DIV" | "EQ" | "LT" | "LE" | "GT"
            | "GE" | "ARYCAT" | "STRCAT" | "HASHCAT" | "RANGE_INC" | "RANGE_EXC" | "CLASS" | "DEF",
            0,
        ) => touched("a, a+1", |[a, ..]| a + 1),
        ("SETIDX", 0) => touched("a, a+1, a+2", |[a, ..]| a + 2),
        ("SSEND" | "SEND", 0) => touched("a..a+n+2k", |[a, _, c]| a + arguments(c)),
        ("SSENDB" | "SENDB", 0) => touched("a..a+n+2k+1", |[a, _, c]| a + arguments(c) + 1),
        ("SUPER", 0) => touched("a..a+n+2k+1", |[a, b, _]| a + arguments(b) + 1),
        ("ARRAY", 0) => touched("a..a+b-1", |[a, b, _]| a + b.saturating_sub(1)),
        ("ARRAY2", 1) => touched("b..b+c-1", |[_, b, c]| b + c.saturating_sub(1)),
        ("ARYPUSH", 0) => touched("a..a+b", |[a, b, _]| a + b),
        ("APOST", 0) => touched("a..a+c", |[a, _, c]| a + c),
        ("HASH", 0) => touched("a..a+2b-1", |[a, b, _]| a + (2 * b).saturating_sub(1)),
        ("HASHADD", 0) => touched("a..a+2b", |[a, b, _]| a + 2 * b),
        (_, 0) => touched("a", |[a, ..]| a),
        (_, 1) => touched("b", |[_, b, _]| b),
        _ => touched("c", |[.., c]| c),
    }
}

/// The registers of a call's arguments, n + 2k: n or 2k is one register where n or k is 15, a list or a hash.
fn arguments(operand: u32) -> u32 {
    let (n, k) = (operand & 15, operand >> 4 & 15);
    let listed = if n == 15 { 1 } else { n };
    let keyed = if k == 15 { 1 } else { 2 * k };
    listed + keyed
}

#[cfg(test)]
mod tests {
    use super::*;
    use crate::opcode::{byte_of, is_prefix};
    use crate::step::Steps;
    use std::ops::RangeInclusive;

    const EXT3: u8 = 117;

    /// An opcode behind EXT3 with these operands.
    fn step(opcode: u8, operands: [u32; 3]) -> Step {
        let code = [EXT3, opcode, 0, 0, 0, 0, 0, 0];
        let read = Steps::new(&code).next().unwrap().unwrap();
        Step { operands, ..read }
    }

    fn shown(name: &str, operands: [u32; 3]) -> String {
        let step = step(byte_of(name).unwrap(), operands);
        let registers: Vec<String> = step.registers().map(|one| one.to_string()).collect();
        registers.join(", ")
    }

    #[test]
    fn the_registers_of_an_instruction() {
        for (name, operands, registers) in [
            ("NOP", [0, 0, 0], ""),
            ("JMP", [3, 0, 0], ""),
            ("ALIAS", [1, 2, 0], ""),
            ("LOADNIL", [3, 0, 0], "R3"),
            ("MOVE", [3, 9, 0], "R3, R9"),
            ("GETIDX0", [9, 3, 0], "R9, R3"),
            ("AREF", [3, 9, 200], "R3, R9"),
            ("SEND0", [3, 9, 0], "R3"),
            ("BLKCALL", [3, 9, 0], "R3"),
            ("ADD", [3, 0, 0], "R3..R4"),
            ("SETMCNST", [3, 9, 0], "R3..R4"),
            ("SETIDX", [3, 0, 0], "R3..R5"),
            ("ARRAY", [3, 0, 0], "R3"),
            ("ARRAY", [3, 1, 0], "R3"),
            ("ARRAY", [3, 4, 0], "R3..R6"),
            ("ARRAY2", [9, 3, 0], "R9, R3"),
            ("ARRAY2", [9, 3, 1], "R9, R3"),
            ("ARRAY2", [9, 3, 4], "R9, R3..R6"),
            ("ARYPUSH", [3, 0, 0], "R3"),
            ("ARYPUSH", [3, 4, 0], "R3..R7"),
            ("APOST", [3, 200, 0], "R3"),
            ("APOST", [3, 200, 4], "R3..R7"),
            ("HASH", [0, 0, 0], "R0"),
            ("HASH", [3, 1, 0], "R3..R4"),
            ("HASH", [3, 4, 0], "R3..R10"),
            ("HASHADD", [3, 0, 0], "R3"),
            ("HASHADD", [3, 4, 0], "R3..R11"),
            ("HASHADD", [65_535, 65_535, 0], "R65535..R196605"),
        ] {
            assert_eq!(shown(name, operands), registers, "{name} {operands:?}");
        }
    }

    #[test]
    fn the_registers_of_a_call() {
        for (arguments, without_block, with_block) in [
            (0x00, "R3", "R3..R4"),
            (0x01, "R3..R4", "R3..R5"),
            (0x0e, "R3..R17", "R3..R18"),
            (0x0f, "R3..R4", "R3..R5"),
            (0x10, "R3..R5", "R3..R6"),
            (0x21, "R3..R8", "R3..R9"),
            (0xe0, "R3..R31", "R3..R32"),
            (0xf0, "R3..R4", "R3..R5"),
            (0xff, "R3..R5", "R3..R6"),
        ] {
            for name in ["SEND", "SSEND"] {
                assert_eq!(shown(name, [3, 9, arguments]), without_block, "{name}");
            }
            for name in ["SENDB", "SSENDB"] {
                assert_eq!(shown(name, [3, 9, arguments]), with_block, "{name}");
            }
            // The bits of a wide operand above these do not count.
            for high in [0, 0x100, 0xff00] {
                assert_eq!(shown("SUPER", [3, high | arguments, 0]), with_block);
            }
        }
    }

    /// The same registers in as few ranges as there can be, in their order.
    fn joined(mut ranges: Vec<RangeInclusive<i64>>) -> Vec<(i64, i64)> {
        ranges.retain(|range| !range.is_empty());
        ranges.sort_by_key(|range| *range.start());
        let mut joined: Vec<(i64, i64)> = Vec::new();
        for range in ranges {
            let (first, end) = range.into_inner();
            match joined.last_mut() {
                Some((_, last)) if first <= *last + 1 => *last = end.max(*last),
                _ => joined.push((first, end)),
            }
        }
        joined
    }

    #[test]
    fn the_model_names_the_same() {
        let operands = [0, 1, 2, 3, 15, 16, 240, 255, 256, 65_535];
        for (byte, known) in (0..).zip(&model::OPCODES) {
            if is_prefix(byte) {
                continue;
            }
            for [a, b] in operands.map(|a| operands.map(|b| [a, b])).concat() {
                for c in operands.into_iter().filter(|c| *c < 256) {
                    let step = step(byte, [a, b, c]);
                    let registers = step.registers();
                    let registers = registers.map(|one| one.first.into()..=one.last.into());
                    let of_model = joined(model::registers(known, [a, b, c]));
                    let name = known.name;
                    assert_eq!(joined(registers.collect()), of_model, "{name} {a} {b} {c}");
                }
            }
        }
    }
}
