//! Request j) of paper 02: the registers that an instruction names.

use crate::insn::{Opcode, Role, roles};
use std::ops::RangeInclusive;

/// The registers from one to another; "a range that ends below its start names none."
pub type Registers = RangeInclusive<i64>;

/// The registers that an instruction names: "An operand with a register role always counts", and so does what a comment names beside it.
pub fn registers(opcode: &Opcode, operands: [u32; 3]) -> Vec<Registers> {
    let operands = operands.map(i64::from);
    let held = operands.into_iter().zip(roles(opcode));
    let by_role = held.filter_map(|(operand, role)| match role {
        Role::Register => Some(operand..=operand),
        _ => None,
    });
    by_role.chain(by_comment(opcode.name, operands)).collect()
}

/// The highest register that an instruction names, if it names one.
pub fn last_register(opcode: &Opcode, operands: [u32; 3]) -> Option<i64> {
    let ranges = registers(opcode, operands).into_iter();
    ranges.filter_map(Iterator::max).max()
}

/// "each register that insn.rs's comments name", but for those that are operands.
fn by_comment(name: &str, [a, b, c]: [i64; 3]) -> Option<Registers> {
    let registers = match name {
        "SETMCNST" | "GETIDX" | "ADD" | "SUB" | "MUL" | "DIV" | "EQ" | "LT" | "LE" | "GT"
        | "GE" | "ARYCAT" | "STRCAT" | "HASHCAT" | "RANGE_INC" | "RANGE_EXC" | "CLASS" | "DEF" => {
            a + 1..=a + 1
        }
        "SETIDX" => a + 1..=a + 2,
        // "For SSEND and SEND the last is a + n + 2k, with one more in SSENDB and SENDB"
        "SSEND" | "SEND" => a + 1..=a + arguments(c),
        "SSENDB" | "SENDB" => a + 1..=a + arguments(c) + 1,
        // "SUPER counts like SSENDB with its b for c"
        "SUPER" => a + 1..=a + arguments(b) + 1,
        // "they take b registers from R[a] and c from R[b]"
        "ARRAY" => a..=a + b - 1,
        "ARRAY2" => b..=b + c - 1,
        "ARYPUSH" => a + 1..=a + b,
        "APOST" => a + 1..=a + c,
        "HASH" => a + 1..=a + b * 2 - 1,
        "HASHADD" => a + 1..=a + b * 2,
        _ => return None,
    };
    Some(registers)
}

/// "n is the low four bits and k the next four; n or 2k counts as one register where n or k is 15."
fn arguments(c: i64) -> i64 {
    let n = match c % 16 {
        15 => 1,
        n => n,
    };
    let twice_k = match c / 16 % 16 {
        15 => 1,
        k => 2 * k,
    };
    n + twice_k
}

#[cfg(test)]
mod tests {
    use super::*;
    use crate::insn::OPCODES;

    /// The registers that an instruction names, each once.
    fn named(byte: usize, operands: [u32; 3]) -> Vec<i64> {
        let ranges = registers(&OPCODES[byte], operands).into_iter();
        let mut named: Vec<i64> = ranges.flatten().collect();
        named.sort();
        named.dedup();
        named
    }

    fn last(byte: usize, operands: [u32; 3]) -> i64 {
        last_register(&OPCODES[byte], operands).expect("the instruction names a register")
    }

    /// The opcodes that name R[a+1] beside R[a].
    const WITH_NEXT: [usize; 18] = [
        32, 35, 69, 71, 75, 76, 77, 78, 79, 80, 81, 84, 93, 96, 100, 101, 103, 106,
    ];
    const SETIDX: usize = 37;
    const SSEND: usize = 47;
    const SSENDB: usize = 49;
    const SEND: usize = 50;
    const SENDB: usize = 52;
    const SUPER: usize = 55;
    const ARRAY: usize = 82;
    const ARRAY2: usize = 83;
    const ARYPUSH: usize = 85;
    const APOST: usize = 89;
    const HASH: usize = 94;
    const HASHADD: usize = 95;

    /// The opcodes that name more than their operands, but for R[a+1] alone.
    const OTHERS: [usize; 12] = [
        SETIDX, SSEND, SSENDB, SEND, SENDB, SUPER, ARRAY, ARRAY2, ARYPUSH, APOST, HASH, HASHADD,
    ];

    #[test]
    fn opcodes_have_their_names() {
        let names = WITH_NEXT.map(|byte| OPCODES[byte].name).join(" ");
        let said = "SETMCNST GETIDX ADD SUB MUL DIV EQ LT LE GT GE ARYCAT STRCAT HASHCAT \
                    RANGE_INC RANGE_EXC CLASS DEF";
        assert_eq!(names, said);
        let names = OTHERS.map(|byte| OPCODES[byte].name).join(" ");
        let said = "SETIDX SSEND SSENDB SEND SENDB SUPER ARRAY ARRAY2 ARYPUSH APOST HASH HASHADD";
        assert_eq!(names, said);
    }

    #[test]
    fn the_next_register() {
        for byte in WITH_NEXT {
            for a in [0, 7, 255, 65_535] {
                let first = i64::from(a);
                assert_eq!(named(byte, [a, 3, 9]), [first, first + 1], "{byte}");
            }
        }
        assert_eq!(named(SETIDX, [4, 0, 0]), [4, 5, 6]);
        assert_eq!(named(SETIDX, [65_535, 0, 0]), [65_535, 65_536, 65_537]);
    }

    #[test]
    fn other_opcodes_name_operands_alone() {
        let listed: Vec<usize> = WITH_NEXT.into_iter().chain(OTHERS).collect();
        for byte in (0..OPCODES.len()).filter(|byte| !listed.contains(byte)) {
            let roles = roles(&OPCODES[byte]);
            let operands = [7, 8, 9];
            let held = operands.into_iter().zip(roles);
            let said: Vec<i64> = held
                .filter(|(_, role)| *role == Role::Register)
                .map(|(operand, _)| operand)
                .collect();
            assert_eq!(named(byte, [7, 8, 9]), said, "{byte}");
        }
        assert_eq!(named(1, [3, 9, 0]), [3, 9]);
        assert_eq!(named(36, [9, 3, 0]), [3, 9]);
        assert_eq!(named(87, [3, 9, 200]), [3, 9]);
        assert_eq!(named(56, [3, 65_535, 0]), [3]);
        assert_eq!(named(109, [3, 9, 0]), []);
        assert_eq!(named(0, [0, 0, 0]), []);
    }

    #[test]
    fn sends_name_their_arguments() {
        for (c, arguments) in [
            (0x00, 0),
            (0x01, 1),
            (0x0e, 14),
            (0x10, 2),
            (0x23, 7),
            (0xee, 42),
            // "n or 2k counts as one register where n or k is 15"
            (0x0f, 1),
            (0x2f, 5),
            (0xf0, 1),
            (0xf3, 4),
            (0xff, 2),
        ] {
            for byte in [SEND, SSEND] {
                let said: Vec<i64> = (5..=5 + arguments).collect();
                assert_eq!(named(byte, [5, 9, c]), said, "{byte} {c}");
            }
            let with_block: Vec<i64> = (5..=5 + arguments + 1).collect();
            for byte in [SENDB, SSENDB] {
                assert_eq!(named(byte, [5, 9, c]), with_block, "{byte} {c}");
            }
            assert_eq!(named(SUPER, [5, c, 9]), with_block, "{c}");
            // Bits above 7 do not count.
            assert_eq!(named(SUPER, [5, 0x100 + c, 9]), with_block, "{c}");
            assert_eq!(named(SUPER, [5, 0xff00 + c, 9]), with_block, "{c}");
        }
        assert_eq!(last(SENDB, [65_535, 0, 0xee]), 65_535 + 43);
    }

    #[test]
    fn arrays_name_what_they_take() {
        assert_eq!(named(ARRAY, [4, 0, 0]), [4]);
        assert_eq!(named(ARRAY, [4, 1, 0]), [4]);
        assert_eq!(named(ARRAY, [4, 3, 0]), [4, 5, 6]);
        assert_eq!(named(ARRAY, [0, 0, 0]), [0]);
        assert_eq!(named(ARRAY2, [9, 4, 0]), [4, 9]);
        assert_eq!(named(ARRAY2, [9, 4, 1]), [4, 9]);
        assert_eq!(named(ARRAY2, [9, 4, 3]), [4, 5, 6, 9]);
        assert_eq!(named(ARRAY2, [0, 0, 0]), [0]);
        assert_eq!(last(ARRAY, [65_535, 65_535, 0]), 131_069);
        assert_eq!(last(ARRAY2, [0, 65_535, 255]), 65_789);
    }

    #[test]
    fn other_ranges_keep_their_comments() {
        assert_eq!(named(ARYPUSH, [4, 0, 0]), [4]);
        assert_eq!(named(ARYPUSH, [4, 2, 0]), [4, 5, 6]);
        assert_eq!(named(APOST, [4, 200, 0]), [4]);
        assert_eq!(named(APOST, [4, 200, 2]), [4, 5, 6]);
        assert_eq!(named(HASHADD, [4, 0, 0]), [4]);
        assert_eq!(named(HASHADD, [4, 1, 0]), [4, 5, 6]);
        assert_eq!(named(HASH, [4, 1, 0]), [4, 5]);
        assert_eq!(named(HASH, [4, 2, 0]), [4, 5, 6, 7]);
        // The end is two below the start.
        assert_eq!(named(HASH, [4, 0, 0]), [4]);
        assert_eq!(named(HASH, [0, 0, 0]), [0]);
        assert_eq!(last(ARYPUSH, [65_535, 65_535, 0]), 131_070);
        assert_eq!(last(APOST, [65_535, 0, 255]), 65_790);
        assert_eq!(last(HASH, [65_535, 65_535, 0]), 196_604);
        assert_eq!(last(HASHADD, [65_535, 65_535, 0]), 196_605);
    }
}
