//! Opcodes: operand kinds, prefixes, fetch, roles and flow.

use crate::Refusal;

/// The kinds of operands, in the order of their numbers at the C boundary.
#[derive(Debug, Clone, Copy, PartialEq, Eq)]
pub enum Kind {
    Z,
    B,
    BB,
    S,
    BBB,
    BS,
    W,
    BSS,
}

impl Kind {
    /// "Sizes with the opcode byte: Z 1, B 2, BB 3, S 3, BBB 4, BS 4, W 4, BSS 6." Here they stand in ops.h's order.
    pub fn size(self) -> usize {
        match self {
            Kind::Z => 1,
            Kind::BB => 3,
            Kind::B => 2,
            Kind::BS => 4,
            Kind::BSS => 6,
            Kind::BBB => 4,
            Kind::S => 3,
            Kind::W => 4,
        }
    }

    /// How many bytes each operand has behind a prefix, or without one.
    pub fn widths(self, prefix: Option<u8>) -> Vec<usize> {
        let mut widths = self.own_widths().to_vec();
        if prefix.is_some_and(|prefix| widens_first(prefix, self)) {
            widths[0] = 2;
        }
        if prefix.is_some_and(|prefix| widens_second(prefix, self)) {
            widths[1] = 2;
        }
        widths
    }

    /// How many bytes each operand has without a prefix; "Other operands are unchanged."
    fn own_widths(self) -> &'static [usize] {
        match self {
            Kind::Z => &[],
            Kind::BB => &[1, 1],
            Kind::B => &[1],
            Kind::BS => &[1, 2],
            Kind::BSS => &[1, 2, 2],
            Kind::BBB => &[1, 1, 1],
            Kind::S => &[2],
            Kind::W => &[3],
        }
    }
}

/// The prefixes by their names in insn.rs.
const EXT1: u8 = 115;
const EXT2: u8 = 116;
const EXT3: u8 = 117;

/// "a prefix opcode (115 to 117)"
pub fn is_prefix(byte: u8) -> bool {
    (EXT1..=EXT3).contains(&byte)
}

/// "Prefix 115 widens the first operand of B, BB, BBB, BS and BSS to two bytes", and "117 does both".
fn widens_first(prefix: u8, kind: Kind) -> bool {
    let has_it = matches!(kind, Kind::B | Kind::BB | Kind::BBB | Kind::BS | Kind::BSS);
    has_it && matches!(prefix, EXT1 | EXT3)
}

/// "Prefix 116 widens the second of BB and BBB", and "117 does both, each where the kind has it."
fn widens_second(prefix: u8, kind: Kind) -> bool {
    let has_it = matches!(kind, Kind::BB | Kind::BBB);
    has_it && matches!(prefix, EXT2 | EXT3)
}

/// A fetched instruction's operands.
#[derive(Debug, Clone, Copy, PartialEq, Eq)]
pub enum Fetched {
    Z,
    B(u8),
    BB(u8, u8),
    S(u16),
    BBB(u8, u8, u8),
    BS(u8, u16),
    W(u32),
    BSS(u8, u16, u16),
}

impl Fetched {
    pub fn kind(self) -> Kind {
        match self {
            Fetched::Z => Kind::Z,
            Fetched::B(..) => Kind::B,
            Fetched::BB(..) => Kind::BB,
            Fetched::S(..) => Kind::S,
            Fetched::BBB(..) => Kind::BBB,
            Fetched::BS(..) => Kind::BS,
            Fetched::W(..) => Kind::W,
            Fetched::BSS(..) => Kind::BSS,
        }
    }

    /// The operands in turn, 0 where there is none.
    pub fn operands(self) -> [u32; 3] {
        match self {
            Fetched::Z => [0, 0, 0],
            Fetched::B(a) => [a.into(), 0, 0],
            Fetched::BB(a, b) => [a.into(), b.into(), 0],
            Fetched::S(a) => [a.into(), 0, 0],
            Fetched::BBB(a, b, c) => [a.into(), b.into(), c.into()],
            Fetched::BS(a, b) => [a.into(), b.into(), 0],
            Fetched::W(a) => [a, 0, 0],
            Fetched::BSS(a, b, c) => [a.into(), b.into(), c.into()],
        }
    }
}

/// The instruction at the first byte, a prefix by itself; "Fetch: empty is 24, then 23, then 24."
pub fn fetch(code: &[u8]) -> Result<Fetched, Refusal> {
    let Some(byte) = code.first() else {
        return Err(24);
    };
    let Some(opcode) = OPCODES.get(usize::from(*byte)) else {
        return Err(23);
    };
    if code.len() < opcode.kind.size() {
        return Err(24);
    }
    let two = |at: usize| u16::from(code[at]) * 256 + u16::from(code[at + 1]);
    Ok(match opcode.kind {
        Kind::Z => Fetched::Z,
        Kind::B => Fetched::B(code[1]),
        Kind::BB => Fetched::BB(code[1], code[2]),
        Kind::S => Fetched::S(two(1)),
        Kind::BBB => Fetched::BBB(code[1], code[2], code[3]),
        Kind::BS => Fetched::BS(code[1], two(2)),
        Kind::W => Fetched::W(u32::from(code[1]) * 65_536 + u32::from(two(2))),
        Kind::BSS => Fetched::BSS(code[1], two(2), two(4)),
    })
}

/// What an operand means, and so what it is held against.
#[derive(Debug, Clone, Copy, PartialEq, Eq)]
pub enum Role {
    Plain,
    Register,
    Pool,
    Symbol,
    Child,
}

/// The roles of an opcode's operands.
pub fn roles(opcode: &Opcode) -> [Role; 3] {
    [first_role(opcode), second_role(opcode), third_role(opcode)]
}

/// "the first operand of B, BB, BBB, BS, BSS is a register, except in" four opcodes.
fn first_role(opcode: &Opcode) -> Role {
    match opcode.kind {
        Kind::Z | Kind::S | Kind::W => Role::Plain,
        Kind::B | Kind::BB | Kind::BBB | Kind::BS | Kind::BSS => match opcode.name {
            "UNDEF" | "ALIAS" => Role::Symbol,
            "ERR" => Role::Pool,
            "DEBUG" => Role::Plain,
            _ => Role::Register,
        },
    }
}

fn second_role(opcode: &Opcode) -> Role {
    match opcode.name {
        "MOVE" | "RESCUE" | "ARRAY2" | "AREF" | "ASET" => Role::Register,
        "LOADL" | "SYMBOL" | "STRING" => Role::Pool,
        // "GETGV to SETMCNST"
        "GETGV" | "SETGV" | "GETSV" | "SETSV" | "GETIV" | "SETIV" | "GETCV" | "SETCV"
        | "GETCONST" | "SETCONST" | "GETMCNST" | "SETMCNST" => Role::Symbol,
        "LOADSYM" | "SSEND" | "SSENDB" | "SEND" | "SENDB" | "KEY_P" | "KARG" | "CLASS"
        | "MODULE" | "DEF" | "ALIAS" => Role::Symbol,
        "LAMBDA" | "BLOCK" | "METHOD" | "EXEC" => Role::Child,
        // Paper 02: "GETIDX0's second operand is a register."
        "GETIDX0" => Role::Register,
        // "In SSEND0 and SEND0 the second is a symbol. In TDEF and SDEF the second is a symbol"
        "SSEND0" | "SEND0" | "TDEF" | "SDEF" => Role::Symbol,
        // "All else is plain", and "The other opcodes without a comment keep paper 01's roles."
        _ => Role::Plain,
    }
}

/// "In TDEF and SDEF the second is a symbol and the third a child."
fn third_role(opcode: &Opcode) -> Role {
    match opcode.name {
        "TDEF" | "SDEF" => Role::Child,
        _ => Role::Plain,
    }
}

/// Where an instruction leads by itself.
#[derive(Debug, Clone, Copy, PartialEq, Eq)]
pub enum Flow {
    /// To the next offset.
    Next,
    /// JMP and JMPUW: to the jump's target.
    Jump,
    /// JMPIF, JMPNOT, JMPNIL: to the next offset or to the target.
    MayJump,
    /// An ending opcode: the frame goes.
    Ends,
}

pub fn flow(opcode: &Opcode) -> Flow {
    match opcode.name {
        "JMP" | "JMPUW" => Flow::Jump,
        "JMPIF" | "JMPNOT" | "JMPNIL" => Flow::MayJump,
        "RETURN" | "RETURN_BLK" | "RETSELF" | "RETNIL" | "RETTRUE" | "RETFALSE" | "BREAK"
        | "CALL" | "ERR" | "STOP" => Flow::Ends,
        _ => Flow::Next,
    }
}

/// An opcode's name and the kind of its operands.
#[derive(Debug, Clone, Copy, PartialEq, Eq)]
pub struct Opcode {
    pub name: &'static str,
    pub kind: Kind,
}

const fn opcode(name: &'static str, kind: Kind) -> Opcode {
    Opcode { name, kind }
}

/// The opcodes 0 to 118.
#[rustfmt::skip]
pub const OPCODES: [Opcode; 119] = [
    opcode("NOP", Kind::Z),
    opcode("MOVE", Kind::BB),
    opcode("LOADL", Kind::BB),
    opcode("LOADI", Kind::BB),
    opcode("LOADINEG", Kind::BB),
    opcode("LOADI__1", Kind::B),
    opcode("LOADI_0", Kind::B),
    opcode("LOADI_1", Kind::B),
    opcode("LOADI_2", Kind::B),
    opcode("LOADI_3", Kind::B),
    opcode("LOADI_4", Kind::B),
    opcode("LOADI_5", Kind::B),
    opcode("LOADI_6", Kind::B),
    opcode("LOADI_7", Kind::B),
    opcode("LOADI16", Kind::BS),
    opcode("LOADI32", Kind::BSS),
    opcode("LOADSYM", Kind::BB),
    opcode("LOADNIL", Kind::B),
    opcode("LOADSELF", Kind::B),
    opcode("LOADT", Kind::B),
    opcode("LOADF", Kind::B),
    opcode("GETGV", Kind::BB),
    opcode("SETGV", Kind::BB),
    opcode("GETSV", Kind::BB),
    opcode("SETSV", Kind::BB),
    opcode("GETIV", Kind::BB),
    opcode("SETIV", Kind::BB),
    opcode("GETCV", Kind::BB),
    opcode("SETCV", Kind::BB),
    opcode("GETCONST", Kind::BB),
    opcode("SETCONST", Kind::BB),
    opcode("GETMCNST", Kind::BB),
    opcode("SETMCNST", Kind::BB),
    opcode("GETUPVAR", Kind::BBB),
    opcode("SETUPVAR", Kind::BBB),
    opcode("GETIDX", Kind::B),
    opcode("GETIDX0", Kind::BB),
    opcode("SETIDX", Kind::B),
    opcode("JMP", Kind::S),
    opcode("JMPIF", Kind::BS),
    opcode("JMPNOT", Kind::BS),
    opcode("JMPNIL", Kind::BS),
    opcode("JMPUW", Kind::S),
    opcode("EXCEPT", Kind::B),
    opcode("RESCUE", Kind::BB),
    opcode("RAISEIF", Kind::B),
    opcode("MATCHERR", Kind::B),
    opcode("SSEND", Kind::BBB),
    opcode("SSEND0", Kind::BB),
    opcode("SSENDB", Kind::BBB),
    opcode("SEND", Kind::BBB),
    opcode("SEND0", Kind::BB),
    opcode("SENDB", Kind::BBB),
    opcode("CALL", Kind::Z),
    opcode("BLKCALL", Kind::BB),
    opcode("SUPER", Kind::BB),
    opcode("ARGARY", Kind::BS),
    opcode("ENTER", Kind::W),
    opcode("KEY_P", Kind::BB),
    opcode("KEYEND", Kind::Z),
    opcode("KARG", Kind::BB),
    opcode("RETURN", Kind::B),
    opcode("RETURN_BLK", Kind::B),
    opcode("RETSELF", Kind::Z),
    opcode("RETNIL", Kind::Z),
    opcode("RETTRUE", Kind::Z),
    opcode("RETFALSE", Kind::Z),
    opcode("BREAK", Kind::B),
    opcode("BLKPUSH", Kind::BS),
    opcode("ADD", Kind::B),
    opcode("ADDI", Kind::BB),
    opcode("SUB", Kind::B),
    opcode("SUBI", Kind::BB),
    opcode("ADDILV", Kind::BBB),
    opcode("SUBILV", Kind::BBB),
    opcode("MUL", Kind::B),
    opcode("DIV", Kind::B),
    opcode("EQ", Kind::B),
    opcode("LT", Kind::B),
    opcode("LE", Kind::B),
    opcode("GT", Kind::B),
    opcode("GE", Kind::B),
    opcode("ARRAY", Kind::BB),
    opcode("ARRAY2", Kind::BBB),
    opcode("ARYCAT", Kind::B),
    opcode("ARYPUSH", Kind::BB),
    opcode("ARYSPLAT", Kind::B),
    opcode("AREF", Kind::BBB),
    opcode("ASET", Kind::BBB),
    opcode("APOST", Kind::BBB),
    opcode("INTERN", Kind::B),
    opcode("SYMBOL", Kind::BB),
    opcode("STRING", Kind::BB),
    opcode("STRCAT", Kind::B),
    opcode("HASH", Kind::BB),
    opcode("HASHADD", Kind::BB),
    opcode("HASHCAT", Kind::B),
    opcode("LAMBDA", Kind::BB),
    opcode("BLOCK", Kind::BB),
    opcode("METHOD", Kind::BB),
    opcode("RANGE_INC", Kind::B),
    opcode("RANGE_EXC", Kind::B),
    opcode("OCLASS", Kind::B),
    opcode("CLASS", Kind::BB),
    opcode("MODULE", Kind::BB),
    opcode("EXEC", Kind::BB),
    opcode("DEF", Kind::BB),
    opcode("TDEF", Kind::BBB),
    opcode("SDEF", Kind::BBB),
    opcode("ALIAS", Kind::BB),
    opcode("UNDEF", Kind::B),
    opcode("SCLASS", Kind::B),
    opcode("TCLASS", Kind::B),
    opcode("DEBUG", Kind::BBB),
    opcode("ERR", Kind::B),
    opcode("EXT1", Kind::Z),
    opcode("EXT2", Kind::Z),
    opcode("EXT3", Kind::Z),
    opcode("STOP", Kind::Z),
];

#[cfg(test)]
mod tests {
    use super::*;
    use crate::examine::step_at;

    /// The bytes of an instruction of zeros, and more zeros behind it.
    fn code(prefix: Option<u8>, opcode: u8) -> Vec<u8> {
        let first: Vec<u8> = prefix.into_iter().chain([opcode]).collect();
        [&first[..], &[0; 8]].concat()
    }

    /// Every opcode with its byte.
    fn all() -> impl Iterator<Item = (u8, &'static Opcode)> {
        (0..).zip(&OPCODES)
    }

    #[test]
    fn sizes_are_the_opcode_byte_and_the_operands() {
        for (byte, opcode) in all() {
            let size = opcode.kind.size();
            assert_eq!(size, 1 + opcode.kind.own_widths().iter().sum::<usize>());
            let code = code(None, byte);
            assert_eq!(fetch(&code[..size - 1]), Err(24), "{}", opcode.name);
            assert!(fetch(&code[..size]).is_ok(), "{}", opcode.name);
        }
    }

    /// "paper 01's size, plus one for a prefix and each operand it widens"
    #[test]
    fn sizes_behind_prefixes() {
        for (byte, opcode) in all().filter(|(byte, _)| !is_prefix(*byte)) {
            for prefix in EXT1..=EXT3 {
                let kind = opcode.kind;
                let widened = [widens_first(prefix, kind), widens_second(prefix, kind)];
                let widened = widened.into_iter().filter(|widens| *widens).count();
                let size = kind.size() + 1 + widened;
                let code = code(Some(prefix), byte);
                let read = |length: usize| step_at(&code[..length], 0).map(|step| step.next);
                assert_eq!(read(code.len()), Ok(size), "{prefix} {}", opcode.name);
                assert!((2..size).all(|length| read(length) == Err(16)));
            }
        }
    }
}
