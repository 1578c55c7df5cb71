//! Names, roles and flow of the opcodes, for showing steps; a test holds them against host/model.

/// What an operand means.
#[derive(Debug, Clone, Copy, PartialEq, Eq)]
pub enum Role {
    Plain,
    Register,
    Constant,
    Symbol,
    Child,
}

impl Role {
    /// The word for an operand of this role.
    pub fn word(self) -> &'static str {
        match self {
            Role::Plain => "plain",
            Role::Register => "register",
            Role::Constant => "constant",
            Role::Symbol => "symbol",
            Role::Child => "child",
        }
    }
}

/// Where an instruction leads by itself.
#[derive(Debug, Clone, Copy, PartialEq, Eq)]
pub enum Flow {
    /// To the next offset.
    Next,
    /// To the target.
    Jump,
    /// To the next offset or to the target.
    MayJump,
    /// Out of the frame.
    Ends,
}

/// The prefix opcodes EXT1, EXT2 and EXT3: an instruction that has one begins at it, and its opcode stands behind it.
pub const PREFIXES: [u8; 3] = [115, 116, 117];

pub fn is_prefix(opcode: u8) -> bool {
    PREFIXES.contains(&opcode)
}

/// Whether a prefix widens the operand at a place, counted from 0, to two bytes where it has one.
pub fn widens(prefix: u8, place: usize) -> bool {
    match place {
        0 => matches!(name(prefix), Some("EXT1" | "EXT3")),
        1 => matches!(name(prefix), Some("EXT2" | "EXT3")),
        _ => false,
    }
}

/// The name of an opcode; an unknown one has none.
pub fn name(opcode: u8) -> Option<&'static str> {
    NAMES.get(usize::from(opcode)).copied()
}

/// The opcode of a name, in letters of any case.
pub fn byte_of(name: &str) -> Option<u8> {
    let place = NAMES
        .iter()
        .position(|known| known.eq_ignore_ascii_case(name))?;
    u8::try_from(place).ok()
}

/// The roles of an opcode's operands.
pub fn roles(opcode: u8) -> [Role; 3] {
    [first_role(opcode), second_role(opcode), third_role(opcode)]
}

fn first_role(opcode: u8) -> Role {
    match name(opcode) {
        Some("UNDEF" | "ALIAS") => Role::Symbol,
        Some("ERR") => Role::Constant,
        // Their first operand is a number, a distance, or is not there.
        Some("DEBUG" | "ENTER" | "JMP" | "JMPUW") | None => Role::Plain,
        Some(
            "NOP" | "CALL" | "KEYEND" | "RETSELF" | "RETNIL" | "RETTRUE" | "RETFALSE" | "EXT1"
            | "EXT2" | "EXT3" | "STOP",
        ) => Role::Plain,
        Some(_) => Role::Register,
    }
}

fn second_role(opcode: u8) -> Role {
    match name(opcode) {
        Some("MOVE" | "GETIDX0" | "RESCUE" | "ARRAY2" | "AREF" | "ASET") => Role::Register,
        Some("LOADL" | "SYMBOL" | "STRING") => Role::Constant,
        Some(
            "GETGV" | "SETGV" | "GETSV" | "SETSV" | "GETIV" | "SETIV" | "GETCV" | "SETCV"
            | "GETCONST" | "SETCONST" | "GETMCNST" | "SETMCNST",
        ) => Role::Symbol,
        Some(
            "LOADSYM" | "SSEND" | "SSEND0" | "SSENDB" | "SEND" | "SEND0" | "SENDB" | "KEY_P"
            | "KARG" | "CLASS" | "MODULE" | "DEF" | "TDEF" | "SDEF" | "ALIAS",
        ) => Role::Symbol,
        Some("LAMBDA" | "BLOCK" | "METHOD" | "EXEC") => Role::Child,
        _ => Role::Plain,
    }
}

fn third_role(opcode: u8) -> Role {
    match name(opcode) {
        Some("TDEF" | "SDEF") => Role::Child,
        _ => Role::Plain,
    }
}

/// Where an opcode leads.
pub fn flow(opcode: u8) -> Flow {
    match name(opcode) {
        Some("JMP" | "JMPUW") => Flow::Jump,
        Some("JMPIF" | "JMPNOT" | "JMPNIL") => Flow::MayJump,
        Some(
            "RETURN" | "RETURN_BLK" | "RETSELF" | "RETNIL" | "RETTRUE" | "RETFALSE" | "BREAK"
            | "CALL" | "ERR" | "STOP",
        ) => Flow::Ends,
        _ => Flow::Next,
    }
}

/// The names of the opcodes 0 to 118.
#[rustfmt::skip]
pub const NAMES: [&str; 119] = [
    "NOP", "MOVE", "LOADL", "LOADI", "LOADINEG", "LOADI__1", "LOADI_0", "LOADI_1",
    "LOADI_2", "LOADI_3", "LOADI_4", "LOADI_5", "LOADI_6", "LOADI_7", "LOADI16", "LOADI32",
    "LOADSYM", "LOADNIL", "LOADSELF", "LOADT", "LOADF", "GETGV", "SETGV", "GETSV",
    "SETSV", "GETIV", "SETIV", "GETCV", "SETCV", "GETCONST", "SETCONST", "GETMCNST",
    "SETMCNST", "GETUPVAR", "SETUPVAR", "GETIDX", "GETIDX0", "SETIDX", "JMP", "JMPIF",
    "JMPNOT", "JMPNIL", "JMPUW", "EXCEPT", "RESCUE", "RAISEIF", "MATCHERR", "SSEND",
    "SSEND0", "SSENDB", "SEND", "SEND0", "SENDB", "CALL", "BLKCALL", "SUPER",
    "ARGARY", "ENTER", "KEY_P", "KEYEND", "KARG", "RETURN", "RETURN_BLK", "RETSELF",
    "RETNIL", "RETTRUE", "RETFALSE", "BREAK", "BLKPUSH", "ADD", "ADDI", "SUB",
    "SUBI", "ADDILV", "SUBILV", "MUL", "DIV", "EQ", "LT", "LE",
    "GT", "GE", "ARRAY", "ARRAY2", "ARYCAT", "ARYPUSH", "ARYSPLAT", "AREF",
    "ASET", "APOST", "INTERN", "SYMBOL", "STRING", "STRCAT", "HASH", "HASHADD",
    "HASHCAT", "LAMBDA", "BLOCK", "METHOD", "RANGE_INC", "RANGE_EXC", "OCLASS", "CLASS",
    "MODULE", "EXEC", "DEF", "TDEF", "SDEF", "ALIAS", "UNDEF", "SCLASS",
    "TCLASS", "DEBUG", "ERR", "EXT1", "EXT2", "EXT3", "STOP",
];

#[cfg(test)]
mod tests {
    use super::*;

    fn role(role: model::Role) -> Role {
        match role {
            model::Role::Plain => Role::Plain,
            model::Role::Register => Role::Register,
            model::Role::Pool => Role::Constant,
            model::Role::Symbol => Role::Symbol,
            model::Role::Child => Role::Child,
        }
    }

    #[test]
    fn the_model_has_the_same_table() {
        for (number, opcode) in model::OPCODES.iter().enumerate() {
            let byte = number as u8;
            assert_eq!(name(byte), Some(opcode.name));
            assert_eq!(
                roles(byte),
                model::roles(opcode).map(role),
                "{}",
                opcode.name
            );
            let flows = (model::flow(opcode), flow(byte));
            assert!(matches!(
                flows,
                (model::Flow::Next, Flow::Next)
                    | (model::Flow::Jump, Flow::Jump)
                    | (model::Flow::MayJump, Flow::MayJump)
                    | (model::Flow::Ends, Flow::Ends)
            ));
        }
        assert_eq!(name(119), None);
    }
}
