//! Groups of opcodes, each for one thing that patterns are written with, and the names that opcodes go by.

use crate::opcode::{NAMES, byte_of};

/// Opcodes under one name.
#[derive(Debug, Clone, Copy, PartialEq, Eq)]
pub struct Group {
    pub name: &'static str,
    /// What a pattern has these opcodes for.
    pub about: &'static str,
    /// The names of the opcodes.
    pub names: &'static [&'static str],
}

const fn group(name: &'static str, about: &'static str, names: &'static [&'static str]) -> Group {
    Group { name, about, names }
}

/// The groups; an opcode may be in more than one, and each is in one besides the first.
#[rustfmt::skip]
const GROUPS: &[Group] = &[
    group("everything", "every opcode, the prefixes too", &NAMES),
    group("values", "numbers, nil, true, false and self, and moves between registers", &[
        "NOP", "MOVE", "LOADL", "LOADI", "LOADINEG", "LOADI__1", "LOADI_0", "LOADI_1", "LOADI_2", "LOADI_3", "LOADI_4", "LOADI_5", "LOADI_6",
        "LOADI_7", "LOADI16", "LOADI32", "LOADNIL", "LOADSELF", "LOADT", "LOADF",
    ]),
    group("texts", "strings and symbols", &["LOADSYM", "INTERN", "SYMBOL", "STRING", "STRCAT"]),
    group("arithmetic", "sums, differences, products, quotients and comparisons", &[
        "ADD", "ADDI", "SUB", "SUBI", "ADDILV", "SUBILV", "MUL", "DIV", "EQ", "LT", "LE", "GT", "GE",
    ]),
    group("collections", "arrays, hashes and ranges, and what stands at an index", &[
        "GETIDX", "GETIDX0", "SETIDX", "ARRAY", "ARRAY2", "ARYCAT", "ARYPUSH", "ARYSPLAT", "AREF", "ASET", "APOST", "HASH", "HASHADD", "HASHCAT",
        "RANGE_INC", "RANGE_EXC",
    ]),
    group("jumps", "conditions and loops", &["JMP", "JMPIF", "JMPNOT", "JMPNIL", "JMPUW"]),
    group("calls", "calls of methods, of super and of blocks", &[
        "SSEND", "SSEND0", "SSENDB", "SEND", "SEND0", "SENDB", "CALL", "BLKCALL", "SUPER",
    ]),
    group("returns", "the end of a method, of a block and of the pattern", &[
        "RETURN", "RETURN_BLK", "RETSELF", "RETNIL", "RETTRUE", "RETFALSE", "BREAK", "STOP",
    ]),
    group("parameters", "what methods and blocks take", &["ARGARY", "ENTER", "KEY_P", "KEYEND", "KARG"]),
    group("blocks", "blocks and lambdas: made, handed over, called and left, and the variables around them", &[
        "GETUPVAR", "SETUPVAR", "SSENDB", "SENDB", "BLKCALL", "RETURN_BLK", "BREAK", "BLKPUSH", "LAMBDA", "BLOCK",
    ]),
    group("methods", "definitions of methods, alias and undef", &["METHOD", "DEF", "TDEF", "SDEF", "ALIAS", "UNDEF", "TCLASS"]),
    group("classes", "class-definitions, and every def, since that writes a method into a class (TDEF, TCLASS)", &[
        "CLASS", "MODULE", "EXEC", "DEF", "TDEF", "SDEF", "SCLASS", "TCLASS",
    ]),
    group("class-definitions", "class, module, class << self and def self.name, with their bodies, but no plain def", &[
        "CLASS", "MODULE", "EXEC", "SDEF", "SCLASS",
    ]),
    group("constants", "constants, by which classes are named too", &["GETCONST", "SETCONST", "GETMCNST", "SETMCNST", "OCLASS"]),
    group("variables", "variables of objects and of classes: @name, @@name", &["GETIV", "SETIV", "GETCV", "SETCV"]),
    group("globals", "global and special variables: $name", &["GETGV", "SETGV", "GETSV", "SETSV"]),
    group("exceptions", "rescue and ensure, and what raises by itself", &["EXCEPT", "RESCUE", "RAISEIF", "MATCHERR", "ERR"]),
    group("debugging", "the step that prints its operands", &["DEBUG"]),
    group("prefixes", "what makes operands of two bytes, as large patterns need them", &["EXT1", "EXT2", "EXT3"]),
];

impl Group {
    /// Every group.
    pub fn all() -> impl Iterator<Item = &'static Group> {
        GROUPS.iter()
    }

    /// The group of a name, in letters of any case.
    pub fn of(name: &str) -> Option<&'static Group> {
        Group::all().find(|group| group.name.eq_ignore_ascii_case(name))
    }

    /// Its opcodes.
    pub fn opcodes(&self) -> impl Iterator<Item = u8> + '_ {
        self.names.iter().filter_map(|name| byte_of(name))
    }
}

/// The opcodes that a name stands for: that of an opcode or of a group, in letters of any case, or an opcode's number.
pub fn opcodes_named(name: &str) -> Option<Vec<u8>> {
    if let Some(group) = Group::of(name) {
        return Some(group.opcodes().collect());
    }
    let opcode = match name.bytes().all(|byte| byte.is_ascii_digit()) {
        true => name.parse().ok(),
        false => byte_of(name),
    };
    let opcode = opcode.filter(|opcode| usize::from(*opcode) < NAMES.len())?;
    Some(vec![opcode])
}

#[cfg(test)]
mod tests {
    use super::*;
    use std::collections::BTreeSet;

    #[test]
    fn groups_have_opcodes_in_their_order() {
        for group in Group::all() {
            assert!(!group.names.is_empty() && !group.about.is_empty());
            let bytes: Vec<u8> = group.opcodes().collect();
            assert_eq!(bytes.len(), group.names.len(), "{}", group.name);
            assert_eq!(opcodes_named(group.name), Some(bytes));
        }
    }

    #[test]
    fn classes_have_every_def_and_class_definitions_no_plain_one() {
        let of = |name: &str| -> BTreeSet<u8> { Group::of(name).unwrap().opcodes().collect() };
        let (classes, definitions) = (of("classes"), of("class-definitions"));
        assert!(classes.is_superset(&definitions));
        let plain = ["DEF", "TDEF", "TCLASS"].map(|name| byte_of(name).unwrap());
        assert_eq!(&classes - &definitions, BTreeSet::from(plain));
    }

    /// So a school can permit groups alone.
    #[test]
    fn every_opcode_is_in_a_group() {
        let grouped: BTreeSet<u8> = Group::all().skip(1).flat_map(Group::opcodes).collect();
        assert!(grouped.into_iter().eq(0..NAMES.len() as u8));
    }

    #[test]
    fn no_name_stands_for_two_things() {
        let groups = Group::all().map(|group| group.name.to_ascii_lowercase());
        let opcodes = NAMES.iter().map(|name| name.to_ascii_lowercase());
        let names: BTreeSet<String> = groups.chain(opcodes).collect();
        assert_eq!(names.len(), GROUPS.len() + NAMES.len());
        assert!(
            names
                .iter()
                .all(|name| !name.starts_with(|c: char| c.is_ascii_digit()))
        );
    }

    #[test]
    fn names_in_any_case_and_numbers() {
        for (name, opcodes) in [
            ("CLASS", Some(vec![103])),
            ("class", Some(vec![103])),
            ("Ext2", Some(vec![116])),
            ("0", Some(vec![0])),
            ("118", Some(vec![118])),
            ("007", Some(vec![7])),
            ("PREFIXES", Some(vec![115, 116, 117])),
            ("119", None),
            ("256", None),
            ("+1", None),
            ("-1", None),
            ("", None),
            ("clas", None),
            (" class", None),
        ] {
            assert_eq!(opcodes_named(name), opcodes, "{name}");
        }
    }
}
