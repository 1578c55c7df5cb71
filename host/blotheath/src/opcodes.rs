//! The opcodes one by one, in the order of their bytes, which is that of mruby's ops.h.

use crate::opcode::{Flow, PREFIXES, Role, flow, is_prefix, name};
use crate::step::{Kind, Step};

/// An opcode, with the sizes of its instruction and what its operands name.
#[derive(Debug, Clone, PartialEq, Eq)]
pub struct Opcode {
    pub byte: u8,
    pub name: &'static str,
    pub kind: Kind,
    /// The bytes of the instruction without a prefix.
    pub size: u32,
    /// The bytes behind each of [`PREFIXES`], the prefix counted; none for a prefix, as 25 refuses one behind another.
    pub behind: [Option<u32>; 3],
    /// The roles of the operands that the kind has.
    pub roles: Vec<Role>,
    /// The registers that the instruction touches, in the letters of its operands; n and k are four bits each of the last.
    pub registers: Vec<&'static str>,
    /// The place among the operands of a jump's distance.
    pub distance: Option<usize>,
    /// Where the instruction leads by itself; none for a prefix, which is no instruction by itself.
    pub flow: Option<Flow>,
}

impl Opcode {
    /// Every opcode.
    pub fn all() -> impl Iterator<Item = Opcode> {
        (0..=u8::MAX).map_while(Opcode::of)
    }

    /// The opcode of a byte; an unknown byte has none.
    pub fn of(byte: u8) -> Option<Opcode> {
        let alone = Step::of_zeros(None, byte)?;
        let size_behind = |prefix| Step::of_zeros(Some(prefix), byte).map(|step| step.next);
        Some(Opcode {
            byte,
            name: name(byte)?,
            kind: alone.kind,
            size: alone.next,
            behind: PREFIXES.map(size_behind),
            roles: alone.with_roles().map(|(_, role)| role).collect(),
            registers: alone.register_words().collect(),
            distance: alone.distance(),
            flow: (!is_prefix(byte)).then(|| flow(byte)),
        })
    }
}
