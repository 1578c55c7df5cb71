//! The opcodes that a school permits.

use crate::examine::Step;
use crate::insn::OPCODES;

/// "With everything permitted": a yes for each opcode, the prefixes and STOP among them.
pub const EVERYTHING: [u8; OPCODES.len()] = [1; OPCODES.len()];

/// "a list of 119 bytes, one an opcode, 0 for no, else yes; a missing byte is no, one past 119 is not read"
pub fn permits(list: &[u8], byte: u8) -> bool {
    let read = &list[..list.len().min(OPCODES.len())];
    read.get(usize::from(byte)).is_some_and(|said| *said != 0)
}

/// "A prefix needs its own yes."
pub(crate) fn permits_step(list: &[u8], step: &Step) -> bool {
    let opcode = step.opcode as u8;
    step.prefix
        .into_iter()
        .chain([opcode])
        .all(|byte| permits(list, byte))
}
