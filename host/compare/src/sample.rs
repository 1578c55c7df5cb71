//! Files of a few records whose code and counts are chosen, with nothing else that examination looks at.

use crate::generate::{be2, be4, exact, overwrite, state_size};
use model::{Refusal, Role};

/// Paper 01's File A: 64 bytes.
pub fn file_a() -> Vec<u8> {
    let mut file = b"RITE0400\0\0\0\x40\0\0\0\0\0\0\0\0".to_vec();
    file.extend(b"IREP\0\0\0\x24\0\0\0\0");
    file.extend([0, 0, 0, 24, 0, 1, 0, 2, 0, 0, 0, 0, 0, 0, 0, 4]);
    file.extend([17, 1, 61, 1, 0, 0, 0, 0]);
    file.extend(b"END\0\0\0\0\x08");
    file
}

/// The opcode of the code that a record has where it does not matter.
pub const STOP: u8 = 118;

/// What the operands of a record's instructions are held against.
#[derive(Clone, Copy)]
pub struct Counts {
    pub registers: u16,
    pub constants: u16,
    pub symbols: u16,
    pub children: u16,
}

impl Counts {
    /// What an operand of a role is below; a plain one is below nothing.
    pub fn of(self, role: Role) -> Option<u16> {
        match role {
            Role::Plain => None,
            Role::Register => Some(self.registers),
            Role::Pool => Some(self.constants),
            Role::Symbol => Some(self.symbols),
            Role::Child => Some(self.children),
        }
    }
}

/// A file and the answer of its examination.
pub type Examined = (Vec<u8>, Refusal);

/// A list of choices, and what its run answers: finished, record, offset, found, line and frames.
pub type Run = (Vec<u8>, [u32; 6]);

/// What a run answers that has no frame left.
pub const FINISHED: [u32; 6] = [1, 0, 0, 0, 0, 0];

/// What a run without lines answers that stands in a record at an offset, with so many frames.
pub fn stands_at(record: u32, offset: u32, frames: u32) -> [u32; 6] {
    [0, record, offset, 0, 0, frames]
}

/// The counts of a record whose code is STOP.
pub const BARE: Counts = Counts {
    registers: 1,
    constants: 0,
    symbols: 0,
    children: 0,
};

/// A record with this code, these targets of handlers and these counts; its constants and symbols are empty texts.
pub fn record(code: &[u8], targets: &[usize], counts: Counts) -> Vec<u8> {
    let mut record = vec![0; 4];
    let handlers = targets.len();
    for field in [1, counts.registers.into(), counts.children.into(), handlers] {
        record.extend(be2(field));
    }
    record.extend(be4(code.len()));
    record.extend(code);
    for target in targets {
        record.extend([0; 9]);
        record.extend(be4(*target));
    }
    record.extend(be2(counts.constants.into()));
    record.extend([2, 0, 0, 0].repeat(counts.constants.into()));
    record.extend(be2(counts.symbols.into()));
    record.extend([0, 0, 0].repeat(counts.symbols.into()));
    let size = record.len();
    overwrite(&mut record, 0, &be4(size));
    record
}

/// A record whose code is STOP.
pub fn bare_record() -> Vec<u8> {
    record(&[STOP], &[], BARE)
}

/// A file of these records and these sections.
pub fn file(records: &[Vec<u8>], sections: &[Vec<u8>]) -> Vec<u8> {
    let mut file = b"RITE0400\0\0\0\0\0\0\0\0\0\0\0\0".to_vec();
    file.extend(exact(b"IREP", &[vec![0; 4], records.concat()].concat()));
    file.extend(sections.concat());
    file.extend(exact(b"END\0", &[]));
    let size = file.len();
    state_size(&mut file, size);
    file
}

/// A file whose first record is this one with so many children, which have nothing but STOP.
pub fn with_children(first: Vec<u8>, children: u16) -> Vec<u8> {
    let mut records = vec![first];
    records.resize(1 + usize::from(children), bare_record());
    file(&records, &[])
}

/// A file whose first record has this code and these counts, and its children nothing but STOP.
pub fn coded(code: &[u8], counts: Counts) -> Vec<u8> {
    with_children(record(code, &[], counts), counts.children)
}

/// The most children that a record states.
pub const MOST_CHILDREN: u16 = u16::MAX;

/// Records with so many children, which have no name, and these sections.
pub fn tree(rlens: &[u16], sections: &[Vec<u8>]) -> Vec<u8> {
    let bare = |children: &u16| {
        let counts = Counts {
            children: *children,
            ..BARE
        };
        record(&[STOP], &[], counts)
    };
    let records: Vec<Vec<u8>> = rlens.iter().map(bare).collect();
    file(&records, sections)
}

/// An LVAR section without strings.
pub fn lvar() -> Vec<u8> {
    exact(b"LVAR", &[0; 4])
}
