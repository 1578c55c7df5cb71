//! Parts of files that several tests build, and lists of permitted opcodes.

use model::*;

/// A record of this code with so many children, these targets of handlers, two registers and one symbol.
pub fn record(code: &[u8], children: u16, targets: &[u8]) -> Vec<u8> {
    let mut body = vec![0, 1, 0, 2];
    body.extend(children.to_be_bytes());
    body.extend([0, targets.len() as u8]);
    body.extend((code.len() as u32).to_be_bytes());
    body.extend(code);
    for target in targets {
        body.extend([0; 12]);
        body.push(*target);
    }
    // No constant, and an empty symbol.
    body.extend([0, 0, 0, 1, 0, 0, 0]);
    [&(body.len() as u32 + 4).to_be_bytes()[..], &body].concat()
}

pub fn section(mark: &[u8; 4], content: &[u8]) -> Vec<u8> {
    let size = 8 + content.len() as u32;
    [&mark[..], &size.to_be_bytes(), content].concat()
}

/// A file of these records and of these sections behind them.
pub fn file_with(records: &[Vec<u8>], sections: &[Vec<u8>]) -> Vec<u8> {
    let irep = section(b"IREP", &[vec![0; 4], records.concat()].concat());
    let end = section(b"END\0", &[]);
    let mut file = [&b"RITE0400"[..], &[0; 12], &irep, &sections.concat(), &end].concat();
    let size = file.len() as u32;
    file[8..12].copy_from_slice(&size.to_be_bytes());
    file
}

pub fn file(records: &[Vec<u8>]) -> Vec<u8> {
    file_with(records, &[])
}

pub fn lent() -> Sizes {
    Sizes::of_rows([9; 9])
}

/// Everything but these.
pub fn without(bytes: &[u8]) -> Vec<u8> {
    let mut list = EVERYTHING.to_vec();
    for byte in bytes {
        list[usize::from(*byte)] = 0;
    }
    list
}
