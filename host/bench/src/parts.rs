//! The parts of a file that every built pattern has.

/// The bytes of a file header.
const HEADER_BYTES: usize = 20;

/// A file header and these sections; the header states the file's length.
pub fn file(sections: &[Vec<u8>]) -> Vec<u8> {
    let sections = sections.concat();
    let length = (HEADER_BYTES + sections.len()) as u32;
    [&b"RITE0400"[..], &length.to_be_bytes(), &[0; 8], &sections].concat()
}

pub fn section(mark: &[u8; 4], content: &[u8]) -> Vec<u8> {
    let size = 8 + content.len() as u32;
    [&mark[..], &size.to_be_bytes(), content].concat()
}
