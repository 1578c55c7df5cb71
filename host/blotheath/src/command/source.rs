//! The source beside which steps are shown.

use crate::command::lines::Lines;
use crate::command::{sha256, text};
use std::fs::File;
use std::io::{self, Read};
use std::path::Path;

/// The most bytes of a source that are read.
const MOST_BYTES: u64 = 1 << 20;

/// The lines of a source file.
pub struct Source {
    name: Vec<u8>,
    lines: Lines,
    /// The SHA-256 of the file; none of one that is longer than what is read.
    pub digest: Option<String>,
}

impl Source {
    /// Reads a source; a fault comes with the file's name.
    pub fn read(path: &Path) -> Result<Source, (String, io::Error)> {
        let mut bytes = Vec::new();
        File::open(path)
            .and_then(|file| file.take(MOST_BYTES + 1).read_to_end(&mut bytes))
            .map_err(|fault| (text::path(path), fault))?;
        let name = path.file_name().unwrap_or(path.as_os_str());
        let is_whole = bytes.len() as u64 <= MOST_BYTES;
        Ok(Source {
            name: name.as_encoded_bytes().to_vec(),
            digest: is_whole.then(|| sha256::digest(&bytes)),
            lines: Lines::of(&bytes),
        })
    }

    /// The file's name without its folder.
    pub fn name(&self) -> &[u8] {
        &self.name
    }

    /// Whether a debug file has this source's name.
    pub fn is_of(&self, debug_file: &[u8]) -> bool {
        debug_file.rsplit(|byte| *byte == b'/').next() == Some(&self.name[..])
    }

    /// The text of a line of a debug file of this name.
    pub fn line(&self, debug_file: &[u8], line: u32) -> Option<&str> {
        if !self.is_of(debug_file) {
            return None;
        }
        let index = (line as usize).checked_sub(1)?;
        self.lines.get(index)
    }
}
