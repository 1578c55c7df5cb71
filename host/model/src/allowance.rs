//! What a caller takes: so many bytes of a file and so many records.

use crate::{FILE_LIMIT, RECORD_LIMIT};

/// The largest file and the largest number of records that a call takes.
#[derive(Debug, Clone, Copy, PartialEq, Eq)]
pub struct Allowance {
    pub bytes: u32,
    pub records: u32,
}

impl Allowance {
    /// "The desktop keeps 65,536 and 1,024."
    pub const DESKTOP: Allowance = Allowance {
        bytes: FILE_LIMIT as u32,
        records: RECORD_LIMIT as u32,
    };

    /// "The preview page takes 16,384 bytes and 64 records."
    pub const PREVIEW: Allowance = Allowance {
        bytes: 16_384,
        records: 64,
    };

    /// "A larger number in it counts as the desktop's."
    pub fn granted(self) -> Allowance {
        Allowance {
            bytes: self.bytes.min(Allowance::DESKTOP.bytes),
            records: self.records.min(Allowance::DESKTOP.records),
        }
    }
}
