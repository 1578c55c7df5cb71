//! The original loader, unchanged, with the error type and the marks that its sources name.

use std::hint::black_box;
use std::panic::catch_unwind;

include!(concat!(env!("OUT_DIR"), "/original.rs"));

/// The text of insn.rs, whose comments name registers.
pub const INSN: &str = include_str!(env!("ORIGINAL_insn"));

/// The errors that the sources name.
#[derive(Debug, Clone, PartialEq, Eq)]
pub enum Error {
    General,
    TooShort,
    InvalidFormat,
    InvalidOpCode,
    UnsupportedVersion([u8; 2]),
    UnknownPoolType(u8),
    Internal(String),
}

impl Error {
    /// The error of the fetchers and accessors.
    pub fn internal(text: &str) -> Error {
        Error::Internal(text.to_owned())
    }
}

/// The marks of the four kinds of section.
pub mod marker {
    pub const IREP: [char; 4] = ['I', 'R', 'E', 'P'];
    pub const LVAR: [char; 4] = ['L', 'V', 'A', 'R'];
    pub const DBG: [char; 4] = ['D', 'B', 'G', '\0'];
    pub const END: [char; 4] = ['E', 'N', 'D', '\0'];
}

/// Whether this crate is built with overflow checks; the panic hook sees the sum that passes its type.
pub fn checks_overflow() -> bool {
    catch_unwind(|| black_box(black_box(u32::MAX) + black_box(1))).is_err()
}

#[cfg(test)]
mod tests {
    #[test]
    fn sums_are_checked() {
        assert!(super::checks_overflow());
    }

    #[test]
    fn numbers_have_64_bits() {
        assert_eq!(usize::BITS, 64);
    }
}
