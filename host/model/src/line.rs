//! Packed numbers and the line of a position.

use crate::Refusal;
use crate::rows::Entry;

/// A packed number and the bytes that it takes.
#[derive(Debug, Clone, Copy, PartialEq, Eq)]
pub struct Packed {
    pub value: u32,
    pub bytes: usize,
}

/// "Packed: low 7 bits first, at most five bytes; bits above 31 drop."
pub fn packed(bytes: &[u8]) -> Result<Packed, Refusal> {
    let mut value: u64 = 0;
    for i in 0..5 {
        let Some(byte) = bytes.get(i) else {
            return Err(7);
        };
        value += u64::from(byte % 128) << (7 * i);
        if *byte < 128 {
            return Ok(Packed {
                value: (value % (1 << 32)) as u32,
                bytes: i + 1,
            });
        }
    }
    // "a fifth packed byte that continues"
    Err(12)
}

/// "`line_at` answers as its halving does; where no position falls, that is the last entry at or below."
pub fn line_at(map: &[Entry], position: u32) -> Option<u32> {
    let mut low = 0;
    let mut high = map.len();
    while low < high {
        let middle = (low + high) / 2;
        if map[middle].position <= position {
            low = middle + 1;
        } else {
            high = middle;
        }
    }
    if low == 0 {
        None
    } else {
        Some(map[low - 1].line)
    }
}
