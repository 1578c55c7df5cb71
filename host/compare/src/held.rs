//! What is held against the original for a file: the file itself, or a twin where zeros stand inside pool strings, which the original refuses.

use crate::allowance::read_all;
use crate::oracle;
use model::{PoolRow, Reading};

/// What a twin has for each zero inside a pool string.
const NO_ZERO: u8 = 1;

/// What is held against the original for a file.
pub enum Held {
    /// The file itself.
    Itself,
    /// "equality with the Rust leaves out its file": a file without these zeros that is read alike.
    Twin(Vec<u8>),
    /// Nothing, as a byte that the twin changes is read as something else too.
    Nothing,
}

impl Held {
    /// What is held for a file that is read so; one with zeros inside pool strings is refused by the original.
    pub fn of(file: &[u8], reading: &Reading) -> Result<Held, String> {
        let twin = twin(file, &reading.rows.pool.rows);
        if twin == file {
            return Ok(Held::Itself);
        }
        oracle::breaks_zero_rule(file)?;
        if read_all(&twin) != *reading {
            return Ok(Held::Nothing);
        }
        Ok(Held::Twin(twin))
    }

    /// The bytes that are held for this file.
    pub fn bytes<'a>(&'a self, file: &'a [u8]) -> Option<&'a [u8]> {
        match self {
            Held::Itself => Some(file),
            Held::Twin(twin) => Some(twin),
            Held::Nothing => None,
        }
    }

    /// Whether the file is left out of the equality with the original.
    pub fn is_left_out(&self) -> bool {
        !matches!(self, Held::Itself)
    }
}

/// "Pool kinds: 0 and 2 string"
pub fn is_string(row: &PoolRow) -> bool {
    row.kind == 0 || row.kind == 2
}

/// The file with another byte for each zero inside the strings of these constants.
fn twin(file: &[u8], pool: &[PoolRow]) -> Vec<u8> {
    let mut twin = file.to_vec();
    for row in pool.iter().filter(|row| is_string(row)) {
        let text = &mut twin[row.place as usize..][..row.length as usize];
        for byte in text.iter_mut().filter(|byte| **byte == 0) {
            *byte = NO_ZERO;
        }
    }
    twin
}

#[cfg(test)]
mod tests {
    use super::*;

    /// Where the IREP section and its first record begin.
    const SECTION: usize = 20;
    const RECORD: usize = SECTION + 12;

    /// A file with one record that has this constant and nothing else.
    fn with_constant(constant: &[u8]) -> Vec<u8> {
        let size = 20 + constant.len() as u8;
        let mut file = b"RITE0400\0\0\0\0\0\0\0\0\0\0\0\0".to_vec();
        file.extend(b"IREP\0\0\0");
        file.extend([12 + size, 0, 0, 0, 0]);
        file.extend([0, 0, 0, size, 0, 1, 0, 1, 0, 0, 0, 0, 0, 0, 0, 0]);
        file.extend([0, 1]);
        file.extend(constant);
        file.extend([0, 0]);
        file
    }

    fn held(file: &[u8]) -> Held {
        Held::of(file, &read_all(file)).unwrap()
    }

    #[test]
    fn only_zeros_inside_pool_strings_have_a_twin() {
        for constant in [
            &[0, 0, 2, b'a', b'b', 0][..],
            &[2, 0, 0, 0],
            &[1, 0, 0, 0, 0],
            &[3, 0, 0, 0, 0, 0, 0, 0, 0],
            &[7, 1, 0, 0],
            &[0, 0, 1, 0, 1],
        ] {
            let file = with_constant(constant);
            assert!(matches!(held(&file), Held::Itself), "{constant:?}");
        }
        for kind in [0, 2] {
            let file = with_constant(&[kind, 0, 3, 0, b'b', 0, 0]);
            let Held::Twin(twin) = held(&file) else {
                panic!("no twin of kind {kind}");
            };
            let without = with_constant(&[kind, 0, 3, NO_ZERO, b'b', NO_ZERO, 0]);
            assert_eq!(twin, without);
        }
    }

    #[test]
    fn a_twin_that_is_read_otherwise_is_not_held() {
        let record = [0, 0, 0, 20, 0, 1, 0, 1, 0, 0, 0, 0, 0, 0, 0, 0, 0, 0, 0, 0];
        let head = [0, 0, record.len() as u8];
        let mut file = with_constant(&[&head[..], &record, &[0]].concat());
        // The first record's size leads to its own text, which is the second record and the section's end.
        let text = 16 + 2 + head.len();
        file[RECORD + 3] = text as u8;
        file[SECTION + 7] = (12 + text + record.len()) as u8;
        assert_eq!(read_all(&file).rows.used()[0], 2);
        assert!(matches!(held(&file), Held::Nothing));
    }
}
