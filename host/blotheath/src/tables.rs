//! The nine lent tables and how many rows are lent.

use crate::FILE_LIMIT;

/// The tables' numbers, in the order of the C boundary.
pub const RECORDS: usize = 0;
pub const HANDLERS: usize = 1;
pub const POOL: usize = 2;
pub const SYMBOLS: usize = 3;
pub const STRINGS: usize = 4;
pub const NAMES: usize = 5;
pub const FILENAMES: usize = 6;
pub const FILES: usize = 7;
pub const LINES: usize = 8;

/// The words of the nine tables.
pub type Words = [Vec<u32>; 9];

/// The words of a record's row.
pub const RECORD_WORDS: usize = 21;

/// The words of one row of each table.
pub const ROW_WORDS: [usize; 9] = [RECORD_WORDS, 4, 3, 2, 2, 1, 2, 4, 2];

/// The largest number of records.
pub const RECORD_LIMIT: usize = 1_024;

/// The most bytes that are lent in all.
const MOST_BYTES: usize = 24 << 20;

/// The fewest bytes of a record, a handler, a constant and a symbol.
const RECORD_BYTES: usize = 20;
const HANDLER_BYTES: usize = 13;
const CONSTANT_BYTES: usize = 3;
const SYMBOL_BYTES: usize = 3;

/// The rows to lend for a file of this length, where so many records lie over each other.
///
/// Bytes where records overlap are read once for each, as rows of records, handlers, constants and symbols.
/// The other rows are read one behind the other: each has at least the bytes that the length is divided by.
pub fn rows(length: usize, overlap: usize) -> [usize; 9] {
    [
        RECORD_LIMIT.min(length / RECORD_BYTES * overlap),
        length / HANDLER_BYTES * overlap,
        length / CONSTANT_BYTES * overlap,
        length / SYMBOL_BYTES * overlap,
        length / 2,
        length / 2,
        length / 2,
        length / 11,
        length / 2,
    ]
}

fn bytes(rows: [usize; 9]) -> usize {
    (0..9).map(|t| rows[t] * ROW_WORDS[t] * 4).sum()
}

/// The overlaps to try in turn: the last is the largest that the memory allows, or every record over every other.
fn overlaps(length: usize) -> Vec<usize> {
    let records = 4 * RECORD_LIMIT * ROW_WORDS[RECORDS];
    let fixed = bytes(rows(length, 0)) + records;
    let once = rows(length, 1);
    let shared = [HANDLERS, POOL, SYMBOLS].map(|t| 4 * once[t] * ROW_WORDS[t]);
    let each = shared.iter().sum::<usize>().max(1);
    let most = ((MOST_BYTES - fixed) / each).clamp(1, RECORD_LIMIT);
    let mut tried: Vec<usize> = [1, 8, 64].into_iter().filter(|n| *n < most).collect();
    tried.push(most);
    tried
}

/// Rows that suffice for what a compiler writes: few of the bytes that a row stands for are its fewest.
pub fn usual(length: usize) -> [usize; 9] {
    [32, 32, 12, 12, 24, 16, 64, 32, 12].map(|bytes| length / bytes + 1)
}

/// The rows to lend for a file of this length, to be tried in turn while 14 is answered.
fn tries(length: usize) -> impl Iterator<Item = [usize; 9]> {
    let more = overlaps(length).into_iter();
    std::iter::once(usual(length)).chain(more.map(move |overlap| rows(length, overlap)))
}

/// The most rows that are lent for a file of this length.
pub fn most_rows(length: usize) -> [usize; 9] {
    let most = tries(length).last();
    most.expect("there is at least one size to try")
}

/// Tables of zeros with so many rows.
pub fn zeros(rows: [usize; 9]) -> Words {
    std::array::from_fn(|t| vec![0; rows[t] * ROW_WORDS[t]])
}

/// Lends tables to a call that answers a refusal's number first, and lends more where that is 14.
pub fn lend<T>(file: &[u8], mut call: impl FnMut(&mut Words) -> (u32, T)) -> (Words, T) {
    let length = file.len().min(FILE_LIMIT);
    let mut last = None;
    for rows in tries(length) {
        drop(last.take());
        let mut words = zeros(rows);
        let (number, answer) = call(&mut words);
        if number != 14 {
            return (words, answer);
        }
        last = Some((words, answer));
    }
    last.expect("there is at least one size to try")
}

#[cfg(test)]
mod tests {
    use super::*;

    #[test]
    fn the_memory_is_bounded() {
        for length in 0..=FILE_LIMIT {
            for rows in tries(length) {
                assert!(bytes(rows) <= MOST_BYTES, "{length}");
            }
        }
    }

    #[test]
    fn the_longest_file_is_lent_nearly_all() {
        let most = *overlaps(FILE_LIMIT).last().unwrap();
        assert!(bytes(rows(FILE_LIMIT, most)) > MOST_BYTES - (1 << 20));
    }

    /// So 14 for a record is told only of one that the desktop's allowance does not have, and 29 of every other.
    #[test]
    fn the_last_size_has_every_record() {
        for length in 32..=FILE_LIMIT {
            let most = *overlaps(length).last().unwrap();
            assert_eq!(rows(length, most)[RECORDS], RECORD_LIMIT);
        }
    }

    #[test]
    fn more_is_lent_after_14() {
        let mut lent = Vec::new();
        lend(&[0; 65_536], |words| {
            lent.push(words[POOL].len());
            (14, ())
        });
        assert!(lent.len() > 2 && lent.is_sorted());
    }
}
