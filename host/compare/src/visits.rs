//! Files with an LVAR section over trees of every shape, and the visits of request m) of paper 02.

use crate::generate::{be2, exact};
use crate::sample::{MOST_CHILDREN, lvar, tree};
use model::RECORD_LIMIT;

/// A file, how many records it has, and how many visits its LVAR walk makes.
pub struct Visited {
    pub file: Vec<u8>,
    pub records: u32,
    pub visits: u32,
}

/// The records of a chain.
const CHAIN: usize = 64;

/// A DBG section without file names, which its first visit finds used up.
fn dbg() -> Vec<u8> {
    exact(b"DBG\0", &be2(0))
}

/// The visits of the walk that goes farthest, over as many records as a file may have: "1 plus the rlens of the records visited".
pub const FARTHEST: u32 = 1 + RECORD_LIMIT as u32 * MOST_CHILDREN as u32;

/// The files with their visits.
pub fn files() -> Vec<Visited> {
    let of = |file: Vec<u8>, records: usize, visits: u32| Visited {
        file,
        records: records as u32,
        visits,
    };
    let walked = |rlens: &[u16], visits| of(tree(rlens, &[lvar()]), rlens.len(), visits);
    let mut chain = [1; CHAIN];
    chain[CHAIN - 1] = MOST_CHILDREN;
    vec![
        // "Without an LVAR section it is 0", and DBG's walk is not counted.
        of(tree(&[1, 0], &[]), 2, 0),
        of(tree(&[1, 0], &[dbg()]), 2, 0),
        of(tree(&[1, 0], &[dbg(), lvar()]), 2, 2),
        // "the number of records where the tree is whole"
        walked(&[0], 1),
        walked(&[1, 0], 2),
        walked(&[2, 2, 0, 0, 0], 5),
        // "those past the last record included"
        walked(&[], 1),
        walked(&[1], 2),
        walked(&[MOST_CHILDREN], 65_536),
        walked(&[2, 0], 3),
        walked(&chain, 65_599),
        walked(&[MOST_CHILDREN; RECORD_LIMIT], FARTHEST),
        // "the rlens of the records visited": those of the others are not counted.
        walked(&[0, MOST_CHILDREN], 1),
        walked(&[2, 1, 0, 0, MOST_CHILDREN], 4),
        walked(&[1, 0, 3], 2),
    ]
}

#[cfg(test)]
mod tests {
    use super::*;
    use crate::allowance::read_all;
    use model::{Allowance, Sizes};

    #[test]
    fn the_model_counts_them_one_by_one() {
        for (number, visited) in files().iter().enumerate() {
            let used = read_all(&visited.file).rows.used();
            let loaded = model::load(&visited.file, Allowance::DESKTOP, &Sizes::of_rows(used));
            assert_eq!(loaded.refusal, 0, "{number}");
            assert_eq!(loaded.rows[0], visited.records, "{number}");
            assert_eq!(loaded.visits, visited.visits, "{number}");
        }
        assert_eq!(FARTHEST, 67_107_841);
    }
}
