//! Files whose records are trees of every shape, with the depths and parents of request a) of paper 02.

use crate::sample::{MOST_CHILDREN, lvar, tree};
use model::NO_PARENT;

/// A file, and the depth and parent of each of its records.
pub struct Nested {
    pub file: Vec<u8>,
    pub places: Vec<[u32; 2]>,
}

/// "Record 0 and records that the walk never reaches".
const NONE: [u32; 2] = [0, NO_PARENT];

/// The records of a chain.
const CHAIN: u32 = 64;

/// The numbers of children, and the places of the records.
fn shapes() -> Vec<(Vec<u16>, Vec<[u32; 2]>)> {
    let mut chain = vec![1; CHAIN as usize - 1];
    chain.push(0);
    let deeper = (1..CHAIN).map(|record| [record, record - 1]);
    vec![
        // Whole trees: one record, a chain, siblings, and both.
        (vec![0], vec![NONE]),
        (chain, [NONE].into_iter().chain(deeper).collect()),
        (vec![3, 0, 0, 0], vec![NONE, [1, 0], [1, 0], [1, 0]]),
        (
            vec![3, 2, 0, 0, 1, 0, 0],
            vec![NONE, [1, 0], [2, 1], [2, 1], [1, 0], [2, 4], [1, 0]],
        ),
        // More children than there are records.
        (
            vec![MOST_CHILDREN, 2, MOST_CHILDREN],
            vec![NONE, [1, 0], [2, 1]],
        ),
        (vec![3, 0, 1], vec![NONE, [1, 0], [1, 0]]),
        // Records that are never reached, with children of their own.
        (vec![0, 1, 0], vec![NONE; 3]),
        (
            vec![2, 1, 0, 0, MOST_CHILDREN, 0],
            vec![NONE, [1, 0], [2, 1], [1, 0], NONE, NONE],
        ),
    ]
}

/// Every shape, "with or without LVAR".
pub fn files() -> Vec<Nested> {
    let mut files = Vec::new();
    for (rlens, places) in shapes() {
        for sections in [vec![], vec![lvar()]] {
            files.push(Nested {
                file: tree(&rlens, &sections),
                places: places.clone(),
            });
        }
    }
    files
}
