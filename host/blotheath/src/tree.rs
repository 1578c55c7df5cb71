//! The children of each record, by the parents that its rows tell.

use crate::opcode::Role;
use crate::pattern::Pattern;
use crate::step::Step;

/// The tree of records.
#[derive(Debug, Clone, PartialEq, Eq)]
pub struct Tree {
    children: Vec<Vec<u32>>,
}

impl Tree {
    pub fn of(pattern: &Pattern) -> Tree {
        Tree::of_parents(pattern.records().map(|record| record.parent))
    }

    /// A record comes behind its parent, and the children of one parent come in turn.
    fn of_parents(parents: impl Iterator<Item = Option<u32>>) -> Tree {
        let mut children: Vec<Vec<u32>> = Vec::new();
        for (record, parent) in (0..).zip(parents) {
            let siblings = parent.and_then(|parent| children.get_mut(parent as usize));
            if let Some(siblings) = siblings {
                siblings.push(record);
            }
            children.push(Vec::new());
        }
        Tree { children }
    }

    /// Child k of a record.
    pub fn child(&self, record: u32, number: u32) -> Option<u32> {
        self.children(record).get(number as usize).copied()
    }

    /// The record that an instruction of a record lets a run enter: the child that one of its operands names.
    pub fn entered(&self, record: u32, step: &Step) -> Option<u32> {
        self.child(record, step.first_of(Role::Child)?)
    }

    /// The children of a record in turn.
    pub fn children(&self, record: u32) -> &[u32] {
        self.children
            .get(record as usize)
            .map_or(&[], |children| children.as_slice())
    }
}

#[cfg(test)]
mod tests {
    use super::*;

    #[test]
    fn children_come_in_turn() {
        let parents = [None, Some(0), Some(1), Some(1), Some(0)];
        let tree = Tree::of_parents(parents.into_iter());
        assert_eq!(tree.children(0), [1, 4]);
        assert_eq!(tree.children(1), [2, 3]);
        assert_eq!(tree.child(1, 1), Some(3));
        for (record, number) in [(0, 2), (2, 0), (4, 0), (5, 0)] {
            assert_eq!(tree.child(record, number), None);
        }
    }

    #[test]
    fn records_without_a_parent_are_no_children() {
        let tree = Tree::of_parents([None, None, None].into_iter());
        assert!((0..3).all(|record| tree.children(record).is_empty()));
        assert!(Tree::of_parents([].into_iter()).children(0).is_empty());
    }
}
