//! How far the walk over the local names goes, held against the records.

use crate::pattern::Counts;
use crate::tables::RECORD_LIMIT;

/// What the number of visits tells of the walk over the local names.
#[derive(Debug, Clone, Copy, PartialEq, Eq)]
pub enum NameWalk {
    /// The file has no LVAR section, and no visit is made.
    None,
    /// One visit to each record: the records are one whole tree.
    Whole,
    /// So many records, those behind the others, are never reached and have no names.
    Short { unreached: u32 },
    /// Every record is visited, and so many visits more go past the last one and read nothing.
    Past { past: u32 },
}

impl Counts {
    /// What the visits tell of the walk over the local names.
    pub fn name_walk(self) -> NameWalk {
        match (self.visits, self.records) {
            (0, _) => NameWalk::None,
            (visits, records) if visits < records => NameWalk::Short {
                unreached: records - visits,
            },
            (visits, records) if visits > records => NameWalk::Past {
                past: visits - records,
            },
            _ => NameWalk::Whole,
        }
    }
}

impl NameWalk {
    /// Whether more visits go past the last record than any file has records.
    pub fn is_far(self) -> bool {
        matches!(self, NameWalk::Past { past } if past as usize > RECORD_LIMIT)
    }
}

#[cfg(test)]
mod tests {
    use super::*;

    fn walk(records: u32, visits: u32) -> NameWalk {
        let counts = Counts {
            records,
            visits,
            ..Counts::default()
        };
        counts.name_walk()
    }

    #[test]
    fn visits_are_held_against_the_records() {
        assert_eq!(walk(0, 0), NameWalk::None);
        assert_eq!(walk(3, 0), NameWalk::None);
        assert_eq!(walk(0, 1), NameWalk::Past { past: 1 });
        assert_eq!(walk(3, 3), NameWalk::Whole);
        assert_eq!(walk(3, 1), NameWalk::Short { unreached: 2 });
        assert_eq!(walk(3, 4), NameWalk::Past { past: 1 });
    }

    #[test]
    fn a_walk_is_far_beyond_the_most_records_of_a_file() {
        assert!(!walk(1, 1_025).is_far());
        assert!(walk(1, 1_026).is_far());
        assert!(walk(1_024, 67_107_841).is_far());
        assert!(!walk(1_024, 2_048).is_far());
        assert!(!walk(1_024, 1).is_far());
    }
}
