//! Chosen files and runs with the papers' answers.

use crate::sample::{Examined, Run};
use crate::{newer, prefixes, registers};

/// The files and runs of a name.
pub struct Group {
    pub name: &'static str,
    pub examined: Vec<Examined>,
    pub followed: Vec<(Vec<u8>, Vec<Run>)>,
}

impl Group {
    /// Files that are examined alone.
    pub fn examined(name: &'static str, examined: Vec<Examined>) -> Group {
        Group {
            name,
            examined,
            followed: Vec::new(),
        }
    }
}

/// All groups that are stored.
pub fn groups() -> Vec<Group> {
    let mut groups = vec![newer::group()];
    groups.extend(prefixes::groups());
    groups.extend(registers::groups());
    groups
}

#[cfg(test)]
mod tests {
    use super::*;
    use crate::allowance::read_all;
    use model::{Allowance, EVERYTHING, Refusal, Sizes};

    /// The answer of a file's examination over tables that fit.
    fn answer(file: &[u8]) -> Refusal {
        let reading = read_all(file);
        assert_eq!(reading.end, Ok(()));
        model::examine(
            file,
            Allowance::DESKTOP,
            &EVERYTHING,
            &Sizes::of_rows(reading.rows.used()),
        )
        .refusal
    }

    #[test]
    fn files_load_and_have_their_answers() {
        for group in groups() {
            for (number, (file, refusal)) in group.examined.iter().enumerate() {
                assert_eq!(answer(file), *refusal, "{} {number}", group.name);
            }
            for (file, _) in group.followed {
                assert_eq!(answer(&file), 0, "{}", group.name);
            }
        }
        for (number, (file, refusal)) in registers::everywhere().enumerate() {
            assert_eq!(answer(&file), refusal, "{number}");
        }
    }
}
