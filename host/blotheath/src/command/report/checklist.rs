//! The conditions that a file is held against, and how far each was looked at.

use super::html::escape;
use crate::command::text::grouped;
use crate::command::verdict::Verdict;
use blotheath::{Place, Refusal};
use std::io::{self, Write};

/// When examination looks at a condition: once, or at each record in turn, where earlier ones come first.
#[derive(Clone, Copy, PartialEq, Eq, PartialOrd, Ord)]
enum When {
    Loading,
    Once,
    RecordsCode,
    RecordsOpcodes,
    EachStep,
    RecordsHandlers,
    RecordsMap,
}

/// What a file that passes keeps.
struct Condition {
    /// The refusals that say otherwise; none where all of loading's do.
    refusals: &'static [u32],
    when: When,
    sentence: &'static str,
}

const fn condition(refusals: &'static [u32], when: When, sentence: &'static str) -> Condition {
    Condition {
        refusals,
        when,
        sentence,
    }
}

/// The conditions in examination's order.
const CONDITIONS: [Condition; 8] = [
    condition(
        &[],
        When::Loading,
        "The file can be read as the format says, and is within its allowance.",
    ),
    condition(&[15], When::Once, "The records form one whole tree."),
    condition(
        &[16, 25],
        When::RecordsCode,
        "Every record has instructions, and all of them can be read, each prefix with the opcode behind it.",
    ),
    condition(
        &[32],
        When::RecordsOpcodes,
        "Every opcode of a step is permitted, and every prefix.",
    ),
    condition(
        &[17],
        When::EachStep,
        "Every register that a step touches exists, and every constant, symbol and child that it names.",
    ),
    condition(
        &[18],
        When::EachStep,
        "Every step leads to a place where an instruction begins.",
    ),
    condition(
        &[19],
        When::RecordsHandlers,
        "Every handler leads to a place where an instruction begins.",
    ),
    condition(
        &[20],
        When::RecordsMap,
        "The positions of every line map never fall.",
    ),
];

/// How far a condition is known to hold.
#[derive(Debug, PartialEq, Eq)]
enum State {
    Holds,
    /// It holds as far as it was looked at.
    Partly(String),
    Broken,
    Unseen,
}

impl State {
    fn class(&self) -> &'static str {
        match self {
            State::Holds => "holds",
            State::Partly(_) => "partly",
            State::Broken => "broken",
            State::Unseen => "unseen",
        }
    }

    fn told(&self) -> &str {
        match self {
            State::Holds => "holds",
            State::Partly(far) => far,
            State::Broken => "does not hold",
            State::Unseen => "not looked at",
        }
    }
}

impl Condition {
    fn is_of(&self, refusal: Refusal) -> bool {
        match self.refusals {
            [] => refusal.is_of_loading(),
            refusals => refusals.contains(&refusal.number()),
        }
    }

    /// The numbers of the refusals that say otherwise.
    fn numbers(&self) -> String {
        let refusals = Refusal::all().filter(|refusal| self.is_of(*refusal));
        runs(refusals.map(Refusal::number))
    }

    /// How far this condition was looked at before another, broken one ended the examination.
    fn before(&self, broken: &Condition, place: Option<&Place>, records: u32) -> State {
        if self.when < broken.when && self.when <= When::Once {
            return State::Holds;
        }
        if broken.when <= When::Once {
            return State::Unseen;
        }
        let Some(record) = place.and_then(|place| place.record) else {
            return State::Partly("holds as far as it was looked at".to_owned());
        };
        // The records of which it is known, and the steps of the refused one.
        let known = record + u32::from(self.when < broken.when);
        let offset = match self.when == broken.when {
            true => place.and_then(|place| place.offset),
            false => None,
        };
        let steps = match offset {
            Some(offset) if self.refusals < broken.refusals => format!("up to offset {offset}"),
            Some(offset) if offset > 0 => format!("before offset {offset}"),
            _ => String::new(),
        };
        State::of(known, records, record, &steps)
    }
}

impl State {
    /// What holds of the first records, and of some steps of one more.
    fn of(known: u32, records: u32, record: u32, steps: &str) -> State {
        let first = match known {
            0 => String::new(),
            1 => "record 0".to_owned(),
            known => format!("records 0 to {}", grouped(u64::from(known) - 1)),
        };
        match (first.is_empty(), steps.is_empty()) {
            (true, true) => State::Unseen,
            (false, true) if known == records => State::Holds,
            (false, true) => State::Partly(format!("holds in {first}; not looked at further on")),
            (true, false) => State::Partly(format!(
                "holds in record {record} {steps}; not looked at further on"
            )),
            (false, false) => State::Partly(format!(
                "holds in {first}, and in record {record} {steps}; not looked at further on"
            )),
        }
    }
}

/// The state of a condition under a verdict.
fn state(condition: &Condition, verdict: &Verdict) -> State {
    let Verdict::Refused {
        refusal,
        place,
        pattern,
        ..
    } = verdict
    else {
        return State::Holds;
    };
    if condition.is_of(*refusal) {
        return State::Broken;
    }
    let records = pattern
        .as_ref()
        .map_or(0, |pattern| pattern.counts().records);
    match CONDITIONS.iter().find(|broken| broken.is_of(*refusal)) {
        Some(broken) => condition.before(broken, place.as_ref(), records),
        None => State::Unseen,
    }
}

/// Numbers that rise, in words: the first and the last of each run.
fn runs(numbers: impl Iterator<Item = u32>) -> String {
    let mut runs: Vec<(u32, u32)> = Vec::new();
    for number in numbers {
        match runs.last_mut() {
            Some((_, last)) if *last + 1 == number => *last = number,
            _ => runs.push((number, number)),
        }
    }
    let told = runs.iter().map(|(first, last)| match last - first {
        0 => first.to_string(),
        1 => format!("{first}, {last}"),
        _ => format!("{first} to {last}"),
    });
    told.collect::<Vec<String>>().join(", ")
}

pub fn write(out: &mut dyn Write, verdict: &Verdict) -> io::Result<()> {
    writeln!(
        out,
        "<section><h2>What the file was held against</h2><table class=\"checklist\"><tbody>"
    )?;
    for condition in &CONDITIONS {
        let state = state(condition, verdict);
        writeln!(
            out,
            "<tr class=\"{}\"><td class=\"number\">{}</td><td class=\"sentence\">{}</td><td class=\"state\">{}</td></tr>",
            state.class(),
            condition.numbers(),
            condition.sentence,
            escape(state.told())
        )?;
    }
    writeln!(out, "</tbody></table>")?;
    if let Verdict::Refused { pattern, .. } = verdict {
        let order = match pattern {
            Some(_) => {
                "Examination ends at the first condition that does not hold. It looks at 15 first, then at each record in turn: at 16 and 25 in one \
                 reading of all of its instructions, at 32 at all of them, at 17 and then 18 at each step, at 19, at 20."
            }
            None => "A file that does not load is not examined.",
        };
        writeln!(out, "<p class=\"note\">{order}</p>")?;
    }
    writeln!(out, "</section>")
}

#[cfg(test)]
mod tests {
    use super::*;

    fn at(record: u32, offset: Option<u32>) -> Place {
        Place {
            section: None,
            byte: None,
            record: Some(record),
            offset,
            line: None,
            what: String::new(),
        }
    }

    /// The states of all conditions but the broken one, in a file of six records.
    fn told(broken: u32, place: Option<Place>) -> Vec<String> {
        let found = CONDITIONS.iter().find(|one| one.is_of(Refusal(broken)));
        let others = CONDITIONS.iter().filter(|one| !one.is_of(Refusal(broken)));
        others
            .map(|one| one.before(found.unwrap(), place.as_ref(), 6))
            .map(|state| state.told().to_owned())
            .collect()
    }

    #[test]
    fn a_file_that_does_not_load() {
        for number in [7, 27, 28, 29] {
            assert_eq!(told(number, None), ["not looked at"; 7]);
        }
    }

    #[test]
    fn a_tree_that_is_not_whole() {
        let states = told(15, None);
        assert_eq!(states[0], "holds");
        assert_eq!(states[1..], ["not looked at"; 6]);
    }

    #[test]
    fn examination_order_is_told() {
        let up_to_2 = "holds in records 0 to 2; not looked at further on";
        let up_to_3 = "holds in records 0 to 3; not looked at further on";
        let steps = |words: &str| {
            format!("holds in records 0 to 2, and in record 3 {words}; not looked at further on")
        };
        for number in [16, 25] {
            assert_eq!(
                told(number, Some(at(3, Some(7)))),
                [
                    "holds", "holds", up_to_2, up_to_2, up_to_2, up_to_2, up_to_2
                ]
            );
        }
        assert_eq!(
            told(32, Some(at(3, Some(7)))),
            [
                "holds", "holds", up_to_3, up_to_2, up_to_2, up_to_2, up_to_2
            ]
        );
        assert_eq!(
            told(17, Some(at(3, Some(7)))),
            [
                "holds",
                "holds",
                up_to_3,
                up_to_3,
                &steps("before offset 7"),
                up_to_2,
                up_to_2
            ]
        );
        assert_eq!(
            told(18, Some(at(3, Some(7)))),
            [
                "holds",
                "holds",
                up_to_3,
                up_to_3,
                &steps("up to offset 7"),
                up_to_2,
                up_to_2
            ]
        );
        assert_eq!(
            told(19, Some(at(3, None))),
            [
                "holds", "holds", up_to_3, up_to_3, up_to_3, up_to_3, up_to_2
            ]
        );
        assert_eq!(
            told(20, Some(at(3, None))),
            [
                "holds", "holds", up_to_3, up_to_3, up_to_3, up_to_3, up_to_3
            ]
        );
    }

    #[test]
    fn the_first_and_the_last_record() {
        assert_eq!(told(17, Some(at(0, Some(0))))[4..], ["not looked at"; 3]);
        assert_eq!(told(32, Some(at(0, Some(0))))[3..], ["not looked at"; 4]);
        let states = told(18, Some(at(0, Some(0))));
        assert_eq!(
            states[4],
            "holds in record 0 up to offset 0; not looked at further on"
        );
        let states = told(20, Some(at(5, None)));
        assert_eq!(states, ["holds"; 7]);
    }

    #[test]
    fn every_refusal_of_a_file_has_a_condition() {
        for refusal in Refusal::all() {
            let of = CONDITIONS.iter().filter(|one| one.is_of(refusal));
            let is_of_a_file = refusal.is_of_loading() || refusal.is_of_examination();
            assert_eq!(of.count(), usize::from(is_of_a_file), "{refusal}");
        }
    }

    #[test]
    fn numbers_of_conditions() {
        assert_eq!(CONDITIONS[0].numbers(), "1 to 14, 27 to 29");
        assert_eq!(CONDITIONS[1].numbers(), "15");
        assert_eq!(CONDITIONS[2].numbers(), "16, 25");
        assert_eq!(CONDITIONS[3].numbers(), "32");
        assert_eq!(runs([].into_iter()), "");
        assert_eq!(runs([1, 3, 4, 6, 7, 8].into_iter()), "1, 3, 4, 6 to 8");
    }
}
