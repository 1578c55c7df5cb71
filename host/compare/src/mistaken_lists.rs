//! Mistaken readings of request n): the stored calls tell each, and so do generated ones.

use crate::allowance::read_all;
use crate::allowed::Asked;
use crate::follow;
use crate::generate::{Generator, steps};
use crate::listed;
use crate::permitted::{
    self, Content, FORBIDDEN, Held, LIST, is_past, leads_out, reached, says_yes,
};
use crate::prefixes::PREFIXES;
use crate::rng::Rng;
use crate::sample::STOP;
use model::{Allowance, EVERYTHING, RECORD_LIMIT, Reading, Record, Refusal, Sizes, Step};

/// An examination for a list of a file that loads.
struct Case {
    file: Vec<u8>,
    reading: Reading,
    list: Vec<u8>,
}

impl Case {
    /// The case, where the file loads.
    fn of(file: &[u8], list: &[u8]) -> Option<Case> {
        let reading = read_all(file);
        reading.end.ok()?;
        Some(Case {
            file: file.to_vec(),
            reading,
            list: list.to_vec(),
        })
    }

    fn right(&self) -> Refusal {
        self.with(&self.list)
    }

    /// The number for another list.
    fn with(&self, list: &[u8]) -> Refusal {
        let answer = model::passes(&self.file, list, &self.reading.rows);
        answer.err().unwrap_or(0)
    }

    /// The number for a list of other bytes.
    fn with_each(&self, other: impl Fn(u8) -> u8) -> Refusal {
        let list: Vec<u8> = self.list.iter().map(|byte| other(*byte)).collect();
        self.with(&list)
    }

    /// The number for a list that says yes for these bytes too.
    fn with_yes(&self, bytes: &[u8]) -> Refusal {
        let mut list = self.list.clone();
        list.resize(list.len().max(LIST), 0);
        for byte in bytes {
            list[usize::from(*byte)] = 1;
        }
        self.with(&list)
    }

    fn parts(&self) -> Vec<Part<'_>> {
        let records = self.reading.rows.records.rows.iter();
        records.map(|record| Part::of(self, record)).collect()
    }

    /// The number where each record meets one by another reading.
    fn by_record(&self, number: impl Fn(&Part) -> Refusal) -> Refusal {
        if self.with(&EVERYTHING) == 15 {
            return 15;
        }
        let parts = self.parts();
        let mut numbers = parts.iter().map(number);
        numbers.find(|number| *number != 0).unwrap_or(0)
    }

    /// The number where 32 is met in its place by records that hold what is not permitted by another reading.
    fn by_held(&self, is_forbidden: impl Fn(&Part) -> bool) -> Refusal {
        self.by_record(|part| match part.content.is_whole && is_forbidden(part) {
            true => FORBIDDEN,
            false => part.everything,
        })
    }
}

/// A record of a case.
struct Part<'a> {
    case: &'a Case,
    record: &'a Record,
    content: Content<'a>,
    steps: Vec<Step>,
    /// Its number with everything permitted.
    everything: Refusal,
}

impl<'a> Part<'a> {
    fn of(case: &'a Case, record: &'a Record) -> Part<'a> {
        let (file, rows) = (&case.file, &case.reading.rows);
        let everything = model::examine_record(file, &EVERYTHING, rows, record);
        Part {
            case,
            record,
            content: Content::of(file, record),
            steps: steps(file, record),
            everything: everything.err().unwrap_or(0),
        }
    }

    /// Whether it is record 0.
    fn is_first(&self) -> bool {
        self.case.reading.rows.records.rows.first() == Some(self.record)
    }

    fn says_yes(&self, byte: u8) -> bool {
        says_yes(&self.case.list, byte)
    }

    /// Whether the reading ends at a byte that is no opcode, for which the list has a yes.
    fn unknown_has_yes(&self) -> bool {
        let end = self.content.held.last().map_or(0, |held| held.next);
        let rest = &self.content.code[end..];
        let unknown = rest.iter().find(|byte| !PREFIXES.contains(byte));
        let unknown = unknown.map(|byte| usize::from(*byte));
        unknown.is_some_and(|at| at >= LIST && self.case.list.get(at).is_some_and(|yes| *yes != 0))
    }

    fn is_forbidden(&self) -> bool {
        !self.content.forbidden(&self.case.list).is_empty()
    }

    /// Whether one of these instructions is not permitted.
    fn has_forbidden(&self, mut held: impl Iterator<Item = &'a Held>) -> bool {
        held.any(|held| !held.is_permitted(&self.case.list))
    }

    /// The first number of each instruction in turn, where 32 is met beside 17 and 18, and then the others.
    fn in_turn(&self, is_17_first: bool) -> Refusal {
        if !self.content.is_whole {
            return self.everything;
        }
        for (held, step) in self.content.held.iter().zip(&self.steps) {
            let forbidden = !held.is_permitted(&self.case.list);
            let past = is_past(self.record, step);
            if forbidden && !(past && is_17_first) {
                return FORBIDDEN;
            }
            if past {
                return 17;
            }
            if leads_out(&self.steps, step) {
                return 18;
            }
        }
        self.everything
    }
}

/// A mistaken reading: its name, and the number of an examination by it.
type Mistake = (&'static str, fn(&Case) -> Refusal);

/// Mistaken readings of the list.
const LISTS: [Mistake; 17] = [
    ("no list", |case| case.with(&EVERYTHING)),
    ("a missing byte is yes", |case| {
        let mut list = case.list.clone();
        list.resize(list.len().max(LIST), 1);
        case.with(&list)
    }),
    ("an empty list is everything", |case| {
        match case.list.is_empty() {
            true => case.with(&EVERYTHING),
            false => case.right(),
        }
    }),
    ("a short list is nothing", |case| {
        match case.list.len() < LIST {
            true => case.with(&[]),
            false => case.right(),
        }
    }),
    ("a long list is nothing", |case| {
        match case.list.len() > LIST {
            true => case.with(&[]),
            false => case.right(),
        }
    }),
    ("a no past 119 forbids all", |case| {
        match case.list.iter().skip(LIST).any(|byte| *byte == 0) {
            true => case.with(&[]),
            false => case.right(),
        }
    }),
    ("a yes past 119 makes an opcode", |case| {
        let mut parts = case.parts().into_iter();
        match parts.any(|part| part.unknown_has_yes()) {
            true if case.right() == 16 => 0,
            _ => case.right(),
        }
    }),
    ("the last bytes are read", |case| {
        let end = case.list.len();
        case.with(&case.list[end.saturating_sub(LIST)..])
    }),
    ("1 alone is yes", |case| {
        case.with_each(|byte| u8::from(byte == 1))
    }),
    ("odd is yes", |case| case.with_each(|byte| byte % 2)),
    ("128 and above is no", |case| {
        case.with_each(|byte| u8::from(byte > 0 && byte < 128))
    }),
    ("0 is yes", |case| {
        case.with_each(|byte| u8::from(byte == 0))
    }),
    ("a byte further", |case| {
        case.with(case.list.get(1..).unwrap_or(&[]))
    }),
    ("a byte before", |case| {
        case.with(&[&[0], &case.list[..]].concat())
    }),
    ("STOP needs no yes", |case| case.with_yes(&[STOP])),
    ("NOP needs no yes", |case| case.with_yes(&[0])),
    ("115 yeses are everything", |case| {
        let opcodes = 0..PREFIXES[0];
        match opcodes.into_iter().all(|byte| says_yes(&case.list, byte)) {
            true => case.with(&EVERYTHING),
            false => case.right(),
        }
    }),
];

/// Mistaken readings of what a record holds.
const HELD: [Mistake; 10] = [
    ("prefixes need no yes", |case| case.with_yes(&PREFIXES)),
    (
        "EXT1's yes is that of all prefixes",
        |case| match says_yes(&case.list, PREFIXES[0]) {
            true => case.with_yes(&PREFIXES),
            false => case.right(),
        },
    ),
    ("an opcode behind a prefix needs no yes", |case| {
        case.by_held(|part| {
            let mut held = part.content.held.iter();
            held.any(|held| !part.says_yes(held.prefix.unwrap_or(held.opcode)))
        })
    }),
    ("one yes is enough behind a prefix", |case| {
        case.by_held(|part| {
            let says_yes = |held: &Held| held.bytes().iter().any(|byte| part.says_yes(*byte));
            !part.content.held.iter().all(says_yes)
        })
    }),
    ("operands need a yes", |case| {
        case.by_held(|part| part.is_forbidden() || part.content.has_other_operands(&case.list))
    }),
    ("what no way leads to needs no yes", |case| {
        case.by_held(|part| {
            let reached = reached(&case.reading.rows, part.record, &part.steps);
            let held = part.content.held.iter();
            part.has_forbidden(held.filter(|held| reached.contains(&held.offset)))
        })
    }),
    ("the first instruction needs no yes", |case| {
        case.by_held(|part| part.has_forbidden(part.content.held.iter().skip(1)))
    }),
    ("the last instruction needs no yes", |case| {
        case.by_held(|part| part.has_forbidden(part.content.held.iter().rev().skip(1)))
    }),
    ("record 0 alone needs yeses", |case| {
        case.by_held(|part| part.is_forbidden() && part.is_first())
    }),
    ("record 0 needs no yes", |case| {
        case.by_held(|part| part.is_forbidden() && !part.is_first())
    }),
];

/// Mistaken readings of 32's place.
const PLACES: [Mistake; 10] = [
    ("32 before 15", |case| {
        match case.parts().iter().any(Part::is_forbidden) {
            true if case.right() == 15 => FORBIDDEN,
            _ => case.right(),
        }
    }),
    ("32 before 16", |case| {
        case.by_record(|part| match part.everything != 25 && part.is_forbidden() {
            true => FORBIDDEN,
            false => part.everything,
        })
    }),
    ("32 before 25", |case| {
        case.by_record(|part| match part.everything != 16 && part.is_forbidden() {
            true => FORBIDDEN,
            false => part.everything,
        })
    }),
    ("32 before every number of a record", |case| {
        let whole = case.with(&EVERYTHING) != 15;
        match case.parts().iter().any(Part::is_forbidden) {
            true if whole => FORBIDDEN,
            _ => case.right(),
        }
    }),
    ("32 after every number of a record", |case| {
        match (case.right(), case.with(&EVERYTHING)) {
            (FORBIDDEN, 0) => FORBIDDEN,
            (_, everything) => everything,
        }
    }),
    ("32 after 17, at each instruction", |case| {
        case.by_record(|part| part.in_turn(true))
    }),
    ("32 before 17, at each instruction", |case| {
        case.by_record(|part| part.in_turn(false))
    }),
    ("32 after 17 and 18", |case| {
        case.by_record(|part| match part.everything {
            0 | 19 | 20 if part.is_forbidden() => FORBIDDEN,
            everything => everything,
        })
    }),
    ("32 after 19", |case| {
        case.by_record(|part| match part.everything {
            0 | 20 if part.is_forbidden() => FORBIDDEN,
            everything => everything,
        })
    }),
    ("32 after 20", |case| {
        case.by_record(|part| match part.everything {
            0 if part.is_forbidden() => FORBIDDEN,
            everything => everything,
        })
    }),
];

/// The examinations that are stored.
fn stored() -> Vec<Case> {
    let mut cases = Vec::new();
    for listed in listed::groups().iter().flat_map(|group| &group.files) {
        let examinations = listed.calls.iter().filter(|call| {
            let on_desktop = call.allowance == Allowance::DESKTOP;
            on_desktop && matches!(call.asked, Asked::Examination)
        });
        cases.extend(examinations.filter_map(|call| Case::of(&listed.file, &call.list)));
    }
    cases
}

/// Generated files for a list each.
fn generated(files: u64) -> Vec<Case> {
    let generator = Generator { corpus: Vec::new() };
    let cases = (0..files).filter_map(|index| {
        let file = generator.examinable(1, index);
        let mut case = Case::of(&file, &[])?;
        let needed = permitted::needed(&file, &case.reading);
        case.list = permitted::any(&needed, &mut Rng::new(!1, index)).1;
        Some(case)
    });
    cases.collect()
}

fn tell_all(cases: &[Case]) {
    for (name, mistaken) in LISTS.iter().chain(&HELD).chain(&PLACES) {
        let told = cases.iter().any(|case| mistaken(case) != case.right());
        assert!(told, "{name}");
    }
}

#[test]
fn stored_examinations_tell_mistakes() {
    tell_all(&stored());
}

#[test]
fn generated_examinations_tell_mistakes() {
    tell_all(&generated(8_000));
}

/// A run for a list on the desktop.
struct Run {
    file: Vec<u8>,
    sizes: Sizes,
    words: usize,
    choices: Vec<u8>,
    list: Vec<u8>,
}

impl Run {
    fn right(&self) -> Refusal {
        self.with(&self.list, self.words)
    }

    /// The number for another list and so many words of frames.
    fn with(&self, list: &[u8], words: usize) -> Refusal {
        let Run { file, sizes, .. } = self;
        let allowance = Allowance::DESKTOP;
        let followed = model::follow(file, allowance, list, sizes, words, &self.choices);
        followed.loaded.refusal
    }

    /// The number where the frame table has place for every record.
    fn with_frames(&self) -> Refusal {
        self.with(&self.list, 2 * RECORD_LIMIT)
    }
}

/// A mistaken reading of runs.
type MistakenRun = (&'static str, fn(&Run) -> Refusal);

const RUNS: [MistakenRun; 3] = [
    ("no list in runs", |run| run.with(&EVERYTHING, run.words)),
    ("32 after 21", |run| {
        match (run.right(), run.with(&EVERYTHING, run.words)) {
            (FORBIDDEN, 21) => 21,
            (right, _) => right,
        }
    }),
    ("32 before the frame table's 14", |run| {
        match (run.right(), run.with_frames()) {
            (14, FORBIDDEN) => FORBIDDEN,
            (right, _) => right,
        }
    }),
];

/// The runs that are stored.
fn stored_runs() -> Vec<Run> {
    let mut runs = Vec::new();
    for listed in listed::groups().iter().flat_map(|group| &group.files) {
        for call in &listed.calls {
            if let Asked::Run(words, choices, _) = &call.asked {
                runs.push(Run {
                    file: listed.file.clone(),
                    sizes: Sizes::of_rows(read_all(&listed.file).rows.used()),
                    words: *words,
                    choices: choices.clone(),
                    list: call.list.clone(),
                });
            }
        }
    }
    runs
}

/// Runs of generated files for a list each.
fn generated_runs(files: u64) -> Vec<Run> {
    let generator = Generator { corpus: Vec::new() };
    let runs = (0..files).map(|index| {
        let file = generator.runnable(1, index);
        let reading = read_all(&file);
        let rng = &mut Rng::new(!1, index);
        let sizes = Sizes::of_rows(reading.rows.used());
        let words = follow::frame_words(reading.rows.used()[0], rng);
        let choices = follow::choices_of(&file, &sizes, words, rng);
        let needed = permitted::needed(&file, &reading);
        let list = permitted::any(&needed, rng).1;
        Run {
            file,
            sizes,
            words,
            choices,
            list,
        }
    });
    runs.collect()
}

#[test]
fn runs_tell_mistakes() {
    for runs in [stored_runs(), generated_runs(1_000)] {
        for (name, mistaken) in RUNS {
            let told = runs.iter().any(|run| mistaken(run) != run.right());
            assert!(told, "{name}");
        }
    }
}
