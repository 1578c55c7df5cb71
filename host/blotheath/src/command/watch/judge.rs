//! What is said of a file that has changed: by the examination of one record where that answers for the whole file.
//!
//! Where a file passed, and in one that loads on the same terms one record alone has changed and has as many children as before, the examination
//! of that record answers exactly what an examination of the whole file answers.

use crate::command::input::Input;
use crate::command::scope::Scope;
use crate::command::terms::Terms;
use crate::command::verdict::{Verdict, by_itself, judge};
use blotheath::{Changed, changed_alone, load_within};

/// How a line is meant.
#[derive(Debug, Clone, Copy, PartialEq, Eq)]
pub enum Tone {
    Good,
    Bad,
    Plain,
}

/// What there is to say of a file.
#[derive(Debug)]
pub struct Told {
    pub text: String,
    pub tone: Tone,
    /// Whether the whole file is known to pass.
    passes: bool,
}

impl Told {
    /// A file that cannot be read.
    pub fn unread(fault: &str) -> Told {
        let text = format!("{fault}; it is examined once it can be read");
        Told::open(text, Tone::Plain)
    }

    /// A file that is known to pass.
    fn passes(text: String) -> Told {
        Told {
            text,
            tone: Tone::Good,
            passes: true,
        }
    }

    /// A file that is not known to pass.
    fn open(text: String, tone: Tone) -> Told {
        Told {
            text,
            tone,
            passes: false,
        }
    }

    fn refused(verdict: &Verdict) -> Told {
        Told::open(verdict.sentence(), Tone::Bad)
    }
}

/// The words for a file in which nothing changed that counts.
const UNCHANGED: &str = "nothing changed that examination looks at";

/// The record that is examined where none has changed; a file that passes has it.
const FIRST: u32 = 0;

/// Examines a file again and again.
pub struct Judge {
    scope: Scope,
    terms: Terms,
    /// The last file that is known to pass as a whole.
    passed: Option<Vec<u8>>,
}

impl Judge {
    pub fn new(scope: Scope, terms: &Terms) -> Judge {
        Judge {
            scope,
            terms: terms.clone(),
            passed: None,
        }
    }

    /// Examines a file as it stands now.
    pub fn examine(&mut self, bytes: Vec<u8>) -> Told {
        let file = Input {
            bytes,
            terms: self.terms.clone(),
        };
        let changed = self.changed(&file).unwrap_or(Changed::More);
        let told = match self.scope {
            Scope::File => whole(&file, changed),
            Scope::Record(number) => self.single(&file, number, changed),
        };
        if told.passes {
            self.passed = Some(file.bytes);
        }
        told
    }

    /// What changed since a file passed; none where none did, or where this one does not load.
    fn changed(&self, file: &Input) -> Option<Changed> {
        let passed = self.passed.as_deref()?;
        let before = load_within(passed, self.terms.allowance).ok()?;
        let after = file.load().ok()?;
        Some(changed_alone(&before, &after))
    }

    /// Examines the record that is asked for, and until a file has passed the whole file too.
    fn single(&self, file: &Input, number: u32, changed: Changed) -> Told {
        let verdict = judge(file, Scope::Record(number));
        if !verdict.passes() {
            return Told::refused(&verdict);
        }
        let record = by_itself(number);
        match changed {
            Changed::Record(changed) if changed == number => Told::passes(format!(
                "{record}; only it changed, so the whole file passes"
            )),
            Changed::Nothing => {
                Told::passes(format!("{record}; {UNCHANGED}, so the whole file passes"))
            }
            _ if self.passed.is_none() => beside(&record, &judge(file, Scope::File)),
            _ => Told::open(verdict.sentence(), Tone::Good),
        }
    }
}

/// A record that passes, beside the verdict on the whole file.
fn beside(record: &str, verdict: &Verdict) -> Told {
    let sentence = verdict.sentence();
    match verdict.passes() {
        true => Told::passes(format!("{record}, and the whole file {sentence}")),
        false => Told::open(
            format!("{record}; the whole file is {sentence}"),
            Tone::Plain,
        ),
    }
}

/// Examines the whole file, or the record that answers for it.
fn whole(file: &Input, changed: Changed) -> Told {
    let (verdict, passes) = match changed {
        Changed::Record(number) => (
            judge(file, Scope::Record(number)),
            format!("passes; only record {number} changed, and it passes by itself"),
        ),
        Changed::Nothing => (
            judge(file, Scope::Record(FIRST)),
            format!("passes; {UNCHANGED}"),
        ),
        Changed::More => {
            let verdict = judge(file, Scope::File);
            let sentence = verdict.sentence();
            (verdict, sentence)
        }
    };
    match verdict.passes() {
        true => Told::passes(passes),
        false => Told::refused(&verdict),
    }
}
