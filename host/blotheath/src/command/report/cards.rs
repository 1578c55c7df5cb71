//! The auditor's three questions, and what is true of this file.

use crate::command::text::{counted, grouped};
use crate::command::verdict::Verdict;
use blotheath::{PROVED, Pattern};
use std::io::{self, Write};

const QUESTIONS: [&str; 3] = [
    "Is a constant on the sheet the constant in the file?",
    "Is the line shown beside a step the line that made it?",
    "Can a run of the pattern wander into bytes that are no step?",
];

/// What is said where a file does not load.
const UNLOADED: [&str; 3] = [
    "Nothing is said: the file does not load, and no constant is shown.",
    "Nothing is said: the file does not load, and no line is shown.",
    "Nothing is said: the file does not load, and no step is shown.",
];

/// Writes the questions; so many constants have no place on the page.
pub fn write(out: &mut dyn Write, verdict: &Verdict, unshown: u64) -> io::Result<()> {
    let answers = match verdict.pattern() {
        Some(pattern) => answers(verdict, pattern, unshown),
        None => UNLOADED.map(str::to_owned),
    };
    writeln!(out, "<section class=\"questions\">")?;
    for (question, answer) in QUESTIONS.iter().zip(answers) {
        writeln!(out, "<div><h3>{question}</h3><p>{answer}</p></div>")?;
    }
    writeln!(out, "</section>")
}

/// The answers for a file that loads.
fn answers(verdict: &Verdict, pattern: &Pattern, unshown: u64) -> [String; 3] {
    let doubt = match PROVED {
        true => "",
        false => " Not proved in this build.",
    };
    let answers = [
        constants(pattern, unshown),
        lines(pattern),
        runs(verdict).to_owned(),
    ];
    answers.map(|answer| answer + doubt)
}

fn constants(pattern: &Pattern, unshown: u64) -> String {
    match (pattern.counts().constants, unshown) {
        (0, _) => "The file has no constants.".to_owned(),
        (1, 0) => "The one below is, with the place of its bytes.".to_owned(),
        (_, 0) => "Those below are, each with the place of its bytes.".to_owned(),
        (_, unshown) => format!(
            "Those below are, each with the place of its bytes. {} not on this page.",
            are(unshown)
        ),
    }
}

fn are(number: u64) -> String {
    match number {
        1 => "1 is".to_owned(),
        number => format!("{} are", grouped(number)),
    }
}

fn lines(pattern: &Pattern) -> String {
    let records = pattern.counts().records;
    let without = pattern.records().filter(|record| record.lines.number == 0);
    let without = without.count() as u64;
    if without == u64::from(records) {
        return "The file has no line maps: no line is shown.".to_owned();
    }
    let own = "Lines below are those of the file’s own line maps.";
    match without {
        0 => own.to_owned(),
        1 => format!("{own} 1 record has none."),
        without => format!("{own} {} have none.", counted(without, "record")),
    }
}

fn runs(verdict: &Verdict) -> &'static str {
    match verdict.passes() {
        true => "No. Every run stays where instructions begin.",
        false => "It may: the file is refused. Nothing is said of its runs.",
    }
}
