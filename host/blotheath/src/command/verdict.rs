//! The verdict on a file, and where a refusal lies.

use super::allowance::{self, excess_member};
use super::input::Input;
use super::json::Json;
use super::school::{Forbidden, School, forbidden_member};
use super::scope::Scope;
use super::text::{counted, grouped, visible};
use blotheath::{Counts, Excess, Frame, NameWalk, Pattern, Place, Refusal, looks_like};
use std::io;

/// What examination says of a file, or of one record of it by itself.
pub enum Verdict<'a> {
    Passes(Pattern<'a>, Scope),
    Refused {
        refusal: Refusal,
        place: Option<Place>,
        /// What a file that is no pattern looks like.
        looks_like: Option<&'static str>,
        /// How far a file is beyond its allowance.
        excess: Option<Excess>,
        /// What of a step is not permitted.
        forbidden: Option<Forbidden>,
        /// The pattern, where the file loads all the same.
        pattern: Option<Pattern<'a>>,
    },
}

/// Examines a file, or one record of it by itself, and searches where a refusal lies.
pub fn judge(file: &Input, scope: Scope) -> Verdict<'_> {
    let refusal = match file.examine(scope) {
        Ok(pattern) => return Verdict::Passes(pattern, scope),
        Err(refusal) => refusal,
    };
    let pattern = match refusal.is_of_loading() {
        true => None,
        false => file.load().ok(),
    };
    let place = file.locate(scope, pattern.as_ref(), refusal);
    let school = &file.terms.school;
    let forbidden = match refusal == NOT_PERMITTED {
        true => forbidden(school, scope, pattern.as_ref(), place.as_ref()),
        false => None,
    };
    Verdict::Refused {
        refusal,
        place,
        looks_like: looks_like(&file.bytes),
        excess: file.excess(scope, refusal),
        forbidden,
        pattern,
    }
}

/// The refusal of a file that holds what is not permitted.
const NOT_PERMITTED: Refusal = Refusal(32);

/// What is not permitted at a place of a pattern.
fn forbidden(
    school: &School,
    scope: Scope,
    pattern: Option<&Pattern>,
    place: Option<&Place>,
) -> Option<Forbidden> {
    let (pattern, place) = (pattern?, place?);
    let (record, offset) = (place.record?, place.offset?);
    let step = pattern.step_at(Frame { record, offset })?;
    Some(school.forbidden(scope, pattern, &step))
}

impl<'a> Verdict<'a> {
    pub fn passes(&self) -> bool {
        matches!(self, Verdict::Passes(..))
    }

    /// The pattern, where the file loads.
    pub fn pattern(&self) -> Option<&Pattern<'a>> {
        match self {
            Verdict::Passes(pattern, _) => Some(pattern),
            Verdict::Refused { pattern, .. } => pattern.as_ref(),
        }
    }

    /// The byte of the file that a refusal points at.
    pub fn byte(&self) -> Option<usize> {
        match self {
            Verdict::Refused { place, .. } => Some(place.as_ref()?.byte? as usize),
            Verdict::Passes(..) => None,
        }
    }

    /// The verdict in one line.
    pub fn sentence(&self) -> String {
        match self {
            Verdict::Passes(pattern, Scope::File) => {
                format!("passes: {}", counts(pattern.counts()))
            }
            Verdict::Passes(pattern, Scope::Record(number)) => format!(
                "{}: {}; this says nothing of the rest of the file",
                by_itself(*number),
                record_counts(pattern, *number)
            ),
            Verdict::Refused {
                refusal,
                place,
                excess,
                forbidden,
                ..
            } => {
                let beyond = excess.as_ref().map(allowance::beyond);
                let hint = forbidden.as_ref().map(Forbidden::hint);
                refused(*refusal, place.as_ref(), beyond.or(hint).as_deref())
            }
        }
    }

    /// The verdict as members of a JSON object.
    pub fn members(&self, json: &mut Json) -> io::Result<()> {
        json.key("passes")?.boolean(self.passes())?;
        match self {
            Verdict::Passes(pattern, _) => count_members(json, pattern.counts()),
            Verdict::Refused { .. } => self.refusal_members(json),
        }
    }

    /// The refusal, with what is known of it, as members of a JSON object; none where the file passes.
    pub fn refusal_members(&self, json: &mut Json) -> io::Result<()> {
        let Verdict::Refused {
            refusal,
            place,
            looks_like,
            excess,
            forbidden,
            ..
        } = self
        else {
            return Ok(());
        };
        refusal_members(json, *refusal, *looks_like, excess.as_ref())?;
        if let Some(forbidden) = forbidden {
            forbidden_member(json, forbidden)?;
        }
        place_member(json, place.as_ref())
    }
}

/// A refusal in one line, with its place and what else there is to say of it.
pub fn refused(refusal: Refusal, place: Option<&Place>, behind: Option<&str>) -> String {
    let mut sentence = refusal.to_string();
    if let Some(place) = place {
        sentence += &format!(" ({})", told(place));
    }
    if let Some(behind) = behind {
        sentence += &format!("; {behind}");
    }
    sentence
}

/// A refusal, what the file looks like, and how far it is beyond its allowance, as members of a JSON object.
pub fn refusal_members(
    json: &mut Json,
    refusal: Refusal,
    looks_like: Option<&str>,
    excess: Option<&Excess>,
) -> io::Result<()> {
    json.key("refusal")?.number(refusal.number())?;
    json.key("sentence")?.string(refusal.sentence())?;
    if let Some(like) = looks_like {
        json.key("looks_like")?.string(like)?;
    }
    match excess {
        Some(excess) => excess_member(json, excess),
        None => Ok(()),
    }
}

/// The place of a refusal, where it has one, as a member of a JSON object.
pub fn place_member(json: &mut Json, place: Option<&Place>) -> io::Result<()> {
    match place {
        Some(place) => json.key("place")?.object(|json| place_members(json, place)),
        None => Ok(()),
    }
}

/// The counts that a reader asks for first.
fn counts(counts: Counts) -> String {
    listed([
        (counts.records, "record"),
        (counts.constants, "constant"),
        (counts.names, "name"),
        (counts.lines, "line"),
    ])
}

/// The words for a record that passes.
pub fn by_itself(number: u32) -> String {
    format!("record {number} passes by itself")
}

/// What a record has of what a reader asks for first.
fn record_counts(pattern: &Pattern, number: u32) -> String {
    let steps = pattern.steps(number).map_or(0, Iterator::count);
    let spans = pattern
        .record(number)
        .map(|record| [record.constants, record.names, record.lines]);
    let [constants, names, lines] = spans.unwrap_or_default().map(|span| span.number);
    listed([
        (steps as u32, "step"),
        (constants, "constant"),
        (names, "name"),
        (lines, "line"),
    ])
}

/// Numbers with their nouns.
fn listed(numbers: [(u32, &str); 4]) -> String {
    numbers
        .map(|(number, noun)| counted(number.into(), noun))
        .join(", ")
}

/// A place in words.
pub fn told(place: &Place) -> String {
    let mut parts: Vec<String> = place.section.iter().map(|name| name.to_string()).collect();
    for (name, number) in numbers(place) {
        parts.extend(number.map(|number| format!("{name} {number}")));
    }
    let what = visible(&place.what);
    match parts.is_empty() {
        true => what,
        false => format!("{}: {what}", parts.join(", ")),
    }
}

/// How many rows each table uses, and how many visits the walk over the local names makes, as members.
pub fn count_members(json: &mut Json, counts: Counts) -> io::Result<()> {
    json.key("rows")?.object(|json| {
        for (name, number) in rows(counts) {
            json.key(name)?.number(number)?;
        }
        Ok(())
    })?;
    json.key("visits")?.number(counts.visits)?;
    json.key("name_walk")?.string(&name_walk(counts))
}

/// How far the walk over the local names goes, in words.
pub fn name_walk(counts: Counts) -> String {
    let visits = counted(counts.visits.into(), "visit");
    let walk = counts.name_walk();
    match walk {
        NameWalk::None => {
            "the file has no local names (no LVAR section), so no visit is made".to_owned()
        }
        NameWalk::Whole => {
            format!("the walk over the local names makes {visits}, one to each record")
        }
        NameWalk::Short { unreached: 1 } => {
            format!(
                "the walk over the local names makes {visits}; 1 record is never reached, and its locals have no names"
            )
        }
        NameWalk::Short { unreached } => {
            let unreached = grouped(unreached.into());
            format!(
                "the walk over the local names makes {visits}; {unreached} records are never reached, and their locals have no names"
            )
        }
        NameWalk::Past { past } => {
            let (past, records) = (
                grouped(past.into()),
                counted(counts.records.into(), "record"),
            );
            let told = format!(
                "the walk over the local names makes {visits} for {records}, {past} of them past the last"
            );
            match walk.is_far() {
                true => format!(
                    "{told}: the records claim far more children than there are, and a program that makes these visits one by one loads the file slowly"
                ),
                false => told,
            }
        }
    }
}

/// The rows that the tables use, with their names.
fn rows(counts: Counts) -> [(&'static str, u32); 9] {
    [
        ("records", counts.records),
        ("handlers", counts.handlers),
        ("constants", counts.constants),
        ("symbols", counts.symbols),
        ("strings", counts.strings),
        ("names", counts.names),
        ("file_names", counts.file_names),
        ("files", counts.files),
        ("lines", counts.lines),
    ]
}

/// The numbers of a place with their names.
fn numbers(place: &Place) -> [(&'static str, Option<u32>); 4] {
    [
        ("record", place.record),
        ("offset", place.offset),
        ("line", place.line),
        ("byte", place.byte),
    ]
}

fn place_members(json: &mut Json, place: &Place) -> io::Result<()> {
    match place.section {
        Some(section) => json.key("section")?.string(section)?,
        None => json.key("section")?.null()?,
    }
    for (name, number) in numbers(place) {
        json.key(name)?.optional(number)?;
    }
    json.key("what")?.string(&place.what)
}
