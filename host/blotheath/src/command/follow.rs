//! `blotheath follow`: a run along choices.

use super::args::Follow;
use super::beside::{self, Beside};
use super::choices::{self, Choices, told};
use super::input::{self, Input};
use super::json::Json;
use super::meaning::{Meaning, Reader, registers_member, touched};
use super::nesting;
use super::scope::Scope;
use super::source::Source;
use super::style::Style;
use super::terms;
use super::text::{self, counted};
use super::verdict::{judge, refusal_members};
use super::{Status, complain, unusable};
use blotheath::{
    Before, Choice, Flow, Frame, Pattern, Refusal, Run, Standing, Step, Tree, flow, opcode_name,
};
use std::io::{self, BufRead, IsTerminal, Write};
use std::path::Path;

pub fn run(out: &mut dyn Write, style: Style, asked: &Follow) -> io::Result<Status> {
    let (path, words, each) = (asked.path.as_path(), &asked.choices, asked.each);
    let name = text::path(path);
    let asks = words.is_empty() && !asked.json;
    if asks && path == Path::new("-") {
        complain("a pattern from standard input needs choices");
        return Ok(Status::Unusable);
    }
    let choices = match choices::read(words) {
        Ok(choices) => choices,
        Err(fault) => {
            complain(&fault);
            return Ok(Status::Unusable);
        }
    };
    let file = match input::read(path, &asked.terms) {
        Ok(file) => file,
        Err(fault) => return Ok(unusable(&name, &fault)),
    };
    let source = asked.source.as_deref();
    let source = match source.map(Source::read).transpose() {
        Ok(source) => source,
        Err((name, fault)) => return Ok(unusable(&name, &fault)),
    };
    let source = source.as_ref();
    // The archive answers before the tables of the steps are there, which may take as much memory.
    let answer = file.follow(choices.bytes());
    if asked.json {
        return write_json(out, path, &file, source, &choices, each, answer);
    }
    terms::write(out, style, &file.terms)?;
    match answer {
        Err(refusal) => refused(out, style, &name, &file, refusal),
        Ok(_) if asks => ask(out, style, &file, source),
        Ok(answer) => list(out, style, &file, source, &choices, each, &answer),
    }
}

/// The refusal of choices, which says nothing of the file.
const BAD_CHOICE: Refusal = Refusal(21);

/// Says why there is no run.
fn refused(
    out: &mut dyn Write,
    style: Style,
    name: &str,
    file: &Input,
    refusal: Refusal,
) -> io::Result<Status> {
    let sentence = match refusal == BAD_CHOICE {
        true => refusal.to_string(),
        false => format!("{name}: {}", judge(file, Scope::File).sentence()),
    };
    writeln!(out, "{}", style.bad(&sentence))?;
    Ok(Status::Refused)
}

/// Who answers for a whole list of choices.
const ANSWERER: &str = match cfg!(feature = "model") {
    true => "model",
    false => "archive",
};

/// Tells that the steps of this program do not lead where the archive says.
fn differs() -> Status {
    complain(&format!(
        "the {ANSWERER} answers another end than the steps of this program: trust none of them, and report this fault"
    ));
    Status::Unusable
}

/// A choice that was not open, and the frame and step where that was; none in a run that was finished.
struct Missed {
    number: usize,
    choice: Choice,
    at: Option<(Frame, &'static str)>,
}

impl Missed {
    fn told(&self) -> String {
        let choice = told(self.choice);
        match (self.at, self.choice) {
            (None, _) => format!("the run is finished: {choice} does nothing"),
            (Some((frame, _)), Choice::Caught(_)) => {
                format!("{choice} is not open in record {}: went on", frame.record)
            }
            (Some((_, name)), _) => format!("{choice} is not open at {name}: went on"),
        }
    }
}

/// Takes a choice; answers it where it was not open.
fn take(run: &mut Run, number: usize, choice: Choice) -> Option<Missed> {
    let name = run.step().and_then(|step| opcode_name(step.opcode));
    let at = run.top().zip(Some(name.unwrap_or_default()));
    match run.take(choice) {
        true => None,
        false => Some(Missed { number, choice, at }),
    }
}

/// The most choices of a list that are told one by one when they were not open.
const MOST_MISSED: usize = 5;

/// The choices of a list that were not open: the first few, and how many.
#[derive(Default)]
struct Misses {
    first: Vec<Missed>,
    number: usize,
}

impl Misses {
    fn add(&mut self, missed: Option<Missed>) {
        self.number += usize::from(missed.is_some());
        if self.first.len() < MOST_MISSED {
            self.first.extend(missed);
        }
    }

    fn write(&self, out: &mut dyn Write, style: Style) -> io::Result<()> {
        for missed in &self.first {
            let text = format!("choice {}: {}", missed.number, missed.told());
            writeln!(out, "{}", style.bad(&text))?;
        }
        let more = self.number - self.first.len();
        if more > 0 {
            let text = format!("{}: not open", counted(more as u64, "more choice"));
            writeln!(out, "{}", style.bad(&text))?;
        }
        Ok(())
    }
}

/// Runs along a list, and shows its end or the frames after each choice.
fn list(
    out: &mut dyn Write,
    style: Style,
    file: &Input,
    source: Option<&Source>,
    choices: &Choices,
    each: bool,
    answer: &Standing,
) -> io::Result<Status> {
    let pattern = file.load().map_err(io::Error::other)?;
    let tree = Tree::of(&pattern);
    let mut run = Run::new(&pattern, &tree);
    let mut view = View::new(out, style, &pattern, &tree, source);
    let mut misses = Misses::default();
    for (number, choice) in (1..).zip(choices.iter()) {
        if !each {
            misses.add(take(&mut run, number, choice));
            continue;
        }
        view.show(run.frames())?;
        let title = format!("{number}. {}", told(choice));
        writeln!(view.out, "{}", style.bold(&title))?;
        if let Some(missed) = take(&mut run, number, choice) {
            writeln!(view.out, "{}", style.bad(&missed.told()))?;
        }
    }
    if run.standing() != *answer {
        view.out.flush()?;
        return Ok(differs());
    }
    misses.write(view.out, style)?;
    view.show(run.frames())?;
    Ok(Status::Passed)
}

/// Asks for choices one by one, and at the end asks the archive for them all.
fn ask(
    out: &mut dyn Write,
    style: Style,
    file: &Input,
    source: Option<&Source>,
) -> io::Result<Status> {
    let (done, standing) = {
        let pattern = file.load().map_err(io::Error::other)?;
        let tree = Tree::of(&pattern);
        let mut asked = Asked {
            run: Run::new(&pattern, &tree),
            done: Choices::default(),
            taken: Vec::new(),
        };
        asked.all(&mut View::new(out, style, &pattern, &tree, source))?;
        (asked.done, asked.run.standing())
    };
    if file.follow(done.bytes()) != Ok(standing) {
        out.flush()?;
        return Ok(differs());
    }
    let number = counted(done.number() as u64, "choice");
    let text = format!("{number}: the {ANSWERER} answers the same end");
    writeln!(out, "{}", style.dim(&text))?;
    Ok(Status::Passed)
}

/// The columns that a frame's place has before its step.
const PLACE_COLUMNS: usize = 50;

/// Shows frames.
struct View<'w, 'p, 'a> {
    out: &'w mut dyn Write,
    style: Style,
    reader: Reader<'p, 'a>,
    beside: Option<Beside<'p, 'a>>,
}

impl<'w, 'p, 'a> View<'w, 'p, 'a> {
    fn new(
        out: &'w mut dyn Write,
        style: Style,
        pattern: &'p Pattern<'a>,
        tree: &'p Tree,
        source: Option<&'p Source>,
    ) -> View<'w, 'p, 'a> {
        View {
            out,
            style,
            reader: Reader { pattern, tree },
            beside: Beside::of(source, pattern),
        }
    }

    fn show(&mut self, frames: &[Frame]) -> io::Result<()> {
        if frames.is_empty() {
            return writeln!(self.out, "{}", self.style.good("the run is finished"));
        }
        for (depth, frame) in frames.iter().enumerate() {
            let is_top = depth + 1 == frames.len();
            let line = self.frame(*frame, is_top);
            writeln!(self.out, "{line}")?;
        }
        Ok(())
    }

    /// A frame in one line: where it stands, what contains its record, the instruction there, and the source's line.
    fn frame(&self, frame: Frame, is_top: bool) -> String {
        let pattern = self.reader.pattern;
        let line = match pattern.line(frame.record, frame.offset) {
            Ok(Some(line)) => format!("line {line}"),
            _ => "no line".to_owned(),
        };
        let step = match pattern.step_at(frame) {
            Some(step) => self.step(frame.record, &step),
            None => String::new(),
        };
        let mut place = format!("record {}, offset {}, {line}", frame.record, frame.offset);
        if let Some(record) = pattern.record(frame.record) {
            place += &format!(", {}", nesting::told(frame.record, &record));
        }
        let mark = if is_top { "▶" } else { " " };
        let mut text = format!("  {mark} {place:<PLACE_COLUMNS$} {step}");
        if let Some(beside) = &self.beside {
            let width = text.chars().count();
            text += &beside.behind(width, frame.record, frame.offset, text::LINE);
        }
        match is_top {
            true => text.trim_end().to_owned(),
            false => self.style.dim(text.trim_end()),
        }
    }

    /// A step, with the registers that it touches.
    fn step(&self, number: u32, step: &Step) -> String {
        let Some(record) = self.reader.pattern.record(number) else {
            return String::new();
        };
        let meanings = self.reader.meanings(number, &record, step);
        let operands: Vec<String> = meanings.iter().map(Meaning::shown).collect();
        let (name, touched) = (step.name(), touched(step).unwrap_or_default());
        format!("{name} {}  {touched}", operands.join(", "))
            .trim_end()
            .to_owned()
    }

    /// The choices that are open at a frame, in words.
    fn open(&self, frame: Frame) -> String {
        let mut open = vec!["go".to_owned()];
        if let Some(step) = self.reader.pattern.step_at(frame) {
            if flow(step.opcode) == Flow::MayJump {
                open.push("jump".to_owned());
            }
            if self.reader.tree.entered(frame.record, &step).is_some() {
                open.push("enter".to_owned());
            }
        }
        let record = self.reader.pattern.record(frame.record);
        match record.map_or(0, |record| record.clen) {
            0 => {}
            1 => open.push("caught 0".to_owned()),
            number => open.push(format!("caught 0 to {}", number - 1)),
        }
        open.push("leave".to_owned());
        open.join(", ")
    }
}

/// A run along choices that are asked for.
struct Asked<'p, 'a> {
    run: Run<'p, 'a>,
    done: Choices,
    /// Each choice with the frames that it could change, to take it back.
    taken: Vec<(Before, Choice)>,
}

impl Asked<'_, '_> {
    /// Asks up to the end of the answers.
    fn all(&mut self, view: &mut View) -> io::Result<()> {
        let is_terminal = io::stdin().is_terminal();
        let help = "go, jump, enter, caught N, leave; back takes one back, quit ends";
        writeln!(view.out, "{}", view.style.dim(help))?;
        loop {
            view.show(self.run.frames())?;
            if let Some(top) = self.run.top() {
                let open = format!("  open: {}", view.open(top));
                writeln!(view.out, "{}", view.style.dim(&open))?;
            }
            if is_terminal {
                write!(view.out, "> ")?;
            }
            view.out.flush()?;
            match self.answer()? {
                Some(misses) => misses.write(view.out, view.style)?,
                None => return Ok(()),
            }
        }
    }

    /// Takes one answer and says which of its choices were not open; none at the end of the answers.
    fn answer(&mut self) -> io::Result<Option<Misses>> {
        loop {
            let Some(line) = read_line()? else {
                return Ok(None);
            };
            let line = match line.trim() {
                "quit" | "q" => return Ok(None),
                "back" | "b" => {
                    self.back();
                    return Ok(Some(Misses::default()));
                }
                "" => "go",
                line => line,
            };
            match choices::read(&[line.to_owned()]).and_then(|more| self.take(&more)) {
                Ok(misses) => return Ok(Some(misses)),
                Err(fault) => complain(&fault),
            }
        }
    }

    fn take(&mut self, more: &Choices) -> Result<Misses, String> {
        self.done.append(more)?;
        let mut misses = Misses::default();
        for choice in more.iter() {
            self.taken.push((self.run.before(), choice));
            misses.add(take(&mut self.run, self.taken.len(), choice));
        }
        Ok(misses)
    }

    fn back(&mut self) {
        if let Some((before, choice)) = self.taken.pop() {
            self.run.back(before);
            self.done.pop(choice);
        }
    }
}

/// A line of standard input, cut at 4,096 bytes; none at its end.
fn read_line() -> io::Result<Option<String>> {
    let mut line = Vec::new();
    let read = io::Read::take(io::stdin().lock(), 4096).read_until(b'\n', &mut line)?;
    Ok((read > 0).then(|| String::from_utf8_lossy(&line).into_owned()))
}

fn write_json(
    out: &mut dyn Write,
    path: &Path,
    file: &Input,
    source: Option<&Source>,
    choices: &Choices,
    each: bool,
    answer: Result<Standing, Refusal>,
) -> io::Result<Status> {
    let mut status = Status::Passed;
    let mut json = Json::new(out);
    json.object(|json| {
        json.key("file")?.string(&path.to_string_lossy())?;
        super::identity::members(json)?;
        terms::members(json, &file.terms)?;
        json.key("choices")?.number(choices.number() as i64)?;
        status = match &answer {
            Ok(answer) => write_run(json, file, source, choices, each, answer)?,
            Err(refusal) => write_refusal(json, file, choices, *refusal)?,
        };
        Ok(())
    })?;
    json.end()?;
    Ok(status)
}

/// The standings of a list that there is no run along.
fn write_refusal(
    json: &mut Json,
    file: &Input,
    choices: &Choices,
    refusal: Refusal,
) -> io::Result<Status> {
    json.key("standings")?.array(|json| {
        json.line()?;
        json.object(|json| {
            json.key("choices")?.number(choices.number() as i64)?;
            match refusal == BAD_CHOICE {
                true => refusal_members(json, refusal, None, None),
                false => judge(file, Scope::File).refusal_members(json),
            }
        })
    })?;
    Ok(Status::Refused)
}

/// The standings of a run: the last, or one after each choice.
fn write_run(
    json: &mut Json,
    file: &Input,
    source: Option<&Source>,
    choices: &Choices,
    each: bool,
    answer: &Standing,
) -> io::Result<Status> {
    let pattern = file.load().map_err(io::Error::other)?;
    let tree = Tree::of(&pattern);
    let mut run = Run::new(&pattern, &tree);
    let beside = Beside::of(source, &pattern);
    if let Some(source) = source {
        json.key("source")?
            .object(|json| beside::members(json, source, &pattern))?;
    }
    let mut misses = Misses::default();
    let mut agrees = true;
    json.key("standings")?.array(|json| {
        // The choice that led to the next standing, and whether it was open.
        let mut last = None;
        for (number, choice) in (0..).zip(choices.iter()) {
            if each {
                let now = Now {
                    number,
                    last,
                    by: "program",
                    run: &run,
                };
                now.write(json, &pattern, beside.as_ref())?;
            }
            let missed = take(&mut run, number + 1, choice);
            last = Some((choice, missed.is_none()));
            misses.add(missed);
        }
        agrees = run.standing() == *answer;
        if !agrees {
            return Ok(());
        }
        let now = Now {
            number: choices.number(),
            last,
            by: ANSWERER,
            run: &run,
        };
        now.write(json, &pattern, beside.as_ref())
    })?;
    json.line()?;
    json.key("not_open")?.object(|json| misses.members(json))?;
    json.key("agrees")?.boolean(agrees)?;
    Ok(match agrees {
        true => Status::Passed,
        false => differs(),
    })
}

/// A standing to be written as JSON.
struct Now<'r, 'p, 'a> {
    number: usize,
    last: Option<(Choice, bool)>,
    by: &'static str,
    run: &'r Run<'p, 'a>,
}

impl Now<'_, '_, '_> {
    fn write(&self, json: &mut Json, pattern: &Pattern, beside: Option<&Beside>) -> io::Result<()> {
        json.line()?;
        json.object(|json| {
            json.key("choices")?.number(self.number as i64)?;
            if let Some((choice, is_open)) = self.last {
                json.key("choice")?.string(&told(choice))?;
                json.key("open")?.boolean(is_open)?;
            }
            json.key("by")?.string(self.by)?;
            let Some(top) = self.run.top() else {
                return json.key("finished")?.boolean(true);
            };
            json.key("finished")?.boolean(false)?;
            json.key("line")?.optional(line(pattern, top)?)?;
            json.key("frames")?.array(|json| {
                for frame in self.run.frames() {
                    json.object(|json| write_frame(json, pattern, beside, *frame))?;
                }
                Ok(())
            })
        })
    }
}

fn line(pattern: &Pattern, frame: Frame) -> io::Result<Option<u32>> {
    let line = pattern.line(frame.record, frame.offset);
    line.map_err(io::Error::other)
}

fn write_frame(
    json: &mut Json,
    pattern: &Pattern,
    beside: Option<&Beside>,
    frame: Frame,
) -> io::Result<()> {
    json.key("record")?.number(frame.record)?;
    if let Some(record) = pattern.record(frame.record) {
        nesting::members(json, &record)?;
    }
    json.key("offset")?.number(frame.offset)?;
    json.key("line")?.optional(line(pattern, frame)?)?;
    if let Some(step) = pattern.step_at(frame) {
        registers_member(json, &step)?;
    }
    match beside {
        Some(beside) => beside.member(json, frame.record, frame.offset, text::LINE),
        None => Ok(()),
    }
}

impl Misses {
    /// As members of a JSON object.
    fn members(&self, json: &mut Json) -> io::Result<()> {
        json.key("number")?.number(self.number as i64)?;
        json.key("first")?.array(|json| {
            for missed in &self.first {
                json.object(|json| {
                    json.key("choices")?.number(missed.number as i64)?;
                    json.key("choice")?.string(&told(missed.choice))?;
                    json.key("sentence")?.string(&missed.told())
                })?;
            }
            Ok(())
        })
    }
}

#[cfg(test)]
mod tests {
    use super::*;
    use crate::command::terms::Terms;

    fn sample() -> Input {
        Input {
            bytes: include_bytes!("../../../samples/oval.mrb").to_vec(),
            terms: Terms::default(),
        }
    }

    /// What a list shows where this is the answer for it.
    fn shown(each: bool, answer: &Standing) -> (Status, String) {
        let choices = choices::read(&["go go".to_owned()]).unwrap();
        let mut out = Vec::new();
        let style = Style::of_output();
        let status = list(&mut out, style, &sample(), None, &choices, each, answer);
        (status.unwrap(), String::from_utf8(out).unwrap())
    }

    #[test]
    fn a_wrong_end_is_not_shown() {
        let answer = sample().follow(&[0, 0]).unwrap();
        let wrong = sample().follow(&[0, 0, 0]).unwrap();
        for each in [false, true] {
            let (status, out) = shown(each, &answer);
            assert_eq!(status, Status::Passed);
            assert!(out.contains("offset 6"));
            for wrong in [&wrong, &Standing::Finished] {
                let (status, out) = shown(each, wrong);
                assert_eq!(status, Status::Unusable);
                assert!(!out.contains("offset 6") && !out.contains("offset 9"));
            }
        }
    }

    #[test]
    fn a_wrong_end_is_not_written() {
        let choices = choices::read(&["go go".to_owned()]).unwrap();
        let mut out = Vec::new();
        let answer = Ok(Standing::Finished);
        let path = Path::new("oval.mrb");
        let status = write_json(&mut out, path, &sample(), None, &choices, false, answer);
        assert_eq!(status.unwrap(), Status::Unusable);
        let out = String::from_utf8(out).unwrap();
        assert!(
            out.contains("\"standings\":[]") && out.contains("\"agrees\":false"),
            "{out}"
        );
    }
}
