//! `blotheath examine`: a verdict for each file, or for one record of each.

use super::input::{self, Found, Input};
use super::json::Json;
use super::scope::Scope;
use super::style::Style;
use super::terms::{self, Terms};
use super::text::{self, counted};
use super::verdict::{Verdict, judge};
use super::{Status, complain, identity, tell};
use std::io::{self, IsTerminal, Write};
use std::path::PathBuf;

/// How many files passed, were refused, could not be read.
#[derive(Default)]
struct Tally {
    passed: u64,
    refused: u64,
    unread: u64,
}

impl Tally {
    fn status(&self) -> Status {
        if self.unread > 0 {
            Status::Unusable
        } else if self.refused > 0 {
            Status::Refused
        } else {
            Status::Passed
        }
    }
}

pub fn run(
    out: &mut dyn Write,
    style: Style,
    paths: &[PathBuf],
    scope: Scope,
    terms: &Terms,
    json: bool,
) -> io::Result<Status> {
    let found = input::find(paths);
    if json {
        return write_json(out, &found, scope, terms);
    }
    terms::write(out, style, terms)?;
    let mut tally = Tally::default();
    let mut progress = Progress::new(found.len());
    for file in &found {
        progress.draw(out)?;
        let name = text::path(&file.path);
        let input = read(file, terms);
        let verdict = input.as_ref().map(|input| (input, judge(input, scope)));
        progress.erase();
        match verdict {
            Ok((input, verdict)) => {
                write_verdict(out, style, &name, &verdict, &mut tally)?;
                if let (1, Some(byte)) = (found.len(), verdict.byte()) {
                    write_around(out, style, &input.bytes, byte)?;
                }
            }
            Err(fault) => {
                tally.unread += 1;
                out.flush()?;
                complain(&format!("{name}: {fault}"));
            }
        }
        progress.done += 1;
    }
    if found.len() > 1 {
        writeln!(out, "{}", style.bold(&summary(scope, &tally)))?;
    }
    Ok(tally.status())
}

/// Reads a file that was found.
fn read(found: &Found, terms: &Terms) -> Result<Input, String> {
    match &found.fault {
        Some(fault) => Err(text::fault(fault)),
        None => input::read(&found.path, terms).map_err(|fault| text::fault(&fault)),
    }
}

fn write_verdict(
    out: &mut dyn Write,
    style: Style,
    name: &str,
    verdict: &Verdict,
    tally: &mut Tally,
) -> io::Result<()> {
    let sentence = verdict.sentence();
    if verdict.passes() {
        tally.passed += 1;
        writeln!(out, "{name}: {}", style.good(&sentence))
    } else {
        tally.refused += 1;
        writeln!(out, "{name}: {}", style.bad(&sentence))
    }
}

/// The bytes that a line of hexadecimal digits shows.
const LINE: usize = 16;

/// Writes the line of bytes around a place, the one before it and the one behind it, the place in brackets.
fn write_around(out: &mut dyn Write, style: Style, bytes: &[u8], place: usize) -> io::Result<()> {
    let middle = place / LINE * LINE;
    for start in [middle.checked_sub(LINE), Some(middle), Some(middle + LINE)] {
        let Some(start) = start.filter(|start| *start == middle || *start < bytes.len()) else {
            continue;
        };
        let mut line = format!("{start:>9} ");
        for at in start..start + LINE {
            let digits = match bytes.get(at) {
                Some(byte) => format!("{byte:02x}"),
                None => "  ".to_owned(),
            };
            if at == place {
                line += &style.bad(&format!("[{digits}]"));
            } else if at == place + 1 && at > start {
                line += &digits;
            } else {
                line += &format!(" {digits}");
            }
        }
        writeln!(out, "{}", line.trim_end())?;
    }
    Ok(())
}

fn summary(scope: Scope, tally: &Tally) -> String {
    let files = counted(tally.passed + tally.refused + tally.unread, "file");
    let examined = match scope {
        Scope::File => files,
        Scope::Record(number) => format!("{files}, record {number} of each by itself"),
    };
    let mut summary = format!(
        "{examined}: {} passed, {} refused",
        text::grouped(tally.passed),
        text::grouped(tally.refused)
    );
    if tally.unread > 0 {
        summary += &format!(", {} not read", text::grouped(tally.unread));
    }
    summary
}

fn write_json(
    out: &mut dyn Write,
    found: &[Found],
    scope: Scope,
    terms: &Terms,
) -> io::Result<Status> {
    let mut tally = Tally::default();
    let mut json = Json::new(out);
    json.object(|json| {
        identity::members(json)?;
        json.key("files")?.array(|json| {
            for file in found {
                json.line()?;
                json.object(|json| write_file(json, file, scope, terms, &mut tally))?;
            }
            Ok(())
        })?;
        json.line()?;
        for (name, number) in [
            ("passed", tally.passed),
            ("refused", tally.refused),
            ("unread", tally.unread),
        ] {
            json.key(name)?.number(number as i64)?;
        }
        Ok(())
    })?;
    json.end()?;
    Ok(tally.status())
}

fn write_file(
    json: &mut Json,
    file: &Found,
    scope: Scope,
    terms: &Terms,
    tally: &mut Tally,
) -> io::Result<()> {
    json.key("file")?.string(&file.path.to_string_lossy())?;
    let input = match read(file, terms) {
        Ok(input) => input,
        Err(fault) => {
            tally.unread += 1;
            return json.key("unread")?.string(&fault);
        }
    };
    let verdict = judge(&input, scope);
    match verdict.passes() {
        true => tally.passed += 1,
        false => tally.refused += 1,
    }
    terms::members(json, terms)?;
    if let Some(number) = scope.record() {
        json.key("record")?.number(number)?;
    }
    verdict.members(json)
}

/// A bar on standard error, where that is a terminal.
struct Progress {
    total: usize,
    done: usize,
    wanted: bool,
}

impl Progress {
    const WIDTH: usize = 30;

    fn new(total: usize) -> Progress {
        Progress {
            total,
            done: 0,
            wanted: total > 8 && io::stderr().is_terminal(),
        }
    }

    /// Draws the bar below what is written so far.
    fn draw(&self, out: &mut dyn Write) -> io::Result<()> {
        if !self.wanted {
            return Ok(());
        }
        out.flush()?;
        let full = Self::WIDTH * self.done / self.total;
        tell(&format!(
            "\r[{}{}] {} of {}",
            "#".repeat(full),
            ".".repeat(Self::WIDTH - full),
            self.done,
            self.total
        ));
        Ok(())
    }

    /// Makes room for a line.
    fn erase(&self) {
        if self.wanted {
            tell("\r\x1b[K");
        }
    }
}
