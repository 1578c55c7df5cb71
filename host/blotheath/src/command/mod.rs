//! The commands and what they share.

mod allowance;
mod args;
mod arrows;
mod beside;
mod choices;
mod date;
mod examine;
mod follow;
mod help;
mod identity;
mod input;
mod json;
mod labels;
mod lines;
mod load;
mod meaning;
mod near;
mod nesting;
mod opcodes;
mod report;
mod school;
mod scope;
mod sha256;
mod source;
mod steps;
mod style;
mod terms;
mod text;
mod verdict;
mod watch;

use args::Command;
use std::ffi::OsString;
use std::io::{self, BufWriter, Write};
use style::Style;

/// The exit status; of several the largest counts.
#[derive(Debug, Clone, Copy, PartialEq, Eq, PartialOrd, Ord)]
pub enum Status {
    Passed = 0,
    Refused = 1,
    /// Wrong usage, or a file that cannot be read or written.
    Unusable = 2,
}

/// The most steps or rows of one table that are shown without `--all`: a file whose records do not overlap has no more.
pub const MOST_SHOWN: u64 = 65_536;

/// Runs the command that the words say.
pub fn run(words: &[OsString]) -> io::Result<Status> {
    let command = match args::read(words) {
        Ok(command) => command,
        Err(fault) => {
            complain(&fault);
            tell("`blotheath --help` says how it is used.\n");
            return Ok(Status::Unusable);
        }
    };
    let mut out = BufWriter::new(io::stdout().lock());
    let style = Style::of_output();
    let status = match command {
        Command::Help(topic) => help::write(&mut out, topic.as_deref()),
        Command::Version => identity::write_version(&mut out),
        Command::Examine {
            paths,
            scope,
            terms,
            json,
        } => examine::run(&mut out, style, &paths, scope, &terms, json),
        Command::Watch { path, scope, terms } => watch::run(&mut out, style, &path, scope, &terms),
        Command::Load {
            path,
            terms,
            json,
            all,
        } => load::run(&mut out, style, &path, &terms, json, all),
        Command::Steps {
            path,
            terms,
            source,
            json,
            all,
        } => {
            let source = source.as_deref();
            steps::run(&mut out, style, &path, &terms, source, json, all)
        }
        Command::Follow(asked) => follow::run(&mut out, style, &asked),
        Command::Report {
            path,
            terms,
            output,
            source,
            force,
        } => {
            let (output, source) = (output.as_deref(), source.as_deref());
            report::run(&mut out, style, &path, &terms, output, source, force)
        }
        Command::Opcodes { json } => opcodes::run(&mut out, style, json),
    }?;
    out.flush()?;
    Ok(status)
}

/// Writes to standard error; where that is closed, nobody is told.
pub fn tell(text: &str) {
    let _ = io::stderr().write_all(text.as_bytes());
}

/// Tells what the system says is wrong.
pub fn complain_of(fault: &io::Error) {
    complain(&text::fault(fault));
}

/// Tells what is wrong.
pub fn complain(fault: &str) {
    tell(&format!("blotheath: {fault}\n"));
}

/// Tells why a file cannot be used.
pub fn unusable(name: &str, fault: &io::Error) -> Status {
    complain(&format!("{name}: {}", text::fault(fault)));
    Status::Unusable
}
