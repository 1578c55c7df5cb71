//! `blotheath report`: one page for an auditor.

mod cards;
mod checklist;
mod constants;
mod fold;
mod foot;
mod hex;
mod html;
mod map;
mod outline;
mod output;
mod page;
mod proof;
mod steps;
mod tree;

use super::beside::stranger;
use super::scope::Scope;
use super::source::{self, Source};
use super::style::Style;
use super::terms::{self, Terms};
use super::text;
use super::verdict::judge;
use super::{Status, complain, input, unusable};
use output::Output;
use page::Page;
use std::fs;
use std::io::{self, Write};
use std::path::{Path, PathBuf};

pub fn run(
    out: &mut dyn Write,
    style: Style,
    path: &Path,
    terms: &Terms,
    output: Option<&Path>,
    source: Option<&Path>,
    force: bool,
) -> io::Result<Status> {
    let name = text::path(path);
    let file = match input::read(path, terms) {
        Ok(file) => file,
        Err(fault) => return Ok(unusable(&name, &fault)),
    };
    let others = terms
        .school
        .files
        .iter()
        .map(PathBuf::as_path)
        .chain(source);
    let read = std::iter::once(input::metadata(path)).chain(others.map(fs::metadata));
    let read: Vec<_> = read.flatten().map(|read| input::identity(&read)).collect();
    let source = match source.map(Source::read).transpose() {
        Ok(source) => source,
        Err((name, fault)) => return Ok(unusable(&name, &fault)),
    };
    let output_name = match output {
        Some(output) if output != Path::new("-") => text::path(output),
        _ => "standard output".to_owned(),
    };
    let output = match Output::of(output, &read, force) {
        Ok(output) => output,
        Err(fault) => return Ok(unusable(&output_name, &fault)),
    };
    let verdict = judge(&file, Scope::File);
    if let (Some(source), Some(pattern)) = (&source, verdict.pattern())
        && let Some(fault) = stranger(source, pattern)
    {
        complain(&fault);
    }
    let page = Page {
        name: &name,
        file: &file.bytes,
        terms,
        verdict: &verdict,
        source: source.as_ref(),
    };
    let written = output.write(out, |out| page.write(out));
    if let Output::Standard = output {
        written?;
    } else {
        if let Err(fault) = written {
            return Ok(unusable(&output_name, &fault));
        }
        terms::write(out, style, terms)?;
        let sentence = verdict.sentence();
        writeln!(out, "{name}: {sentence}")?;
        writeln!(out, "{output_name} is written")?;
    }
    Ok(match verdict.passes() {
        true => Status::Passed,
        false => Status::Refused,
    })
}
