//! The page.

use super::html::{css, escape};
use super::output::{MARK, VERSION};
use super::source::Source;
use super::{cards, checklist, constants, foot, hex, map, outline, proof, steps, tree};
use crate::command::allowance;
use crate::command::labels::labels;
use crate::command::meaning::Reader;
use crate::command::sha256;
use crate::command::terms::Terms;
use crate::command::text::{self, counted, grouped};
use crate::command::verdict::{Verdict, name_walk, told};
use blotheath::{DOUBT, FILE_LIMIT, NameWalk, Pattern, Place, Refusal, Tree};
use std::collections::BTreeSet;
use std::io::{self, Write};

/// What the page is about.
pub struct Page<'p> {
    pub name: &'p str,
    pub file: &'p [u8],
    pub terms: &'p Terms,
    pub verdict: &'p Verdict<'p>,
    pub source: Option<&'p Source>,
}

const STYLE: &str = include_str!("page.css");

/// The most characters of a name in the head of a printed page.
const MOST_RUNNING: usize = 60;

/// The most names of debug files that are told where none is the source's.
const MOST_NAMES: usize = 8;

impl Page<'_> {
    pub fn write(&self, out: &mut dyn Write) -> io::Result<()> {
        writeln!(
            out,
            "<!DOCTYPE html>\n<html lang=\"en\"><head><meta charset=\"utf-8\">\n{MARK}{VERSION}\">\n<meta name=\"viewport\" \
             content=\"width=device-width, initial-scale=1\">\n<meta http-equiv=\"Content-Security-Policy\" \
             content=\"default-src 'none'; style-src 'unsafe-inline'\">\n<title>{}: Blotheath report</title>\n<style>\n\
             {STYLE}{}</style></head><body><main>",
            escape(self.file_name()),
            self.running_head()
        )?;
        self.head(out)?;
        match self.verdict.pattern() {
            Some(pattern) => self.body(out, pattern)?,
            None => {
                cards::write(out, self.verdict, 0)?;
                checklist::write(out, self.verdict)?;
            }
        }
        self.proof(out)?;
        foot::write(out, self)?;
        writeln!(out, "</main></body></html>")
    }

    /// What is shown of a file that loads.
    fn body(&self, out: &mut dyn Write, pattern: &Pattern) -> io::Result<()> {
        let extent = constants::Extent::of(pattern);
        cards::write(out, self.verdict, extent.left)?;
        checklist::write(out, self.verdict)?;
        let tree = Tree::of(pattern);
        let labels = labels(pattern, &tree);
        writeln!(out, "<section id=\"records\"><h2>Records</h2>")?;
        let class = match tree::write(out, pattern, &tree, &labels)? {
            true => "instead",
            false => "alone",
        };
        outline::write(out, pattern, &labels, class)?;
        writeln!(
            out,
            "</section><section><h2>The file from its first byte to its last</h2>"
        )?;
        map::write(out, pattern)?;
        writeln!(out, "</section>")?;
        constants::write(out, pattern, &extent)?;
        writeln!(out, "<h2>Steps</h2>")?;
        let reader = Reader {
            pattern,
            tree: &tree,
        };
        steps::write(out, &reader, &labels, self.source, &extent, self.fault())
    }

    /// The file's name without its folder.
    pub fn file_name(&self) -> &str {
        let name = self.name.rsplit('/').find(|part| !part.is_empty());
        name.unwrap_or(self.name)
    }

    /// The refusal and its place, where it has one.
    fn fault(&self) -> Option<(Refusal, &Place)> {
        match self.verdict {
            Verdict::Refused {
                refusal,
                place: Some(place),
                ..
            } => Some((*refusal, place)),
            _ => None,
        }
    }

    /// The style of the head of each printed page: the file's name and the verdict.
    fn running_head(&self) -> String {
        let name = self.file_name();
        let mut shown: String = name.chars().take(MOST_RUNNING).collect();
        if shown.len() < name.len() {
            shown.push('…');
        }
        let verdict = match self.verdict {
            Verdict::Passes(..) => "passes".to_owned(),
            Verdict::Refused { refusal, .. } => format!("refused by {}", refusal.number()),
        };
        format!(
            "@page {{ @top-left {{ content: {}; }} @top-right {{ content: {}; }} }}\n",
            css(&format!("Blotheath report: {shown}")),
            css(&verdict)
        )
    }

    fn head(&self, out: &mut dyn Write) -> io::Result<()> {
        writeln!(
            out,
            "<header><p class=\"eyebrow\">Blotheath report</p><h1>{}</h1>",
            escape(self.file_name())
        )?;
        if let Some(doubt) = DOUBT {
            writeln!(out, "{}", proof::warning(doubt))?;
        }
        match self.verdict {
            Verdict::Passes(..) => writeln!(
                out,
                "<p class=\"verdict passes\"><strong>Passes</strong> <span>It loads, and it meets none of the refusals 15 to 20, 25 and 32.</span></p>"
            )?,
            Verdict::Refused { refusal, .. } => writeln!(
                out,
                "<p class=\"verdict refused\"><strong>Refused by {}</strong> <span>{}</span></p>",
                refusal.number(),
                escape(&sentence(refusal.sentence()))
            )?,
        }
        if let Some((_, place)) = self.fault() {
            self.place(out, place)?;
        }
        self.facts(out)?;
        self.terms(out)?;
        let cautions = [self.excess(), self.other_opcodes(), self.other_walk()];
        for told in cautions.into_iter().flatten() {
            writeln!(out, "<p class=\"caution\">{}</p>", escape(&sentence(&told)))?;
        }
        if let Some(told) = self.other_source() {
            writeln!(out, "<p class=\"caution\">{}</p>", escape(&told))?;
        }
        writeln!(out, "</header>")
    }

    /// The terms that the file was examined on.
    fn terms(&self, out: &mut dyn Write) -> io::Result<()> {
        let Terms { allowance, school } = self.terms;
        for told in [
            format!(
                "Examined under an allowance of {}.",
                allowance::told(*allowance)
            ),
            format!("Permitted: {}.", school.told(usize::MAX)),
        ] {
            writeln!(out, "<p class=\"note\">{}</p>", escape(&told))?;
        }
        Ok(())
    }

    /// Where the refusal lies, with a link to it where the page shows it.
    fn place(&self, out: &mut dyn Write, place: &Place) -> io::Result<()> {
        let link = match (self.verdict.pattern(), place.record) {
            (Some(_), Some(_)) => " <a href=\"#bad\">See it among the steps.</a>",
            (Some(_), None) => " <a href=\"#records\">See the records.</a>",
            (None, _) => "",
        };
        writeln!(
            out,
            "<p class=\"place\">{}{link}</p>",
            escape(&sentence(&told(place)))
        )?;
        match place.byte {
            Some(byte) => hex::write(out, self.file, byte),
            None => Ok(()),
        }
    }

    fn facts(&self, out: &mut dyn Write) -> io::Result<()> {
        writeln!(out, "<dl class=\"facts\">")?;
        let mut facts = Vec::new();
        if let Some(pattern) = self.verdict.pattern() {
            let counts = pattern.counts();
            facts.push(("records", grouped(counts.records.into())));
            facts.push(("constants", grouped(counts.constants.into())));
            facts.push(("names", grouped(counts.names.into())));
            facts.push(("lines", grouped(counts.lines.into())));
        }
        match self.file.len() > FILE_LIMIT {
            true => facts.push(("bytes", "over 65,536".to_owned())),
            false => {
                facts.push(("bytes", grouped(self.file.len() as u64)));
                facts.push(("SHA-256", sha256::digest(self.file)));
            }
        }
        for (name, value) in facts {
            let class = if name == "SHA-256" {
                " class=\"digest\""
            } else {
                ""
            };
            writeln!(out, "<div{class}><dt>{name}</dt><dd>{value}</dd></div>")?;
        }
        writeln!(out, "</dl>")
    }

    /// How far the file is beyond its allowance.
    fn excess(&self) -> Option<String> {
        match self.verdict {
            Verdict::Refused { excess, .. } => excess.as_ref().map(allowance::beyond),
            Verdict::Passes(..) => None,
        }
    }

    /// What else the file holds that is not permitted.
    fn other_opcodes(&self) -> Option<String> {
        match self.verdict {
            Verdict::Refused { forbidden, .. } => forbidden.as_ref()?.also(usize::MAX),
            Verdict::Passes(..) => None,
        }
    }

    /// How far the walk over the local names goes, where it is not one visit to each record.
    fn other_walk(&self) -> Option<String> {
        let counts = self.verdict.pattern()?.counts();
        match counts.name_walk() {
            NameWalk::None | NameWalk::Whole => None,
            NameWalk::Short { .. } | NameWalk::Past { .. } => Some(name_walk(counts)),
        }
    }

    /// Why the lines of the source are not shown, where they are not.
    fn other_source(&self) -> Option<String> {
        let source = self.source?;
        let name = text::escaped(source.name());
        let Some(pattern) = self.verdict.pattern() else {
            return Some(format!(
                "The file does not load, so the lines of {name} are not shown."
            ));
        };
        let names = debug_names(pattern);
        if names.iter().any(|name| source.is_of(name)) {
            return None;
        }
        if names.is_empty() {
            return Some(format!(
                "The file has no line maps, so the lines of {name} are not shown."
            ));
        }
        let shown = names.iter().take(MOST_NAMES);
        let mut shown: Vec<String> = shown.map(|name| text::plain(name, text::SHORT)).collect();
        if names.len() > MOST_NAMES {
            let more = counted((names.len() - MOST_NAMES) as u64, "more name");
            shown.push(format!("and {more}"));
        }
        Some(format!(
            "{name} is not a file that the line maps name: {}; its lines are not shown.",
            shown.join(", ")
        ))
    }

    fn proof(&self, out: &mut dyn Write) -> io::Result<()> {
        writeln!(
            out,
            "<section class=\"proof\"><h2>What is proved, and what it rests on</h2>"
        )?;
        proof::write(out)?;
        writeln!(out, "</section>")
    }
}

/// The names of the debug files that have lines.
fn debug_names<'a>(pattern: &Pattern<'a>) -> BTreeSet<&'a [u8]> {
    let files = (0..).zip(pattern.records()).flat_map(|(number, record)| {
        (0..record.files.number).filter_map(move |index| pattern.debug_file(number, index).ok())
    });
    let files = files.filter(|file| file.lines.number > 0);
    files.map(|file| file.name.bytes).collect()
}

/// Words as a sentence.
fn sentence(words: &str) -> String {
    let mut characters = words.chars();
    match characters.next() {
        Some(first) => format!("{}{}.", first.to_uppercase(), characters.as_str()),
        None => String::new(),
    }
}

#[cfg(test)]
mod tests {
    use super::*;

    fn shown(file: &[u8], place: Place) -> String {
        let verdict = Verdict::Refused {
            refusal: Refusal(5),
            place: Some(place),
            looks_like: None,
            excess: None,
            forbidden: None,
            pattern: None,
        };
        let page = Page {
            name: "folder/a.mrb",
            file,
            terms: &Terms::default(),
            verdict: &verdict,
            source: None,
        };
        let mut out = Vec::new();
        page.write(&mut out).unwrap();
        String::from_utf8(out).unwrap()
    }

    #[test]
    fn the_byte_of_a_refusal_is_shown() {
        let place = Place {
            section: Some("IREP"),
            byte: Some(20),
            record: None,
            offset: None,
            line: None,
            what: "the mark is IREQ".to_owned(),
        };
        let page = shown(b"RITE0400\0\0\0\0\0\0\0\0\0\0\0\0IREQ", place);
        assert!(page.contains("<mark>49</mark>") && page.contains("<mark>I</mark>"));
        assert!(page.contains("he mark is IREQ."));
        assert!(!page.contains("href=\"#"));
    }
}
