//! The page's foot: which build wrote it, when, and from which files.

use super::html::escape;
use super::page::Page;
use crate::command::date;
use crate::command::{sha256, text};
use blotheath::{FILE_LIMIT, IDENTITY, Identity};
use std::io::{self, Write};

pub fn write(out: &mut dyn Write, page: &Page) -> io::Result<()> {
    writeln!(out, "<footer><dl>")?;
    for (name, value) in identity(&IDENTITY).into_iter().chain(files(page)) {
        writeln!(out, "<div><dt>{name}</dt><dd>{}</dd></div>", escape(&value))?;
    }
    writeln!(
        out,
        "</dl><p>Numbers of refusals are those of the format’s papers.</p></footer>"
    )
}

/// What tells this build from others.
fn identity(identity: &Identity) -> Vec<(&'static str, String)> {
    let mut parts = vec![("program", format!("blotheath {}", identity.version))];
    let known = [("commit", identity.commit), ("kit", identity.kit)];
    for (name, value) in known {
        parts.extend(value.map(|value| (name, value.to_owned())));
    }
    let archive = match identity.archive {
        Some(digest) => format!("SHA-256 {digest}"),
        None if cfg!(feature = "model") => "none: a plain model answers".to_owned(),
        None => "unknown to this build".to_owned(),
    };
    parts.push(("archive", archive));
    parts
}

/// The page's date, and the files that it was made from.
fn files(page: &Page) -> Vec<(&'static str, String)> {
    let mut parts = Vec::new();
    parts.extend(date::now().map(|date| ("written", date)));
    let pattern = match page.file.len() > FILE_LIMIT {
        true => "longer than what is read, so without a digest".to_owned(),
        false => format!("SHA-256 {}", sha256::digest(page.file)),
    };
    parts.push(("pattern", format!("{}, {pattern}", page.file_name())));
    if let Some(source) = page.source {
        let digest = match &source.digest {
            Some(digest) => format!("SHA-256 {digest}"),
            None => "longer than what is read, so without a digest".to_owned(),
        };
        parts.push((
            "source",
            format!("{}, {digest}", text::escaped(source.name())),
        ));
    }
    parts
}

#[cfg(test)]
mod tests {
    use super::*;

    #[test]
    fn what_is_unknown_is_left_out_or_told() {
        let mut known = Identity {
            version: "1.2.3",
            commit: Some("c0ffee"),
            kit: Some("kit 7"),
            archive: Some("abcd"),
        };
        let parts = identity(&known);
        let values: Vec<&str> = parts.iter().map(|(_, value)| value.as_str()).collect();
        assert_eq!(
            values,
            ["blotheath 1.2.3", "c0ffee", "kit 7", "SHA-256 abcd"]
        );
        (known.commit, known.kit, known.archive) = (None, None, None);
        let parts = identity(&known);
        let names: Vec<&str> = parts.iter().map(|(name, _)| *name).collect();
        assert_eq!(names, ["program", "archive"]);
        assert!(!parts[1].1.contains("SHA-256"));
    }
}
