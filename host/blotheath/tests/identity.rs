//! What a build is: the archive's digest, the kit and the commit, and whether the archive is the one that was proved.

#[path = "../build/known.rs"]
mod known;
#[path = "../src/command/sha256.rs"]
mod sha256;

mod common;

use blotheath::{DOUBT, IDENTITY, PROVED};
use common::json::{Value, parse};
use common::{run, sample};
use known::known;
use std::fs;
use std::path::{Path, PathBuf};

#[test]
fn an_archive_is_proved_only_where_its_digest_was_told() {
    let digest = sha256::digest(b"archive");
    let told = format!("archive {digest}\nkit some kit\ncommit 1\n");
    let same = known(b"archive", &told);
    assert_eq!((same.proved, same.kit.as_str()), (true, "some kit"));
    for (archive, told) in [(&b"another"[..], &told[..]), (b"archive", "")] {
        let other = known(archive, told);
        assert_eq!((other.proved, other.kit.as_str()), (false, ""));
        assert_eq!(other.digest, sha256::digest(archive));
    }
}

/// The folder of the archive that this build is linked with.
fn folder() -> PathBuf {
    match option_env!("BLOTHEATH_ARCHIVE") {
        Some(folder) => PathBuf::from(folder),
        None => Path::new(env!("CARGO_MANIFEST_DIR")).join("../../target/staticlib"),
    }
}

#[test]
fn this_build_tells_its_archive() {
    if cfg!(feature = "model") {
        assert_eq!(
            (PROVED, IDENTITY.archive, IDENTITY.kit),
            (false, None, None)
        );
    } else {
        let archive = fs::read(folder().join("libblotheath.a")).unwrap();
        let told = fs::read_to_string(folder().join("libblotheath.proved")).unwrap_or_default();
        let known = known(&archive, &told);
        assert_eq!(IDENTITY.archive, Some(&known.digest[..]));
        assert_eq!(IDENTITY.kit.unwrap_or(""), known.kit);
        assert_eq!(PROVED, known.proved);
    }
    assert_eq!(DOUBT.is_none(), PROVED);
}

#[test]
fn the_version_tells_everything() {
    let out = run(&["--version"]).out;
    let lines: Vec<&str> = out.lines().collect();
    let start = format!("blotheath {}: ", IDENTITY.version);
    assert!(lines[0].starts_with(&start), "{out}");
    assert_eq!(lines[0].contains("by the proved archive"), PROVED, "{out}");
    assert_eq!(
        lines[0].contains("nothing that this build says is proved"),
        !PROVED
    );
    for (line, part) in lines[1..]
        .iter()
        .zip([IDENTITY.archive, IDENTITY.commit, IDENTITY.kit])
    {
        assert!(line.ends_with(part.unwrap_or("not known")), "{out}");
    }
    assert_eq!(lines.len(), 4);
}

#[test]
fn json_of_every_command_tells_it() {
    let sample = sample();
    let sample = sample.to_str().unwrap();
    for words in [
        &["examine", "--json", sample][..],
        &["load", "--json", sample],
        &["steps", "--json", sample],
        &["follow", "--json", sample, "go"],
        &["opcodes", "--json"],
    ] {
        let value = parse(&run(words).out);
        assert_eq!(value.get("proved").is_true(), PROVED);
        let identity = value.get("identity");
        assert_eq!(identity.get("version").text(), IDENTITY.version);
        for (name, part) in [
            ("archive", IDENTITY.archive),
            ("commit", IDENTITY.commit),
            ("kit", IDENTITY.kit),
        ] {
            match (identity.get(name), part) {
                (Value::Null, None) => {}
                (value, part) => assert_eq!(Some(value.text()), part),
            }
        }
    }
}
