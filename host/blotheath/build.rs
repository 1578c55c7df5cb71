//! Links the archive libblotheath.a unless the feature `model` is on, and tells the program what it is built from.
//!
//! The archive is called proved only where libblotheath.proved beside it has its SHA-256; host/archive writes that file once rt has proved it.

#[path = "build/known.rs"]
mod known;
#[path = "src/command/sha256.rs"]
mod sha256;

use known::{Known, known};
use std::env;
use std::fs;
use std::path::{Path, PathBuf};
use std::process::Command;

/// The folder of the crates.
const CRATES: &str = "crates";

/// What goes into the program and is kept by git, from the top of the repository.
const SOURCES: [&str; 7] = [
    CRATES,
    "crates.txt",
    "host/Cargo.toml",
    "host/blotheath/Cargo.toml",
    "host/blotheath/build.rs",
    "host/blotheath/build",
    "host/blotheath/src",
];

fn main() {
    println!("cargo::rerun-if-env-changed=BLOTHEATH_ARCHIVE");
    let top = PathBuf::from(env::var_os("CARGO_MANIFEST_DIR").unwrap()).join("../..");
    let known = match env::var_os("CARGO_FEATURE_MODEL") {
        Some(_) => Some(Known::default()),
        None => link(&top),
    };
    let Some(known) = known else {
        return;
    };
    let proved = if known.proved { "yes" } else { "" };
    for (name, value) in [
        ("ARCHIVE_DIGEST", known.digest.as_str()),
        ("KIT", &known.kit),
        ("PROVED", proved),
        ("COMMIT", &commit(&top)),
    ] {
        println!("cargo::rustc-env=BLOTHEATH_{name}={value}");
    }
}

/// Links the archive and answers what is known of it; none where it is not there.
fn link(top: &Path) -> Option<Known> {
    let folder = match env::var_os("BLOTHEATH_ARCHIVE") {
        Some(folder) => PathBuf::from(folder),
        None => top.join("target/staticlib"),
    };
    let archive = folder.join("libblotheath.a");
    let Ok(bytes) = fs::read(&archive) else {
        println!(
            "cargo::error={} is not there; `host/archive` makes it, BLOTHEATH_ARCHIVE names another folder",
            archive.display()
        );
        return None;
    };
    println!("cargo::rerun-if-changed={}", folder.display());
    println!("cargo::rustc-link-search=native={}", folder.display());
    println!("cargo::rustc-link-lib=static=blotheath");
    let told = fs::read_to_string(folder.join("libblotheath.proved")).unwrap_or_default();
    Some(known(&bytes, &told))
}

/// The commit of the sources, marked where they differ from it; empty where the repository is not kept by git.
fn commit(top: &Path) -> String {
    for source in SOURCES.iter().filter(|source| **source != CRATES) {
        println!("cargo::rerun-if-changed={}", top.join(source).display());
    }
    for part in parts_of_crates(&top.join(CRATES)) {
        println!("cargo::rerun-if-changed={}", part.display());
    }
    // The log of HEAD grows with each commit and each checkout.
    let log = git(top, &["rev-parse", "--git-path", "logs/HEAD"]).map(|log| top.join(log));
    if let Some(log) = log.filter(|log| log.is_file()) {
        println!("cargo::rerun-if-changed={}", log.display());
    }
    let Some(commit) = git(top, &["rev-parse", "HEAD"]) else {
        return String::new();
    };
    let words = [&["status", "--porcelain", "--"], &SOURCES[..]].concat();
    match git(top, &words).is_some_and(|changes| changes.is_empty()) {
        true => commit,
        false => commit + "-changed",
    }
}

/// What stands in the crates' folders but `out`, which rt writes.
fn parts_of_crates(crates: &Path) -> Vec<PathBuf> {
    let within = |folder: &Path| {
        let entries = fs::read_dir(folder).into_iter().flatten();
        entries.map_while(|entry| Some(entry.ok()?.path()))
    };
    let mut parts: Vec<PathBuf> = within(crates)
        .flat_map(|folder| within(&folder).collect::<Vec<_>>())
        .filter(|part| part.file_name().is_some_and(|name| name != "out"))
        .collect();
    parts.sort();
    parts
}

/// What git says of this repository; none where it keeps none or fails.
fn git(top: &Path, words: &[&str]) -> Option<String> {
    if !top.join(".git").exists() {
        return None;
    }
    let mut command = Command::new("git");
    command.args(["--no-optional-locks", "-C"]).arg(top);
    let ran = command.args(words).env_remove("GIT_DIR").output();
    let ran = ran.ok().filter(|ran| ran.status.success())?;
    let said = String::from_utf8(ran.stdout).ok()?;
    Some(said.trim_end().to_owned())
}
