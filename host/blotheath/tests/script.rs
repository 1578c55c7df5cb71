//! The script `blotheath` of the repository, over commands `rt` and `cargo` that only write down how they are called.

mod common;
#[path = "../src/command/sha256.rs"]
mod sha256;

use common::{Folder, Ran, run};
use std::fs::{self, File};
use std::os::unix::fs::{PermissionsExt, symlink};
use std::path::{Path, PathBuf};
use std::process::{Command, Stdio};
use std::time::{Duration, SystemTime};

/// Proves the crate of its folder, but for one whose source says so, and makes its library.
const RT: &str = r#"#!/bin/sh
crate=${PWD##*/}
case $1 in
version)
    echo "rt version" >>"$TOP/calls"
    echo kit-of-the-test
    ;;
lib)
    echo "rt lib in $crate" >>"$TOP/calls"
    [ $crate = low ] || sleep "$(cat "$TOP/pause")"
    if grep -q wrong src/lib.rt; then
        echo logic=not-proved
        exit 1
    fi
    grep -q silent src/lib.rt || echo logic=proved
    mkdir -p out
    [ $crate != blotheath ] || cat ../*/src/lib.rt >out/libblotheath.a
    ;;
esac
"#;

/// Builds a program that says how it was called.
const CARGO: &str = r#"#!/bin/sh
echo "cargo $*" >>"$TOP/calls"
program=$TOP/host/target/release/blotheath
printf '#!/bin/sh\necho "program $*"\n' >"$program"
chmod +x "$program"
"#;

/// A repository of three crates, with its script and stand-ins for its tools.
struct Repository(Folder);

impl Repository {
    fn new(name: &str) -> Repository {
        let repository = Repository(Folder::new(name));
        let real = Path::new(env!("CARGO_MANIFEST_DIR")).join("../..");
        for path in [
            "blotheath",
            "host/archive",
            "host/Cargo.toml",
            "host/blotheath/src/command/help.txt",
        ] {
            repository.write(path, &fs::read_to_string(real.join(path)).unwrap());
        }
        repository.write("host/Cargo.lock", "");
        repository.write("host/blotheath/Cargo.toml", "");
        repository.write("host/blotheath/build.rs", "");
        let listed =
            "# crates\nlow:\nmiddle: low # and io\nblotheath staticlib: middle\nother: low\n";
        repository.write("crates.txt", listed);
        for name in ["low", "middle", "blotheath", "other"] {
            repository.write(&format!("crates/{name}/src/lib.rt"), name);
        }
        repository.write("tools/rt", RT);
        repository.write("tools/cargo", CARGO);
        repository.write("pause", "0");
        for path in ["blotheath", "host/archive", "tools/rt", "tools/cargo"] {
            let path = repository.path(path);
            fs::set_permissions(path, fs::Permissions::from_mode(0o755)).unwrap();
        }
        repository
    }

    fn path(&self, path: &str) -> PathBuf {
        self.0.path().join(path)
    }

    fn write(&self, path: &str, text: &str) {
        self.0.file(path, text.as_bytes());
    }

    /// Changes a source, so that it is newer than what was built.
    fn change(&self, path: &str, text: &str) {
        self.write(path, text);
        let later = SystemTime::now() + Duration::from_secs(5);
        let file = File::options().append(true).open(self.path(path)).unwrap();
        file.set_modified(later).unwrap();
    }

    fn command(&self, script: &Path, words: &[&str]) -> Command {
        let path = std::env::var("PATH").unwrap();
        let mut command = Command::new(script);
        command
            .args(words)
            .current_dir(self.path("crates"))
            .env("PATH", format!("{}:{path}", self.path("tools").display()))
            .env("TOP", self.0.path())
            .stdin(Stdio::null())
            .stdout(Stdio::piped())
            .stderr(Stdio::piped());
        command
    }

    fn run(&self, words: &[&str]) -> Ran {
        ran(&mut self.command(&self.path("blotheath"), words))
    }

    /// How the tools were called since this was asked last.
    fn calls(&self) -> Vec<String> {
        let calls = fs::read_to_string(self.path("calls")).unwrap_or_default();
        let _ = fs::remove_file(self.path("calls"));
        calls.lines().map(str::to_owned).collect()
    }

    fn told(&self) -> Option<String> {
        fs::read_to_string(self.path("target/staticlib/libblotheath.proved")).ok()
    }
}

fn ran(command: &mut Command) -> Ran {
    let output = command.output().unwrap();
    Ran {
        status: output.status.code().unwrap(),
        out: String::from_utf8(output.stdout).unwrap(),
        err: String::from_utf8(output.stderr).unwrap(),
    }
}

#[test]
fn help_and_version_before_anything_is_built() {
    let repository = Repository::new("help");
    let help = run(&["--help"]).out;
    for words in [&["--help"][..], &["-h"], &["help"], &[]] {
        let ran = repository.run(words);
        assert_eq!((ran.status, ran.out), (0, help.clone()), "{words:?}");
    }
    let version = repository.run(&["--version"]);
    let start = concat!("blotheath ", env!("CARGO_PKG_VERSION"), ": not built yet");
    assert!(version.out.starts_with(start), "{version:?}");
    assert!(repository.calls().is_empty());
}

#[test]
fn the_first_run_proves_each_crate_once_and_later_runs_call_nothing() {
    let repository = Repository::new("first");
    let ran = repository.run(&["examine", "a b"]);
    assert_eq!((ran.status, &ran.out[..]), (0, "program examine a b\n"));
    assert!(ran.err.contains("3 crates are proved"), "{}", ran.err);
    assert!(!ran.err.contains("logic"), "{}", ran.err);
    let calls = repository.calls();
    let tools = [
        "rt lib in low",
        "rt lib in middle",
        "rt lib in blotheath",
        "rt version",
    ];
    assert_eq!(calls[..4], tools);
    assert!(calls[4].starts_with("cargo build --offline"), "{calls:?}");
    assert_eq!(calls.len(), 5);
    for words in [&["examine"][..], &["--help"], &["--version"]] {
        let ran = repository.run(words);
        assert_eq!(ran.out, format!("program {}\n", words.join(" ")));
        assert_eq!((ran.status, &ran.err[..]), (0, ""));
    }
    assert!(repository.calls().is_empty());
}

#[test]
fn a_change_is_built() {
    let repository = Repository::new("change");
    repository.run(&["load"]);
    repository.calls();
    repository.change("host/blotheath/src/main.rs", "");
    assert_eq!(repository.run(&["load"]).out, "program load\n");
    let calls = repository.calls();
    assert_eq!(calls.len(), 1, "a change of the host is not proved");
    assert!(calls[0].starts_with("cargo "), "{calls:?}");
    repository.change("crates/low/src/lib.rt", "low again");
    let version = repository.run(&["--version"]);
    assert!(version.out.contains("builds anew"), "{version:?}");
    assert_eq!(repository.run(&["load"]).out, "program load\n");
    assert_eq!(repository.calls().len(), 5);
}

#[test]
fn a_link_to_it_works() {
    let repository = Repository::new("link");
    repository.run(&["load"]);
    let outside = Folder::new("link-outside");
    let first = outside.path().join("first");
    let second = outside.path().join("second");
    symlink(repository.path("blotheath"), &first).unwrap();
    symlink("first", &second).unwrap();
    for link in [first, second] {
        let ran = ran(&mut repository.command(&link, &["load"]));
        assert_eq!((ran.status, &ran.out[..]), (0, "program load\n"), "{ran:?}");
    }
}

#[test]
fn two_first_runs_at_once() {
    let repository = Repository::new("two");
    repository.write("pause", "2");
    let start = || {
        let mut command = repository.command(&repository.path("blotheath"), &["load"]);
        command.spawn().unwrap()
    };
    let both = [start(), start()].map(|child| child.wait_with_output().unwrap());
    let mut waited = 0;
    let mut lines = String::new();
    for output in both {
        assert_eq!(output.status.code(), Some(0));
        assert_eq!(output.stdout, b"program load\n");
        let told = String::from_utf8(output.stderr).unwrap();
        waited += i32::from(told.contains("another run is proving"));
        lines += &told;
    }
    assert_eq!(waited, 1);
    for (number, name) in [(2, "middle"), (3, "blotheath")] {
        let begin = format!("blotheath: proving crate {number} of 3 (0:0");
        let end = format!(" so far): {name}");
        let told = |line: &str| line.starts_with(&begin) && line.ends_with(&end);
        assert!(lines.lines().any(told), "{lines}");
    }
    assert_eq!(repository.calls().len(), 5);
}

#[test]
fn a_crate_that_fails_names_its_log() {
    for (name, log) in [
        ("low", "low.out"),
        ("middle", "middle.out"),
        ("blotheath", "blotheath.out"),
    ] {
        let repository = Repository::new(&format!("fails-{name}"));
        repository.change(&format!("crates/{name}/src/lib.rt"), "wrong");
        let ran = repository.run(&["load"]);
        assert_eq!((ran.status, &ran.out[..]), (2, ""));
        let path = repository.path("target/log").join(log);
        let path = path.canonicalize().unwrap();
        let told = format!(
            "the crate {name} is not proved; {} says why",
            path.display()
        );
        assert!(ran.err.contains(&told), "{}", ran.err);
        assert_eq!(ran.err.matches("is not proved").count(), 1, "{}", ran.err);
        assert_eq!(repository.told(), None);
    }
}

#[test]
fn what_was_proved_stands_beside_the_archive() {
    let repository = Repository::new("beside");
    repository.run(&["load"]);
    let digest = sha256::digest(b"blotheathlowmiddleother");
    let expected = format!("archive {digest}\nkit kit-of-the-test\ncommit ");
    let told = repository.told().unwrap();
    assert!(told.starts_with(&expected), "{told}");
    // An archive of which rt does not say that it is proved.
    repository.change("crates/blotheath/src/lib.rt", "silent");
    assert_eq!(repository.run(&["load"]).status, 2);
    assert_eq!(repository.told(), None);
}

/// The README says what a first run takes and needs, and under which licence the code stands.
#[test]
fn the_readme_says_what_is_needed() {
    let top = Path::new(env!("CARGO_MANIFEST_DIR")).join("../..");
    let readme = fs::read_to_string(top.join("README.md")).unwrap();
    let rustc = concat!("rustc ", env!("CARGO_PKG_RUST_VERSION"), " or later");
    for words in [
        rustc,
        "about 7 minutes",
        "up to 3 GB",
        "`rt version`",
        "BSD 3-Clause",
        "`LICENSE`",
    ] {
        assert!(readme.contains(words), "{words}");
    }
    let licence = fs::read_to_string(top.join("LICENSE")).unwrap();
    assert!(licence.starts_with("BSD 3-Clause License\n"));
}
