//! `blotheath watch`: the program is started, the file is changed, its lines are read.

mod common;

use blotheath::load;
use common::{Folder, build, run, sample_bytes};
use std::fs;
use std::io::{BufRead, BufReader};
use std::path::Path;
use std::process::{Child, Command, Stdio};
use std::sync::mpsc::{Receiver, channel};
use std::thread;
use std::time::Duration;

/// The longest time in which a line is waited for.
const MOST_TIME: Duration = Duration::from_secs(60);

/// A program that watches; it is ended with the test.
struct Watching {
    child: Child,
    lines: Receiver<String>,
}

impl Watching {
    /// Starts a watch with these words.
    fn start(words: &[&str]) -> Watching {
        let mut child = Command::new(env!("CARGO_BIN_EXE_blotheath"))
            .arg("watch")
            .args(words)
            .stdin(Stdio::null())
            .stdout(Stdio::piped())
            .spawn()
            .unwrap();
        let out = BufReader::new(child.stdout.take().unwrap());
        let (sender, lines) = channel();
        thread::spawn(move || {
            for line in out.lines().map_while(Result::ok) {
                if sender.send(line).is_err() {
                    return;
                }
            }
        });
        Watching { child, lines }
    }

    /// The next line.
    fn line(&self) -> String {
        self.lines.recv_timeout(MOST_TIME).unwrap()
    }

    /// The next line without its time, which has its form, and without the file's name.
    fn told(&self, path: &str) -> String {
        let line = self.line();
        let (time, rest) = line.split_at(9);
        let form: String = time
            .chars()
            .map(|c| if c.is_ascii_digit() { '0' } else { c })
            .collect();
        assert_eq!(form, "00:00:00 ", "{line}");
        let told = rest.strip_prefix(&format!("{path}: "));
        told.unwrap_or_else(|| panic!("{line}")).to_owned()
    }
}

impl Drop for Watching {
    fn drop(&mut self) {
        self.child.kill().unwrap();
        self.child.wait().unwrap();
    }
}

/// A file with another number of registers in a record's header.
fn with_registers(file: &[u8], record: u32, registers: u8) -> Vec<u8> {
    let place = load(file).unwrap().record(record).unwrap().place as usize;
    let mut file = file.to_vec();
    file[place - 16..][build::NREGS].copy_from_slice(&[0, registers]);
    file
}

/// Puts a file in the place of another, as editors do that write beside it first.
fn replace(path: &str, bytes: &[u8]) {
    let beside = format!("{path}.new");
    fs::write(&beside, bytes).unwrap();
    fs::rename(beside, path).unwrap();
}

const PASSES: &str = "passes: 6 records, 15 constants, 14 names, 26 lines";
const ONLY_3: &str = "passes; only record 3 changed, and it passes by itself";

#[test]
fn a_file_that_changes() {
    let folder = Folder::new("watch");
    let file = sample_bytes();
    let path = folder.file("oval.mrb", &file);
    let watching = Watching::start(&[&path]);
    let right = format!("watching {path}; times are in UTC; Ctrl-C ends it");
    assert_eq!(watching.line(), right);
    assert_eq!(watching.told(&path), PASSES);
    fs::write(&path, with_registers(&file, 3, 30)).unwrap();
    assert_eq!(watching.told(&path), ONLY_3);
    replace(&path, &with_registers(&file, 3, 31));
    assert_eq!(watching.told(&path), ONLY_3);
    fs::write(&path, with_registers(&file, 3, 1)).unwrap();
    let told = watching.told(&path);
    assert!(told.starts_with("refused by 17: "), "{told}");
    assert!(told.contains("(IREP, record 3, "), "{told}");
    fs::remove_file(&path).unwrap();
    let right = "no such file; it is examined once it can be read";
    assert_eq!(watching.told(&path), right);
    fs::write(&path, &file).unwrap();
    assert_eq!(watching.told(&path), ONLY_3);
    // Two records changed since the file passed.
    let two = with_registers(&with_registers(&file, 1, 30), 2, 30);
    fs::write(&path, two).unwrap();
    assert_eq!(watching.told(&path), PASSES);
    fs::write(&path, &file[..100]).unwrap();
    assert!(watching.told(&path).starts_with("refused by 28: "));
}

#[test]
fn one_record_on_terms() {
    let folder = Folder::new("watch-record");
    let file = sample_bytes();
    let path = folder.file("oval.mrb", &file);
    let words = ["--record", "3", "--preview", "--forbid", "prefixes", &path];
    let watching = Watching::start(&words);
    for right in [
        "allowance: 16,384 bytes and 64 records, the preview's".to_owned(),
        "permitted: every opcode but EXT1, EXT2, EXT3".to_owned(),
        format!("watching record 3 of {path}; times are in UTC; Ctrl-C ends it"),
    ] {
        assert_eq!(watching.line(), right);
    }
    let right = format!("record 3 passes by itself, and the whole file {PASSES}");
    assert_eq!(watching.told(&path), right);
    fs::write(&path, with_registers(&file, 3, 30)).unwrap();
    let right = "record 3 passes by itself; only it changed, so the whole file passes";
    assert_eq!(watching.told(&path), right);
}

/// A folder, and a file that comes only later.
#[test]
fn what_is_no_file() {
    let folder = Folder::new("watch-folder");
    let path = folder.path().join("oval.mrb").to_str().unwrap().to_owned();
    let watching = Watching::start(&[&path]);
    watching.line();
    let until = "it is examined once it can be read";
    assert_eq!(watching.told(&path), format!("no such file; {until}"));
    fs::create_dir(&path).unwrap();
    assert_eq!(watching.told(&path), format!("this is a folder; {until}"));
    fs::remove_dir(&path).unwrap();
    assert_eq!(watching.told(&path), format!("no such file; {until}"));
    fs::write(&path, sample_bytes()).unwrap();
    assert_eq!(watching.told(&path), PASSES);
}

#[test]
fn wrong_usage() {
    for words in [
        &["watch"][..],
        &["watch", "-"],
        &["watch", "a", "b"],
        &["watch", "a", "--json"],
        &["watch", "a", "--record", "x"],
        &["watch", "a", "--forbid", "nothing-of-this-name"],
    ] {
        let ran = run(words);
        assert_eq!((ran.status, ran.out.as_str()), (2, ""), "{words:?}");
        assert!(ran.err.starts_with("blotheath: "), "{words:?}");
    }
}

/// The README's lines are those that the program writes, but for times.
#[test]
fn the_readme_shows_what_is_said() {
    let readme = Path::new(env!("CARGO_MANIFEST_DIR")).join("README.md");
    let readme = fs::read_to_string(readme).unwrap();
    for line in [PASSES, ONLY_3] {
        let is_shown = |shown: &str| shown.ends_with(&format!(" samples/oval.mrb: {line}"));
        assert!(readme.lines().any(is_shown), "{line}");
    }
}
