//! What the tests share: files to work on, the command, a reader of JSON.

#![allow(dead_code)]

pub mod build;
pub mod json;

use blotheath::{Pattern, Permitted, Place, examine, follow, load, locate};
use std::fs;
use std::io::Write;
use std::path::{Path, PathBuf};
use std::process::{Command, Stdio};

/// Every opcode.
pub const EVERYTHING: Permitted = Permitted::everything();

/// The repository's own sample.
pub fn sample() -> PathBuf {
    PathBuf::from(env!("CARGO_MANIFEST_DIR")).join("../samples/oval.mrb")
}

pub fn sample_bytes() -> Vec<u8> {
    fs::read(sample()).unwrap()
}

/// The sample, and the files of the corpus where it is there.
pub fn files() -> Vec<PathBuf> {
    let folder = match std::env::var_os("BLOTHEATH_CORPUS") {
        Some(folder) => PathBuf::from(folder),
        None => PathBuf::from(env!("CARGO_MANIFEST_DIR")).join("../../../shared/corpus"),
    };
    let mut files = vec![sample()];
    match fs::read_dir(&folder) {
        Ok(entries) => files.extend(entries.map(|entry| entry.unwrap().path())),
        Err(_) => println!("no corpus at {}", folder.display()),
    }
    files.retain(|path| path.extension().is_some_and(|end| end == "mrb"));
    files.sort();
    files
}

/// The files of the corpus that a compiler made of a source, without lines and with them; none where the corpus is not there.
pub fn compiled(name: &str) -> Vec<PathBuf> {
    let ends = [format!("{name}.mrb"), format!("{name}-g.mrb")];
    let mut files = files();
    files.retain(|path| ends.iter().any(|end| path.ends_with(end)));
    files
}

/// The refusal of a file, and its place.
pub fn refused(file: &[u8]) -> (u32, Place) {
    let refusal = examine(file).unwrap_err();
    assert_eq!(follow(file, &[]), Err(refusal));
    let place = locate(file, load(file).ok().as_ref(), refusal);
    let place = place.unwrap_or_else(|| panic!("{refusal} has no place in {file:?}"));
    (refusal.number(), place)
}

/// The opcodes of a pattern's steps, prefixes too.
pub fn held(pattern: &Pattern) -> Vec<u8> {
    let records = 0..pattern.counts().records;
    let steps = records.flat_map(|number| pattern.steps(number).unwrap().flatten());
    steps
        .flat_map(|step| step.prefix.into_iter().chain([step.opcode]))
        .collect()
}

/// What a command gave.
#[derive(Debug)]
pub struct Ran {
    pub status: i32,
    pub out: String,
    pub err: String,
}

/// Runs the command with these words and this standard input.
pub fn run_with(words: &[&str], input: &[u8]) -> Ran {
    finish(
        Command::new(env!("CARGO_BIN_EXE_blotheath")).args(words),
        input,
    )
}

/// What a command says of a file from standard input under these options; the command has words in front of the file and behind it.
pub fn told(command: (&[&str], &[&str]), options: &[&str], file: &[u8]) -> Ran {
    let words = [command.0, options, &["-"], command.1].concat();
    run_with(&words, file)
}

pub fn run(words: &[&str]) -> Ran {
    run_with(words, b"")
}

/// Runs the command in 64 MB of address space, with what its own file takes on top.
pub fn run_in_64_mb(words: &[&str]) -> Ran {
    run_in_64_mb_with(words, b"")
}

pub fn run_in_64_mb_with(words: &[&str], input: &[u8]) -> Ran {
    let command = env!("CARGO_BIN_EXE_blotheath");
    let own = fs::metadata(command).unwrap().len() / 1024;
    run_behind(&format!("ulimit -v {}", 65_536 + own), words, input)
}

/// Runs the command where the shell gives so many KiB of stack.
pub fn run_in_stack(kib: u32, words: &[&str]) -> Ran {
    run_behind(&format!("ulimit -s {kib}"), words, b"")
}

/// Runs the command behind a line of shell, which may set a limit.
pub fn run_behind(line: &str, words: &[&str], input: &[u8]) -> Ran {
    run_in_shell(&format!("{line}; exec \"$0\" \"$@\""), words, input)
}

/// Runs a line of shell in which `"$0" "$@"` is the command with these words.
pub fn run_in_shell(line: &str, words: &[&str], input: &[u8]) -> Ran {
    let command = env!("CARGO_BIN_EXE_blotheath");
    let mut shell = Command::new("sh");
    finish(shell.args(["-c", line, command]).args(words), input)
}

/// The exit status of the command where nobody reads its output.
pub fn status_unread(words: &[&str]) -> Option<i32> {
    let command = env!("CARGO_BIN_EXE_blotheath");
    let mut child = Command::new("sh")
        .args(["-c", "read line; exec \"$0\" \"$@\"", command])
        .args(words)
        .stdin(Stdio::piped())
        .stdout(Stdio::piped())
        .spawn()
        .unwrap();
    drop(child.stdout.take());
    let mut stdin = child.stdin.take().unwrap();
    stdin.write_all(b"\n").unwrap();
    drop(stdin);
    child.wait().unwrap().code()
}

/// Runs a command to its end; a panic or a signal fails the test.
fn finish(command: &mut Command, input: &[u8]) -> Ran {
    let mut child = command
        .stdin(Stdio::piped())
        .stdout(Stdio::piped())
        .stderr(Stdio::piped())
        .spawn()
        .unwrap();
    let mut stdin = child.stdin.take().unwrap();
    let input = input.to_vec();
    // The command may end before it has read everything.
    let writer = std::thread::spawn(move || stdin.write_all(&input).is_ok());
    let output = child.wait_with_output().unwrap();
    writer.join().unwrap();
    let ran = Ran {
        status: output.status.code().expect("the command ends by itself"),
        out: String::from_utf8(output.stdout).expect("the output is UTF-8"),
        err: String::from_utf8(output.stderr).expect("the errors are UTF-8"),
    };
    assert!(ran.status <= 2, "{ran:?}");
    assert!(!ran.err.contains("panicked"), "{ran:?}");
    ran
}

/// Whether a text could steer a terminal.
pub fn steers(text: &str) -> bool {
    text.chars().any(|c| c.is_control() && c != '\n')
}

/// A folder for one test, which is removed with it.
pub struct Folder(PathBuf);

impl Folder {
    pub fn new(name: &str) -> Folder {
        let folder = std::env::temp_dir().join(format!("blotheath-{}-{name}", std::process::id()));
        fs::create_dir_all(&folder).unwrap();
        Folder(folder)
    }

    pub fn path(&self) -> &Path {
        &self.0
    }

    /// Writes a file and answers its path.
    pub fn file(&self, name: &str, bytes: &[u8]) -> String {
        let path = self.0.join(name);
        fs::create_dir_all(path.parent().unwrap()).unwrap();
        fs::write(&path, bytes).unwrap();
        path.to_str().unwrap().to_owned()
    }
}

impl Drop for Folder {
    fn drop(&mut self) {
        let _ = fs::remove_dir_all(&self.0);
    }
}

/// Numbers from a seed.
pub struct Numbers(pub u64);

impl Numbers {
    pub fn next(&mut self) -> u64 {
        self.0 = self.0.wrapping_add(0x9e37_79b9_7f4a_7c15);
        let mut z = self.0;
        z = (z ^ (z >> 30)).wrapping_mul(0xbf58_476d_1ce4_e5b9);
        z = (z ^ (z >> 27)).wrapping_mul(0x94d0_49bb_1331_11eb);
        z ^ (z >> 31)
    }

    pub fn below(&mut self, bound: usize) -> usize {
        (self.next() % bound.max(1) as u64) as usize
    }
}

/// A file with a few bytes changed, or cut, or longer; the header of one that is cut mostly states its length.
pub fn damaged(file: &[u8], numbers: &mut Numbers) -> Vec<u8> {
    let mut bytes = file.to_vec();
    match numbers.below(8) {
        0 => {
            bytes.truncate(numbers.below(file.len()));
            if numbers.below(8) > 0 {
                build::state_length(&mut bytes);
            }
        }
        1 => bytes.extend((0..numbers.below(40)).map(|n| n as u8)),
        _ => {}
    }
    for _ in 0..=numbers.below(3) {
        if !bytes.is_empty() {
            let place = numbers.below(bytes.len());
            bytes[place] = match numbers.below(3) {
                0 => numbers.next() as u8,
                1 => bytes[place].wrapping_add(1),
                _ => [0, 1, 115, 116, 117, 118, 255][numbers.below(7)],
            };
        }
    }
    bytes
}
