//! The command: every command on real, damaged and hostile files.

mod common;

use common::json::parse;
use common::{
    Folder, Numbers, build, damaged, files, run, run_in_64_mb, run_with, sample, sample_bytes,
    steers,
};
use std::fs;

/// The commands that take one file, each with words behind it.
const COMMANDS: [&[&str]; 9] = [
    &["examine"],
    &["examine", "--json"],
    &["load"],
    &["load", "--json"],
    &["steps"],
    &["steps", "--json"],
    &["follow", "--each"],
    &["follow", "--json"],
    &["report"],
];

/// Runs a command on a file; `follow` gets choices.
fn run_on(command: &[&str], path: &str) -> common::Ran {
    let mut words = command.to_vec();
    words.push(path);
    if command[0] == "follow" {
        words.extend(["2", "go", "enter", "jump", "caught", "0", "leave"]);
    }
    run(&words)
}

fn path_of(path: &std::path::Path) -> &str {
    path.to_str().unwrap()
}

#[test]
fn every_command_on_real_files() {
    for path in files() {
        let verdict = run_on(&["examine"], path_of(&path));
        let passes = verdict.out.contains(": passes: ");
        assert_eq!(verdict.status, if passes { 0 } else { 1 }, "{verdict:?}");
        let loads = run_on(&["load"], path_of(&path)).status == 0;
        assert!(loads || !passes);
        for command in COMMANDS {
            let ran = run_on(command, path_of(&path));
            let good = if command[0] == "load" { loads } else { passes };
            assert_eq!(ran.status, if good { 0 } else { 1 }, "{command:?} {path:?}");
            assert!(!steers(&ran.out), "{command:?} {path:?}");
            assert!(ran.err.is_empty(), "{}", ran.err);
            if command.contains(&"--json") {
                parse(&ran.out);
            }
        }
    }
}

#[test]
fn the_sample() {
    let sample = sample();
    let ran = run(&["examine", path_of(&sample)]);
    let counts = "passes: 6 records, 15 constants, 14 names, 26 lines\n";
    assert!(ran.out.ends_with(counts), "{}", ran.out);
    let ran = run(&["steps", path_of(&sample)]);
    assert!(
        ran.out
            .contains("\nrecord 3, method rim, inside 1, depth 2 (43 bytes, at 493"),
        "{}",
        ran.out
    );
    assert!(
        ran.out.contains("╭──    30  JMPNOT     R4, to 37"),
        "{}",
        ran.out
    );
    assert!(
        ran.out.contains("GETUPVAR   R5, R1 oval, 1 up"),
        "{}",
        ran.out
    );
    let ran = run(&["load", path_of(&sample)]);
    assert!(
        ran.out
            .contains("       0         2  float  208       8  18.5\n"),
        "{}",
        ran.out
    );
    let ran = run(&["follow", path_of(&sample), "7 go", "enter", "go"]);
    assert!(
        ran.out
            .contains("  ▶ record 1, offset 2, line 6, inside 0, depth 1"),
        "{}",
        ran.out
    );
    let ran = run(&[
        "follow",
        path_of(&sample),
        "bytes",
        "0000000000000002",
        "00",
    ]);
    assert!(
        ran.out
            .contains("  ▶ record 1, offset 2, line 6, inside 0, depth 1"),
        "{}",
        ran.out
    );
    let ran = run(&["follow", path_of(&sample), "leave"]);
    assert_eq!(ran.out, "the run is finished\n");
    let ran = run(&["follow", path_of(&sample), "bytes", "05"]);
    assert_eq!((ran.status, &ran.out[..13]), (1, "refused by 21"));
}

#[test]
fn the_sample_in_json() {
    let sample = sample();
    let path = path_of(&sample);
    let value = parse(&run(&["examine", "--json", path]).out);
    let file = &value.get("files").items()[0];
    assert!(file.get("passes").is_true());
    assert_eq!(file.get("rows").get("constants").number(), 15.0);
    assert_eq!(value.get("passed").number(), 1.0);
    let value = parse(&run(&["load", "--json", path]).out);
    let constant = &value.get("records").items()[0].get("constants").items()[2];
    assert_eq!(constant.get("value").number(), 18.5);
    assert_eq!(constant.get("hex").text(), "0000000000803240");
    assert_eq!(constant.get("at").number(), 208.0);
    let value = parse(&run(&["steps", "--json", path]).out);
    let step = &value.get("records").items()[0].get("steps").items()[0];
    assert_eq!(step.get("name").text(), "STRING");
    assert_eq!(step.get("line").number(), 3.0);
    assert_eq!(step.get("operands").items()[1].get("text").text(), "stake");
    let value = parse(&run(&["follow", "--json", "--each", path, "go", "go"]).out);
    let standings = value.get("standings").items();
    assert_eq!(standings.len(), 3);
    let frame = &standings[2].get("frames").items()[0];
    assert_eq!(frame.get("offset").number(), 6.0);
    let refused = parse(&run_with(&["examine", "--json", "-"], b"RITE").out);
    let file = &refused.get("files").items()[0];
    assert_eq!(file.get("refusal").number(), 2.0);
}

#[test]
fn asking_for_choices() {
    let sample = sample();
    let path = path_of(&sample);
    let answers = b"go\n\nback\nfly\n5 go\nenter\nquit\n";
    let ran = run_with(&["follow", path], answers);
    assert_eq!(ran.status, 0);
    assert!(ran.out.contains("open: go, caught 0, leave"), "{}", ran.out);
    assert!(
        ran.out.contains("open: go, enter, caught 0, leave"),
        "{}",
        ran.out
    );
    assert!(
        ran.err.contains("there is no choice \"fly\""),
        "{}",
        ran.err
    );
    let ended = run_with(&["follow", path], b"leave\n");
    assert!(ended.out.contains("the run is finished\n"), "{}", ended.out);
    let ran = run_with(&["follow", "-"], &sample_bytes());
    assert_eq!(ran.status, 2);
}

#[test]
fn standard_input() {
    let ran = run_with(&["examine", "-"], &sample_bytes());
    assert_eq!(ran.status, 0);
    assert!(ran.out.starts_with("standard input: passes"), "{}", ran.out);
    assert_eq!(run_with(&["steps", "-"], &sample_bytes()).status, 0);
    assert_eq!(run_with(&["follow", "-", "go"], &sample_bytes()).status, 0);
}

#[test]
fn several_files_and_folders() {
    let folder = Folder::new("several");
    let good = folder.file("a/good.mrb", &sample_bytes());
    folder.file("b/bad.mrb", b"RITE0300");
    folder.file("b/note.txt", b"no pattern");
    let bad = folder.path().join("b");
    let ran = run(&["examine", &good, path_of(&bad)]);
    assert_eq!(ran.status, 1);
    assert_eq!(ran.out.lines().count(), 3, "{}", ran.out);
    assert!(
        ran.out.contains("refused by 2: the file is shorter"),
        "{}",
        ran.out
    );
    assert!(
        ran.out.ends_with("2 files: 1 passed, 1 refused\n"),
        "{}",
        ran.out
    );
    let ran = run(&["examine", path_of(folder.path()), "/no/such/file"]);
    assert_eq!(ran.status, 2);
    assert!(
        ran.out
            .ends_with("3 files: 1 passed, 1 refused, 1 not read\n")
    );
    assert!(ran.err.contains("/no/such/file: "), "{}", ran.err);
    let value = parse(&run(&["examine", "--json", path_of(folder.path()), "/no/such/file"]).out);
    assert_eq!(value.get("unread").number(), 1.0);
    let empty = Folder::new("empty");
    assert_eq!(run(&["examine", path_of(empty.path())]).status, 2);
}

#[test]
fn files_that_cannot_be_read() {
    let folder = Folder::new("unread");
    for command in COMMANDS {
        assert_eq!(run_on(command, "/no/such/file").status, 2, "{command:?}");
        if command[0] != "examine" {
            let ran = run_on(command, path_of(folder.path()));
            assert_eq!(ran.status, 2, "{command:?}");
            assert!(ran.err.contains("this is a folder"), "{}", ran.err);
        }
    }
}

#[test]
fn short_and_long_files() {
    let folder = Folder::new("lengths");
    for (name, length, number) in [("empty", 0, 2), ("short", 25, 4), ("long", 70_000, 1)] {
        let mut bytes = b"RITE0400".to_vec();
        bytes.resize(length, 0);
        let path = folder.file(name, &bytes);
        for command in COMMANDS {
            let ran = run_on(command, &path);
            assert_eq!(ran.status, 1, "{command:?} {name}");
            let told = ran.out.contains(&format!("efused by {number}"))
                || ran.out.contains(&format!("\"refusal\":{number},"));
            assert!(told, "{command:?} {name}: {}", ran.out);
        }
    }
}

#[test]
fn every_command_on_damaged_files() {
    let folder = Folder::new("damaged");
    let mut numbers = Numbers(7);
    let files: Vec<Vec<u8>> = files().iter().map(|path| fs::read(path).unwrap()).collect();
    for round in 0..60 {
        let path = folder.file(
            "file.mrb",
            &damaged(&files[round % files.len()], &mut numbers),
        );
        for command in COMMANDS {
            let ran = run_on(command, &path);
            assert!(ran.status < 2, "{command:?} {ran:?}");
            assert!(!steers(&ran.out), "{command:?}");
            if command.contains(&"--json") {
                parse(&ran.out);
            }
        }
    }
}

#[test]
fn a_folder_of_damaged_files() {
    let folder = Folder::new("many");
    let mut numbers = Numbers(11);
    let files: Vec<Vec<u8>> = files().iter().map(|path| fs::read(path).unwrap()).collect();
    for round in 0..1_500 {
        let bytes = damaged(&files[round % files.len()], &mut numbers);
        folder.file(&format!("{round:04}.mrb"), &bytes);
    }
    let ran = run(&["examine", path_of(folder.path())]);
    assert_eq!(ran.out.lines().count(), 1_501);
    assert!(ran.out.lines().last().unwrap().starts_with("1,500 files: "));
}

/// Texts of a file that would steer a terminal or a page.
#[test]
fn texts_are_shown_safely() {
    let folder = Folder::new("texts");
    let evil: &[u8] = b"\x1b[2J</script><img src=x>\"'&\r\n\xff\xe2\x80\xae";
    let constant = build::text(&[b"\0", evil].concat());
    let code = [92, 0, 0, 16, 0, 0, 118];
    let path = folder.file(
        "e\u{1b}[1mvil.mrb",
        &build::one(&code, &[&constant], &[evil]),
    );
    for command in COMMANDS {
        let ran = run_on(command, &path);
        assert_eq!(ran.status, 0, "{command:?} {ran:?}");
        assert!(!steers(&ran.out), "{command:?} {}", ran.out);
        assert!(!ran.out.contains('\u{202e}'), "{command:?}");
    }
    let page = run(&["report", &path]).out;
    assert!(!page.contains("<img") && !page.contains("</script"));
    let missing = run(&["load", "no\u{1b}[1m"]);
    assert!(!steers(&missing.err), "{:?}", missing.err);
}

#[test]
fn hostile_files_in_64_mb() {
    let folder = Folder::new("hostile");
    let hostile = [
        ("code", build::shared_code(0)),
        ("register", build::shared_code(17)),
        ("constants", build::shared_constants(200)),
        ("rows", build::shared_constants(15_000)),
        ("shared text", build::shared_text(0xb000)),
        ("jumps", build::many_jumps()),
        ("text", build::long_constant()),
        ("registers", build::all_registers()),
        ("wide", build::tree(true)),
        ("deep", build::tree(false)),
    ];
    // Each file in a thread of its own: they take a minute one behind the other.
    std::thread::scope(|scope| {
        for (name, bytes) in &hostile {
            scope.spawn(|| hostile_file_in_64_mb(&folder, name, bytes));
        }
    });
}

fn hostile_file_in_64_mb(folder: &Folder, name: &str, bytes: &[u8]) {
    assert!(bytes.len() <= 65_536, "{name}: {}", bytes.len());
    let path = folder.file(name, bytes);
    for command in [
        &["examine"][..],
        &["load"],
        &["load", "--json"],
        &["steps"],
        &["steps", "--json"],
        &["report"],
        &["follow"],
    ] {
        let mut words = command.to_vec();
        words.push(&path);
        if command[0] == "follow" {
            words.extend(["9", "go"]);
        }
        let ran = run_in_64_mb(&words);
        assert!(ran.status < 2, "{command:?} {name}: {}", ran.err);
        assert!(
            ran.out.len() < 64 << 20,
            "{command:?} {name}: {}",
            ran.out.len()
        );
    }
}

#[test]
fn reports_go_to_files() {
    let folder = Folder::new("report");
    let pattern = folder.file("oval.mrb", &sample_bytes());
    let page = folder.path().join("page.html");
    let source = sample().with_extension("rb");
    let words = [
        "report",
        &pattern,
        "-o",
        path_of(&page),
        "--source",
        path_of(&source),
    ];
    let ran = run(&words);
    assert_eq!(ran.status, 0, "{ran:?}");
    let html = fs::read_to_string(&page).unwrap();
    assert!(html.starts_with("<!DOCTYPE html>") && html.ends_with("</html>\n"));
    assert!(html.contains("<code>oval = Oval.new(18.5, 32.25)</code>"));
    assert!(html.contains("id=\"k0-2\""));
    assert!(!html.contains("http://") && !html.contains("https://"));
    // The pattern itself is never written over.
    let ran = run(&["report", &pattern, "-o", &pattern]);
    assert_eq!(ran.status, 2);
    assert_eq!(fs::read(&pattern).unwrap(), sample_bytes());
    assert_eq!(
        run(&["report", &pattern, "-o", "/no/such/folder/x"]).status,
        2
    );
    assert_eq!(
        run(&["report", &pattern, "--source", "/no/such/file"]).status,
        2
    );
}

#[test]
fn help_and_usage() {
    for words in [
        &["--help"][..],
        &["help"],
        &[],
        &["help", "follow"],
        &["help", "opcodes"],
        &["help", "watch"],
        &["steps", "--help"],
    ] {
        let ran = run(words);
        assert_eq!(ran.status, 0, "{words:?}");
        assert!(ran.out.contains("Example"), "{words:?}");
    }
    assert!(run(&["--version"]).out.starts_with("blotheath "));
    for words in [
        &["look"][..],
        &["load"],
        &["load", "--each", "a"],
        &["follow", "a", "fly"],
        &["opcodes", "a"],
    ] {
        let ran = run(words);
        assert_eq!(ran.status, 2, "{words:?}");
        assert!(
            ran.out.is_empty() && ran.err.starts_with("blotheath: "),
            "{ran:?}"
        );
    }
}
