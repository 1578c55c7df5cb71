//! Drawings and other files that are no patterns: what every command tells of them.

mod common;

use common::json::{Value, parse};
use common::{Folder, build, run, run_with, sample_bytes};

const PICTURE: &str = "a PNG picture";
const TEXT: &str = "plain text, perhaps the Ruby source, which has to be compiled first";

/// The Ruby source of a pattern.
const SOURCE: &[u8] = b"rods = 32\nputs \"cut #{rods} rods\"\n";

#[test]
fn a_drawing_is_examined() {
    let folder = Folder::new("png");
    let path = folder.file("oval.png", &build::drawing(700));
    let ran = run(&["examine", &path]);
    let line = format!(
        "{path}: refused by 27: the file is not a compiled pattern: it does not begin with RITE \
         (header, byte 0: the file begins with \"\\x89PNG\"; it looks like {PICTURE})"
    );
    let lines: Vec<&str> = ran.out.lines().collect();
    assert_eq!((ran.status, lines[0]), (1, line.as_str()));
    let bytes = "        0 [89]50 4e 47 0d 0a 1a 0a 00 00 00 0d 49 48 44 52";
    assert_eq!((lines.len(), lines[1]), (3, bytes));
}

#[test]
fn a_source_is_examined() {
    let ran = run_with(&["examine", "-"], SOURCE);
    let told = format!("(header, byte 0: the file begins with \"rods\"; it looks like {TEXT})\n");
    assert_eq!(ran.status, 1);
    assert!(
        ran.out.starts_with("standard input: refused by 27: "),
        "{}",
        ran.out
    );
    assert!(ran.out.contains(&told), "{}", ran.out);
}

#[test]
fn a_cut_pattern_is_examined() {
    let sample = sample_bytes();
    let ran = run_with(&["examine", "-"], &sample[..300]);
    let line = "standard input: refused by 28: the file is cut short: it has fewer bytes than its header states \
                (header, byte 8: the header states 1121 bytes, and the file has 300)\n";
    assert_eq!(ran.status, 1);
    assert!(ran.out.starts_with(line), "{}", ran.out);
}

/// A box of patterns has a line for each file, whatever lies in it.
#[test]
fn a_box_of_patterns() {
    let folder = Folder::new("box");
    for (name, bytes) in [
        ("a.mrb", build::drawing(700)),
        ("b.mrb", build::drawing(70_000)),
        ("c.mrb", sample_bytes()),
        ("d.mrb", SOURCE.to_vec()),
        ("e.mrb", sample_bytes()[..300].to_vec()),
        ("f.mrb", b"GIF89a".to_vec()),
    ] {
        folder.file(name, &bytes);
    }
    let ran = run(&["examine", folder.path().to_str().unwrap()]);
    assert_eq!(ran.status, 1);
    let lines: Vec<&str> = ran.out.lines().collect();
    let told = [
        ("a.mrb: refused by 27: ", "; it looks like a PNG picture)"),
        ("b.mrb: refused by 1: ", "; it looks like a PNG picture)"),
        ("c.mrb: passes: ", " lines"),
        ("d.mrb: refused by 27: ", " compiled first)"),
        ("e.mrb: refused by 28: ", ", and the file has 300)"),
        ("f.mrb: refused by 2: ", "; it looks like a GIF picture)"),
    ];
    assert_eq!(lines.len(), told.len() + 1, "{}", ran.out);
    for (line, (start, end)) in lines.iter().zip(told) {
        assert!(line.contains(start) && line.ends_with(end), "{line}");
    }
    assert_eq!(lines[6], "6 files: 1 passed, 5 refused");
}

/// What each command that writes JSON says of a refused file.
fn refusals(file: &[u8]) -> [Value; 4] {
    let read = |words: &[&str]| parse(&run_with(words, file).out);
    let examined = read(&["examine", "--json", "-"]);
    let followed = read(&["follow", "--json", "-", "go"]);
    [
        examined.get("files").items()[0].clone(),
        read(&["load", "--json", "-"]),
        read(&["steps", "--json", "-"]),
        followed.get("standings").items()[0].clone(),
    ]
}

#[test]
fn json_tells_what_a_file_looks_like() {
    for (file, number, like) in [
        (build::drawing(700), 27.0, PICTURE),
        (build::drawing(70_000), 1.0, PICTURE),
        (build::drawing(19), 2.0, PICTURE),
        (SOURCE.to_vec(), 27.0, TEXT),
    ] {
        for refusal in refusals(&file) {
            assert_eq!(refusal.get("refusal").number(), number);
            assert_eq!(refusal.get("looks_like").text(), like);
        }
    }
    let mut other = sample_bytes();
    other[5] = b'3';
    let mut unknown = sample_bytes();
    unknown[0] = 0;
    let cut = sample_bytes()[..300].to_vec();
    for (file, number) in [(cut, 28.0), (other, 3.0), (unknown, 27.0)] {
        for refusal in refusals(&file) {
            assert_eq!(refusal.get("refusal").number(), number);
            assert!(!refusal.has("looks_like"));
        }
    }
}

#[test]
fn every_command_tells_what_a_file_looks_like() {
    let drawing = build::drawing(700);
    let told = format!("the file begins with \"\\x89PNG\"; it looks like {PICTURE}");
    for words in [
        &["examine", "-"][..],
        &["load", "-"],
        &["steps", "-"],
        &["follow", "-", "go"],
        &["report", "-", "-o", "/dev/null"],
    ] {
        let ran = run_with(words, &drawing);
        assert_eq!(ran.status, 1, "{words:?}");
        assert!(
            ran.out.contains("refused by 27: ") && ran.out.contains(&told),
            "{words:?}: {}",
            ran.out
        );
    }
    for command in ["examine", "load", "steps"] {
        let value = parse(&run_with(&[command, "--json", "-"], &drawing).out);
        let place = match command {
            "examine" => value.get("files").items()[0].get("place"),
            _ => value.get("place"),
        };
        assert_eq!(place.get("what").text(), told);
        assert_eq!(place.get("byte").number(), 0.0);
    }
}
