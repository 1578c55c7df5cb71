//! Words: arguments, outputs, faults, and what is shown exactly.

mod common;

use common::json::parse;
use common::{
    Folder, build, run, run_behind, run_in_64_mb, run_in_shell, run_with, sample, sample_bytes,
    status_unread,
};
use std::fs;
use std::os::unix::fs::{MetadataExt, PermissionsExt, symlink};
use std::path::Path;

fn path_of(path: &Path) -> &str {
    path.to_str().unwrap()
}

/// A folder with the sample, its source, and a page of it.
fn lesson(name: &str) -> Folder {
    let folder = Folder::new(name);
    folder.file("oval.mrb", &sample_bytes());
    folder.file("oval.rb", &fs::read(sample().with_extension("rb")).unwrap());
    let words = [
        &in_folder(&folder, "oval.mrb"),
        "-o",
        &in_folder(&folder, "oval.html"),
    ];
    assert_eq!(run(&[&["report"], &words[..]].concat()).status, 0);
    folder
}

fn in_folder(folder: &Folder, name: &str) -> String {
    path_of(&folder.path().join(name)).to_owned()
}

/// The names in a folder.
fn names(folder: &Folder) -> Vec<String> {
    let mut names: Vec<String> = fs::read_dir(folder.path())
        .unwrap()
        .map(|entry| entry.unwrap().file_name().into_string().unwrap())
        .collect();
    names.sort();
    names
}

#[test]
fn a_page_never_goes_over_what_was_read() {
    let folder = lesson("read");
    let at = |name: &str| in_folder(&folder, name);
    fs::hard_link(at("oval.mrb"), at("hard.html")).unwrap();
    symlink(at("oval.mrb"), at("soft.html")).unwrap();
    fs::hard_link(at("oval.rb"), at("source.html")).unwrap();
    let source = fs::read(at("oval.rb")).unwrap();
    for output in [
        "oval.rb",
        "oval.mrb",
        "hard.html",
        "soft.html",
        "source.html",
    ] {
        for force in [&[][..], &["--force"]] {
            let (pattern, output, source) = (at("oval.mrb"), at(output), at("oval.rb"));
            let words = ["report", &pattern, "-o", &output, "--source", &source];
            let ran = run(&[&words[..], force].concat());
            assert_eq!(ran.status, 2, "{output}");
            let told = "this file is read for the page, so the page is not written over it\n";
            assert!(ran.err.ends_with(told), "{}", ran.err);
            assert!(ran.out.is_empty());
        }
    }
    // A pattern that standard input is, and one that standard output is.
    for line in [
        "\"$0\" report - -o \"$1\" < \"$1\"",
        "\"$0\" report \"$1\" >> \"$1\"",
    ] {
        let ran = run_in_shell(line, &[&at("oval.mrb")], b"");
        assert_eq!(ran.status, 2, "{line}");
    }
    assert_eq!(fs::read(at("oval.mrb")).unwrap(), sample_bytes());
    assert_eq!(fs::read(at("oval.rb")).unwrap(), source);
    assert!(names(&folder).iter().all(|name| !name.starts_with('.')));
}

#[test]
fn another_file_needs_force() {
    let folder = lesson("force");
    let pattern = in_folder(&folder, "oval.mrb");
    let note = folder.file("note.txt", b"rods of the last lesson");
    let ran = run(&["report", &pattern, "--output", &note]);
    assert_eq!(ran.status, 2);
    assert!(
        ran.err
            .contains("no page of this program; --force writes over it"),
        "{}",
        ran.err
    );
    assert_eq!(fs::read(&note).unwrap(), b"rods of the last lesson");
    let ran = run(&["report", &pattern, "--output", &note, "--force"]);
    assert_eq!(ran.status, 0, "{}", ran.err);
    assert!(fs::read_to_string(&note).unwrap().contains("blotheath"));
    // A page, and an empty file, go without.
    let empty = folder.file("empty.html", b"");
    for output in [&empty, &note, &in_folder(&folder, "oval.html")] {
        assert_eq!(run(&["report", &pattern, "-o", output]).status, 0);
    }
    let ran = run(&["report", &pattern, "-o", path_of(folder.path())]);
    assert!(
        ran.status == 2 && ran.err.contains("this is a folder"),
        "{}",
        ran.err
    );
}

#[test]
fn a_page_keeps_its_permissions_and_its_link() {
    let folder = lesson("kept");
    let pattern = in_folder(&folder, "oval.mrb");
    let page = in_folder(&folder, "oval.html");
    let link = in_folder(&folder, "link.html");
    fs::set_permissions(&page, fs::Permissions::from_mode(0o640)).unwrap();
    symlink("oval.html", &link).unwrap();
    let before = fs::metadata(&page).unwrap().ino();
    assert_eq!(run(&["report", &pattern, "-o", &link]).status, 0);
    let after = fs::metadata(&page).unwrap();
    assert!(fs::symlink_metadata(&link).unwrap().is_symlink());
    assert_eq!(after.permissions().mode() & 0o777, 0o640);
    assert_ne!(after.ino(), before);
    symlink("nothing.html", in_folder(&folder, "dead.html")).unwrap();
    let ran = run(&["report", &pattern, "-o", &in_folder(&folder, "dead.html")]);
    assert_eq!(ran.status, 2, "{}", ran.err);
}

#[test]
fn a_page_that_fails_leaves_the_old_one() {
    let folder = lesson("fails");
    let pattern = in_folder(&folder, "oval.mrb");
    let page = in_folder(&folder, "oval.html");
    let (old, there) = (fs::read(&page).unwrap(), names(&folder));
    // A file may have no more than 2 KiB here.
    let words = ["report", &pattern, "-o", &page];
    let ran = run_behind("trap '' XFSZ; ulimit -f 4", &words, b"");
    assert_eq!(ran.status, 2, "{ran:?}");
    assert!(ran.err.contains("file too large"), "{}", ran.err);
    assert_eq!(fs::read(&page).unwrap(), old);
    assert_eq!(names(&folder), there);
}

#[test]
fn pages_go_to_devices_and_pipes() {
    let pattern = path_of(&sample()).to_owned();
    for output in [&[][..], &["-o", "-"], &["-o", "/dev/stdout"]] {
        let page = run(&[&["report", &pattern], output].concat()).out;
        assert!(page.starts_with("<!DOCTYPE") && page.ends_with("</html>\n"));
    }
    let ran = run(&["report", &pattern, "-o", "/dev/null"]);
    assert!(
        ran.status == 0 && ran.out.ends_with("/dev/null is written\n"),
        "{ran:?}"
    );
    let ran = run_in_shell(
        "\"$0\" report \"$1\" -o /dev/fd/3 3>&1 >/dev/null | cat",
        &[&pattern],
        b"",
    );
    assert!(
        ran.out.starts_with("<!DOCTYPE") && ran.out.ends_with("</html>\n"),
        "{}",
        ran.err
    );
    let folder = Folder::new("device");
    let out = in_folder(&folder, "out.html");
    let line = "\"$0\" report \"$1\" -o /dev/stdout > \"$2\"";
    assert_eq!(run_in_shell(line, &[&pattern, &out], b"").status, 0);
    let written = fs::read_to_string(&out).unwrap();
    assert!(written.starts_with("<!DOCTYPE") && written.ends_with("</html>\n"));
}

#[test]
fn an_output_that_is_closed_or_full() {
    let pattern = path_of(&sample()).to_owned();
    let full = |words: &[&str]| run_in_shell("\"$0\" \"$@\" > /dev/full", words, b"");
    for words in [
        &["--help"][..],
        &["help", "follow"],
        &["--version"],
        &["examine", &pattern],
        &["examine", "--json", &pattern],
        &["examine", "--record", "0", &pattern],
        &["watch", &pattern],
        &["load", &pattern],
        &["load", "--json", &pattern],
        &["steps", &pattern],
        &["steps", "--json", &pattern],
        &["follow", &pattern],
        &["follow", &pattern, "go"],
        &["follow", &pattern, "go", "--json"],
        &["report", &pattern],
        &["report", &pattern, "-o", "/dev/stdout"],
        &["report", &pattern, "-o", "/dev/null"],
    ] {
        assert_eq!(status_unread(words), Some(2), "{words:?}");
        let ran = full(words);
        assert_eq!(ran.status, 2, "{words:?}");
        assert!(
            ran.err.ends_with("no space left on device\n"),
            "{words:?} {}",
            ran.err
        );
    }
    let ran = run(&["report", &pattern, "-o", "/dev/full"]);
    assert_eq!(ran.status, 2);
    assert_eq!(ran.err, "blotheath: /dev/full: no space left on device\n");
}

#[test]
fn options_with_values() {
    let folder = lesson("values");
    let at = |name: &str| in_folder(&folder, name);
    let (output, source) = (
        format!("--output={}", at("a=b.html")),
        format!("--source={}", at("oval.rb")),
    );
    let ran = run(&["report", &output, &source, &at("oval.mrb")]);
    assert_eq!(ran.status, 0, "{}", ran.err);
    assert!(
        fs::read_to_string(at("a=b.html"))
            .unwrap()
            .contains("class Oval")
    );
    let ran = run(&["laod", "x"]);
    assert_eq!(ran.status, 2);
    assert!(
        ran.err
            .starts_with("blotheath: there is no command \"laod\"; did you mean load?\n"),
        "{}",
        ran.err
    );
    let ran = run(&["steps", "--al", "x"]);
    assert!(
        ran.err.contains("no option \"--al\"; did you mean --all?"),
        "{}",
        ran.err
    );
}

#[test]
fn patterns_in_capitals() {
    let folder = Folder::new("capitals");
    folder.file("A.MRB", &sample_bytes());
    folder.file("b/c.Mrb", &sample_bytes());
    folder.file("b/d.mrbx", &sample_bytes());
    let ran = run(&["examine", path_of(folder.path())]);
    assert!(
        ran.out.ends_with("2 files: 2 passed, 0 refused\n"),
        "{}",
        ran.out
    );
}

#[test]
fn faults_in_plain_words() {
    let pattern = path_of(&sample()).to_owned();
    let below = format!("{pattern}/x.mrb");
    for words in [
        &["examine", "/no/such/file"][..],
        &["examine", "--json", "/no/such/file"],
        &["load", "/no/such/file"],
        &["report", &pattern, "--source", "/no/such/file"],
        &["examine", &below],
        &["report", &pattern, "-o", "/no/such/folder/x"],
        &["report", &pattern, "-o", &below],
    ] {
        let ran = run(words);
        assert_eq!(ran.status, 2, "{words:?}");
        let told = ran.out + &ran.err;
        assert!(!told.contains("os error"), "{words:?} {told}");
        let plain = ["no such file", "not a directory", "no such folder"];
        assert!(plain.iter().any(|plain| told.contains(plain)), "{told}");
    }
}

/// Characters that are not seen, or turn the text around them.
const HIDDEN: &str = "\u{ad}\u{61c}\u{200b}\u{200e}\u{200f}\u{202a}\u{202e}\u{2028}\u{2060}\u{2066}\u{2069}\u{3164}\u{feff}\u{e0001}\u{e0041}";

#[test]
fn what_is_not_seen_is_shown_escaped() {
    let folder = Folder::new("hidden");
    let constant = build::text(HIDDEN.as_bytes());
    let code = [92, 0, 0, 16, 0, 0, 118];
    let file = build::one(&code, &[&constant], &[HIDDEN.as_bytes()]);
    let path = folder.file(&format!("a{HIDDEN}b.mrb"), &file);
    for words in [
        &["examine", &path][..],
        &["examine", "--json", &path],
        &["examine", "--record", "0", &path],
        &["load", &path],
        &["load", "--json", &path],
        &["steps", &path],
        &["steps", "--json", &path],
        &["follow", &path, "go"],
        &["follow", "--json", &path, "go"],
        &["report", &path],
        &["report", &path, "-o", &format!("{path}.html")],
        &["load", &format!("{path}.no")],
        &["load", &format!("--{HIDDEN}")],
        &["follow", &path, HIDDEN],
        &[HIDDEN],
    ] {
        let ran = run(words);
        let shown = ran.out.clone() + &ran.err;
        assert!(
            !shown.chars().any(|c| HIDDEN.contains(c)),
            "{words:?} {shown}"
        );
        if words[1..].contains(&"--json") {
            let read = parse(&ran.out);
            let file = match words[0] {
                "examine" => read.get("files").items()[0].get("file"),
                _ => read.get("file"),
            };
            assert_eq!(file.text(), path);
        }
    }
    let load = parse(&run(&["load", "--json", &path]).out);
    let record = &load.get("records").items()[0];
    assert_eq!(
        record.get("constants").items()[0].get("text").text(),
        HIDDEN
    );
}

#[test]
fn load_says_how_to_see_the_rest() {
    let folder = Folder::new("rest");
    let text = "willow ".repeat(40);
    let constant = build::text(text.as_bytes());
    let digits = "1234567890".repeat(9);
    let mut big = vec![7, digits.len() as u8, 10];
    big.extend(digits.as_bytes());
    let symbol = "s".repeat(300);
    let code = [92, 0, 0, 2, 0, 1, 16, 0, 0, 118];
    let file = build::one(&code, &[&constant, &big], &[symbol.as_bytes()]);
    let path = folder.file("long.mrb", &file);
    let cut = run(&["load", &path]).out;
    assert!(!cut.contains(&text) && !cut.contains(&digits) && !cut.contains(&symbol));
    assert!(
        cut.contains("\n  2 texts are cut; --all shows them whole\n"),
        "{cut}"
    );
    assert!(
        cut.contains("\n  1 text is cut; --all shows it whole\n"),
        "{cut}"
    );
    for words in [
        &["load", "--all", &path][..],
        &["load", "--json", &path],
        &["steps", "--all", &path],
        &["steps", "--all", "--json", &path],
    ] {
        let whole = run(words).out;
        for value in [&text, &digits, &symbol] {
            assert!(whole.contains(value.as_str()), "{words:?} {value}");
        }
        assert!(!whole.contains("--all"), "{words:?}");
    }
    assert!(!run(&["load", path_of(&sample())]).out.contains("cut"));
}

#[test]
fn loadi32_is_one_number() {
    let folder = Folder::new("loadi32");
    for number in [0i32, -1, 65_536, -65_537, i32::MAX, i32::MIN] {
        let mut code = vec![15, 3];
        code.extend(number.to_be_bytes());
        code.push(118);
        let path = folder.file("number.mrb", &build::one(&code, &[], &[]));
        let steps = run(&["steps", &path]).out;
        assert!(
            steps.contains(&format!("LOADI32    R3, {number}\n")),
            "{steps}"
        );
        let steps = parse(&run(&["steps", "--json", &path]).out);
        let step = &steps.get("records").items()[0].get("steps").items()[0];
        let operands = step.get("operands").items();
        assert_eq!(operands.len(), 2);
        assert_eq!(operands[1].get("means").number(), f64::from(number));
        assert_eq!(
            operands[1].get("operand").number(),
            f64::from(number as u32)
        );
    }
}

#[test]
fn sources_beside_steps_and_frames() {
    let pattern = path_of(&sample()).to_owned();
    let source = path_of(&sample().with_extension("rb")).to_owned();
    let ran = run(&["steps", &pattern, "--source", &source]);
    assert!(ran.err.is_empty(), "{}", ran.err);
    let row = ran
        .out
        .lines()
        .find(|line| line.contains("   line 26 "))
        .unwrap();
    assert!(
        row.ends_with("  # raise \"too few rods\" if rods < 12"),
        "{row}"
    );
    let ran = run(&["follow", &pattern, "7 go enter", "--source", &source]);
    let rows: Vec<&str> = ran.out.lines().collect();
    assert!(
        rows[0].ends_with("  # oval = Oval.new(18.5, 32.25)"),
        "{}",
        ran.out
    );
    assert!(
        rows[1].ends_with("  # def initialize(width, length)"),
        "{}",
        ran.out
    );
    let ran = run_with(&["follow", &pattern, "--source", &source], b"quit\n");
    assert!(
        ran.out.contains("  # NAMES = [\"stake\", \"weaver\"]\n"),
        "{}",
        ran.out
    );
    let steps = parse(&run(&["steps", "--json", &pattern, "--source", &source]).out);
    assert!(steps.get("source").get("named").is_true());
    let step = &steps.get("records").items()[0].get("steps").items()[0];
    assert_eq!(step.get("source").text(), "NAMES = [\"stake\", \"weaver\"]");
    let follow = parse(&run(&["follow", "--json", &pattern, "go", "--source", &source]).out);
    let frame = &follow.get("standings").items()[0].get("frames").items()[0];
    assert_eq!(
        frame.get("source").text(),
        "NAMES = [\"stake\", \"weaver\"]"
    );
}

#[test]
fn a_source_of_another_name_is_told() {
    let folder = Folder::new("stranger");
    let pattern = path_of(&sample()).to_owned();
    let source = folder.file("round.rb", b"a = 1\n");
    let told = "blotheath: no debug file of the pattern is named \"round.rb\" (it has \"oval.rb\"), \
                so no line of this source is shown\n";
    for words in [
        &["steps", &pattern][..],
        &["steps", "--json", &pattern],
        &["follow", &pattern, "go"],
        &["follow", "--json", &pattern, "go"],
        &["report", &pattern],
    ] {
        let ran = run(&[words, &["--source", &source]].concat());
        assert_eq!((ran.status, ran.err.as_str()), (0, told), "{words:?}");
        if words[1] == "--json" {
            let read = parse(&ran.out);
            assert_eq!(read.get("source").get("name").text(), "round.rb");
            assert!(!read.get("source").get("named").is_true());
        }
    }
    let bare = folder.file("bare.mrb", &build::one(&[118], &[], &[]));
    let ran = run(&["steps", &bare, "--source", &source]);
    assert!(ran.err.contains("(it has none)"), "{}", ran.err);
}

#[test]
fn a_long_source_line_is_bounded() {
    let folder = Folder::new("line");
    let pattern = path_of(&sample()).to_owned();
    let source = folder.file("oval.rb", "x".repeat(1 << 20).as_bytes());
    let lines = "\n".repeat(2) + &"y".repeat(1_000_000);
    fs::write(&source, lines).unwrap();
    for words in [
        &["steps", &pattern][..],
        &["steps", "--json", &pattern],
        &["follow", &pattern, "go"],
    ] {
        let ran = run(&[words, &["--source", &source]].concat());
        assert!(ran.out.contains(&"y".repeat(256)) && ran.out.len() < 100_000);
    }
    let ran = run(&["steps", "--all", &pattern, "--source", &source]);
    assert!(ran.out.contains(&"y".repeat(1_000_000)));
}

#[test]
fn a_source_of_many_lines_in_64_mb() {
    let folder = Folder::new("lines");
    let pattern = folder.file("constants.mrb", &build::shared_constants(200));
    let source = folder.file("oval.rb", &b"a\n".repeat(1 << 19));
    let ran = run_in_64_mb(&["steps", &pattern, "--source", &source]);
    assert_eq!(ran.status, 1, "{}", ran.err);
}
