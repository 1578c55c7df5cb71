//! Schools: the options and files that permit and forbid opcodes, and every form of output that tells it.

mod common;

use blotheath::*;
use common::build::{self, AT_CLASS, BLOCK, DEF, EXT2, METHOD, SDEF, STOP, TCLASS, TDEF};
use common::json::{Value, parse};
use common::{
    Folder, files, held, run, run_in_64_mb_with, run_with, sample, sample_bytes, steers, told,
};
use std::fs;
use std::path::{Path, PathBuf};
use std::process::Command;

/// The commands that examine a file, each with the words in front of the file and behind it.
const COMMANDS: [(&[&str], &[&str]); 4] = [
    (&["examine"], &[]),
    (&["steps"], &[]),
    (&["follow"], &["go"]),
    (&["report", "-o", "/dev/null"], &[]),
];

#[test]
fn every_command_tells_what_is_permitted_where_that_is_not_everything() {
    let folder = Folder::new("permitted-told");
    let school = folder.file("lower.txt", b"permit everything\n");
    for (options, line) in [
        (
            &["--forbid", "prefixes"][..],
            Some("permitted: every opcode but EXT1, EXT2, EXT3"),
        ),
        (
            &["--forbid", "globals,debugging", "--forbid=EXT3"],
            Some("permitted: every opcode but GETGV, SETGV, GETSV, SETSV, DEBUG, EXT3"),
        ),
        (
            &["--school", &school],
            Some("permitted: every opcode (lower.txt)"),
        ),
        (&[], None),
        (&["--permit", "everything"], None),
        (&["--forbid", "CLASS", "--permit", "class"], None),
    ] {
        for command in COMMANDS {
            let ran = told(command, options, &sample_bytes());
            assert_eq!(ran.status, 0, "{command:?} {options:?} {}", ran.err);
            let first = ran.out.lines().next().unwrap();
            match line {
                Some(line) => assert_eq!(first, line, "{command:?}"),
                None => assert!(!first.contains("permitted"), "{command:?} {first}"),
            }
            let rest = ran.out.lines().skip(usize::from(line.is_some()));
            let plain = told(command, &[], &sample_bytes()).out;
            assert!(rest.eq(plain.lines()), "{command:?} {options:?}");
        }
    }
}

/// Whichever is shorter is told, what is forbidden or what is permitted, and a long list is cut.
#[test]
fn what_is_permitted_in_words() {
    for (options, words) in [
        (&["--forbid", "everything"][..], "no opcode"),
        (&["--permit", "STOP,loadnil"], "only LOADNIL, STOP"),
        (
            &["--permit", "values"],
            "only NOP, MOVE, LOADL, LOADI, LOADINEG, LOADI__1, LOADI_0, LOADI_1, LOADI_2, LOADI_3, LOADI_4, LOADI_5 and 8 more",
        ),
        (
            &["--forbid", "values"],
            "every opcode but NOP, MOVE, LOADL, LOADI, LOADINEG, LOADI__1, LOADI_0, LOADI_1, LOADI_2, LOADI_3, LOADI_4, LOADI_5 and 8 more",
        ),
    ] {
        let ran = told(COMMANDS[0], options, &build::class());
        let first = ran.out.lines().next();
        assert_eq!(first, Some(&format!("permitted: {words}")[..]));
    }
    // Behind the allowance's line.
    let ran = told(
        COMMANDS[0],
        &["--forbid", "CLASS", "--preview"],
        &build::class(),
    );
    let lines: Vec<&str> = ran.out.lines().take(2).collect();
    assert!(lines[0].starts_with("allowance: ") && lines[1].starts_with("permitted: "));
}

const SENTENCE: &str = "refused by 32: a step has an opcode or a prefix that is not permitted";

/// The line by which a file is refused under options, behind the file's name.
fn refused(command: (&[&str], &[&str]), options: &[&str], file: &[u8]) -> String {
    let ran = told(command, options, file);
    assert_eq!(ran.status, 1, "{command:?}");
    let line = ran.out.lines().nth(1).unwrap();
    line.strip_prefix("standard input: ").unwrap().to_owned()
}

#[test]
fn every_command_tells_the_step_and_how_to_permit_it() {
    let folder = Folder::new("permitted-hint");
    let school = folder.file("lower.txt", b"forbid classes\n");
    let line = format!("permit CLASS\" at the end of {school}");
    let here = "(IREP, record 0, offset 4, byte 52: CLASS is not permitted)";
    let add = "to permit that, add --permit CLASS behind the other options";
    let also = "the file also holds EXEC, not permitted either";
    for command in COMMANDS {
        for (options, behind) in [
            (&["--forbid", "CLASS"][..], add.to_owned()),
            (&["--forbid", "classes"], format!("{add}; {also}")),
            (
                &["--school", &school],
                format!("{add}, or the line \"{line}; {also}"),
            ),
            // The file has not the last word.
            (&["--school", &school, "--permit=EXEC"], add.to_owned()),
        ] {
            let right = format!("{SENTENCE} {here}; {behind}");
            assert_eq!(refused(command, options, &build::class()), right);
        }
        let line = refused(command, &["--forbid", "classes"], &sample_bytes());
        assert!(
            line.contains("(IREP, record 0, offset 16, line 5, byte 64: CLASS is not"),
            "{line}"
        );
        let wide = build::one(&[EXT2, BLOCK, 1, 0, 0, STOP], &[], &[]);
        let line = refused(command, &["--forbid=EXT2,BLOCK"], &wide);
        let right = "(IREP, record 0, offset 0, byte 48: the prefix EXT2 and BLOCK behind it are not permitted); to permit that, add --permit EXT2,BLOCK behind";
        assert!(line.contains(right), "{line}");
        let line = refused(command, &["--permit", "STOP"], &sample_bytes());
        assert!(line.ends_with(" more, not permitted either"), "{line}");
    }
}

/// A pattern that defines a method by this code, with the method's record.
fn defining(code: &[u8]) -> Vec<u8> {
    let method = build::record(0, &[STOP], &[], &[]);
    let main = build::record(1, code, &[], &[b"rods"]);
    build::file(&[build::irep(&[main, method].concat())])
}

/// A plain def, as older compilers and newer ones write it.
const OLDER_DEF: [u8; 9] = [TCLASS, 1, METHOD, 2, 0, DEF, 1, 0, STOP];
const NEWER_DEF: [u8; 5] = [TDEF, 1, 0, 0, STOP];

/// Where `classes` refuses a plain def, the hint tells of the group that does not; where that would not help, it does not.
#[test]
fn a_plain_def_may_stay_permitted() {
    let folder = Folder::new("permitted-def");
    let school = folder.file("lower.txt", b"forbid globals CLASSES\n");
    let hint = "; classes forbids every def, and class-definitions in its place leaves a plain def permitted";
    for (code, name) in [(&OLDER_DEF[..], "TCLASS"), (&NEWER_DEF, "TDEF")] {
        let file = defining(code);
        for command in COMMANDS {
            let options = &["--forbid", "class-definitions,globals"];
            assert_eq!(told(command, options, &file).status, 0, "{command:?}");
            let option = format!("--permit {name} behind the other options");
            for (options, right) in [
                (&["--forbid=classes"][..], format!("{option}{hint}")),
                (
                    &["--school", &school],
                    format!("\"permit {name}\" at the end of {school}{hint}"),
                ),
                (
                    &["--permit", "everything", "--forbid", "Classes"],
                    format!("{option}{hint}"),
                ),
            ] {
                let line = refused(command, options, &file);
                assert!(line.contains(&right), "{line}");
            }
            for options in [
                &["--forbid", "classes,methods"][..],
                &["--forbid", "TCLASS,TDEF"],
                &["--forbid", "everything"],
                &["--permit", "STOP"],
                &["--forbid", "classes", "--forbid", name],
            ] {
                let line = refused(command, options, &file);
                assert!(!line.contains("class-definitions"), "{line}");
            }
        }
    }
    // def self.name is a definition of a singleton class.
    let file = defining(&[SDEF, 1, 0, 0, STOP]);
    for group in ["classes", "class-definitions"] {
        let line = refused(COMMANDS[0], &["--forbid", group], &file);
        assert!(line.contains("SDEF is not permitted"), "{line}");
        assert!(!line.contains("every def"), "{line}");
    }
}

/// What the hint says lets the file pass in the end.
#[test]
fn the_hint_helps() {
    let folder = Folder::new("permitted-helps");
    let school = folder.file("lower.txt", b"permit STOP\n");
    let mut options = vec!["--school".to_owned(), school.clone()];
    for round in 0..119 {
        let words: Vec<&str> = options.iter().map(String::as_str).collect();
        let ran = told(COMMANDS[0], &words, &sample_bytes());
        if ran.status == 0 {
            return;
        }
        let (_, hint) = ran.out.split_once("add --permit ").unwrap();
        let (names, _) = hint.split_once(' ').unwrap();
        if round % 2 == 0 {
            options.extend(["--permit".to_owned(), names.to_owned()]);
        } else {
            let text = fs::read_to_string(&school).unwrap();
            fs::write(&school, format!("{text}permit {names}\n")).unwrap();
        }
    }
    panic!("the file does not pass");
}

/// What each command says in JSON: what is permitted, and the verdict.
fn in_json(options: &[&str], file: &[u8]) -> [(Value, Value); 3] {
    let read = |index: usize| {
        let ran = told(COMMANDS[index], &[&["--json"], options].concat(), file);
        parse(&ran.out)
    };
    let of = |value: Value| (value.get("permitted").clone(), value);
    let examined = of(read(0).get("files").items()[0].clone());
    let followed = read(2);
    let standing = followed.get("standings").items()[0].clone();
    [
        examined,
        of(read(1)),
        (followed.get("permitted").clone(), standing),
    ]
}

fn texts(value: &Value) -> Vec<&str> {
    value.items().iter().map(Value::text).collect()
}

#[test]
fn json_has_what_is_permitted_in_every_verdict() {
    let folder = Folder::new("permitted-json");
    let school = folder.file("lower.txt", b"forbid globals\n");
    let globals = ["GETGV", "SETGV", "GETSV", "SETSV"];
    for (options, forbidden, schools) in [
        (&[][..], &[][..], &[][..]),
        (&["--permit", "everything"], &[], &[]),
        (&["--forbid", "globals"], &globals, &[]),
        (&["--school", &school], &globals, &[&school[..]]),
        (&["--school", &school, "--permit=globals"], &[], &[&school]),
    ] {
        for (permitted, verdict) in in_json(options, &sample_bytes()) {
            assert_eq!(permitted.get("everything").is_true(), forbidden.is_empty());
            assert_eq!(texts(permitted.get("forbidden")), forbidden);
            assert_eq!(texts(permitted.get("schools")), schools);
            assert!(!verdict.has("refusal") && !verdict.has("not_permitted"));
        }
    }
    for (permitted, verdict) in in_json(&["--forbid", "classes"], &build::class()) {
        assert_eq!(texts(permitted.get("forbidden")).len(), 8);
        assert_eq!(verdict.get("refusal").number(), 32.0);
        assert_eq!(verdict.get("sentence").text(), Refusal(32).sentence());
        let not = verdict.get("not_permitted");
        assert_eq!(texts(not.get("opcodes")), ["CLASS"]);
        assert_eq!(texts(not.get("others")), ["EXEC"]);
        assert!(not.get("hint").text().contains("--permit CLASS "));
        let place = verdict.get("place");
        assert_eq!(place.get("offset").number(), f64::from(AT_CLASS));
        assert_eq!(place.get("what").text(), "CLASS is not permitted");
    }
    for (_, verdict) in in_json(&["--forbid", "everything"], &sample_bytes()[..300]) {
        assert_eq!(verdict.get("refusal").number(), 28.0);
        assert!(!verdict.has("not_permitted"));
    }
}

#[test]
fn the_page_tells_what_is_permitted() {
    let folder = Folder::new("permitted-page");
    let school = folder.file("lower.txt", b"forbid globals\n");
    let page =
        |options: &[&str], file: &[u8]| run_with(&[&["report", "-"], options].concat(), file).out;
    let note = |words: &str| format!("<p class=\"note\">Permitted: {words}.</p>");
    for (options, words) in [
        (&[][..], "every opcode"),
        (&["--forbid", "DEBUG"], "every opcode but DEBUG"),
        (
            &["--school", &school],
            "every opcode but GETGV, SETGV, GETSV, SETSV (lower.txt)",
        ),
    ] {
        let page = page(options, &sample_bytes());
        assert!(page.contains(&note(words)), "{words}");
        assert!(page.contains("it meets none of the refusals 15 to 20, 25 and 32."));
    }
    // A page is read long after it was made: its list is whole.
    let permitted = page(&["--permit", "values,STOP"], &sample_bytes());
    let values = Group::of("values").unwrap().names;
    let words = format!("only {}, STOP", values.join(", "));
    assert!(permitted.contains(&note(&words)));
    let refused = page(&["--forbid", "classes"], &build::class());
    assert!(refused.contains("<strong>Refused by 32</strong> <span>A step has an opcode or a prefix that is not permitted.</span>"));
    assert!(refused.contains("<p class=\"place\">IREP, record 0, offset 4, byte 52: CLASS is not permitted. <a href=\"#bad\">See it among the steps.</a></p>"));
    assert!(refused.contains("<tr class=\"broken\"><td class=\"number\">32</td>"));
    assert!(refused.contains("<strong>Refused by 32:</strong> CLASS is not permitted."));
    assert!(refused.contains("Byte 52, 67, is marked"));
    let also = "<p class=\"caution\">The file also holds EXEC, not permitted either.</p>";
    assert!(refused.contains(also));
    let refused = page(&["--forbid", "CLASS"], &build::class());
    assert!(!refused.contains("also holds"));
    let refused = page(&["--forbid", "everything"], &sample_bytes());
    assert!(refused.contains("<p class=\"caution\">The file also holds "));
    assert!(!refused.contains(" more, not permitted"));
}

/// A page is not written over a school's file.
#[test]
fn a_school_file_is_read_for_the_page() {
    let folder = Folder::new("permitted-over");
    let school = folder.file("lower.txt", b"forbid globals\n");
    let pattern = sample();
    let pattern = pattern.to_str().unwrap();
    let words = [
        "report", pattern, "--school", &school, "-o", &school, "--force",
    ];
    let ran = run(&words);
    assert_eq!(ran.status, 2);
    assert!(
        ran.err.contains("this file is read for the page"),
        "{}",
        ran.err
    );
    assert_eq!(fs::read(&school).unwrap(), b"forbid globals\n");
}

/// The opcodes that options leave forbidden, as JSON tells them.
fn forbidden(options: &[&str]) -> Vec<String> {
    let ran = told(
        COMMANDS[0],
        &[&["--json"], options].concat(),
        &sample_bytes(),
    );
    assert!(ran.status < 2, "{options:?} {}", ran.err);
    let value = parse(&ran.out);
    let permitted = value.get("files").items()[0].get("permitted");
    texts(permitted.get("forbidden"))
        .into_iter()
        .map(str::to_owned)
        .collect()
}

#[test]
fn options_count_in_their_order() {
    let folder = Folder::new("permitted-order");
    let none = folder.file("none.txt", b"forbid EXT1 EXT2\npermit EXT1\n");
    let some = folder.file("some.txt", b"permit everything\nforbid ext3\n");
    for (options, right) in [
        (&["--forbid", "EXT1", "--permit", "EXT1"][..], &[][..]),
        (
            &["--forbid", "prefixes", "--permit", "EXT2"],
            &["EXT1", "EXT3"],
        ),
        (&["--permit", "everything", "--forbid", "EXT2"], &["EXT2"]),
        (&["--school", &none], &["EXT2"]),
        (&["--school", &none, "--permit", "EXT2"], &[]),
        (&["--school", &none, "--school", &some], &["EXT3"]),
        (&["--school", &some, "--school", &none], &["EXT2", "EXT3"]),
        (&["--forbid=EXT3", "--school", &none], &["EXT2", "EXT3"]),
    ] {
        assert_eq!(forbidden(options), right, "{options:?}");
    }
    // What comes first decides: a permission is of nothing else.
    for first in ["--permit=STOP", "--school"] {
        let school = folder.file("only.txt", b"# a comment\n\npermit STOP\n");
        let options = match first {
            "--school" => vec![first, &school],
            first => vec![first],
        };
        assert_eq!(forbidden(&options).len(), 118);
        let more = [&options[..], &["--school", &none]].concat();
        assert_eq!(forbidden(&more).len(), 117);
        assert_eq!(
            forbidden(&[&["--forbid=NOP"], &options[..]].concat()),
            ["NOP"]
        );
    }
}

#[test]
fn school_files() {
    let folder = Folder::new("permitted-schools");
    let school = |text: &[u8]| folder.file("lower school.txt", text);
    for text in [
        &b"forbid EXT1, EXT2"[..],
        b"forbid EXT1,EXT2\n",
        b"forbid ext1 Ext2 # and a comment\r\n",
        b"\xef\xbb\xbf# a mark before it\nFORBID\tEXT1\n\n  forbid 116  \n",
        b"forbid prefixes#all\r\n\r\npermit EXT3\r\n",
        b"# permit nothing\nforbid EXT1 EXT1,,EXT2 ,\n#forbid EXT3",
    ] {
        let path = school(text);
        assert_eq!(
            forbidden(&["--school", &path]),
            ["EXT1", "EXT2"],
            "{text:?}"
        );
    }
    for (text, fault) in [
        (&b""[..], ": no line permits or forbids anything"),
        (
            b"# forbid CLASS\n\n",
            ": no line permits or forbids anything",
        ),
        (
            b"CLASS\n",
            ", line 1: a line begins with permit or forbid, and this one with \"CLASS\"",
        ),
        (
            b"forbid CLASS\n\nallow MODULE\n",
            ", line 3: a line begins with permit or forbid, and this one with \"allow\"",
        ),
        (b"forbid\n", ", line 1: no opcode and no group is named"),
        (
            b"permit # CLASS\n",
            ", line 1: no opcode and no group is named",
        ),
        (
            b"forbid CLASS\nforbid MODUL\n",
            ", line 2: there is no opcode and no group \"MODUL\"; did you mean MODULE?",
        ),
        (
            b"forbid 7 119\n",
            ", line 1: there is no opcode \"119\"; they go from 0 to 118",
        ),
        (
            b"forbid CL\x1bASS\xff\n",
            ", line 1: there is no opcode and no group \"CL\\u{1b}ASS\u{fffd}\"; did you mean CLASS?",
        ),
        (&[b'#'; 65_537], ": this is too long for a school's file"),
    ] {
        let path = school(text);
        for command in COMMANDS {
            let ran = told(command, &["--school", &path], &sample_bytes());
            assert_eq!((ran.status, &ran.out[..]), (2, ""), "{text:?}");
            let right = format!("blotheath: {path}{fault}\n");
            assert!(ran.err.starts_with(&right), "{} {right}", ran.err);
            assert!(!steers(&ran.err));
        }
    }
    let most = [b"forbid EXT3\n", &[b'#'; 65_524][..]].concat();
    assert_eq!(forbidden(&["--school", &school(&most)]), ["EXT3"]);
    let ran = told(COMMANDS[0], &["--school", "-"], b"forbid EXT3\n");
    assert_eq!((ran.status, &ran.out[..]), (2, ""));
    let right = "blotheath: --school: standard input is read for patterns alone\n";
    assert!(ran.err.starts_with(right), "{}", ran.err);
    let there = folder.path().to_str().unwrap();
    for path in ["/no/such/school.txt", there] {
        let ran = told(COMMANDS[0], &["--school", path], &sample_bytes());
        assert_eq!((ran.status, &ran.out[..]), (2, ""));
        assert!(
            ran.err.starts_with(&format!("blotheath: {path}: ")),
            "{}",
            ran.err
        );
    }
}

/// What is told of a name that is near to none.
const LISTED: &str = "; `blotheath opcodes` lists them";

#[test]
fn unknown_names_are_wrong_usage() {
    for (name, hint) in [
        ("CLAS", "; did you mean CLASS?"),
        ("clases", "; did you mean CLASS, classes or OCLASS?"),
        ("global", "; did you mean globals?"),
        ("metods", "; did you mean methods or METHOD?"),
        ("EXT4", "; did you mean EXT1, EXT2 or EXT3?"),
        ("everythin", "; did you mean everything?"),
        ("class-bodies", LISTED),
        ("class_definitions", "; did you mean class-definitions?"),
        ("OP_MODULE", "; did you mean MODULE?"),
        ("All", "; did you mean everything?"),
        ("weaving", LISTED),
        ("-1", LISTED),
        ("0x67", LISTED),
        ("op_", LISTED),
        ("wea\u{1b}ving", LISTED),
    ] {
        for option in ["--permit", "--forbid"] {
            for command in COMMANDS {
                let words = format!("{option}=STOP,{name}");
                let ran = told(command, &[&words], &sample_bytes());
                assert_eq!((ran.status, &ran.out[..]), (2, ""), "{name}");
                let shown = name.replace('\u{1b}', "\\u{1b}");
                let right = format!(
                    "blotheath: {option}: there is no opcode and no group \"{shown}\"{hint}\n"
                );
                assert!(ran.err.starts_with(&right), "{} {right}", ran.err);
            }
        }
    }
    for name in ["119", "256", "99999999999999999999"] {
        let ran = run(&["examine", "a", "--forbid", name]);
        let right = format!("there is no opcode \"{name}\"; they go from 0 to 118\n");
        assert!(ran.status == 2 && ran.err.contains(&right), "{}", ran.err);
    }
    for name in ["nothing", "None"] {
        for (option, told) in [
            ("--permit", "to permit nothing, forbid everything"),
            ("--forbid", "to forbid nothing, permit everything"),
        ] {
            let ran = run(&["examine", "a", option, name]);
            let right = format!("there is no opcode and no group \"{name}\"; {told}\n");
            assert!(ran.status == 2 && ran.err.contains(&right), "{}", ran.err);
        }
    }
    // What only loads, or reads no file, looks at no opcode.
    for command in ["load", "opcodes"] {
        for option in ["--permit", "--forbid", "--school"] {
            let ran = run(&[command, option, "CLASS"]);
            assert_eq!(ran.status, 2);
            let right = format!("blotheath: {command} has no option \"{option}\"\n");
            assert!(ran.err.starts_with(&right), "{}", ran.err);
        }
    }
}

#[test]
fn help_lists_the_groups() {
    let general = run(&["--help"]).out;
    let words: Vec<&str> = general.split([' ', ',', '.', '\n']).collect();
    for group in Group::all() {
        assert!(words.contains(&group.name), "{}", group.name);
    }
    for command in ["examine", "watch", "steps", "follow", "report"] {
        let help = run(&["help", command]).out;
        for words in [
            "[--forbid NAMES] [--permit NAMES] [--school FILE]",
            "refused by 32",
            "prefixes",
        ] {
            assert!(help.contains(words), "{command} {words}");
        }
        for group in Group::all() {
            let line = format!("    {:<18} {}", group.name, group.about);
            assert!(help.lines().any(|found| found == line), "{line}");
        }
        assert!(help.lines().all(|line| line.len() <= 128), "{command}");
    }
    for command in ["load", "opcodes"] {
        assert!(!run(&["help", command]).out.contains("[--forbid"));
    }
}

/// `opcodes` has the groups with their opcodes, in words and in JSON.
#[test]
fn the_page_of_opcodes_lists_the_groups() {
    let text = run(&["opcodes"]).out;
    let (_, listed) = text
        .split_once("\n\nGroups, as --permit and --forbid take them\n")
        .unwrap();
    let mut groups: Vec<(&str, Vec<&str>)> = Vec::new();
    for line in listed.lines() {
        match line.strip_prefix("    ") {
            None => groups.push((line.trim_start(), Vec::new())),
            Some(names) => groups.last_mut().unwrap().1.extend(names.split(' ')),
        }
    }
    let json = parse(&run(&["opcodes", "--json"]).out);
    let items = json.get("groups").items();
    assert_eq!(
        (groups.len(), items.len()),
        (Group::all().count(), Group::all().count())
    );
    for ((group, (head, names)), item) in Group::all().zip(groups).zip(items) {
        assert_eq!(head, format!("{}: {}", group.name, group.about));
        match group.name {
            "everything" => assert!(names.is_empty()),
            _ => assert_eq!(names, group.names),
        }
        assert_eq!(item.get("name").text(), group.name);
        assert_eq!(item.get("about").text(), group.about);
        assert_eq!(texts(item.get("opcodes")), group.names);
    }
}

/// Schools that permit groups alone: what a pattern is made of is enough for it.
#[test]
fn groups_alone() {
    let basics =
        "values,texts,arithmetic,collections,jumps,calls,returns,parameters,blocks,methods";
    let rest = "classes,constants,variables,globals,exceptions,prefixes";
    for path in files() {
        let name = path.to_str().unwrap();
        let ran = run(&["examine", name, "--permit", basics, "--permit", rest]);
        assert_eq!(ran.status, 0, "{}", ran.out);
        let pattern = fs::read(&path).unwrap();
        let has = held(&load(&pattern).unwrap());
        for group in Group::all() {
            let holds = group.opcodes().any(|opcode| has.contains(&opcode));
            let ran = run(&["examine", name, "--forbid", group.name]);
            assert_eq!(ran.status == 1, holds, "{}", ran.out);
        }
    }
}

/// Hostile files are told of in 64 MB too.
#[test]
fn hostile_files_in_64_mb() {
    for file in [
        build::shared_code(0),
        build::all_registers(),
        build::tree(false),
    ] {
        let ran = run_in_64_mb_with(&["examine", "--permit", "NOP", "-"], &file);
        assert_eq!(ran.status, 1, "{}", ran.err);
        assert!(ran.out.contains(SENTENCE), "{}", ran.out);
    }
}

fn repository() -> PathBuf {
    Path::new(env!("CARGO_MANIFEST_DIR")).join("../..")
}

/// The READMEs show what the program says of their examples: each line of an example stands in its output, in order.
#[test]
fn the_readmes_show_what_is_said() {
    for (readme, folder, command) in [
        ("README.md", "", "    ./blotheath examine "),
        (
            "host/blotheath/README.md",
            "host",
            "    cargo run --release -p blotheath -- examine ",
        ),
    ] {
        let text = fs::read_to_string(repository().join(readme)).unwrap();
        let mut examples = 0;
        for (start, _) in text.match_indices(command) {
            let (line, behind) = text[start + command.len()..].split_once('\n').unwrap();
            let Some(shown) = behind.strip_prefix("\nsays\n\n") else {
                continue;
            };
            let (shown, _) = shown.split_once("\n\n").unwrap();
            let shown: Vec<&str> = shown.split_whitespace().collect();
            let words: Vec<&str> = ["examine"].into_iter().chain(line.split(' ')).collect();
            let ran = Command::new(env!("CARGO_BIN_EXE_blotheath"))
                .args(words)
                .current_dir(repository().join(folder))
                .output()
                .unwrap();
            let out = String::from_utf8(ran.stdout).unwrap();
            let out: Vec<&str> = out.split_whitespace().collect();
            assert!(out.starts_with(&shown), "{line}: {out:?}");
            examples += 1;
        }
        assert!(examples >= 2, "{readme}");
    }
}

/// The school's file that a README shows is the sample's.
#[test]
fn the_readme_shows_the_sample_school() {
    let read = |path: &str| fs::read_to_string(repository().join(path)).unwrap();
    let school = read("host/samples/lower-school.txt");
    let shown: String = school.lines().map(|line| format!("    {line}\n")).collect();
    assert!(read("host/blotheath/README.md").contains(&format!("\n\n{shown}\n")));
}
