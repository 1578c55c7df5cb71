//! Prefixes: steps with wide operands in every form that shows them, and the refusals that prefixes bring.

mod common;

use blotheath::{Choice, Constant, Frame, Pattern, Standing, Step, bytes_of, examine, follow};
use common::build::{
    self, EXT1, EXT2, EXT3, FIRST_CODE, JMP, LOADNIL, NOP, STOP, WIDE, WIDE_NUMBER,
};
use common::json::{Value, parse};
use common::{Folder, compiled, refused, run, run_with};
use std::fs;

/// The file with wide operands, in a folder of its own.
fn wide(name: &str) -> (Folder, String) {
    let folder = Folder::new(name);
    let path = folder.file("wide.mrb", &build::wide());
    (folder, path)
}

#[test]
fn a_prefix_and_its_opcode_are_one_step() {
    let (_folder, path) = wide("prefixes-steps");
    let steps = run(&["steps", &path]);
    assert_eq!(steps.status, 0, "{}", steps.out);
    for row in [
        "  0  EXT1 LOADNIL    R299 pitch\n",
        "  4  EXT2 LOADL      R1, 1256\n",
        "  9  EXT3 MOVE       R255, R256 rods\n",
        " 15  EXT2 LOADSYM    R1, :s299\n",
        " 20  EXT3 SEND       R256 rods, :s257, 1 argument  touches R256..R257\n",
        " 27  EXT2 BLOCK      R1, record 257\n",
        " 32  EXT3 METHOD     R256 rods, record 300\n",
        "╭─┬─▶    38  EXT1 JMPNOT     R256 rods, to 48\n",
        "│ ╰──    44  EXT3 JMP        to 38\n",
        "╰───▶    48  EXT2 STOP\n",
        "\nrecord 257, block, inside 0, depth 1 (4 bytes, ",
        "\nrecord 300, method, inside 0, depth 1 (4 bytes, ",
    ] {
        assert!(steps.out.contains(row), "{row:?} in {}", steps.out);
    }
    // Ten steps, and no others, in record 0; names are wider where there are prefixes.
    let (first, rest) = steps.out.split_once("\nrecord 1, ").unwrap();
    assert_eq!(first.lines().count(), 1 + 2 + 10, "{first}");
    assert!(rest.contains("  0  LOADNIL    R1\n"), "{rest}");
}

/// A step in JSON: its offset, prefix, opcode and name.
fn step_of(step: &Value) -> (f64, Option<f64>, f64, &str) {
    let prefix = match step.get("prefix") {
        Value::Null => None,
        prefix => Some(prefix.number()),
    };
    let opcode = step.get("opcode").number();
    let offset = step.get("offset").number();
    (offset, prefix, opcode, step.get("name").text())
}

fn operands_of(step: &Value) -> Vec<f64> {
    let operands = step.get("operands").items().iter();
    operands
        .map(|operand| operand.get("operand").number())
        .collect()
}

#[test]
fn json_has_the_prefix_beside_the_opcode() {
    let (_folder, path) = wide("prefixes-json");
    let read = parse(&run(&["steps", "--json", &path]).out);
    let records = read.get("records").items();
    let steps = records[0].get("steps").items();
    let (ext1, ext2, ext3) = (Some(115.0), Some(116.0), Some(117.0));
    let expected = [
        ((0.0, ext1, 17.0, "LOADNIL"), &[299.0][..]),
        ((4.0, ext2, 2.0, "LOADL"), &[1.0, 256.0]),
        ((9.0, ext3, 1.0, "MOVE"), &[255.0, 256.0]),
        ((15.0, ext2, 16.0, "LOADSYM"), &[1.0, 299.0]),
        ((20.0, ext3, 50.0, "SEND"), &[256.0, 257.0, 1.0]),
        ((27.0, ext2, 98.0, "BLOCK"), &[1.0, 256.0]),
        ((32.0, ext3, 99.0, "METHOD"), &[256.0, 299.0]),
        ((38.0, ext1, 40.0, "JMPNOT"), &[256.0, 4.0]),
        ((44.0, ext3, 38.0, "JMP"), &[65_526.0]),
        ((48.0, ext2, 118.0, "STOP"), &[]),
    ];
    assert_eq!(steps.len(), expected.len());
    for (step, (told, operands)) in steps.iter().zip(expected) {
        assert_eq!(step_of(step), told);
        assert_eq!(operands_of(step), operands, "{told:?}");
    }
    let named = |step: usize, operand: usize| &steps[step].get("operands").items()[operand];
    assert_eq!(named(0, 0).get("name").get("text").text(), "pitch");
    assert_eq!(named(1, 1).get("value").number(), 1_256.0);
    assert_eq!(named(3, 1).get("text").text(), "s299");
    assert_eq!(named(5, 1).get("record").number(), 257.0);
    assert_eq!(named(7, 1).get("target").number(), 48.0);
    assert_eq!(named(8, 0).get("target").number(), 38.0);
    let plain = &records[1].get("steps").items()[0];
    assert_eq!(step_of(plain), (0.0, None, 17.0, "LOADNIL"));
}

#[test]
fn the_page_sets_a_prefix_before_its_opcode() {
    let (_folder, path) = wide("prefixes-page");
    let page = run(&["report", &path]).out;
    assert!(page.contains("it meets none of the refusals 15 to 20, 25 and 32."));
    assert!(page.contains("<td class=\"number\">16, 25</td>"));
    for (prefix, name, operands) in [
        ("EXT1", "LOADNIL", "<span class=\"local\">pitch</span>"),
        ("EXT2", "LOADL", "<a href=\"#k0-256\">1256</a></span>"),
        ("EXT2", "LOADSYM", "<span class=\"symbol\">:s299</span>"),
        (
            "EXT2",
            "BLOCK",
            "<a class=\"child\" href=\"#r257\">record 257</a>",
        ),
        (
            "EXT3",
            "METHOD",
            "<a class=\"child\" href=\"#r300\">record 300</a>",
        ),
        ("EXT3", "JMP", "<span class=\"plain\">to 38</span>"),
        ("EXT2", "STOP", "<td class=\"operands\">"),
    ] {
        let shown =
            format!("<td class=\"name\"><span class=\"prefix\">{prefix}</span> {name}</td>");
        assert_eq!(page.matches(&shown).count(), 1, "{shown}");
        let (_, row) = page.split_once(&shown).unwrap();
        let (row, _) = row.split_once("</td></tr>").unwrap();
        assert!(row.ends_with(operands), "{row}");
    }
    assert!(page.contains("<h3>Record 257 <span class=\"what\">block</span>"));
    assert!(page.contains("<td class=\"name\">LOADNIL</td>"));
}

/// The frames of a run of a file along choices; none where it is finished.
fn frames(file: &[u8], choices: &[Choice]) -> Vec<(u32, u32)> {
    match follow(file, &bytes_of(choices)).unwrap() {
        Standing::Finished => Vec::new(),
        Standing::At { top, frames, .. } => {
            assert_eq!(frames.last(), Some(&top));
            let frames = frames.iter();
            frames
                .map(|Frame { record, offset }| (*record, *offset))
                .collect()
        }
    }
}

#[test]
fn a_run_stands_at_prefixes() {
    use Choice::{Enter, GoOn, Jump, Leave};
    let file = build::wide();
    let gone =
        |number: usize, more: &[Choice]| frames(&file, &[&[GoOn].repeat(number), more].concat());
    for (number, offset) in [0, 4, 9, 15, 20, 27, 32, 38, 44, 38]
        .into_iter()
        .enumerate()
    {
        assert_eq!(gone(number, &[]), [(0, offset)]);
    }
    assert_eq!(gone(5, &[Enter]), [(0, 32), (257, 0)]);
    assert_eq!(gone(6, &[Enter]), [(0, 38), (300, 0)]);
    assert_eq!(gone(6, &[Enter, Leave]), [(0, 38)]);
    assert_eq!(gone(7, &[Jump]), [(0, 48)]);
    assert_eq!(gone(7, &[Jump, GoOn]), []);
    // What is not open at the opcode is going on: entering at LOADL, jumping at JMP.
    assert_eq!(gone(1, &[Enter]), [(0, 9)]);
    assert_eq!(gone(8, &[Jump]), [(0, 38)]);
}

#[test]
fn follow_shows_prefixes() {
    let (_folder, path) = wide("prefixes-follow");
    let ran = run(&["follow", &path, "5 go enter"]);
    let rows: Vec<&str> = ran.out.lines().collect();
    assert!(
        rows[0].starts_with("    record 0, offset 32, no line")
            && rows[0].ends_with(" EXT3 METHOD R256 rods, record 300"),
        "{}",
        ran.out
    );
    assert!(
        rows[1].starts_with("  ▶ record 257, offset 0, no line"),
        "{}",
        ran.out
    );
    let ran = run(&["follow", &path, "jump 5 go jump"]);
    for told in [
        "choice 1: jump is not open at LOADNIL: went on\n",
        "choice 7: jump is not open at METHOD: went on\n",
    ] {
        assert!(ran.out.contains(told), "{}", ran.out);
    }
    let ran = run_with(&["follow", &path], b"5 go\n2 go\nquit\n");
    let rows = ran.out.lines();
    let open: Vec<&str> = rows
        .filter_map(|row| row.strip_prefix("  open: "))
        .collect();
    let expected = ["go, leave", "go, enter, leave", "go, jump, leave"];
    assert_eq!(open, expected, "{}", ran.out);
    let read = parse(&run(&["follow", "--json", &path, "7 go jump"]).out);
    let frames = read.get("standings").items()[0].get("frames").items();
    assert_eq!(frames[0].get("offset").number(), 48.0);
    assert!(read.get("agrees").is_true());
}

/// The file with two bytes of record 0's code changed.
fn with(offset: usize, operand: u16) -> Vec<u8> {
    let mut file = build::wide();
    let place = FIRST_CODE + offset;
    file[place..place + 2].copy_from_slice(&operand.to_be_bytes());
    file
}

/// The wide operands with a role: an instruction's offset and name, the operand in words, where it stands, what it names.
const NAMING: [(u32, &str, &str, u32, &str); 11] = [
    (0, "EXT1 LOADNIL", "first", 2, "register"),
    (4, "EXT2 LOADL", "second", 7, "constant"),
    (9, "EXT3 MOVE", "first", 11, "register"),
    (9, "EXT3 MOVE", "second", 13, "register"),
    (15, "EXT2 LOADSYM", "second", 18, "symbol"),
    (20, "EXT3 SEND", "first", 22, "register"),
    (20, "EXT3 SEND", "second", 24, "symbol"),
    (27, "EXT2 BLOCK", "second", 30, "child"),
    (32, "EXT3 METHOD", "first", 34, "register"),
    (32, "EXT3 METHOD", "second", 36, "child"),
    (38, "EXT1 JMPNOT", "first", 40, "register"),
];

#[test]
fn a_wide_operand_is_below_its_number() {
    for (offset, name, ordinal, at, thing) in NAMING {
        // SEND has an argument in the register behind its own.
        let behind = u16::from(name == "EXT3 SEND" && thing == "register");
        for named in [0, 255, 256, WIDE_NUMBER - 1 - behind] {
            assert!(examine(&with(at as usize, named)).is_ok(), "{name}");
        }
        for named in [WIDE_NUMBER, 511, 65_535] {
            let (number, place) = refused(&with(at as usize, named));
            assert_eq!((number, place.record), (17, Some(0)));
            assert_eq!(place.offset, Some(offset));
            assert_eq!(place.byte, Some(FIRST_CODE as u32 + at));
            let what = format!(
                "the {ordinal} operand of {name} names {thing} {named}, counted from 0, and the record has {WIDE_NUMBER}"
            );
            assert_eq!(place.what, what);
        }
    }
}

/// A prefix that widens nothing is good, and changes nothing but the size.
#[test]
fn prefixes_that_widen_nothing() {
    for prefix in [EXT1, EXT2, EXT3] {
        let code = [prefix, NOP, prefix, JMP, 0, 0, prefix, STOP];
        assert!(examine(&build::one(&code, &[], &[])).is_ok(), "{prefix}");
    }
    // The second operand of BS and BSS, and the first of those behind EXT2, stay as they are.
    for code in [
        &[EXT2, LOADNIL, 7, STOP][..],
        &[EXT2, 14, 7, 1, 1, STOP],
        &[EXT3, 14, 0, 7, 1, 1, STOP],
        &[EXT2, 15, 7, 1, 1, 1, 1, STOP],
        &[EXT3, 15, 0, 7, 1, 1, 1, 1, STOP],
        // The third operand of BBB.
        &[EXT3, 87, 0, 7, 0, 7, 255, STOP],
    ] {
        assert!(examine(&build::one(code, &[], &[])).is_ok(), "{code:?}");
    }
}

#[test]
fn numbers_behind_prefixes() {
    let folder = Folder::new("prefixes-numbers");
    for (code, row) in [
        (&[EXT2, 3, 1, 1, 44][..], "EXT2 LOADI      R1, 300\n"),
        (&[EXT2, 4, 1, 1, 44], "EXT2 LOADINEG   R1, -300\n"),
        (&[EXT3, 70, 0, 1, 255, 255], "EXT3 ADDI       R1, 65535\n"),
        (&[EXT1, 14, 0, 1, 255, 255], "EXT1 LOADI16    R1, -1\n"),
        (&[EXT3, 15, 0, 1, 0, 1, 0, 2], "EXT3 LOADI32    R1, 65538\n"),
        (&[EXT2, 33, 1, 1, 44, 0], "EXT2 GETUPVAR   R1, R300, 1 up\n"),
        (
            &[EXT3, 57, 4, 0, 0],
            "EXT3 ENTER      parameters: 1 required\n",
        ),
    ] {
        let code = [code, &[STOP]].concat();
        let path = folder.file("number.mrb", &build::one(&code, &[], &[]));
        let steps = run(&["steps", &path]);
        assert!(steps.out.contains(row), "{row:?} in {}", steps.out);
        assert_eq!(steps.status, 0, "{}", steps.out);
    }
}

/// Prefixes without an opcode, each with its offset and what is told.
const ALONE: [(&[u8], u32, &str); 5] = [
    (&[EXT1], 0, "the prefix EXT1 is the last byte of its record"),
    (
        &[STOP, EXT3],
        1,
        "the prefix EXT3 is the last byte of its record",
    ),
    (
        &[NOP, EXT2, EXT1, STOP],
        1,
        "another prefix, EXT1, follows the prefix EXT2",
    ),
    (
        &[EXT3, EXT3],
        0,
        "another prefix, EXT3, follows the prefix EXT3",
    ),
    // Behind an instruction of a prefix, not among its operands.
    (
        &[EXT1, LOADNIL, EXT1, EXT2, EXT2],
        4,
        "the prefix EXT2 is the last byte of its record",
    ),
];

#[test]
fn a_prefix_without_an_opcode_is_refused_where_it_stands() {
    for (code, offset, what) in ALONE {
        let (number, place) = refused(&build::one(code, &[], &[]));
        assert_eq!((number, place.section), (25, Some("IREP")));
        assert_eq!((place.record, place.offset), (Some(0), Some(offset)));
        assert_eq!(place.byte, Some(FIRST_CODE as u32 + offset));
        assert_eq!(place.what, what);
    }
}

#[test]
fn a_prefix_without_an_opcode_is_told_in_every_form() {
    let folder = Folder::new("prefixes-alone");
    for (code, offset, what) in ALONE {
        let path = folder.file("bad.mrb", &build::one(code, &[], &[]));
        let byte = FIRST_CODE as u32 + offset;
        let sentence = "refused by 25: a prefix has no opcode behind it: its record ends, or another prefix follows";
        let told = format!("{sentence} (IREP, record 0, offset {offset}, byte {byte}: {what})\n");
        for command in [&["examine"][..], &["steps"], &["follow"]] {
            let mut words = [command, &[&path]].concat();
            if command[0] == "follow" {
                words.push("go");
            }
            let ran = run(&words);
            assert_eq!(ran.status, 1, "{words:?}");
            assert!(ran.out.contains(&told), "{words:?}: {}", ran.out);
        }
        let steps = run(&["steps", &path]).out;
        let row = format!("{offset:>6}  {what}: reading ends here\n");
        assert!(steps.ends_with(&row), "{steps}");
        let read = parse(&run(&["steps", "--json", &path]).out);
        assert_eq!(read.get("refusal").number(), 25.0);
        assert_eq!(read.get("place").get("byte").number(), f64::from(byte));
        let unreadable = read.get("records").items()[0].get("unreadable");
        assert_eq!(unreadable.get("offset").number(), f64::from(offset));
        assert_eq!(unreadable.get("what").text(), what);
        let page = run(&["report", &path]).out;
        assert!(page.contains("<strong>Refused by 25</strong>"));
        let (_, row) = page.split_once("<tr class=\"bad\" id=\"bad\">").unwrap();
        let told = format!("<strong>Refused by 25:</strong> {what}. Reading ends here.");
        assert!(row.contains(&told), "{row}");
    }
}

/// 16 and 25 are met in one reading: whichever comes first.
#[test]
fn the_order_of_16_and_25() {
    for (code, number, offset) in [
        (&[200, EXT1][..], 16, 0),
        (&[EXT1, EXT1, 200], 25, 0),
        (&[NOP, EXT1, 200, EXT1], 16, 1),
        (&[NOP, EXT1, LOADNIL, 0], 16, 1),
        (&[LOADNIL, EXT1, EXT1], 25, 2),
        // Operands are no prefixes: this is a register that is not there.
        (&[NOP, EXT1, LOADNIL, EXT1, EXT1], 17, 1),
        // Both before 17 and 18 of the same record.
        (&[LOADNIL, 200, JMP, 0, 9, EXT2], 25, 5),
    ] {
        let (met, place) = refused(&build::one(code, &[], &[]));
        assert_eq!((met, place.offset), (number, Some(offset)), "{code:?}");
    }
    // An earlier record's 17 comes before a later one's 25.
    let first = build::record(1, &[LOADNIL, 8, STOP], &[], &[]);
    let second = build::record(0, &[STOP, EXT1], &[], &[]);
    let file = build::file(&[build::irep(&[first, second].concat())]);
    let (number, place) = refused(&file);
    assert_eq!((number, place.record), (17, Some(0)));
}

#[test]
fn no_instruction_begins_behind_a_prefix() {
    // JMP to NOP, which stands behind EXT1, and to EXT1.
    let to = |distance: u8| [JMP, 0, distance, EXT1, NOP, STOP];
    let (number, place) = refused(&build::one(&to(1), &[], &[]));
    assert_eq!((number, place.offset), (18, Some(0)));
    assert_eq!(place.what, "the jump goes to 4, the opcode behind a prefix");
    assert!(examine(&build::one(&to(0), &[], &[])).is_ok());
    assert!(examine(&build::one(&to(2), &[], &[])).is_ok());
    // A handler.
    let code = [EXT2, LOADNIL, 1, STOP];
    for (target, what) in [
        (1, "handler 1 goes to 1, the opcode behind a prefix"),
        (2, "handler 1 goes to 2"),
        (4, "handler 1 goes to 4"),
    ] {
        let (number, place) = refused(&build::with_handlers(&code, &[0, target]));
        assert_eq!((number, place.what.as_str()), (19, what));
    }
    assert!(examine(&build::with_handlers(&code, &[0, 3])).is_ok());
}

#[test]
fn a_handler_behind_a_prefix_is_marked_on_the_page() {
    let folder = Folder::new("prefixes-handler");
    let file = build::with_handlers(&[EXT2, LOADNIL, 1, STOP], &[0, 1]);
    let page = run(&["report", &folder.file("bad.mrb", &file)]).out;
    let (_, told) = page
        .split_once("<p class=\"warning\" id=\"bad\">Handler 1, ")
        .unwrap();
    let (told, _) = told.split_once("</p>").unwrap();
    assert!(
        told.ends_with("handler 1 goes to 1, the opcode behind a prefix."),
        "{told}"
    );
}

/// A jump behind a prefix counts from the end of its instruction, which the prefix and a wide operand move.
#[test]
fn jumps_behind_prefixes() {
    for (jump, next) in [
        (&[JMP, 255, 0][..], 4),
        (&[EXT1, JMP, 255, 0], 5),
        (&[EXT2, 39, 0, 255, 0], 6),
        (&[EXT1, 39, 0, 0, 255, 0], 7),
        (&[EXT3, 41, 0, 0, 255, 0], 7),
    ] {
        let mut code = [&[NOP], jump, &[STOP]].concat();
        // Back to the start.
        let distance = next - 2;
        code[distance..next].copy_from_slice(&(-(next as i16)).to_be_bytes());
        let file = build::one(&code, &[], &[]);
        let choices = [Choice::GoOn, Choice::Jump];
        assert_eq!(frames(&file, &choices), [(0, 0)], "{code:?}");
        code[next - 1] -= 1;
        let (number, place) = refused(&build::one(&code, &[], &[]));
        assert_eq!((number, place.what.as_str()), (18, "the jump goes to -1"));
    }
}

/// The text that a step names as a constant or a symbol.
fn named(pattern: &Pattern, step: &Step) -> Vec<u8> {
    let text = match pattern.constant(0, step.operands[1]) {
        Ok(Constant::Text(text)) if step.name().ends_with("STRING") => text,
        _ => pattern.symbol(0, step.operands[1]).unwrap(),
    };
    text.bytes.to_vec()
}

/// The steps of record 0 whose opcode has this name, each with the text that it names.
fn named_by(pattern: &Pattern, steps: &[Step], name: &str) -> Vec<(Option<u8>, String)> {
    let of_name = |step: &&Step| step.name().split(' ').next_back() == Some(name);
    let steps = steps.iter().filter(of_name);
    steps
        .map(|step| {
            let text = String::from_utf8(named(pattern, step)).unwrap();
            (step.prefix, text)
        })
        .collect()
}

/// The numbers of constants and symbols of a compiled file pass 255; its steps are what its source says.
#[test]
fn a_compiled_file_with_many_constants() {
    for path in compiled("27_wide_operands") {
        let file = fs::read(&path).unwrap();
        let pattern = examine(&file).unwrap();
        let steps: Vec<Step> = pattern.steps(0).unwrap().map(Result::unwrap).collect();
        // Each of 300 globals gets a text of its own, and 60 of them are held against a symbol.
        let texts: Vec<String> = (1..=300).map(|n| format!("text number {n}")).collect();
        let globals: Vec<String> = (1..=300).map(|n| format!("$v{n}")).collect();
        let symbols: Vec<String> = (1..=60).map(|n| format!("s{n}")).collect();
        let methods: Vec<String> = (1..=60).map(|n| format!("m{n}")).collect();
        for (name, expected, wide) in [
            ("STRING", &texts, 44),
            ("SETGV", &globals, 45),
            ("LOADSYM", &symbols, 60),
            ("SSEND", &methods, 60),
        ] {
            let found = named_by(&pattern, &steps, name);
            let shown: Vec<&String> = found.iter().map(|(_, text)| text).collect();
            assert!(shown.into_iter().eq(expected), "{name}: {found:?}");
            let prefixed = found.iter().filter(|(prefix, _)| prefix.is_some());
            assert_eq!(prefixed.count(), wide, "{name}");
            assert!(
                found
                    .iter()
                    .all(|(prefix, _)| matches!(prefix, None | Some(EXT2)))
            );
        }
        check_lines(&pattern, &steps);
    }
}

/// Where a file has lines, the text of global n is loaded on line n + 1.
fn check_lines(pattern: &Pattern, steps: &[Step]) {
    if pattern.counts().lines == 0 {
        return;
    }
    let strings = steps.iter().filter(|step| step.name().ends_with("STRING"));
    for (line, step) in (2..).zip(strings) {
        assert_eq!(pattern.line(0, step.offset), Ok(Some(line)));
    }
}

#[test]
fn a_compiled_file_with_many_constants_is_shown() {
    for path in compiled("27_wide_operands") {
        let path = path.to_str().unwrap();
        let examined = run(&["examine", path]);
        assert_eq!(examined.status, 0, "{}", examined.out);
        let steps = run(&["steps", path]).out;
        for row in [
            "     8  STRING          R1, \"text number 1\"\n",
            "  1541  EXT2 SETGV      R1, :$v256\n",
            "  1546  EXT2 STRING     R1, \"text number 257\"\n",
        ] {
            assert!(steps.contains(row), "{row:?} in {steps}");
        }
        let page = run(&["report", path]).out;
        let shown = "<span class=\"prefix\">EXT2</span> ";
        assert_eq!(page.matches(shown).count(), 209);
        let ran = run(&["follow", path, "514 go"]);
        assert!(ran.out.contains(" EXT2 SETGV R1, :$v256"), "{}", ran.out);
    }
}

/// Fetch reads a prefix by itself, and operands of one byte behind it.
#[test]
fn a_prefix_is_fetched_by_itself() {
    for prefix in [EXT1, EXT2, EXT3] {
        let fetched = blotheath::ffi::fetch(&[prefix]);
        assert_eq!((fetched.refusal, fetched.kind), (0, 0));
    }
    let fetched = blotheath::ffi::fetch(&WIDE[5..]);
    assert_eq!((fetched.kind, fetched.a, fetched.b), (2, 1, 1));
}
