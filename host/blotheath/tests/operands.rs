//! Operands: what each names, wherever it stands, in every form that shows it.

mod common;

use blotheath::{Choice, Frame, Refusal, Standing, bytes_of, examine, follow, load, locate};
use common::build::{self, FIRST_CODE, NEWER, NEWER_SYMBOLS};
use common::json::{Value, parse};
use common::{Folder, run, run_with};

/// The file with the newer opcodes, in a folder of its own.
fn newer(name: &str) -> (Folder, String) {
    let folder = Folder::new(name);
    let path = folder.file("newer.mrb", &build::newer());
    (folder, path)
}

#[test]
fn steps_show_what_operands_name() {
    let (_folder, path) = newer("operands-steps");
    let steps = run(&["steps", &path]);
    assert_eq!(steps.status, 0, "{}", steps.out);
    for row in [
        "  0  GETIDX0    R3, R1 rods\n",
        "  3  SSEND0     R4, :round\n",
        "  6  SEND0      R3, :count\n",
        "  9  TDEF       R4, :rim, record 1\n",
        " 13  SDEF       R3, :round, record 3\n",
        "\nrecord 1, method rim, inside 0, depth 1 (5 bytes, at 108, 8 registers, 1 child)\n",
        "\nrecord 2, block, inside 1, depth 2 (4 bytes, at 133, 8 registers, 0 children)\n",
        "\nrecord 3, method round, inside 0, depth 1 (4 bytes, at 157, 8 registers, 0 children)\n",
    ] {
        assert!(steps.out.contains(row), "{row:?} in {}", steps.out);
    }
}

/// The operands of a step in JSON, each as its role, its number and what it names.
fn operands(step: &Value) -> Vec<(&str, f64, String)> {
    let operands = step.get("operands").items().iter();
    operands
        .map(|operand| {
            let role = operand.get("role").text();
            let named = match role {
                "child" => operand.get("record").number().to_string(),
                "symbol" => operand.get("text").text().to_owned(),
                _ if operand.has("name") => operand.get("name").get("text").text().to_owned(),
                _ => String::new(),
            };
            (role, operand.get("operand").number(), named)
        })
        .collect()
}

#[test]
fn json_has_what_operands_name() {
    let (_folder, path) = newer("operands-json");
    let read = parse(&run(&["steps", "--json", &path]).out);
    let steps = read.get("records").items()[0].get("steps").items();
    let register = |number: f64, name: &str| ("register", number, name.to_owned());
    let symbol = |number: f64, text: &str| ("symbol", number, text.to_owned());
    let child = |number: f64, record: &str| ("child", number, record.to_owned());
    for (step, (name, expected)) in steps.iter().zip([
        ("GETIDX0", vec![register(3.0, ""), register(1.0, "rods")]),
        ("SSEND0", vec![register(4.0, ""), symbol(2.0, "round")]),
        ("SEND0", vec![register(3.0, ""), symbol(0.0, "count")]),
        (
            "TDEF",
            vec![register(4.0, ""), symbol(1.0, "rim"), child(0.0, "1")],
        ),
        (
            "SDEF",
            vec![register(3.0, ""), symbol(2.0, "round"), child(1.0, "3")],
        ),
    ]) {
        assert_eq!(step.get("name").text(), name);
        assert_eq!(operands(step), expected, "{name}");
    }
}

#[test]
fn the_page_links_children_and_names_methods() {
    let (_folder, path) = newer("operands-page");
    let page = run(&["report", &path]).out;
    for (name, operands) in [
        (
            "GETIDX0",
            "<span class=\"register\">R1</span> <span class=\"local\">rods</span></td>",
        ),
        ("SSEND0", "<span class=\"symbol\">:round</span></td>"),
        ("SEND0", "<span class=\"symbol\">:count</span></td>"),
        (
            "TDEF",
            "<span class=\"symbol\">:rim</span><span class=\"comma\">, </span><a class=\"child\" href=\"#r1\">record 1</a></td>",
        ),
        (
            "SDEF",
            "<span class=\"symbol\">:round</span><span class=\"comma\">, </span><a class=\"child\" href=\"#r3\">record 3</a></td>",
        ),
    ] {
        let (_, row) = page
            .split_once(&format!("<td class=\"name\">{name}</td>"))
            .unwrap();
        let (row, _) = row.split_once("</tr>").unwrap();
        assert!(row.ends_with(operands), "{row}");
    }
    // The picture of the tree, the outline, and the heading of the steps.
    for (record, label) in [(1, "method rim"), (2, "block"), (3, "method round")] {
        for shown in [
            format!("<a href=\"#r{record}\"><title>record {record}: {label}, "),
            format!("<span class=\"of\">{record}</span> <span class=\"what\">{label}</span>"),
            format!("<h3>Record {record} <span class=\"what\">{label}</span>"),
        ] {
            assert_eq!(page.matches(&shown).count(), 1, "{shown}");
        }
    }
}

/// The frames of a run of the file along choices.
fn frames(choices: &[Choice]) -> Vec<(u32, u32)> {
    match follow(&build::newer(), &bytes_of(choices)) {
        Ok(Standing::At { frames, .. }) => {
            let frames = frames.iter();
            frames
                .map(|Frame { record, offset }| (*record, *offset))
                .collect()
        }
        other => panic!("{other:?}"),
    }
}

#[test]
fn definitions_are_entered() {
    use Choice::{Enter, GoOn};
    assert_eq!(frames(&[GoOn, GoOn, GoOn]), [(0, 9)]);
    assert_eq!(frames(&[GoOn, GoOn, GoOn, Enter]), [(0, 13), (1, 0)]);
    assert_eq!(
        frames(&[GoOn, GoOn, GoOn, Enter, Enter]),
        [(0, 13), (1, 3), (2, 0)]
    );
    assert_eq!(frames(&[GoOn, GoOn, GoOn, GoOn, Enter]), [(0, 17), (3, 0)]);
    // At the other three, entering is going on.
    assert_eq!(frames(&[Enter, Enter, Enter]), [(0, 9)]);
}

#[test]
fn follow_tells_where_a_child_can_be_entered() {
    let (_folder, path) = newer("operands-follow");
    let ran = run(&["follow", &path, "3 go enter"]);
    let rows: Vec<&str> = ran.out.lines().collect();
    assert!(
        rows[0].starts_with("    record 0, offset 13, no line")
            && rows[0].ends_with(" SDEF R3, :round, record 3"),
        "{}",
        ran.out
    );
    assert!(
        rows[1].starts_with("  ▶ record 1, offset 0, no line")
            && rows[1].ends_with(" BLOCK R1, record 2"),
        "{}",
        ran.out
    );
    let ran = run_with(&["follow", &path], b"4 go\nback\nback\nquit\n");
    let open = ran
        .out
        .lines()
        .filter_map(|row| row.strip_prefix("  open: "));
    assert_eq!(
        open.collect::<Vec<&str>>(),
        [
            "go, leave",
            "go, enter, leave",
            "go, enter, leave",
            "go, leave"
        ]
    );
    let ran = run(&["follow", &path, "enter 2 go 2 enter"]);
    let told = "choice 1: enter is not open at GETIDX0: went on\n";
    assert!(ran.out.starts_with(told), "{}", ran.out);
    assert_eq!(ran.out.matches("not open").count(), 1, "{}", ran.out);
    let read = parse(&run(&["follow", "--json", &path, "4 go enter"]).out);
    let frames = read.get("standings").items()[0].get("frames").items();
    assert_eq!(frames[1].get("record").number(), 3.0);
    assert!(read.get("agrees").is_true());
}

/// The file with one byte of record 0's code changed.
fn with(offset: usize, byte: u8) -> Vec<u8> {
    let mut file = build::newer();
    file[FIRST_CODE + offset] = byte;
    file
}

/// The operands with a role: an instruction's offset and opcode, the operand, what it names, and how many of that there are.
const NAMING: [(usize, &str, usize, &str, u8); 12] = [
    (0, "GETIDX0", 1, "register", 8),
    (0, "GETIDX0", 2, "register", 8),
    (3, "SSEND0", 1, "register", 8),
    (3, "SSEND0", 2, "symbol", 3),
    (6, "SEND0", 1, "register", 8),
    (6, "SEND0", 2, "symbol", 3),
    (9, "TDEF", 1, "register", 8),
    (9, "TDEF", 2, "symbol", 3),
    (9, "TDEF", 3, "child", 2),
    (13, "SDEF", 1, "register", 8),
    (13, "SDEF", 2, "symbol", 3),
    (13, "SDEF", 3, "child", 2),
];

#[test]
fn an_operand_that_names_nothing_is_refused_where_it_stands() {
    let ordinals = ["first", "second", "third"];
    for (offset, name, operand, thing, number) in NAMING {
        assert!(examine(&with(offset + operand, number - 1)).is_ok());
        for named in [number, 255] {
            let file = with(offset + operand, named);
            let refusal = examine(&file).unwrap_err();
            assert_eq!(refusal, Refusal(17));
            assert_eq!(follow(&file, &[]), Err(refusal));
            let place = locate(&file, load(&file).ok().as_ref(), refusal).unwrap();
            assert_eq!(place.record, Some(0));
            assert_eq!(place.offset, Some(offset as u32));
            assert_eq!(place.byte, Some((FIRST_CODE + offset + operand) as u32));
            assert_eq!(
                place.what,
                format!(
                    "the {} operand of {name} names {thing} {named}, counted from 0, and the record has {number}",
                    ordinals[operand - 1]
                )
            );
        }
    }
}

/// A record without children, and one with too few symbols as well.
#[test]
fn the_first_of_several_is_told() {
    for (symbols, what) in [
        (
            3,
            "the third operand of TDEF names child 0, counted from 0, and the record has 0",
        ),
        (
            2,
            "the second operand of SSEND0 names symbol 2, counted from 0, and the record has 2",
        ),
    ] {
        let file = build::one(&NEWER, &[], &NEWER_SYMBOLS[..symbols]);
        let refusal = examine(&file).unwrap_err();
        let place = locate(&file, load(&file).ok().as_ref(), refusal).unwrap();
        assert_eq!(place.what, what);
    }
}

/// The other opcodes whose operands insn.rs does not explain, all but the first of any number.
const PLAIN: [(&str, &[u8]); 4] = [
    ("MATCHERR", &[46, 7]),
    ("BLKCALL", &[54, 7, 255]),
    ("ADDILV", &[73, 7, 255, 255]),
    ("SUBILV", &[74, 7, 255, 255]),
];

#[test]
fn other_opcodes_name_a_register_alone() {
    for (name, step) in PLAIN {
        let mut code = [step, &[118]].concat();
        assert!(examine(&build::one(&code, &[], &[])).is_ok(), "{name}");
        code[1] = 8;
        let refused = examine(&build::one(&code, &[], &[])).unwrap_err();
        assert_eq!(refused, Refusal(17), "{name}");
    }
}

#[test]
fn a_missing_child_is_told_in_every_form() {
    let folder = Folder::new("operands-missing");
    let path = folder.file("bad.mrb", &with(9 + 3, 2));
    let what = "the third operand of TDEF names child 2, counted from 0, and the record has 2";
    let examined = run(&["examine", &path]);
    assert_eq!(examined.status, 1);
    let place = format!("(IREP, record 0, offset 9, byte 60: {what})\n");
    assert!(examined.out.contains(&place), "{}", examined.out);
    assert!(
        examined
            .out
            .contains("       48  24 03 01 30 04 02 33 03 00 6b 04 01[02]")
    );
    let steps = run(&["steps", &path]);
    assert_eq!(steps.status, 1);
    let row = "  9  TDEF       R4, :rim, child 2, which is not there\n";
    assert!(steps.out.contains(row), "{}", steps.out);
    let page = run(&["report", &path]).out;
    let (_, row) = page.split_once("<tr class=\"bad\" id=\"bad\">").unwrap();
    let (row, _) = row.split_once("</tr>").unwrap();
    let told = format!("<strong>Refused by 17:</strong> {what}.");
    assert!(row.contains(&told), "{row}");
    assert!(row.contains("<span class=\"plain\">child 2, which is not there</span>"));
    assert!(page.contains("Byte 60, 02, is marked"));
}
