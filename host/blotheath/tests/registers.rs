//! Registers that steps touch: the library beside what examination refuses, and every form that shows them.

mod common;

use blotheath::{Opcode, PREFIXES, Refusal, Role, Step, Steps, examine, roles};
use common::build::{
    self, ADD, ARRAY, ARRAY2, ARYPUSH, EXT1, EXT2, EXT3, FIRST_CODE, HASH, HASHADD, JMP, NOP, SEND,
    SENDB, SETIDX, SSEND, SSENDB, STOP, SUPER,
};
use common::json::{Value, parse};
use common::{Folder, Numbers, files, refused, run, sample_bytes};
use std::fs;

/// The first step of some bytes.
fn first_step(code: &[u8]) -> Step {
    Steps::new(code).next().unwrap().unwrap()
}

/// The bytes of an opcode with operands, of each as many low bytes as it has.
fn instruction(prefix: Option<u8>, opcode: u8, operands: [u32; 3]) -> Vec<u8> {
    let first = prefix.into_iter().chain([opcode]);
    let mut code: Vec<u8> = first.chain([0; 6]).collect();
    let step = first_step(&code);
    for (place, operand) in operands.into_iter().enumerate().take(step.given().len()) {
        let bytes = step.offset_of(place) as usize..step.offset_of(place + 1) as usize;
        let low = 4 - bytes.len();
        code[bytes].copy_from_slice(&operand.to_be_bytes()[low..]);
    }
    code.truncate(step.next as usize);
    code
}

/// How many registers a step needs to have all that it touches.
fn needed(step: &Step) -> u32 {
    let lasts = step.registers().map(|registers| registers.last);
    lasts.max().map_or(0, |last| last + 1)
}

/// Whether examination finds the registers of this instruction in a record that has so many, and one constant, symbol and child.
fn has_registers(registers: u32, instruction: &[u8]) -> bool {
    let constant = build::text(b"");
    let code = [instruction, &[STOP]].concat();
    let mut record = build::record(1, &code, &[&constant], &[b"s"]);
    let registers = u16::try_from(registers).unwrap();
    record[build::NREGS].copy_from_slice(&registers.to_be_bytes());
    let child = build::record(0, &[STOP], &[], &[]);
    let file = build::file(&[build::irep(&[record, child].concat())]);
    match examine(&file).map_err(Refusal::number) {
        // A jump leads anywhere.
        Ok(_) | Err(18) => true,
        Err(17) => false,
        Err(other) => panic!("refused by {other}: {code:?}"),
    }
}

/// Examination takes as few registers as the library names, and no fewer.
fn hold(instruction: &[u8]) {
    let step = first_step(instruction);
    let (name, operands) = (step.name(), step.given());
    let needed = needed(&step);
    let most = u32::from(u16::MAX);
    let told = format!("{name} {operands:?} needs {needed}");
    assert_eq!(
        has_registers(needed.min(most), instruction),
        needed <= most,
        "{told}"
    );
    if let Some(fewer) = needed.checked_sub(1) {
        assert!(!has_registers(fewer.min(most), instruction), "{told}");
    }
}

/// Operands at which the number of registers changes, or the bytes of a sum.
const OPERANDS: [u32; 20] = [
    0, 1, 2, 3, 7, 14, 15, 16, 17, 31, 127, 128, 240, 254, 255, 256, 257, 0x0f0f, 0x7fff, 0xffff,
];

/// An operand of a role: one that names no register names the first of what there is.
fn some_operand(role: Role, numbers: &mut Numbers) -> u32 {
    match role {
        Role::Register | Role::Plain => OPERANDS[numbers.below(OPERANDS.len())],
        Role::Constant | Role::Symbol | Role::Child => 0,
    }
}

#[test]
fn examination_takes_as_few_registers_as_the_library_names() {
    let mut numbers = Numbers(29);
    let prefixes = PREFIXES.map(Some);
    for opcode in Opcode::all().filter(|opcode| !PREFIXES.contains(&opcode.byte)) {
        for prefix in [None].into_iter().chain(prefixes) {
            hold(&instruction(prefix, opcode.byte, [0; 3]));
            for _ in 0..30 {
                let operands = roles(opcode.byte).map(|role| some_operand(role, &mut numbers));
                hold(&instruction(prefix, opcode.byte, operands));
            }
        }
    }
}

#[test]
fn every_register_that_there_can_be() {
    let file = build::all_registers();
    let pattern = examine(&file).unwrap();
    let step = pattern.steps(0).unwrap().next().unwrap().unwrap();
    assert_eq!(needed(&step), u32::from(u16::MAX));
}

/// Every number of arguments and keys, and bits above them where the operand is wide.
#[test]
fn calls_with_any_arguments() {
    for arguments in 0..=255 {
        for opcode in [SSEND, SSENDB, SEND, SENDB] {
            hold(&instruction(None, opcode, [5, 0, arguments]));
            hold(&instruction(Some(EXT3), opcode, [300, 0, arguments]));
        }
        hold(&instruction(None, SUPER, [5, arguments, 0]));
        for high in [0, 0x100, 0x1000, 0xff00] {
            hold(&instruction(Some(EXT2), SUPER, [5, high | arguments, 0]));
        }
    }
}

/// Real records have the registers that their steps touch: with one fewer than that they are refused at such a step.
#[test]
fn real_files_have_their_registers() {
    let mut tried = 0;
    for path in files() {
        let file = fs::read(&path).unwrap();
        let Ok(pattern) = examine(&file) else {
            continue;
        };
        for (number, record) in (0..).zip(pattern.records()) {
            let steps: Vec<Step> = pattern.steps(number).unwrap().flatten().collect();
            let most = steps.iter().map(needed).max().unwrap_or(0);
            assert!(most <= record.nregs, "{path:?}, record {number}");
            let with = |registers: u32| {
                let mut file = file.clone();
                let at = record.place as usize - 16 + build::NREGS.start;
                file[at..at + 2].copy_from_slice(&(registers as u16).to_be_bytes());
                file
            };
            assert!(examine(&with(most)).is_ok(), "{path:?}, record {number}");
            let Some(fewer) = most.checked_sub(1) else {
                continue;
            };
            let (met, place) = refused(&with(fewer));
            assert_eq!((met, place.record), (17, Some(number)), "{path:?}");
            let first = steps.iter().find(|step| needed(step) == most);
            assert_eq!(place.offset, first.map(|step| step.offset), "{path:?}");
            tried += 1;
        }
    }
    assert!(tried >= 6, "{tried}");
}

/// Steps of the file that touches registers: the offset, the name, the operands, the registers that these do not name, and all registers.
type Shown = (
    u32,
    &'static str,
    &'static str,
    &'static str,
    &'static [[u32; 2]],
);

#[rustfmt::skip]
const SHOWN: [Shown; 14] = [
    (0, "LOADNIL", "R1 rods", "", &[[1, 1]]),
    (2, "MOVE", "R2, R1 rods", "", &[[2, 2], [1, 1]]),
    (5, "ADD", "R1 rods", "touches R1..R2", &[[1, 2]]),
    (7, "SETIDX", "R3", "touches R3..R5", &[[3, 5]]),
    (9, "SEND", "R2, :round, 0 arguments", "", &[[2, 2]]),
    (13, "SSEND", "R2, :round, 2 arguments", "touches R2..R4", &[[2, 4]]),
    (17, "SENDB", "R2, :round, 1 argument, 1 key", "touches R2..R6", &[[2, 6]]),
    (21, "SUPER", "R4, a list of arguments", "touches R4..R6", &[[4, 6]]),
    (24, "ARRAY", "R2, 1", "", &[[2, 2]]),
    (27, "ARRAY2", "R1 rods, R4, 3", "touches R1, R4..R6", &[[1, 1], [4, 6]]),
    (31, "HASH", "R2, 0", "", &[[2, 2]]),
    (34, "EXT2 HASHADD", "R2, 2", "touches R2..R6", &[[2, 6]]),
    (39, "JMP", "to 42", "", &[]),
    (42, "STOP", "", "", &[]),
];

/// The file of these steps in a folder of its own.
fn touching_in(name: &str) -> (Folder, String) {
    let folder = Folder::new(name);
    let path = folder.file("touching.mrb", &build::touching());
    (folder, path)
}

#[test]
fn steps_show_the_registers_that_operands_do_not_name() {
    let (_folder, path) = touching_in("registers-steps");
    let steps = run(&["steps", &path]);
    assert_eq!(steps.status, 0, "{}", steps.out);
    let rows: Vec<&str> = steps.out.lines().skip(3).collect();
    assert_eq!(rows.len(), SHOWN.len(), "{}", steps.out);
    for (row, (offset, name, operands, touched, _)) in rows.iter().zip(SHOWN) {
        let operands = match touched {
            "" => operands.to_owned(),
            touched => format!("{operands:<24}  {touched}"),
        };
        let told = format!(" {offset:>5}  {name:<15} {operands}");
        assert!(row.ends_with(told.trim_end()), "{told:?} in {}", steps.out);
    }
}

/// Pairs of the first and the last register, as JSON has them.
fn registers_of(value: &Value) -> Vec<[u32; 2]> {
    let pairs = value.get("registers").items().iter();
    pairs
        .map(|pair| match pair.items() {
            [first, last] => [first.number() as u32, last.number() as u32],
            other => panic!("{} numbers", other.len()),
        })
        .collect()
}

#[test]
fn json_has_all_registers() {
    let (_folder, path) = touching_in("registers-json");
    let read = parse(&run(&["steps", "--json", &path]).out);
    let steps = read.get("records").items()[0].get("steps").items();
    assert_eq!(steps.len(), SHOWN.len());
    for (step, (offset, name, _, _, registers)) in steps.iter().zip(SHOWN) {
        assert_eq!(step.get("offset").number(), f64::from(offset));
        assert_eq!(registers_of(step), registers, "{name}");
    }
}

#[test]
fn the_page_shows_the_registers_behind_the_operands() {
    let (_folder, path) = touching_in("registers-page");
    let page = run(&["report", &path]).out;
    let rows: Vec<&str> = page.split("<td class=\"offset\">").skip(1).collect();
    assert_eq!(rows.len(), SHOWN.len());
    for (row, (offset, name, _, touched, _)) in rows.iter().zip(SHOWN) {
        let (row, _) = row.split_once("</td></tr>").unwrap();
        assert!(row.starts_with(&format!("{offset}</td>")), "{row}");
        let behind = format!(" <span class=\"touched\">{touched}</span>");
        assert_eq!(row.ends_with(&behind), !touched.is_empty(), "{name}: {row}");
        assert_eq!(
            row.contains("touched"),
            !touched.is_empty(),
            "{name}: {row}"
        );
    }
}

#[test]
fn follow_shows_the_registers_of_a_frame() {
    let (_folder, path) = touching_in("registers-follow");
    for (number, (_, name, operands, touched, registers)) in SHOWN.into_iter().enumerate() {
        let choices = format!("{number} go");
        let ran = run(&["follow", &path, &choices]);
        let told = format!(" {name} {operands}  {touched}");
        let row = ran.out.lines().next_back().unwrap();
        assert!(row.ends_with(told.trim_end()), "{told:?} in {}", ran.out);
        let read = parse(&run(&["follow", "--json", &path, &choices]).out);
        let frames = read.get("standings").items()[0].get("frames").items();
        assert_eq!(registers_of(&frames[0]), registers, "{name}");
    }
}

/// Instructions in a record of eight registers, the byte that is told, counted from the instruction's first, and what is told.
const MISSING: [(&[u8], u32, &str); 13] = [
    (&[ADD, 7], 1, "ADD touches register 8, counted from 0"),
    (&[SETIDX, 6], 1, "SETIDX touches register 8, counted from 0"),
    (
        &[SETIDX, 7],
        1,
        "SETIDX touches registers 8 to 9, counted from 0",
    ),
    (
        &[SEND, 5, 0, 3],
        1,
        "SEND touches register 8, counted from 0",
    ),
    (
        &[SENDB, 7, 0, 0],
        1,
        "SENDB touches register 8, counted from 0",
    ),
    (
        &[SUPER, 7, 255],
        1,
        "SUPER touches registers 8 to 10, counted from 0",
    ),
    (
        &[ARRAY, 7, 2],
        1,
        "ARRAY touches register 8, counted from 0",
    ),
    (
        &[ARRAY2, 7, 6, 5],
        2,
        "ARRAY2 touches registers 8 to 10, counted from 0",
    ),
    (
        &[EXT3, ARRAY2, 0, 7, 0, 6, 5],
        4,
        "EXT3 ARRAY2 touches registers 8 to 10, counted from 0",
    ),
    (
        &[ARYPUSH, 7, 1],
        1,
        "ARYPUSH touches register 8, counted from 0",
    ),
    (&[HASH, 7, 1], 1, "HASH touches register 8, counted from 0"),
    (
        &[HASHADD, 7, 1],
        1,
        "HASHADD touches registers 8 to 9, counted from 0",
    ),
    (
        &[EXT3, HASHADD, 0, 7, 255, 255],
        2,
        "EXT3 HASHADD touches registers 8 to 131077, counted from 0",
    ),
];

#[test]
fn a_register_that_is_not_there_is_told_with_its_number() {
    for (instruction, byte, what) in MISSING {
        let code = [&[NOP], instruction, &[STOP]].concat();
        let (number, place) = refused(&build::one(&code, &[], &[b"s"]));
        assert_eq!((number, place.section), (17, Some("IREP")));
        assert_eq!((place.record, place.offset), (Some(0), Some(1)));
        assert_eq!(place.byte, Some(FIRST_CODE as u32 + 1 + byte), "{what}");
        assert_eq!(place.what, format!("{what}, and the record has 8"));
    }
}

/// The call of line 23 in the sample's first record, which has eight registers, with more arguments.
#[test]
fn a_missing_register_is_told_with_its_line() {
    for (arguments, registers) in [(4, "register 8"), (0x72, "registers 8 to 20")] {
        let mut file = sample_bytes();
        let call = FIRST_CODE + 31;
        assert_eq!(file[call..call + 4], [SEND, 4, 2, 2]);
        file[call + 3] = arguments;
        let (number, place) = refused(&file);
        assert_eq!((number, place.record), (17, Some(0)));
        assert_eq!((place.offset, place.line), (Some(31), Some(23)));
        let what = format!("SEND touches {registers}, counted from 0, and the record has 8");
        assert_eq!(place.what, what);
    }
}

/// An operand that names what is not there is told before what the step touches.
#[test]
fn an_operand_is_told_first() {
    for (instruction, what) in [
        (
            &[ADD, 8][..],
            "the first operand of ADD names register 8, counted from 0, and the record has 8",
        ),
        (
            &[ARRAY2, 7, 8, 9],
            "the second operand of ARRAY2 names register 8, counted from 0, and the record has 8",
        ),
        (
            &[SEND, 7, 1, 1],
            "the second operand of SEND names symbol 1, counted from 0, and the record has 1",
        ),
    ] {
        let code = [instruction, &[STOP]].concat();
        let (number, place) = refused(&build::one(&code, &[], &[b"s"]));
        assert_eq!((number, place.what.as_str()), (17, what));
    }
}

/// A register that a step touches is looked at before where the step leads, and behind the steps before it.
#[test]
fn the_order_of_17_and_18() {
    for (code, number, offset) in [
        (&[ADD, 7][..], 17, 0),
        (&[ADD, 6], 18, 0),
        (&[JMP, 0, 9, ADD, 7, STOP], 18, 0),
        (&[NOP, ADD, 7, JMP, 0, 9], 17, 1),
        (&[ADD, 7, 200], 16, 2),
        (&[ADD, 7, EXT1], 25, 2),
    ] {
        let (met, place) = refused(&build::one(code, &[], &[]));
        assert_eq!((met, place.offset), (number, Some(offset)), "{code:?}");
    }
}

#[test]
fn a_missing_register_is_told_in_every_form() {
    let folder = Folder::new("registers-missing");
    let file = build::with_registers(3, &[NOP, SEND, 1, 0, 3, STOP], &[b"round"]);
    let path = folder.file("bad.mrb", &file);
    let what = "SEND touches registers 3 to 4, counted from 0, and the record has 3";
    let told = format!(
        "refused by 17: {} (IREP, record 0, offset 1, byte 50: {what})\n",
        Refusal(17).sentence()
    );
    for words in [
        &["examine", &path][..],
        &["steps", &path],
        &["follow", &path, "go"],
    ] {
        let ran = run(words);
        assert_eq!(ran.status, 1, "{words:?}");
        assert!(ran.out.contains(&told), "{words:?}: {}", ran.out);
    }
    let steps = run(&["steps", &path]).out;
    let row = format!(
        "  1  SEND       {:<24}  touches R1..R4\n",
        "R1, :round, 3 arguments"
    );
    assert!(steps.contains(&row), "{row:?} in {steps}");
    let read = parse(&run(&["steps", "--json", &path]).out);
    assert_eq!(read.get("place").get("what").text(), what);
    let page = run(&["report", &path]).out;
    let (_, row) = page.split_once("<tr class=\"bad\" id=\"bad\">").unwrap();
    let (row, _) = row.split_once("</tr>").unwrap();
    let touched = "<span class=\"touched\">touches R1..R4</span>";
    let refused = format!("<span class=\"refusal\"><strong>Refused by 17:</strong> {what}.</span>");
    assert!(row.contains(&format!("{touched}{refused}")), "{row}");
}
