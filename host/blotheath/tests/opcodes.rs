//! The page of opcodes, held against the model, the library's registers and, but for names, the archive's fetch, examination and run.

mod common;

use blotheath::{Choice, Standing, Steps, bytes_of, examine, ffi, follow};
use common::build::{self, EXT1, EXT2, EXT3, NREGS, STOP};
use common::json::{Value, parse};
use common::run;
use std::collections::BTreeSet;
use std::fs;
use std::path::Path;

const PREFIXES: [u8; 3] = [EXT1, EXT2, EXT3];

/// Kinds in the order of their numbers at the C boundary, and in that of their first use in ops.h.
const BY_NUMBER: [&str; 8] = ["Z", "B", "BB", "S", "BBB", "BS", "W", "BSS"];
const BY_FIRST_USE: [&str; 8] = ["Z", "BB", "B", "BS", "BSS", "BBB", "S", "W"];

/// An opcode as JSON has it.
#[derive(Clone)]
struct Row {
    byte: u8,
    name: String,
    kind: String,
    size: usize,
    behind: [Option<usize>; 3],
    roles: Vec<String>,
    registers: String,
    flow: String,
}

impl Row {
    fn of(value: &Value) -> Row {
        let size_behind = |prefix: u8| match value.get("behind").get(&prefix.to_string()) {
            Value::Null => None,
            size => Some(size.number() as usize),
        };
        let roles = value.get("roles").items().iter();
        Row {
            byte: value.get("opcode").number() as u8,
            name: value.get("name").text().to_owned(),
            kind: value.get("kind").text().to_owned(),
            size: value.get("size").number() as usize,
            behind: PREFIXES.map(size_behind),
            roles: roles.map(|role| role.text().to_owned()).collect(),
            registers: value.get("registers").text().to_owned(),
            flow: value.get("flow").text().to_owned(),
        }
    }

    fn is_prefix(&self) -> bool {
        PREFIXES.contains(&self.byte)
    }

    fn goes_on(&self) -> bool {
        ["goes on", "goes on or jumps"].contains(&&self.flow[..])
    }

    fn jumps(&self) -> bool {
        ["jumps", "goes on or jumps"].contains(&&self.flow[..])
    }

    /// Whether registers are counted by an operand that names none.
    fn counts(&self, place: usize) -> bool {
        let is_last = place + 1 == self.roles.len();
        let has = |letter: char| self.registers.contains(letter);
        self.roles[place] == "plain" && (has(LETTERS[place]) || is_last && has('n'))
    }

    /// The registers that an instruction touches: operands that are registers, and those of the column's words.
    fn touched(&self, operands: [u32; 3]) -> BTreeSet<i64> {
        let named = self.roles.iter().zip(operands.map(i64::from));
        let named = named.filter(|(role, _)| *role == "register");
        let mut touched: BTreeSet<i64> = named.map(|(_, register)| register).collect();
        for words in self.registers.split(", ").filter(|words| !words.is_empty()) {
            let (first, last) = words.split_once("..").unwrap_or((words, words));
            touched.extend(self.sum(first, operands)..=self.sum(last, operands));
        }
        touched
    }

    /// A sum in the letters of the operands: `a+n+2k+1`.
    fn sum(&self, words: &str, operands: [u32; 3]) -> i64 {
        let counting = operands[self.roles.len() - 1];
        let (n, k) = (counting & 15, counting >> 4 & 15);
        let parts = words.replace('-', "+-");
        let value = |part: &str| match part {
            "a" => operands[0].into(),
            "b" => operands[1].into(),
            "2b" => 2 * i64::from(operands[1]),
            "c" => operands[2].into(),
            "n" if n == 15 => 1,
            "n" => n.into(),
            "2k" if k == 15 => 1,
            "2k" => 2 * i64::from(k),
            number => number.parse().unwrap(),
        };
        parts.split('+').map(value).sum()
    }

    /// How many registers a record needs for an instruction with these operands.
    fn needed(&self, operands: [u32; 3]) -> u16 {
        let last = self.touched(operands).last().copied();
        last.map_or(0, |last| last as u16 + 1)
    }
}

/// The letters of the operands.
const LETTERS: [char; 3] = ['a', 'b', 'c'];

fn rows() -> Vec<Row> {
    let read = parse(&run(&["opcodes", "--json"]).out);
    read.get("opcodes").items().iter().map(Row::of).collect()
}

/// An opcode behind a prefix or without one, and its size there.
struct Instruction {
    row: Row,
    prefix: Option<u8>,
    size: usize,
}

/// Every opcode but the prefixes, without a prefix and behind each.
fn instructions() -> Vec<Instruction> {
    let mut instructions = Vec::new();
    for row in rows().into_iter().filter(|row| !row.is_prefix()) {
        let behind = PREFIXES.map(Some).into_iter().zip(row.behind);
        for (prefix, size) in [(None, Some(row.size))].into_iter().chain(behind) {
            let (row, size) = (row.clone(), size.unwrap());
            instructions.push(Instruction { row, prefix, size });
        }
    }
    instructions
}

impl Instruction {
    fn name(&self) -> String {
        format!("{} behind {:?}", self.row.name, self.prefix)
    }

    /// The bytes up to the operands.
    fn first(&self) -> Vec<u8> {
        self.prefix.into_iter().chain([self.row.byte]).collect()
    }

    /// The bytes of each operand: ops.h has a letter for each, B for one, S for two, W for three, and Z for no operand.
    fn widths(&self) -> Vec<usize> {
        let letters = self.row.kind.chars().filter(|letter| *letter != 'Z');
        letters
            .enumerate()
            .map(|(place, letter)| match letter {
                'B' => 1 + usize::from(self.widens(place)),
                'S' => 2,
                _ => 3,
            })
            .collect()
    }

    /// Whether a B at a place has two bytes.
    fn widens(&self, place: usize) -> bool {
        match place {
            0 => matches!(self.prefix, Some(EXT1 | EXT3)),
            1 => matches!(self.prefix, Some(EXT2 | EXT3)),
            _ => false,
        }
    }

    /// The bytes of the instruction with these operands.
    fn of(&self, operands: [u32; 3]) -> Vec<u8> {
        let mut code = self.first();
        for (operand, width) in operands.into_iter().zip(self.widths()) {
            code.extend(&operand.to_be_bytes()[4 - width..]);
        }
        code
    }

    /// The same with one operand, the others 0.
    fn with(&self, place: usize, operand: u32) -> Vec<u8> {
        self.of(one_operand(place, operand))
    }

    /// The bytes of the instruction with a distance, where it is a jump, and else with zeros.
    fn jumping(&self, distance: i16) -> Vec<u8> {
        let roles = &self.row.roles;
        let place = roles.iter().position(|role| role == "jump");
        self.with(place.unwrap_or(roles.len()), distance as u16 as u32)
    }
}

/// Operands of which all but one are 0; all where there is none at the place.
fn one_operand(place: usize, operand: u32) -> [u32; 3] {
    std::array::from_fn(|at| if at == place { operand } else { 0 })
}

/// What operands name, in the order of a file's counts.
const NAMED: [&str; 4] = ["register", "constant", "symbol", "child"];

/// A file whose first record has this code and so many of what operands name.
fn file(code: &[u8], counts: [u16; 4]) -> Vec<u8> {
    let [registers, constants, symbols, children] = counts;
    let constant = build::text(b"");
    let constants = vec![&constant[..]; constants.into()];
    let symbols = vec![&b"s"[..]; symbols.into()];
    let mut record = build::record(children, code, &constants, &symbols);
    record[NREGS].copy_from_slice(&registers.to_be_bytes());
    let child = build::record(0, &[STOP], &[], &[]);
    let records = [record, child.repeat(children.into())].concat();
    build::file(&[build::irep(&records)])
}

/// The refusal of that file, or 0.
fn refusal(code: &[u8], counts: [u16; 4]) -> u32 {
    match examine(&file(code, counts)) {
        Ok(_) => 0,
        Err(refusal) => refusal.number(),
    }
}

/// The registers that any instruction needs whose operands are 0, and one of each other.
const ENOUGH: [u16; 4] = [3, 1, 1, 1];

#[test]
fn opcodes_and_kinds_are_in_the_order_of_ops_h() {
    let rows = rows();
    assert_eq!(rows.len(), 119);
    assert!(rows.iter().map(|row| row.byte).eq(0..119));
    let mut kinds: Vec<&str> = Vec::new();
    for row in &rows {
        if !kinds.contains(&&row.kind[..]) {
            kinds.push(&row.kind);
        }
    }
    assert_eq!(kinds, BY_FIRST_USE);
}

/// The page's headings, and its line for each opcode.
fn page() -> (String, Vec<String>) {
    let ran = run(&["opcodes"]);
    assert_eq!(ran.status, 0, "{ran:?}");
    assert!(ran.out.lines().all(|line| line.len() <= 106), "{}", ran.out);
    let (_, table) = ran.out.split_once("\n\n").unwrap();
    let (table, _) = table.split_once("\n\n").unwrap();
    let mut lines = table.lines().map(str::to_owned);
    (lines.next().unwrap(), lines.collect())
}

/// What stands below each heading in an opcode's line.
fn cells(row: &Row) -> [(&'static str, String); 10] {
    let shown = |size: Option<usize>| size.map_or("-".to_owned(), |size| size.to_string());
    let [ext1, ext2, ext3] = row.behind.map(shown);
    [
        ("byte", row.byte.to_string()),
        ("name", row.name.clone()),
        ("kind", row.kind.clone()),
        ("size", row.size.to_string()),
        ("EXT1", ext1),
        ("EXT2", ext2),
        ("EXT3", ext3),
        ("operands", row.roles.join(", ")),
        ("registers", row.registers.clone()),
        ("run", row.flow.clone()),
    ]
}

#[test]
fn the_page_has_what_json_has() {
    let (headings, lines) = page();
    let rows = rows();
    assert_eq!(lines.len(), rows.len());
    for (line, row) in lines.iter().zip(&rows) {
        let cells = cells(row);
        for (heading, cell) in &cells {
            let start = headings.find(heading).unwrap();
            let end = start + heading.len();
            let is_below = line[start..].starts_with(cell) || line[..end].ends_with(cell);
            assert!(is_below, "{heading} in {line}");
        }
        let words = cells.iter().flat_map(|(_, cell)| cell.split(' '));
        let words = words.filter(|word| !word.is_empty());
        assert!(line.split_whitespace().eq(words), "{line}");
    }
}

#[test]
fn fetch_has_these_kinds_and_sizes() {
    for row in rows() {
        let code = [row.byte, 0, 0, 0, 0, 0, 0, 0];
        for length in 0..=code.len() {
            let fetched = ffi::fetch(&code[..length]);
            if length < row.size {
                assert_eq!(fetched.refusal, 24, "{length} bytes of {}", row.name);
            } else {
                assert_eq!(fetched.refusal, 0, "{length} bytes of {}", row.name);
                assert_eq!(BY_NUMBER[fetched.kind as usize], row.kind, "{}", row.name);
            }
        }
    }
    for byte in 119..=255 {
        assert_eq!(ffi::fetch(&[byte, 0, 0, 0, 0, 0, 0, 0]).refusal, 23);
    }
}

#[test]
fn examination_has_these_sizes() {
    for instruction in instructions() {
        let code = [instruction.first(), vec![0; 8]].concat();
        for length in 1..=instruction.size {
            let met = refusal(&code[..length], ENOUGH);
            let is_cut = length < instruction.size;
            let name = instruction.name();
            match (instruction.prefix, length) {
                (Some(_), 1) => assert_eq!(met, 25, "{name}"),
                _ if is_cut => assert_eq!(met, 16, "{length} bytes of {name}"),
                _ => assert!([0, 18].contains(&met), "{name}: {met}"),
            }
        }
    }
}

#[test]
fn a_size_is_that_of_the_kinds_letters() {
    for instruction in instructions() {
        let operands: usize = instruction.widths().iter().sum();
        let size = instruction.first().len() + operands;
        assert_eq!(instruction.size, size, "{}", instruction.name());
    }
}

#[test]
fn a_prefix_has_no_instruction_of_its_own() {
    for row in rows() {
        let is_told = row.flow == "prefix" && row.behind == [None; 3];
        assert_eq!(is_told, row.is_prefix(), "{}", row.name);
    }
    for behind in PREFIXES {
        assert_eq!(refusal(&[behind], ENOUGH), 25);
        for prefix in PREFIXES {
            for length in 0..8 {
                let code = [vec![prefix, behind], vec![0; length]].concat();
                assert_eq!(refusal(&code, ENOUGH), 25, "{code:?}");
            }
        }
    }
}

/// Whether a record with these counts has what an operand of 1 names, and the registers of its instruction, whose other operands are 0.
fn has_named(row: &Row, place: usize, counts: [u16; 4]) -> bool {
    let things = NAMED.iter().zip(counts).skip(1);
    let mut missing = things.filter(|(thing, number)| row.roles[place] == **thing && *number < 2);
    missing.next().is_none() && counts[0] >= row.needed(one_operand(place, 1))
}

/// An operand of 1, where there are as many registers as zeros need and one of each other, and where there is one more of one kind.
#[test]
fn examination_has_these_roles() {
    for instruction in instructions() {
        let row = &instruction.row;
        assert_eq!(row.roles.len(), instruction.widths().len());
        let few = [row.needed([0; 3]), 1, 1, 1];
        let more = |thing| std::array::from_fn(|at| few[at] + u16::from(at == thing));
        for place in 0..row.roles.len() {
            let code = [instruction.with(place, 1), vec![STOP, STOP]].concat();
            for counts in [few, more(0), more(1), more(2), more(3)] {
                let met = if has_named(row, place, counts) { 0 } else { 17 };
                let what = format!("operand {place} of {}", instruction.name());
                assert_eq!(refusal(&code, counts), met, "{what} with {counts:?}");
            }
        }
    }
}

/// Operands of up to 20, and all four bits of n and k.
#[test]
fn the_library_touches_these_registers() {
    let counted = [0, 1, 2, 3, 14, 15, 16, 17, 31, 240, 241, 255];
    for instruction in instructions() {
        let row = &instruction.row;
        for [a, b] in [[0, 0], [0, 20], [7, 1], [20, 3], [5, 6]] {
            for last in counted {
                let mut operands = [a, b, 0];
                if let Some(place) = row.roles.len().checked_sub(1).filter(|at| row.counts(*at)) {
                    operands[place] = last;
                }
                let code = instruction.of(operands);
                let step = Steps::new(&code).next().unwrap().unwrap();
                let touched = step.registers();
                let touched = touched.flat_map(|one| one.first.into()..=one.last.into());
                let touched: BTreeSet<i64> = touched.collect();
                assert_eq!(
                    touched,
                    row.touched(operands),
                    "{} {operands:?}",
                    instruction.name()
                );
            }
        }
    }
}

/// The last instruction of a record, which jumps back to itself where it jumps.
#[test]
fn examination_lets_end_what_does_not_go_on() {
    for instruction in instructions() {
        let code = instruction.jumping(-(instruction.size as i16));
        let met = if instruction.row.goes_on() { 18 } else { 0 };
        assert_eq!(refusal(&code, ENOUGH), met, "{}", instruction.name());
    }
}

/// An operand of ones is a distance of -1, back into the instruction; a plain one that counts no registers may be any number.
#[test]
fn examination_looks_where_a_jump_leads() {
    for instruction in instructions() {
        let (row, name) = (&instruction.row, instruction.name());
        let has_distance = row.roles.iter().any(|role| role == "jump");
        assert_eq!(has_distance, row.jumps(), "{name}");
        for (place, role) in row.roles.iter().enumerate() {
            if NAMED.contains(&&role[..]) || row.counts(place) {
                continue;
            }
            let code = [instruction.with(place, u32::MAX), vec![STOP]].concat();
            let met = if role == "jump" { 18 } else { 0 };
            assert_eq!(refusal(&code, ENOUGH), met, "operand {place} of {name}");
        }
    }
}

/// Two instructions follow; a jump leads to the second.
#[test]
fn a_run_goes_where_the_page_says() {
    for instruction in instructions() {
        let code = [instruction.jumping(1), vec![STOP, STOP]].concat();
        let file = file(&code, ENOUGH);
        let stands = |choice: Choice| match follow(&file, &bytes_of(&[choice])).unwrap() {
            Standing::Finished => None,
            Standing::At { top, .. } => Some(top.offset as usize - instruction.size),
        };
        let met = [stands(Choice::GoOn), stands(Choice::Jump)];
        let expected = match &instruction.row.flow[..] {
            "goes on" => [Some(0), Some(0)],
            "jumps" => [Some(1), Some(1)],
            "goes on or jumps" => [Some(0), Some(1)],
            "ends" => [None, None],
            other => panic!("{other}"),
        };
        assert_eq!(met, expected, "{}", instruction.name());
    }
}

/// The word for a role of the model's; a jump's distance is plain there.
fn role_word(role: model::Role) -> &'static str {
    match role {
        model::Role::Plain => "plain",
        model::Role::Register => "register",
        model::Role::Pool => "constant",
        model::Role::Symbol => "symbol",
        model::Role::Child => "child",
    }
}

fn flow_word(flow: model::Flow) -> &'static str {
    match flow {
        model::Flow::Next => "goes on",
        model::Flow::Jump => "jumps",
        model::Flow::MayJump => "goes on or jumps",
        model::Flow::Ends => "ends",
    }
}

#[test]
fn the_model_has_the_same() {
    for (row, opcode) in rows().iter().zip(&model::OPCODES) {
        assert_eq!(row.name, opcode.name);
        assert_eq!(row.kind, format!("{:?}", opcode.kind), "{}", row.name);
        assert_eq!(row.size, opcode.kind.size(), "{}", row.name);
        let size_behind = |prefix: u8| {
            let code = [prefix, row.byte, 0, 0, 0, 0, 0, 0];
            model::step_at(&code, 0).ok().map(|step| step.next)
        };
        assert_eq!(row.behind, PREFIXES.map(size_behind), "{}", row.name);
        for (word, role) in row.roles.iter().zip(model::roles(opcode)) {
            let word = if word == "jump" { "plain" } else { word };
            assert_eq!(word, role_word(role), "{}", row.name);
        }
        if !row.is_prefix() {
            assert_eq!(row.flow, flow_word(model::flow(opcode)), "{}", row.name);
        }
    }
}

#[test]
fn it_takes_no_file() {
    for (words, told) in [
        (&["opcodes", "a"][..], "opcodes takes no file"),
        (&["opcodes", "--json", "-"], "opcodes takes no file"),
        (&["opcodes", "--all"], "opcodes has no option \"--all\""),
    ] {
        let ran = run(words);
        assert_eq!((ran.status, &ran.out[..]), (2, ""), "{words:?}");
        let told = format!("blotheath: {told}\n");
        assert!(ran.err.starts_with(&told), "{ran:?}");
    }
}

#[test]
fn the_readme_shows_lines_of_the_page() {
    let readme = Path::new(env!("CARGO_MANIFEST_DIR")).join("README.md");
    let readme = fs::read_to_string(readme).unwrap();
    let (headings, lines) = page();
    let (_, shown) = readme.split_once(&format!("    {headings}\n")).unwrap();
    let (shown, _) = shown.split_once("\n\n").unwrap();
    for line in shown.lines() {
        let mut of_page = lines.iter().map(|line| format!("    {line}"));
        assert!(of_page.any(|of_page| of_page == line), "{line}");
    }
}
