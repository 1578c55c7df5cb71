//! Files with instructions behind prefixes, and the answers of request b) of paper 02.

use crate::chosen::Group;
use crate::generate::{be2, be4, exact};
use crate::registers::{counting, needed};
use crate::sample::{Counts, Examined, FINISHED, Run, STOP};
use crate::sample::{bare_record, coded, file, record, stands_at, with_children};
use model::{Flow, Kind, OPCODES, Refusal, Role, flow, roles};

const EXT1: u8 = 115;
const EXT2: u8 = 116;
const EXT3: u8 = 117;

/// The prefixes.
pub const PREFIXES: [u8; 3] = [EXT1, EXT2, EXT3];

/// Kinds of choices; behind that of caught stands a handler's number.
pub const GO_ON: u8 = 0;
const JUMP: u8 = 1;
const ENTER: u8 = 2;
const CAUGHT: u8 = 3;

/// The bytes of each operand of a kind, behind a prefix or without one.
pub fn widths(prefix: Option<u8>, kind: Kind) -> Vec<usize> {
    let [first, second] = match prefix {
        Some(EXT1) => [2, 1],
        Some(EXT2) => [1, 2],
        Some(_) => [2, 2],
        None => [1, 1],
    };
    match kind {
        Kind::Z => vec![],
        Kind::B => vec![first],
        Kind::BB => vec![first, second],
        Kind::BBB => vec![first, second, 1],
        Kind::S => vec![2],
        Kind::BS => vec![first, 2],
        Kind::BSS => vec![first, 2, 2],
        Kind::W => vec![3],
    }
}

/// The bytes of an instruction with its prefix.
pub fn size(prefix: Option<u8>, kind: Kind) -> usize {
    let operands: usize = widths(prefix, kind).into_iter().sum();
    usize::from(prefix.is_some()) + 1 + operands
}

/// An instruction: prefix, opcode and operands, each with its high byte first.
pub fn instruction(prefix: Option<u8>, opcode: u8, operands: &[u32]) -> Vec<u8> {
    let mut bytes: Vec<u8> = prefix.into_iter().chain([opcode]).collect();
    let widths = widths(prefix, kind(opcode));
    assert_eq!(operands.len(), widths.len());
    for (operand, width) in operands.iter().zip(widths) {
        bytes.extend(&operand.to_be_bytes()[4 - width..]);
    }
    bytes
}

fn kind(opcode: u8) -> Kind {
    OPCODES[usize::from(opcode)].kind
}

/// The opcode of a name.
pub fn named(name: &str) -> u8 {
    let position = OPCODES.iter().position(|opcode| opcode.name == name);
    position.expect("an opcode has this name") as u8
}

/// The opcodes that can stand behind a prefix.
pub fn opcodes() -> impl Iterator<Item = u8> {
    let all = 0..OPCODES.len() as u8;
    all.filter(|opcode| !PREFIXES.contains(opcode))
}

/// The opcodes of these names with every prefix.
fn pairs(names: &[&str]) -> Vec<(u8, u8)> {
    let opcodes = names.iter().map(|name| named(name));
    opcodes
        .flat_map(|opcode| PREFIXES.map(|prefix| (opcode, prefix)))
        .collect()
}

/// All files and runs with their answers.
pub fn groups() -> Vec<Group> {
    vec![
        every_opcode(),
        Group::examined("operands behind prefixes, examined", operands()),
        Group::examined("prefixes that are read with 16 or 25, examined", readings()),
        Group::examined("jumps and handlers at prefixes, examined", targets()),
        above_255(),
        runs(),
    ]
}

/// Counts that let a register be as large as its bytes and a text's number be no opcode.
const LARGE: Counts = Counts {
    registers: u16::MAX,
    constants: 120,
    symbols: 120,
    children: 1,
};

/// Small counts, all different.
const SMALL: Counts = Counts {
    registers: 5,
    constants: 3,
    symbols: 4,
    children: 2,
};

/// An instruction whose operands are as large as the counts and their bytes allow; a jump leads to the next offset.
fn largest(prefix: Option<u8>, opcode: u8, counts: Counts) -> Vec<u8> {
    let row = &OPCODES[usize::from(opcode)];
    let operand = |(width, role): (usize, Role)| {
        let most = (1 << (8 * width)) - 1;
        let last = counts.of(role).map(|count| u32::from(count) - 1);
        last.map_or(most, |last| most.min(last))
    };
    let places = widths(prefix, row.kind).into_iter().zip(roles(row));
    let mut operands: Vec<u32> = places.map(operand).collect();
    if let (Flow::Jump | Flow::MayJump, Some(distance)) = (flow(row), operands.last_mut()) {
        *distance = 0;
    }
    name_below(opcode, &mut operands, counts.registers.into());
    instruction(prefix, opcode, &operands)
}

/// Lowers an instruction's operands until it names registers below their number alone: what counts them to half of it, then all registers alike.
fn name_below(opcode: u8, operands: &mut [u32], registers: u32) {
    if let Some(operand) = counting(opcode) {
        operands[operand] = operands[operand].min(registers / 2);
    }
    let past = needed(opcode, operands).saturating_sub(registers);
    let roles = roles(&OPCODES[usize::from(opcode)]);
    for (operand, role) in operands.iter_mut().zip(roles) {
        if role == Role::Register {
            *operand = operand.saturating_sub(past);
        }
    }
}

/// Code with every opcode behind a prefix: first those that do not end, then a STOP, then those that end.
struct Everything {
    code: Vec<u8>,
    /// How many instructions stand before the STOP, and its offset.
    steps: usize,
    stop: usize,
    /// Where those that end begin.
    ends: Vec<usize>,
}

/// Every opcode behind this prefix. Between them stand instructions whose operand is no opcode where registers are many, so that none can be longer unseen.
fn everything(prefix: u8, counts: Counts) -> Everything {
    let between = instruction(
        None,
        named("LOADI_0"),
        &[u32::from(counts.registers.min(256)) - 1],
    );
    let is_end = |opcode: &u8| flow(&OPCODES[usize::from(*opcode)]) == Flow::Ends;
    let (ending, others): (Vec<u8>, Vec<u8>) = opcodes().partition(is_end);
    let mut code = Vec::new();
    for opcode in &others {
        code.extend(largest(Some(prefix), *opcode, counts));
        code.extend(&between);
    }
    let stop = code.len();
    code.push(STOP);
    let mut ends = Vec::new();
    for opcode in ending {
        ends.push(code.len());
        code.extend(largest(Some(prefix), opcode, counts));
        code.extend(&between);
    }
    code.push(STOP);
    Everything {
        code,
        steps: 2 * others.len(),
        stop,
        ends,
    }
}

/// Every opcode behind every prefix, and runs along those that do not end and to those that do.
fn every_opcode() -> Group {
    let small = PREFIXES.map(|prefix| (coded(&everything(prefix, SMALL).code, SMALL), 0));
    Group {
        name: "every opcode behind every prefix, examined and followed",
        examined: small.to_vec(),
        followed: PREFIXES.map(along_every_opcode).to_vec(),
    }
}

/// A file with every opcode behind a prefix, with runs along all that do not end and to each that does.
fn along_every_opcode(prefix: u8) -> (Vec<u8>, Vec<Run>) {
    let all = everything(prefix, LARGE);
    let file = with_children(record(&all.code, &all.ends, LARGE), LARGE.children);
    let is_child = |opcode: &u8| roles(&OPCODES[usize::from(*opcode)]).contains(&Role::Child);
    let children = opcodes().filter(is_child).count();
    let at_stop = stands_at(0, all.stop as u32, 1);
    let mut runs = vec![
        (vec![GO_ON; all.steps], at_stop),
        (vec![JUMP; all.steps], at_stop),
        // A child's frame is left by its STOP.
        (vec![ENTER; all.steps + children], at_stop),
    ];
    for handler in 0..all.ends.len() as u8 {
        runs.push((vec![CAUGHT, 0, handler, GO_ON], FINISHED));
    }
    (file, runs)
}

/// An opcode of each kind with each role that an operand has there.
const WITH_ROLES: [&str; 11] = [
    "LOADI_0", "ERR", "UNDEF", "MOVE", "LOADL", "LAMBDA", "ALIAS", "ARRAY2", "TDEF", "JMPIF",
    "LOADI32",
];

/// Files with one operand behind a prefix at its count, or 256 above a number below it: 17.
fn operands() -> Vec<Examined> {
    let pairs = pairs(&WITH_ROLES).into_iter();
    pairs
        .flat_map(|(opcode, prefix)| past_counts(prefix, opcode))
        .collect()
}

/// Files with this instruction, in which one operand is past its count.
fn past_counts(prefix: u8, opcode: u8) -> Vec<Examined> {
    let roles = roles(&OPCODES[usize::from(opcode)]);
    let mut counts = SMALL;
    if !roles.contains(&Role::Child) {
        counts.children = 0;
    }
    let widths = widths(Some(prefix), kind(opcode));
    let mut files = Vec::new();
    for (operand, (width, role)) in widths.iter().zip(roles).enumerate() {
        let Some(count) = counts.of(role) else {
            continue;
        };
        let count = u32::from(count);
        let above = (*width == 2).then_some(256 + count - 1);
        for number in [count].into_iter().chain(above) {
            let mut operands = vec![0; widths.len()];
            operands[operand] = number;
            let mut code = instruction(Some(prefix), opcode, &operands);
            code.push(STOP);
            files.push((coded(&code, counts), 17));
        }
    }
    files
}

/// Registers and nothing else.
const REGISTERS: Counts = Counts {
    registers: u16::MAX,
    constants: 0,
    symbols: 0,
    children: 0,
};

/// Files of one record with this code and registers alone.
fn with_registers(codes: Vec<(Vec<u8>, Refusal)>) -> Vec<Examined> {
    let codes = codes.into_iter();
    codes
        .map(|(code, number)| (coded(&code, REGISTERS), number))
        .collect()
}

/// An opcode of each kind whose operands are registers or plain.
const OF_KINDS: [&str; 8] = [
    "NOP", "LOADI_0", "LOADI", "JMP", "ADDILV", "LOADI16", "ENTER", "LOADI32",
];

/// Files whose reading meets 16 or 25, or just does not.
fn readings() -> Vec<Examined> {
    let mut codes = Vec::new();
    for prefix in PREFIXES {
        // "25 when a prefix is last in its record or another prefix follows it"
        codes.extend([(vec![prefix], 25), (vec![STOP, prefix], 25)]);
        codes.extend(PREFIXES.map(|second| (vec![prefix, second, STOP], 25)));
        // No opcode.
        codes.extend([119, 255].map(|byte| (vec![prefix, byte], 16)));
        for opcode in OF_KINDS.map(named) {
            // The last instruction goes on past the end, or is cut.
            let whole = largest(Some(prefix), opcode, REGISTERS);
            let cut = whole[..whole.len() - 1].to_vec();
            codes.push((whole, 18));
            if kind(opcode) != Kind::Z {
                codes.push((cut, 16));
            }
        }
        // An operand is no prefix.
        codes.push((vec![named("MOVE"), prefix, prefix, STOP], 0));
        let both = u32::from(prefix) * 257;
        let wide = instruction(Some(EXT3), named("MOVE"), &[both; 2]);
        codes.push(([wide, vec![STOP]].concat(), 0));
    }
    let mut files = with_registers(codes);
    files.extend(order_of_numbers());
    files
}

/// Files with two numbers, of which the first is met: "in 16's place", and so before 17, 18 and 19 of its record.
fn order_of_numbers() -> Vec<Examined> {
    const UNKNOWN: u8 = 119;
    let past_registers = [named("MOVE"), SMALL.registers as u8, 0];
    let jump_out = [named("JMP"), 0, 9];
    let alone = |code: &[u8]| vec![record(code, &[], REGISTERS)];
    let counts = Counts {
        registers: SMALL.registers,
        ..REGISTERS
    };
    let few = |code: &[u8]| record(code, &[], counts);
    let two = |mut first: Vec<u8>, second: Vec<u8>| {
        // The first record's number of children.
        first[8..10].copy_from_slice(&be2(1));
        vec![first, second]
    };
    let with_17 = few(&[&past_registers[..], &[STOP]].concat());
    let with_19 = record(&[STOP], &[1], REGISTERS);
    let with_16 = few(&[UNKNOWN]);
    let with_25 = few(&[STOP, EXT2]);
    let cases = [
        (alone(&[EXT1, UNKNOWN, EXT2]), 16),
        (alone(&[STOP, EXT1, named("NOP"), UNKNOWN, EXT3]), 16),
        (alone(&[STOP, EXT2, EXT3, UNKNOWN]), 25),
        (
            vec![few(&[&past_registers[..], &[STOP, EXT1]].concat())],
            25,
        ),
        (alone(&[&jump_out[..], &[EXT2]].concat()), 25),
        (vec![record(&[STOP, EXT3], &[9], REGISTERS)], 25),
        (two(bare_record(), with_25.clone()), 25),
        (two(with_16.clone(), with_25.clone()), 16),
        (two(with_17, with_25.clone()), 17),
        (two(with_19, with_25.clone()), 19),
        (two(with_25.clone(), with_16), 25),
        // The second record is no child of the first.
        (vec![with_25, bare_record()], 15),
    ];
    cases
        .map(|(records, number)| (file(&records, &[]), number))
        .to_vec()
}

/// The opcodes that jump.
const JUMPS: [&str; 5] = ["JMP", "JMPIF", "JMPNOT", "JMPNIL", "JMPUW"];

/// A jump with this distance, behind a prefix or without one.
fn jump(prefix: Option<u8>, opcode: u8, distance: i16) -> Vec<u8> {
    let mut operands = vec![0; widths(prefix, kind(opcode)).len()];
    *operands.last_mut().expect("a jump has a distance") = u32::from(distance as u16);
    instruction(prefix, opcode, &operands)
}

/// Files with jumps and handlers that lead to prefixes, or to the opcodes behind them: 18 and 19.
fn targets() -> Vec<Examined> {
    let mut codes = Vec::new();
    for (distance, number) in [(0, 0), (1, 18)] {
        let prefixes = PREFIXES.into_iter().cycle();
        for (opcode, prefix) in JUMPS.map(named).into_iter().zip(prefixes) {
            let code = [jump(None, opcode, distance), vec![prefix, STOP]];
            codes.push((code.concat(), number));
        }
        // From behind a prefix to that prefix.
        for (opcode, prefix) in pairs(&JUMPS) {
            let back = -(size(Some(prefix), kind(opcode)) as i16);
            let code = [jump(Some(prefix), opcode, back + distance), vec![STOP]];
            codes.push((code.concat(), number));
        }
    }
    let mut files = with_registers(codes);
    files.extend(handlers());
    files
}

/// Files with a handler that leads to each byte of code in which a prefix stands before every opcode, and to its end.
fn handlers() -> Vec<Examined> {
    let mut code = Vec::new();
    let mut begins = Vec::new();
    for prefix in PREFIXES {
        begins.push(code.len());
        code.extend(instruction(Some(prefix), named("LOADI"), &[0, 0]));
    }
    begins.push(code.len());
    code.extend([EXT1, STOP]);
    let files = (0..=code.len()).map(|target| {
        let number = if begins.contains(&target) { 0 } else { 19 };
        (
            with_children(record(&code, &[target], REGISTERS), 0),
            number,
        )
    });
    files.collect()
}

/// Just above what one byte numbers.
const MANY: u16 = 258;

/// As many of everything.
const ALL_MANY: Counts = Counts {
    registers: MANY,
    constants: MANY,
    symbols: MANY,
    children: MANY,
};

/// The child that has a child of its own, so that behind it a child's number is not its place.
const PARENT: u32 = 1;

/// A file whose first record has many of everything and this code.
fn with_many(code: &[u8]) -> Vec<u8> {
    let mut records = vec![record(code, &[], ALL_MANY)];
    records.resize(2 + usize::from(MANY), bare_record());
    let of_parent = Counts {
        children: 1,
        ..REGISTERS
    };
    records[1 + PARENT as usize] = record(&[STOP], &[], of_parent);
    file(&records, &[])
}

/// The record of a child in such a file.
fn place_of_child(child: u32) -> u32 {
    1 + child + u32::from(child > PARENT)
}

/// Operands from 255 to the last, their counts above 255, and children that are entered by them.
fn above_255() -> Group {
    let mut code = Vec::new();
    let mut runs: Vec<Run> = Vec::new();
    let last = u32::from(MANY) - 1;
    let entries = [
        (EXT2, "LAMBDA", last),
        (EXT3, "BLOCK", last - 1),
        (EXT2, "METHOD", last - 2),
        (EXT3, "EXEC", last),
        (EXT2, "EXEC", last - 1),
        (EXT3, "METHOD", last - 2),
        (EXT3, "LAMBDA", PARENT),
        (EXT2, "BLOCK", PARENT + 1),
        (EXT1, "EXEC", 255),
    ];
    for (steps, (prefix, name, child)) in entries.into_iter().enumerate() {
        code.extend(instruction(Some(prefix), named(name), &[0, child]));
        let choices = [vec![GO_ON; steps], vec![ENTER]].concat();
        runs.push((choices, stands_at(place_of_child(child), 0, 2)));
    }
    for prefix in PREFIXES {
        for name in WITH_ROLES {
            code.extend(largest(Some(prefix), named(name), ALL_MANY));
        }
    }
    code.push(STOP);
    Group {
        name: "operands and children above 255, examined and followed",
        examined: past_many(),
        followed: vec![(with_many(&code), runs)],
    }
}

/// Files with one operand at a count above 255: 17.
fn past_many() -> Vec<Examined> {
    let past = |prefix: u8, name: &str, operands: [u32; 2], counts: Counts| {
        let code = instruction(Some(prefix), named(name), &operands);
        (coded(&[code, vec![STOP]].concat(), counts), 17)
    };
    let registers = Counts {
        registers: MANY,
        ..REGISTERS
    };
    let constants = Counts {
        constants: MANY,
        ..REGISTERS
    };
    let symbols = Counts {
        symbols: MANY,
        ..REGISTERS
    };
    let children = Counts {
        children: MANY,
        ..REGISTERS
    };
    let many = u32::from(MANY);
    vec![
        past(EXT1, "MOVE", [many, 0], registers),
        past(EXT2, "MOVE", [0, many], registers),
        past(EXT3, "MOVE", [many, 0], registers),
        past(EXT3, "MOVE", [0, many], registers),
        past(EXT2, "LOADL", [0, many], constants),
        past(EXT3, "LOADSYM", [0, many], symbols),
        past(EXT2, "LAMBDA", [0, many], children),
    ]
}

/// What a run answers that stands in a record of `with_lines`.
fn at_line(record: u32, offset: u32, frames: u32) -> [u32; 6] {
    let line = first_line(record) + offset;
    [0, record, offset, 1, line, frames]
}

/// The line of a record's first byte in `with_lines`.
fn first_line(record: u32) -> u32 {
    100 * (record + 1)
}

/// A debug record in which each of so many bytes of code has a line of its own, one more than the byte before it.
fn debug_record(first_line: u32, bytes: usize) -> Vec<u8> {
    // One file: start, name index, count, kind 0.
    let mut content = [&[0, 1, 0, 0, 0, 0, 0, 0][..], &be4(bytes), &[0]].concat();
    for byte in 0..bytes {
        content.extend(be2(first_line as usize + byte));
    }
    [&be4(4 + content.len())[..], &content].concat()
}

/// A file of these records, of which each byte of code has a line of its own.
fn with_lines(records: &[(Vec<u8>, Vec<usize>, Counts)]) -> Vec<u8> {
    // One name, of one letter.
    let mut content = vec![0, 1, 0, 1, b'f'];
    for (number, (code, _, _)) in (0..).zip(records) {
        content.extend(debug_record(first_line(number), code.len()));
    }
    let records = records.iter();
    let records: Vec<Vec<u8>> = records
        .map(|(code, targets, counts)| record(code, targets, *counts))
        .collect();
    file(&records, &[exact(b"DBG\0", &content)])
}

/// Runs in which every choice is taken at instructions behind prefixes, with the prefixes' lines.
fn runs() -> Group {
    let few = |children: u16| Counts { children, ..SMALL };
    let code = [
        // 0
        instruction(Some(EXT2), named("BLOCK"), &[0, 1]),
        // 5: to 0
        jump(Some(EXT1), named("JMPNOT"), -11),
        // 11
        instruction(Some(EXT3), named("LOADI_0"), &[1]),
        // 15
        instruction(Some(EXT3), named("TDEF"), &[0, 1, 0]),
        // 22: to 28
        jump(Some(EXT2), named("JMP"), 2),
        // 26
        vec![EXT1, named("NOP")],
        // 28: to 26
        jump(Some(EXT3), named("JMPIF"), -8),
        // 34
        instruction(Some(EXT1), named("METHOD"), &[1, 0]),
        // 39
        instruction(Some(EXT3), named("RETURN"), &[0]),
    ];
    let of_first = [
        instruction(Some(EXT3), named("METHOD"), &[0, 0]),
        vec![EXT1, STOP],
    ];
    let file = with_lines(&[
        (code.concat(), vec![26, 39, 0], few(2)),
        (of_first.concat(), vec![], few(1)),
        (vec![EXT2, STOP], vec![], few(0)),
        (
            vec![EXT2, named("NOP"), EXT3, named("RETSELF")],
            vec![],
            few(0),
        ),
    ]);
    let at = at_line;
    let runs = [
        (&[][..], at(0, 0, 1)),
        // At BLOCK.
        (&[0], at(0, 5, 1)),
        (&[1], at(0, 5, 1)),
        (&[2], at(3, 0, 2)),
        (&[3, 0, 0], at(0, 26, 1)),
        (&[3, 0, 3], at(0, 5, 1)),
        (&[4], FINISHED),
        // In its child.
        (&[2, 0], at(3, 2, 2)),
        (&[2, 2], at(3, 2, 2)),
        (&[2, 0, 0], at(0, 5, 1)),
        (&[2, 4], at(0, 5, 1)),
        // At JMPNOT.
        (&[0, 0], at(0, 11, 1)),
        (&[0, 1], at(0, 0, 1)),
        (&[0, 2], at(0, 11, 1)),
        (&[0, 3, 0, 1], at(0, 39, 1)),
        (&[0, 4], FINISHED),
        // At LOADI_0 and TDEF.
        (&[0, 0, 0], at(0, 15, 1)),
        (&[0, 0, 2], at(0, 15, 1)),
        (&[0, 0, 0, 0], at(0, 22, 1)),
        (&[0, 0, 0, 2], at(1, 0, 2)),
        (&[0, 0, 0, 2, 2], at(2, 0, 3)),
        (&[0, 0, 0, 2, 2, 0], at(1, 6, 2)),
        (&[0, 0, 0, 2, 0, 0], at(0, 22, 1)),
        // At JMP.
        (&[0, 0, 0, 0, 0], at(0, 28, 1)),
        (&[0, 0, 0, 0, 1], at(0, 28, 1)),
        (&[0, 0, 0, 0, 2], at(0, 28, 1)),
        // At NOP, JMPIF, METHOD and RETURN.
        (&[3, 0, 0, 0], at(0, 28, 1)),
        (&[3, 0, 0, 0, 1], at(0, 26, 1)),
        (&[3, 0, 0, 0, 0], at(0, 34, 1)),
        (&[3, 0, 0, 0, 0, 2], at(1, 0, 2)),
        (&[3, 0, 0, 0, 0, 0], at(0, 39, 1)),
        (&[3, 0, 1, 0], FINISHED),
        (&[3, 0, 1, 3, 0, 2], at(0, 0, 1)),
    ];
    let runs = runs.map(|(choices, answer)| (choices.to_vec(), answer));
    Group {
        name: "runs behind prefixes, followed",
        examined: Vec::new(),
        followed: vec![(file, runs.to_vec())],
    }
}

#[cfg(test)]
mod tests {
    use super::*;
    use crate::fetch;

    #[test]
    fn operands_that_fit_are_the_originals_without_the_prefix() {
        for opcode in opcodes() {
            let widths = widths(None, kind(opcode));
            let most = widths.iter().map(|width| (1 << (8 * width)) - 1 - width);
            let operands: Vec<u32> = most.map(|number: usize| number as u32).collect();
            let narrow = instruction(None, opcode, &operands);
            let right = fetch::right(&narrow).unwrap();
            assert_eq!(right.refusal, 0);
            for prefix in PREFIXES {
                let wide = instruction(Some(prefix), opcode, &operands);
                let step = model::step_at(&wide, 0).unwrap();
                assert_eq!(step.operands, right.operands);
                assert_eq!(step.opcode, usize::from(opcode));
                assert_eq!(step.next, wide.len());
            }
        }
    }

    #[test]
    fn sizes_are_one_more_for_the_prefix_and_each_operand_it_widens() {
        let sizes = |kind: Kind| PREFIXES.map(|prefix| size(Some(prefix), kind) - kind.size());
        assert_eq!(sizes(Kind::Z), [1, 1, 1]);
        assert_eq!(sizes(Kind::B), [2, 1, 2]);
        assert_eq!(sizes(Kind::BB), [2, 2, 3]);
        assert_eq!(sizes(Kind::S), [1, 1, 1]);
        assert_eq!(sizes(Kind::BBB), [2, 2, 3]);
        assert_eq!(sizes(Kind::BS), [2, 1, 2]);
        assert_eq!(sizes(Kind::W), [1, 1, 1]);
        assert_eq!(sizes(Kind::BSS), [2, 1, 2]);
    }
}
