//! The registers that an instruction names, and files at both sides of the last one: request j) of paper 02.

use crate::chosen::Group;
use crate::prefixes::{GO_ON, PREFIXES, instruction, opcodes, widths};
use crate::sample::{BARE, Counts, Examined, Run, STOP};
use crate::sample::{bare_record, coded, file, record, stands_at};
use model::{Flow, OPCODES, Refusal, Role, flow, roles};
use std::collections::BTreeMap;

const JMP: u8 = 38;
const SETIDX: u8 = 37;
const SSEND: u8 = 47;
const SSENDB: u8 = 49;
const SEND: u8 = 50;
const SENDB: u8 = 52;
const SUPER: u8 = 55;
const ADD: u8 = 69;
const ARRAY: u8 = 82;
const ARRAY2: u8 = 83;
const ARYPUSH: u8 = 85;
const APOST: u8 = 89;
const HASH: u8 = 94;
const HASHADD: u8 = 95;

/// The opcodes that name R[a+1] beside R[a], and nothing else.
const WITH_NEXT: [u8; 18] = [
    32, 35, ADD, 71, 75, 76, 77, 78, 79, 80, 81, 84, 93, 96, 100, 101, 103, 106,
];

/// The opcodes one of whose operands says how many registers they name.
const COUNTING: [u8; 11] = [
    SSEND, SSENDB, SEND, SENDB, SUPER, ARRAY, ARRAY2, ARYPUSH, APOST, HASH, HASHADD,
];

/// The opcodes that name registers beside their operands.
pub const BESIDE_OPERANDS: [usize; 30] = [
    32, 35, 37, 47, 49, 50, 52, 55, 69, 71, 75, 76, 77, 78, 79, 80, 81, 82, 83, 84, 85, 89, 93, 94,
    95, 96, 100, 101, 103, 106,
];

/// The operand that says how many registers an opcode names, if one does.
pub fn counting(opcode: u8) -> Option<usize> {
    match opcode {
        SUPER | ARRAY | ARYPUSH | HASH | HASHADD => Some(1),
        _ => COUNTING.contains(&opcode).then_some(2),
    }
}

/// The operand at which the registers of an opcode that names more than its operands begin.
pub fn first_register(opcode: u8) -> usize {
    usize::from(opcode == ARRAY2)
}

/// How many registers the arguments of a send have: n in the low four bits, and k pairs in the next four.
fn arguments(c: u32) -> u32 {
    singles(c & 15) + pairs(c >> 4 & 15)
}

/// The registers of n arguments; 15 stands for one array of them.
fn singles(n: u32) -> u32 {
    if n == 15 { 1 } else { n }
}

/// The registers of k pairs; 15 stands for one hash of them.
fn pairs(k: u32) -> u32 {
    if k == 15 { 1 } else { 2 * k }
}

/// The last register that an instruction names, if it names one.
fn last_register(opcode: u8, operands: &[u32]) -> Option<u32> {
    let [a, b, c] = [0, 1, 2].map(|operand| operands.get(operand).copied().unwrap_or(0));
    let last = match opcode {
        // The kinds Z, S and W, and ALIAS, UNDEF, DEBUG and ERR.
        0 | JMP | 42 | 53 | 57 | 59 | 63..=66 | 109 | 110 | 113..=STOP => return None,
        // MOVE, GETIDX0, RESCUE, AREF and ASET.
        1 | 36 | 44 | 87 | 88 => a.max(b),
        SETIDX => a + 2,
        SSEND | SEND => a + arguments(c),
        SSENDB | SENDB => a + arguments(c) + 1,
        SUPER => a + arguments(b) + 1,
        ARRAY => a + b.max(1) - 1,
        ARRAY2 => a.max(b + c.max(1) - 1),
        ARYPUSH => a + b,
        APOST => a + c,
        HASH => a + (2 * b).max(1) - 1,
        HASHADD => a + 2 * b,
        _ if WITH_NEXT.contains(&opcode) => a + 1,
        _ => a,
    };
    Some(last)
}

/// How many registers a record needs for an instruction.
pub fn needed(opcode: u8, operands: &[u32]) -> u32 {
    last_register(opcode, operands).map_or(0, |last| last + 1)
}

/// An instruction: its prefix, its opcode and its operands.
type Instruction = (Option<u8>, u8, Vec<u32>);

/// Every opcode without a prefix and behind each.
fn forms() -> impl Iterator<Item = (Option<u8>, u8)> {
    let prefixes = || PREFIXES.map(Some).into_iter().chain([None]);
    opcodes().flat_map(move |opcode| prefixes().map(move |prefix| (prefix, opcode)))
}

/// The roles of an opcode's operands.
fn roles_of(opcode: u8) -> [Role; 3] {
    roles(&OPCODES[usize::from(opcode)])
}

/// The bytes of an opcode's operands.
fn widths_of(prefix: Option<u8>, opcode: u8) -> Vec<usize> {
    widths(prefix, OPCODES[usize::from(opcode)].kind)
}

/// Whether an operand is a jump's distance, which stands last.
fn is_distance(opcode: u8, operand: usize) -> bool {
    let row = &OPCODES[usize::from(opcode)];
    let jumps = matches!(flow(row), Flow::Jump | Flow::MayJump);
    jumps && operand + 1 == widths(None, row.kind).len()
}

/// Files with every opcode, without a prefix and behind each, and with many operands, at and beside the number of registers that it needs.
pub fn everywhere() -> impl Iterator<Item = Examined> {
    forms().flat_map(|(prefix, opcode)| {
        let all = all_operands(prefix, opcode).into_iter();
        all.flat_map(move |operands| around((prefix, opcode, operands)))
    })
}

/// Many operands for an instruction: each number of each operand with each of the others.
fn all_operands(prefix: Option<u8>, opcode: u8) -> Vec<Vec<u32>> {
    let mut all = vec![Vec::new()];
    for (operand, width) in widths_of(prefix, opcode).into_iter().enumerate() {
        let numbers = numbers(opcode, operand, width);
        let longer = all.iter().flat_map(|before: &Vec<u32>| {
            let numbers = numbers.iter();
            numbers.map(|number| [&before[..], &[*number]].concat())
        });
        all = longer.collect();
    }
    all
}

/// Numbers for an operand of so many bytes; those with a role but for registers are the first, and jumps lead to the next offset.
fn numbers(opcode: u8, operand: usize, width: usize) -> Vec<u32> {
    const NIBBLES: [u32; 5] = [0, 1, 2, 14, 15];
    if counting(opcode) == Some(operand) {
        let bytes = NIBBLES.into_iter();
        let bytes = bytes.flat_map(|high| NIBBLES.map(|low| 16 * high + low));
        let wide = [256, 271, 496, 511, 32_767, 32_768, 65_280, 65_535];
        return match width {
            1 => bytes.collect(),
            _ => bytes.chain(wide).collect(),
        };
    }
    match roles_of(opcode)[operand] {
        Role::Register if width == 1 => vec![0, 1, 4, 254, 255],
        Role::Register => vec![0, 1, 4, 255, 256, 32_767, 65_534, 65_535],
        Role::Plain if !is_distance(opcode, operand) => vec![0, (1 << (8 * width)) - 1],
        _ => vec![0],
    }
}

/// Files with an instruction: with the registers that it needs, with one less and two less, and with as many as a sum of 16 bits needs.
fn around(instruction: Instruction) -> Vec<Examined> {
    let (_, opcode, operands) = &instruction;
    let Some(last) = last_register(*opcode, operands) else {
        return vec![(with_registers(&instruction, 0), 0)];
    };
    let mut numbers = vec![(last + 1, 0), (last, 17)];
    if last > 0 {
        numbers.push((last - 1, 17));
    }
    if last > 65_535 {
        numbers.extend([(65_535, 17), (last % 65_536 + 1, 17)]);
    }
    let numbers = numbers
        .into_iter()
        .filter_map(|(number, answer)| Some((u16::try_from(number).ok()?, answer)));
    numbers
        .map(|(number, answer)| (with_registers(&instruction, number), answer))
        .collect()
}

/// A file with an instruction and STOP, so many registers and one of what else its operands name.
fn with_registers((prefix, opcode, operands): &Instruction, registers: u16) -> Vec<u8> {
    let roles = roles_of(*opcode);
    let has = |role: Role| u16::from(roles.contains(&role));
    let counts = Counts {
        registers,
        constants: has(Role::Pool),
        symbols: has(Role::Symbol),
        children: has(Role::Child),
    };
    let mut code = instruction(*prefix, *opcode, operands);
    code.push(STOP);
    coded(&code, counts)
}

/// A file with an instruction that names one register more than there are: 17.
fn one_less(instruction: Instruction) -> Examined {
    let (_, opcode, operands) = &instruction;
    let last = last_register(*opcode, operands).expect("the instruction names a register");
    let registers = last.min(u16::MAX.into()) as u16;
    (with_registers(&instruction, registers), 17)
}

/// The files and runs that are stored, with their answers.
pub fn groups() -> Vec<Group> {
    vec![
        every_opcode(),
        Group::examined("registers that operands count, examined", counted()),
        Group::examined("registers behind prefixes, examined", behind_prefixes()),
        Group::examined("registers up to 65,535 and above, examined", wide_sums()),
        Group::examined(
            "registers before and after other numbers, examined",
            order(),
        ),
    ]
}

/// An instruction with small operands, above 255 where they are wide.
fn typical(prefix: Option<u8>, opcode: u8) -> Instruction {
    let operand = |(operand, width): (usize, usize)| {
        let numbers = match roles_of(opcode)[operand] {
            _ if counting(opcode) == Some(operand) => [0x12, 0x112],
            Role::Register if operand == 0 => [2, 258],
            Role::Register => [250, 259],
            Role::Plain if !is_distance(opcode, operand) => [255, 65_535],
            _ => [0, 0],
        };
        numbers[usize::from(width > 1)]
    };
    let widths = widths_of(prefix, opcode).into_iter();
    let operands = widths.enumerate().map(operand).collect();
    (prefix, opcode, operands)
}

/// Every opcode in records that have just the registers it needs, and in one that has one less, or no symbol that it names.
fn every_opcode() -> Group {
    let all = |prefix: Option<u8>| opcodes().map(move |opcode| typical(prefix, opcode));
    let with_register = all(None).filter(|(_, opcode, operands)| needed(*opcode, operands) > 0);
    let prefixes = [None].into_iter().chain(PREFIXES.map(Some));
    Group {
        name: "registers of every opcode, examined and followed",
        examined: with_register.map(one_less).chain(past_symbols()).collect(),
        followed: prefixes.map(|prefix| enough(all(prefix))).collect(),
    }
}

/// Files with an instruction that has registers enough and names a symbol behind the last one: 17.
fn past_symbols() -> impl Iterator<Item = Examined> {
    BESIDE_OPERANDS.into_iter().filter_map(|opcode| {
        let (prefix, opcode, mut operands) = typical(None, opcode as u8);
        let roles = roles_of(opcode);
        let symbol = roles.iter().position(|role| *role == Role::Symbol)?;
        operands[symbol] = 1;
        let registers = needed(opcode, &operands) as u16;
        let instruction = (prefix, opcode, operands);
        Some((with_registers(&instruction, registers), 17))
    })
}

/// A file with these instructions, in records that have just the registers that theirs need, and a run along those of the first record.
fn enough(instructions: impl Iterator<Item = Instruction>) -> (Vec<u8>, Vec<Run>) {
    let mut by_number = BTreeMap::<u32, Vec<Instruction>>::new();
    for instruction in instructions {
        let (_, opcode, operands) = &instruction;
        let registers = needed(*opcode, operands);
        by_number.entry(registers).or_default().push(instruction);
    }
    // Those that have a child stand in the first record, whose children are the other records.
    let children = by_number.len() as u16 - 1;
    let mut numbers: Vec<(u32, Vec<Instruction>)> = by_number.into_iter().collect();
    let enters = |(_, opcode, _): &Instruction| roles_of(*opcode).contains(&Role::Child);
    numbers.sort_by_key(|(_, instructions)| !instructions.iter().any(enters));
    let mut records = Vec::new();
    let mut runs = Vec::new();
    for (registers, instructions) in numbers {
        let (code, steps, stop) = stopped(&instructions);
        let counts = Counts {
            registers: registers as u16,
            constants: 1,
            symbols: 1,
            children: if records.is_empty() { children } else { 0 },
        };
        if records.is_empty() {
            runs.push((vec![GO_ON; steps], stands_at(0, stop as u32, 1)));
        }
        records.push(record(&code, &[], counts));
    }
    (file(&records, &[]), runs)
}

/// Code with these instructions: those that do not end, STOP, those that end, STOP; how many stand before the first STOP, and its offset.
fn stopped(instructions: &[Instruction]) -> (Vec<u8>, usize, usize) {
    let ends = |(_, opcode, _): &&Instruction| flow(&OPCODES[usize::from(*opcode)]) == Flow::Ends;
    let (ending, others): (Vec<&Instruction>, Vec<&Instruction>) =
        instructions.iter().partition(ends);
    let bytes = |instructions: &[&Instruction]| {
        let all = instructions.iter();
        all.flat_map(|(prefix, opcode, operands)| instruction(*prefix, *opcode, operands))
            .collect::<Vec<u8>>()
    };
    let before = bytes(&others);
    let code = [&before[..], &[STOP], &bytes(&ending), &[STOP]].concat();
    (code, others.len(), before.len())
}

/// Opcodes of all ways to name registers beside operands.
fn all_ways() -> impl Iterator<Item = u8> {
    [ADD, SETIDX].into_iter().chain(COUNTING)
}

/// Files with each opcode one of whose operands counts registers, with several numbers, and with all operands 0 or 255.
fn counted() -> Vec<Examined> {
    let with_numbers = COUNTING.into_iter().flat_map(|opcode| {
        let numbers = [0, 1, 0x0e, 0x0f, 0x20, 0xf0, 0xff];
        numbers.map(|number| with_count(opcode, number))
    });
    let zeros = all_ways().map(|opcode| all_equal(opcode, 0));
    let largest = all_ways().map(|opcode| all_equal(opcode, 255));
    both_sides(with_numbers.chain(zeros).chain(largest).collect())
}

/// A file that has just enough registers for each of these instructions, and files with one less for each.
fn both_sides(instructions: Vec<Instruction>) -> Vec<Examined> {
    let (file, _) = enough(instructions.iter().cloned());
    let refused = instructions.into_iter().map(one_less);
    [(file, 0)].into_iter().chain(refused).collect()
}

/// An instruction with this number for the operand that counts registers.
fn with_count(opcode: u8, number: u32) -> Instruction {
    let (prefix, _, mut operands) = typical(None, opcode);
    operands[counting(opcode).expect("an operand counts registers")] = number;
    (prefix, opcode, operands)
}

/// An instruction with this number for each operand but symbols, which are 0.
fn all_equal(opcode: u8, number: u32) -> Instruction {
    let roles = roles_of(opcode).into_iter();
    let operands = roles.zip(widths_of(None, opcode));
    let operands = operands.map(|(role, _)| if role == Role::Symbol { 0 } else { number });
    (None, opcode, operands.collect())
}

/// Files behind each prefix with an opcode of each way to name registers, which has one less than it needs.
fn behind_prefixes() -> Vec<Examined> {
    let forms = all_ways().flat_map(|opcode| PREFIXES.map(|prefix| (Some(prefix), opcode)));
    forms
        .map(|(prefix, opcode)| one_less(typical(prefix, opcode)))
        .collect()
}

/// Files with as many registers as there can be: the last one named is below them, or at least as many, also by 16 bits and more.
fn wide_sums() -> Vec<Examined> {
    let [first, second, both] = PREFIXES.map(Some);
    let below = [
        (first, ADD, vec![65_533]),
        (both, SETIDX, vec![65_532]),
        (first, SEND, vec![65_492, 0, 0xee]),
        (both, SENDB, vec![65_531, 0, 0xff]),
        (both, SUPER, vec![65_531, 0xffff]),
        (second, ARRAY, vec![0, 65_535]),
        (both, ARRAY2, vec![65_534, 65_280, 255]),
        (both, ARYPUSH, vec![65_534, 0]),
        (first, APOST, vec![65_279, 0, 255]),
        (second, HASH, vec![1, 32_767]),
        (second, HASHADD, vec![0, 32_767]),
    ];
    // The last register is 65,535.
    let next = [
        (first, ADD, vec![65_534]),
        (both, SETIDX, vec![65_533]),
        (first, SSEND, vec![65_533, 0, 0xff]),
        (both, SENDB, vec![65_532, 0, 0xff]),
        (both, SUPER, vec![65_532, 0xffff]),
        (second, ARRAY, vec![1, 65_535]),
        (second, ARRAY2, vec![0, 65_281, 255]),
        (both, ARYPUSH, vec![65_534, 1]),
        (first, APOST, vec![65_280, 0, 255]),
        (second, HASH, vec![0, 32_768]),
        (second, HASHADD, vec![1, 32_767]),
    ];
    // It is above, and less than 65,535 by 16 bits.
    let past = [
        (first, SETIDX, vec![65_534]),
        (first, SSEND, vec![65_534, 0, 0xee]),
        (both, SEND, vec![65_534, 0, 0xee]),
        (first, SSENDB, vec![65_534, 0, 0xee]),
        (both, SENDB, vec![65_534, 0, 0xee]),
        (both, SUPER, vec![65_534, 0xee]),
        (both, ARRAY, vec![65_534, 65_535]),
        (both, ARRAY2, vec![0, 65_534, 255]),
        (second, ARYPUSH, vec![1, 65_535]),
        (both, ARYPUSH, vec![65_534, 65_535]),
        (first, APOST, vec![65_534, 0, 255]),
        (both, HASH, vec![65_534, 65_535]),
        (second, HASHADD, vec![0, 32_768]),
        (second, HASHADD, vec![2, 65_535]),
        (both, HASHADD, vec![65_534, 65_535]),
    ];
    let (file, _) = enough(below.into_iter());
    let refused = next.into_iter().chain(past).map(one_less);
    [(file, 0)].into_iter().chain(refused).collect()
}

/// Files with two numbers, of which the first is met: 17 "before 18 at each instruction in turn", behind 16 and 25 and before 19.
fn order() -> Vec<Examined> {
    const EXT1: u8 = PREFIXES[0];
    const UNKNOWN: u8 = 119;
    let two = Counts {
        registers: 2,
        ..BARE
    };
    let parent = Counts { children: 1, ..two };
    // The last of two registers is named, or the one behind it.
    let below = [ADD, 0];
    let past = [ADD, 1];
    let jump_out = [JMP, 0, 9];
    let alone = |code: &[&[u8]]| vec![record(&code.concat(), &[], two)];
    let with_handler = |code: &[&[u8]]| vec![record(&code.concat(), &[9], two)];
    let first = |code: &[&[u8]]| record(&code.concat(), &[], parent);
    let second = |code: &[&[u8]]| record(&code.concat(), &[], BARE);
    let cases: [(Vec<Vec<u8>>, Refusal); 17] = [
        (alone(&[&below]), 18),
        (alone(&[&past]), 17),
        (alone(&[&jump_out, &past, &[STOP]]), 18),
        (alone(&[&past, &jump_out]), 17),
        (alone(&[&below, &below, &[STOP]]), 0),
        (alone(&[&below, &past, &[STOP]]), 17),
        (alone(&[&[STOP], &past, &[STOP]]), 17),
        (alone(&[&past, &[STOP, UNKNOWN]]), 16),
        (alone(&[&past, &[STOP, EXT1]]), 25),
        (with_handler(&[&below, &[STOP]]), 19),
        (with_handler(&[&past, &[STOP]]), 17),
        // The second record has one register.
        (vec![first(&[&below, &[STOP]]), bare_record()], 0),
        (
            vec![first(&[&below, &[STOP]]), second(&[&below, &[STOP]])],
            17,
        ),
        (vec![first(&[&past, &[STOP]]), second(&[&[UNKNOWN]])], 17),
        (vec![first(&[&below]), second(&[&below, &[STOP]])], 18),
        (vec![first(&[&past, &[STOP]])], 15),
        (vec![bare_record(), second(&[&below, &[STOP]])], 15),
    ];
    cases
        .map(|(records, number)| (file(&records, &[]), number))
        .to_vec()
}

#[cfg(test)]
mod tests {
    use super::*;
    use crate::allowance::read_all;
    use crate::generate::past_counts;
    use crate::generate::tests::passing_or_17;
    use crate::generate::{all_steps, needed_by_step};
    use crate::prefixes::named;
    use model::{Record, Rows, Step};
    use std::collections::BTreeSet;

    #[test]
    fn opcodes_have_their_names() {
        let name = |opcode: u8| OPCODES[usize::from(opcode)].name;
        let names = COUNTING.map(name).join(" ");
        let said = "SSEND SSENDB SEND SENDB SUPER ARRAY ARRAY2 ARYPUSH APOST HASH HASHADD";
        assert_eq!(names, said);
        let names = WITH_NEXT.map(name).join(" ");
        let said = "SETMCNST GETIDX ADD SUB MUL DIV EQ LT LE GT GE ARYCAT STRCAT HASHCAT \
                    RANGE_INC RANGE_EXC CLASS DEF";
        assert_eq!(names, said);
        assert_eq!([JMP, SETIDX].map(name), ["JMP", "SETIDX"]);
        let mut beside = [&WITH_NEXT[..], &[SETIDX], &COUNTING].concat();
        beside.sort();
        assert_eq!(BESIDE_OPERANDS.map(|opcode| opcode as u8), beside[..]);
        let two = [1, 36, 44, 87, 88].map(name);
        assert_eq!(two, ["MOVE", "GETIDX0", "RESCUE", "AREF", "ASET"]);
    }

    #[test]
    fn the_models_last_register_is_this_one() {
        for (prefix, opcode) in forms() {
            let row = &OPCODES[usize::from(opcode)];
            for operands in all_operands(prefix, opcode) {
                let mut three = [0; 3];
                three[..operands.len()].copy_from_slice(&operands);
                let right = model::last_register(row, three);
                let last = last_register(opcode, &operands).map(i64::from);
                assert_eq!(last, right, "{} {operands:?}", row.name);
            }
        }
    }

    /// The instructions of a file with their records, and whether it meets 17.
    type Stepped = (Vec<(Record, Step)>, bool);

    fn stepped(file: &[u8], rows: &Rows, refused: bool) -> Stepped {
        let steps = all_steps(file, rows).map(|(record, step)| (*record, step));
        (steps.collect(), refused)
    }

    /// The stored files that pass or meet 17.
    fn stored() -> Vec<Stepped> {
        let groups = groups().into_iter();
        let files = groups.flat_map(|group| {
            let passing = group.followed.into_iter().map(|(file, _)| (file, 0));
            group.examined.into_iter().chain(passing)
        });
        let files = files.filter(|(_, answer)| [0, 17].contains(answer));
        let stepped = files.map(|(file, answer)| {
            let rows = read_all(&file).rows;
            stepped(&file, &rows, answer == 17)
        });
        stepped.collect()
    }

    /// A mistaken reading: of which opcode, and how many registers it needs by it.
    struct Mistake {
        name: String,
        opcode: u8,
        needed: Box<dyn Fn(&Step) -> u32>,
    }

    impl Mistake {
        fn of(opcode: u8, what: &str, needed: impl Fn(&Step) -> u32 + 'static) -> Mistake {
            Mistake {
                name: format!("{}: {what}", OPCODES[usize::from(opcode)].name),
                opcode,
                needed: Box::new(needed),
            }
        }

        /// Holds that an answer of the files differs by this reading.
        fn is_told_by(&self, files: &[Stepped]) {
            let meets_17 = |(record, step): &(Record, Step)| {
                let needed = if step.opcode == usize::from(self.opcode) {
                    (self.needed)(step)
                } else {
                    needed_by_step(step)
                };
                let roles = roles(&OPCODES[step.opcode]);
                past_counts(record, step, roles) || needed > record.nregs
            };
            let mut files = files.iter();
            let told = files.any(|(steps, refused)| steps.iter().any(meets_17) != *refused);
            assert!(told, "{}", self.name);
        }
    }

    /// One register more than each opcode names, and one less where it names more than its operands, or those alone.
    fn one_off() -> Vec<Mistake> {
        let with_register = opcodes().filter(|opcode| needed(*opcode, &[]) > 0);
        let more = with_register
            .map(|opcode| Mistake::of(opcode, "one more", |step| needed_by_step(step) + 1));
        let beside = || BESIDE_OPERANDS.into_iter().map(|opcode| opcode as u8);
        let less =
            beside().map(|opcode| Mistake::of(opcode, "one less", |step| needed_by_step(step) - 1));
        let alone = beside().map(|opcode| Mistake::of(opcode, "operands alone", |_| 0));
        more.chain(less).chain(alone).collect()
    }

    /// How many registers a send's arguments have by n, k and the whole operand.
    type Arguments = fn(u32, u32, u32) -> u32;

    /// Mistaken readings of a send's arguments.
    const OF_SENDS: [(&str, Arguments); 6] = [
        ("n is 15", |n, k, _| n + pairs(k)),
        ("k is 15", |n, k, _| singles(n) + 2 * k),
        ("k once", |n, k, _| singles(n) + singles(k)),
        ("15 is none", |n, k, _| n % 15 + 2 * (k % 15)),
        ("both 15 are one", |n, k, _| match (n, k) {
            (15, 15) => 1,
            _ => singles(n) + pairs(k),
        }),
        ("all of it", |_, _, c| c),
    ];

    fn of_sends() -> Vec<Mistake> {
        let sends = [SSEND, SEND, SSENDB, SENDB, SUPER].into_iter();
        let mistakes = sends.flat_map(|opcode| {
            let counts = counting(opcode).expect("an operand counts registers");
            OF_SENDS.map(|(what, mistaken)| {
                Mistake::of(opcode, what, move |step: &Step| {
                    let c = step.operands[counts];
                    needed_by_step(step) - arguments(c) + mistaken(c & 15, c >> 4 & 15, c)
                })
            })
        });
        // Bits above 7 count.
        let wide = Mistake::of(SUPER, "all bits", |step: &Step| {
            let [a, b, _] = step.operands;
            a + singles(b & 15) + pairs(b >> 4) + 2
        });
        mistakes.chain([wide]).collect()
    }

    /// Sums that wrap at 8 or 16 bits.
    fn wraps() -> Vec<Mistake> {
        let wrap = |opcode: u8, bits: u32| {
            let numbers = 1 << bits;
            Mistake::of(opcode, &format!("{bits} bits"), move |step: &Step| {
                (needed_by_step(step) - 1) % numbers + 1
            })
        };
        // R[a+1] of ADD is R[65,536] only where a itself is past every count.
        let wide = all_ways().filter(|opcode| *opcode != ADD);
        let wide = wide.map(|opcode| wrap(opcode, 16));
        let narrow = all_ways().map(|opcode| wrap(opcode, 8));
        wide.chain(narrow)
            .chain([Mistake::of(HASH, "16 bits below 0", |step: &Step| {
                let [a, b, _] = step.operands;
                (a + 2 * b + 65_535) % 65_536 + 1
            })])
            .collect()
    }

    #[test]
    fn stored_files_tell_mistakes() {
        let stored = stored();
        for mistake in one_off().into_iter().chain(of_sends()).chain(wraps()) {
            mistake.is_told_by(&stored);
        }
    }

    #[test]
    fn stored_files_tell_mistakes_behind_prefixes() {
        let stored = stored();
        for prefix in PREFIXES {
            let with_register = opcodes().filter(|opcode| needed(*opcode, &[]) > 0);
            let more = with_register.map(|opcode| (opcode, "more", 2));
            let less = all_ways().map(|opcode| (opcode, "less", 0));
            for (opcode, what, added) in more.chain(less) {
                let what = format!("one {what} behind {prefix}");
                let mistake = Mistake::of(opcode, &what, move |step: &Step| {
                    let is_such = step.prefix == Some(prefix);
                    needed_by_step(step) + if is_such { added } else { 1 } - 1
                });
                mistake.is_told_by(&stored);
            }
        }
    }

    #[test]
    fn generated_files_tell_mistakes() {
        let files = passing_or_17(12_000).into_iter();
        let files: Vec<Stepped> = files
            .map(|(file, rows, refused)| stepped(&file, &rows, refused))
            .collect();
        for mistake in one_off() {
            mistake.is_told_by(&files);
        }
    }

    /// The registers that the comments of insn.rs name, by their opcodes' names.
    fn commented() -> BTreeMap<&'static str, BTreeSet<&'static str>> {
        let lines = original::INSN.lines();
        let entries = lines.filter_map(|line| {
            let (name, rest) = line.strip_prefix("// OPCODE(")?.split_once(',')?;
            let (_, comment) = rest.split_once("/*")?;
            let registers = comment.split("R[").skip(1);
            let registers = registers.filter_map(|rest| Some(rest.split_once(']')?.0));
            Some((name, registers.collect()))
        });
        entries.collect()
    }

    #[test]
    fn comments_name_these_registers() {
        let commented = commented();
        // 13 opcodes have no comment.
        assert_eq!(commented.len(), OPCODES.len() - 13);
        for (name, registers) in commented {
            let opcode = named(name);
            let by_role = ["a", "b", "c"].into_iter().zip(roles_of(opcode));
            let by_role = by_role.filter(|(_, role)| *role == Role::Register);
            let beside: &[&str] = match opcode {
                SETIDX => &["a+1", "a+2"],
                SSEND | SEND => &["a+1", "a+n+1", "a+n+2"],
                SSENDB | SENDB => &["a+1", "a+n+1", "a+n+2", "a+n+2k+1"],
                SUPER => &["a+1", "a+b+1"],
                ARRAY | ARYPUSH => &["a+1", "a+b"],
                ARRAY2 => &["b+1", "b+c"],
                APOST => &["a+1", "a+c"],
                HASH => &["a+1", "a+b*2-1"],
                HASHADD => &["a+1", "a+b*2"],
                _ if WITH_NEXT.contains(&opcode) => &["a+1"],
                _ => &[],
            };
            let operands = by_role.map(|(operand, _)| operand);
            let said: BTreeSet<&str> = operands.chain(beside.iter().copied()).collect();
            assert_eq!(registers, said, "{name}");
        }
    }
}
