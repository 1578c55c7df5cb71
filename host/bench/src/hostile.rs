//! The worst files of at most 65,536 bytes.

use crate::parts::{file, section};

const RECORDS: usize = 1_024;

/// A size past every file's end, which ends the records; its bytes are LOADNIL and two NOPs.
const LAST_SIZE: u32 = 0x1100_0000;

/// The files with their names.
pub fn files() -> Vec<(&'static str, Vec<u8>)> {
    vec![
        ("1,024 records that share code: NOP", shared_code(&[NOP])),
        ("the same: size 2", shared_code(&[LOADNIL])),
        ("the same: size 3", shared_code(&[MOVE])),
        ("the same: size 4", shared_code(&[AREF])),
        (
            "the same: size 4, all three operands tested",
            shared_definitions(&[TDEF, SDEF]),
        ),
        (
            "the same: sizes 1 and 2 in random order",
            shared_code(&[KEYEND, LOADNIL]),
        ),
        (
            "the same: sizes 1 to 4 in random order",
            shared_code(&[NOP, KEYEND, LOADNIL, ADD, MOVE, ADDI, GETUPVAR, AREF]),
        ),
        (
            "the same: sizes 1 to 4, all three operands tested in size 4, in random order",
            shared_definitions(&[NOP, KEYEND, LOADNIL, ADD, MOVE, ADDI, TDEF, SDEF]),
        ),
        ("the same: jumps", shared_code(&[JMP])),
        (
            "the same: NOP and jumps, two to one, in random order",
            shared_code(&[NOP, NOP, JMP]),
        ),
        (
            "the same: two kinds of jumps in random order",
            shared_code(&[JMP, JMPNOT]),
        ),
        ("the same: EXT1 and NOP", shared_code(&[EXT1_NOP])),
        (
            "the same: a prefix and NOP, the three prefixes in turn",
            shared_in_turn(&[EXT1_NOP, EXT2_NOP, EXT3_NOP]),
        ),
        (
            "the same: a prefix and NOP, the three prefixes in random order",
            shared_code(&[EXT1_NOP, EXT2_NOP, EXT3_NOP]),
        ),
        (
            "the same: NOP, or EXT1 and NOP, in random order",
            shared_code(&[NOP, EXT1_NOP]),
        ),
        (
            "the same: NOP, or one of three prefixes and NOP, in random order",
            shared_code(&[NOP, NOP, NOP, EXT1_NOP, EXT2_NOP, EXT3_NOP]),
        ),
        (
            "the same: sizes 1 and 2, or these behind one of three prefixes, in random order",
            shared_code(&[
                KEYEND,
                LOADNIL,
                KEYEND.behind(EXT1, 0),
                LOADNIL.behind(EXT2, 0),
                LOADNIL.behind(EXT3, 1),
            ]),
        ),
        (
            "the same: size 2, or EXT1 and a wide operand, in random order",
            shared_code(&[LOADNIL, LOADNIL.behind(EXT1, 1)]),
        ),
        (
            "the same: EXT3 and two wide operands",
            shared_code(&[MOVE.behind(EXT3, 2)]),
        ),
        (
            "the same: EXT3 and two wide operands, all three operands tested",
            shared_definitions(&[TDEF.behind(EXT3, 2), SDEF.behind(EXT3, 2)]),
        ),
        (
            "the same: wide operands of B, BB, BBB, BS and BSS in random order",
            shared_code(&WIDE),
        ),
        (
            "the same: Z, B and BB behind one of three prefixes in random order",
            shared_code(&PREFIXED),
        ),
        (
            "the same: sizes 1 to 3, and prefixed ones, in random order",
            shared_code(&[
                NOP,
                KEYEND,
                LOADNIL,
                MOVE,
                EXT1_NOP,
                EXT2_NOP,
                LOADNIL.behind(EXT2, 0),
                LOADNIL.behind(EXT3, 1),
            ]),
        ),
        (
            "the same: EXT1 and jumps",
            shared_code(&[JMP.behind(EXT1, 0)]),
        ),
        (
            "the same: two kinds of jumps, half of them behind EXT1, in random order",
            shared_code(&[JMP, JMPNOT, JMP.behind(EXT1, 0), JMPNOT.behind(EXT1, 1)]),
        ),
        (
            "the same: NOP and jumps, two to one, half of them behind EXT1, in random order",
            shared_code(&[NOP, NOP, JMP, EXT1_NOP, EXT1_NOP, JMP.behind(EXT1, 0)]),
        ),
        (
            "the same: size 2, one to three registers touched, in random order",
            shared_registers(&SHORT_FORMS, &[None]),
        ),
        (
            "the same: eleven forms of touched registers, any operands, in random order",
            shared_registers(&FORMS, &[None]),
        ),
        (
            "the same: these forms, half of them behind one of three prefixes, in random order",
            shared_registers(&FORMS, &HALF_PREFIXED),
        ),
        (
            "1,024 records that share a constant's text",
            shared_constants(&long_constant()),
        ),
        (
            "1,024 records that share a symbol",
            shared_constants(&long_symbol()),
        ),
        (
            "1,024 records that share 200 constants",
            shared_constants(&constants(200)),
        ),
        (
            "1,024 records that share 15,000 constants",
            shared_constants(&constants(15_000)),
        ),
        (
            "1,024 records with 65,535 children each, names and lines",
            children(),
        ),
    ]
}

/// A file whose last record alone has RETURN, with every opcode that its records hold.
pub struct EndingApart {
    pub name: &'static str,
    pub file: Vec<u8>,
    pub held: Vec<u8>,
}

/// Files that share code, of the kinds that are the worst for examination.
pub fn ending_apart() -> Vec<EndingApart> {
    let jump = JMP.behind(EXT1, 0);
    [
        ("1,024 records that share code: NOP", &[NOP][..]),
        (
            "the same: NOP, or one of three prefixes and NOP, in random order",
            &[NOP, NOP, NOP, EXT1_NOP, EXT2_NOP, EXT3_NOP],
        ),
        (
            "the same: NOP and jumps, two to one, half of them behind EXT1, in random order",
            &[NOP, NOP, JMP, EXT1_NOP, EXT1_NOP, jump],
        ),
    ]
    .map(|(name, kinds)| EndingApart {
        name,
        file: shared_before(kinds),
        held: held_by(kinds),
    })
    .into()
}

/// The opcodes of a chain's code of these kinds, of its headers and of a last record that ends apart.
fn held_by(kinds: &[Kind]) -> Vec<u8> {
    let mut held = vec![
        NOP.opcode,
        LOADNIL.opcode,
        LOADI,
        LOADI32.opcode,
        STOP,
        RETURN,
    ];
    for kind in kinds {
        held.extend(kind.prefix);
        held.push(kind.opcode);
    }
    held
}

fn irep(content: &[u8]) -> Vec<u8> {
    section(b"IREP", &[&[0; 4], content].concat())
}

fn head(size: u32, nlocals: u16, nregs: u16, rlen: u16, clen: u16, ilen: usize) -> Vec<u8> {
    let mut head = size.to_be_bytes().to_vec();
    for field in [nlocals, nregs, rlen, clen] {
        head.extend(field.to_be_bytes());
    }
    head.extend((ilen as u32).to_be_bytes());
    head
}

/// An instruction: its prefix and its opcode, how many bytes it has, and whether it jumps.
#[derive(Clone, Copy)]
struct Kind {
    prefix: Option<u8>,
    opcode: u8,
    size: usize,
    jumps: bool,
}

impl Kind {
    /// The same behind a prefix that widens so many of its operands.
    const fn behind(self, prefix: u8, widened: usize) -> Kind {
        Kind {
            prefix: Some(prefix),
            size: self.size + 1 + widened,
            ..self
        }
    }
}

const fn kind(opcode: u8, size: usize) -> Kind {
    Kind {
        prefix: None,
        opcode,
        size,
        jumps: false,
    }
}

const fn jump(opcode: u8, size: usize) -> Kind {
    Kind {
        jumps: true,
        ..kind(opcode, size)
    }
}

const LOADI: u8 = 3;
pub const RETURN: u8 = 61;
const STOP: u8 = 118;

const NOP: Kind = kind(0, 1);
const KEYEND: Kind = kind(59, 1);
const LOADNIL: Kind = kind(17, 2);
const ADD: Kind = kind(69, 2);
const MOVE: Kind = kind(1, 3);
const ADDI: Kind = kind(70, 3);
const GETUPVAR: Kind = kind(33, 4);
const AREF: Kind = kind(87, 4);
const TDEF: Kind = kind(107, 4);
const SDEF: Kind = kind(108, 4);
const LOADI16: Kind = kind(14, 4);
const LOADI32: Kind = kind(15, 6);
const JMP: Kind = jump(38, 3);
const JMPNOT: Kind = jump(40, 4);

/// The prefixes: they widen a first operand, a second, both.
const EXT1: u8 = 115;
const EXT2: u8 = 116;
const EXT3: u8 = 117;

const EXT1_NOP: Kind = NOP.behind(EXT1, 0);
const EXT2_NOP: Kind = NOP.behind(EXT2, 0);
const EXT3_NOP: Kind = NOP.behind(EXT3, 0);

/// Every kind of operands that a prefix widens, behind each prefix that does.
const WIDE: [Kind; 12] = [
    LOADNIL.behind(EXT1, 1),
    LOADNIL.behind(EXT3, 1),
    MOVE.behind(EXT1, 1),
    MOVE.behind(EXT2, 1),
    MOVE.behind(EXT3, 2),
    AREF.behind(EXT1, 1),
    AREF.behind(EXT2, 1),
    AREF.behind(EXT3, 2),
    LOADI16.behind(EXT1, 1),
    LOADI16.behind(EXT3, 1),
    LOADI32.behind(EXT1, 1),
    LOADI32.behind(EXT3, 1),
];

/// None, one and two operands of one byte behind each prefix.
const PREFIXED: [Kind; 9] = [
    EXT1_NOP,
    EXT2_NOP,
    EXT3_NOP,
    LOADNIL.behind(EXT1, 1),
    LOADNIL.behind(EXT2, 0),
    LOADNIL.behind(EXT3, 1),
    MOVE.behind(EXT1, 1),
    MOVE.behind(EXT2, 1),
    MOVE.behind(EXT3, 2),
];

/// An instruction that touches registers by so many operands; the second of a call names a symbol.
#[derive(Clone, Copy)]
struct Form {
    opcode: u8,
    operands: usize,
    calls: bool,
}

const fn form(opcode: u8, operands: usize) -> Form {
    Form {
        opcode,
        operands,
        calls: false,
    }
}

const fn call(opcode: u8) -> Form {
    Form {
        calls: true,
        ..form(opcode, 3)
    }
}

/// LOADNIL, ADD and SETIDX.
const SHORT_FORMS: [Form; 3] = [form(17, 1), form(69, 1), form(37, 1)];

/// ADD, SETIDX, SEND, SENDB, SUPER, ARRAY, ARRAY2, ARYPUSH, APOST, HASH and HASHADD.
const FORMS: [Form; 11] = [
    form(69, 1),
    form(37, 1),
    call(50),
    call(52),
    form(55, 2),
    form(82, 2),
    form(83, 3),
    form(85, 2),
    form(89, 3),
    form(94, 2),
    form(95, 2),
];

/// No prefix as often as one of the three.
const HALF_PREFIXED: [Option<u8>; 6] = [None, None, None, Some(EXT1), Some(EXT2), Some(EXT3)];

/// The high byte of a wide operand is below this, so that a form touches none but the registers below 2,304.
const MOST_HIGH: usize = 3;

impl Form {
    /// The bytes of the instruction with random operands.
    fn instruction(self, prefix: Option<u8>, random: &mut Random) -> Vec<u8> {
        let mut code: Vec<u8> = prefix.into_iter().chain([self.opcode]).collect();
        for place in 0..self.operands {
            let names_symbol = self.calls && place == 1;
            let (high, low) = if names_symbol {
                (1, 1)
            } else {
                (MOST_HIGH, 256)
            };
            if widens(prefix, place) {
                code.push(random.below(high) as u8);
            }
            code.push(random.below(low) as u8);
        }
        code
    }
}

/// Whether a prefix widens the operand at a place.
fn widens(prefix: Option<u8>, place: usize) -> bool {
    match place {
        0 => matches!(prefix, Some(EXT1 | EXT3)),
        1 => matches!(prefix, Some(EXT2 | EXT3)),
        _ => false,
    }
}

/// Where random numbers begin.
const SEED: Random = Random(88_172_645_463_325_252);

/// Numbers in an order that no predictor learns, the same in every run.
struct Random(u64);

impl Random {
    fn below(&mut self, limit: usize) -> usize {
        self.0 ^= self.0 << 13;
        self.0 ^= self.0 >> 7;
        self.0 ^= self.0 << 17;
        (self.0 >> 16) as usize % limit
    }
}

/// The order of the kinds in code.
#[derive(Clone, Copy)]
enum Order {
    Random,
    InTurn,
}

/// At most so many bytes of code: the kinds in this order, operands 0, jumps to any instruction, and STOP at the end.
fn code(kinds: &[Kind], order: Order, most: usize) -> Vec<u8> {
    let mut random = SEED;
    let mut code = Vec::new();
    let mut starts = Vec::new();
    let mut ends = Vec::new();
    loop {
        let kind = match order {
            Order::Random => kinds[random.below(kinds.len())],
            Order::InTurn => kinds[starts.len() % kinds.len()],
        };
        let start = code.len();
        if start + kind.size >= most {
            break;
        }
        starts.push(start);
        code.extend(kind.prefix);
        code.push(kind.opcode);
        code.resize(start + kind.size, 0);
        if kind.jumps {
            ends.push(code.len());
        }
    }
    for end in ends {
        let operand = loop {
            let target = starts[random.below(starts.len())];
            if let Ok(operand) = i16::try_from(target as i64 - end as i64) {
                break operand;
            }
        };
        code[end - 2..end].copy_from_slice(&operand.to_be_bytes());
    }
    code.push(STOP);
    code
}

/// At most so many bytes of code: the forms in random order, each behind one of these or no prefix, any operands, and STOP at the end.
fn code_of_forms(forms: &[Form], prefixes: &[Option<u8>], most: usize) -> Vec<u8> {
    let mut random = SEED;
    let mut code = Vec::new();
    loop {
        let form = forms[random.below(forms.len())];
        let prefix = prefixes[random.below(prefixes.len())];
        let instruction = form.instruction(prefix, &mut random);
        if code.len() + instruction.len() >= most {
            break;
        }
        code.extend(instruction);
    }
    code.push(STOP);
    code
}

/// The bytes from one record that shares code to the next: a header and a NOP.
const STRIDE: usize = 17;

/// The handlers of a record that shares code, their number also the opcode LOADI32; all their bytes are 0, and so their targets.
const HANDLERS: u16 = 15;
const HANDLER_BYTES: usize = 13;

/// The registers of a record that shares code, their number also the opcode LOADI, or LOADI16 of a high byte.
const FEW_REGISTERS: u16 = 3;
const MANY_REGISTERS: u16 = 14 << 8;

/// No entries, as constants or as symbols.
const NONE: [u8; 2] = [0; 2];

/// One symbol, an empty text.
const ONE_SYMBOL: [u8; 5] = [0, 1, 0, 0, 0];

/// The length of a code that the last record has for itself, also the opcode LOADI.
const OWN_LENGTH: usize = 3;

/// What follows the NOP that this code begins with: NOP and STOP, no constants, no symbols.
const OWN: [u8; 6] = [0, STOP, 0, 0, 0, 0];

/// The same with RETURN, which the records before read as an operand of LOADI.
const OWN_RETURN: [u8; 6] = [RETURN, 0, 0, 0, 0, 0];

/// Records that share code of these kinds in random order, in which operands name registers alone.
fn shared_code(kinds: &[Kind]) -> Vec<u8> {
    let code = |most| code(kinds, Order::Random, most);
    chain(code, FEW_REGISTERS, &NONE, &[])
}

/// The same with the kinds in turn.
fn shared_in_turn(kinds: &[Kind]) -> Vec<u8> {
    let code = |most| code(kinds, Order::InTurn, most);
    chain(code, FEW_REGISTERS, &NONE, &[])
}

/// Records that share code, in which operands name a symbol and a child too: all but the last, which has no child to name.
fn shared_definitions(kinds: &[Kind]) -> Vec<u8> {
    let code = |most| code(kinds, Order::Random, most);
    chain(code, FEW_REGISTERS, &ONE_SYMBOL, &OWN)
}

/// Records that share code of these kinds in random order, before a last one that has RETURN.
fn shared_before(kinds: &[Kind]) -> Vec<u8> {
    let code = |most| code(kinds, Order::Random, most);
    chain(code, FEW_REGISTERS, &NONE, &OWN_RETURN)
}

/// Records that share code of these forms, which touch registers by their operands.
fn shared_registers(forms: &[Form], prefixes: &[Option<u8>]) -> Vec<u8> {
    let code = |most| code_of_forms(forms, prefixes, most);
    chain(code, MANY_REGISTERS, &ONE_SYMBOL, &[])
}

/// A chain of records that passes, with so many registers and these symbols. All have their code's end in common, but for a last one that has its
/// own, and the code of each begins with the headers of those behind it, read as instructions: NOP, LOADNIL, LOADI or LOADI16 with the number of
/// children, and LOADI32 with the length.
fn chain(code: impl Fn(usize) -> Vec<u8>, registers: u16, symbols: &[u8], own: &[u8]) -> Vec<u8> {
    let handlers = [0; HANDLERS as usize * HANDLER_BYTES];
    let behind = [&handlers[..], &NONE, symbols].concat();
    let heads = RECORDS * STRIDE + own.len();
    let code = code(65_536 - 32 - heads - behind.len());
    let end = heads + code.len();
    let mut content = Vec::new();
    for number in 0..RECORDS {
        let is_last = number + 1 == RECORDS;
        let size = if is_last { LAST_SIZE } else { STRIDE as u32 };
        let (handlers, length) = match is_last && !own.is_empty() {
            true => (0, OWN_LENGTH),
            false => (HANDLERS, end - content.len() - 16),
        };
        let children = u16::from(!is_last);
        content.extend(head(size, 0, registers, children, handlers, length));
        content.push(0);
    }
    content.extend(own);
    content.extend(code);
    content.extend(behind);
    file(&[irep(&content)])
}

/// A pool of so many constants of three bytes, and no symbols.
fn constants(number: usize) -> Vec<u8> {
    let mut pool = (number as u16).to_be_bytes().to_vec();
    pool.extend([7, 0, 10].repeat(number));
    pool.extend([0, 0]);
    pool
}

/// A long text with its length before it and its zero behind it.
fn long_text() -> Vec<u8> {
    let mut text = vec![0xb0, 0];
    text.extend([b'x'; 0xb000]);
    text.push(0);
    text
}

/// A pool of one text, and no symbols.
fn long_constant() -> Vec<u8> {
    [&[0, 1, 0][..], &long_text(), &[0, 0]].concat()
}

/// No constants, and one symbol.
fn long_symbol() -> Vec<u8> {
    [&[0, 0, 0, 1][..], &long_text()].concat()
}

/// Records whose code ends where one pool begins, with the symbols behind it.
fn shared_constants(pool: &[u8]) -> Vec<u8> {
    let mut content = Vec::new();
    for number in 1..=RECORDS {
        let size = if number == RECORDS { LAST_SIZE } else { 16 };
        content.extend(head(size, 1, 1, 0, 0, (RECORDS - number) * 16));
    }
    content.extend(pool);
    file(&[irep(&content)])
}

/// Records that claim more children than there are, walked for names and for lines.
fn children() -> Vec<u8> {
    let mut content = Vec::new();
    for _ in 0..RECORDS {
        content.extend(head(21, 1, 1, 65_535, 0, 1));
        content.extend([STOP, 0, 0, 0, 0]);
    }
    let names = section(b"LVAR", &[0, 0, 0, 0]);
    let mut lines = vec![0, 0];
    for _ in 0..RECORDS {
        lines.extend([0, 0, 0, 6, 0, 0]);
    }
    // A byte is left, so that the walk goes on.
    file(&[irep(&content), names, section(b"DBG\0", &lines)])
}
