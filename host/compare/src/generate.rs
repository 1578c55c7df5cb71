//! Files from a seed: valid, damaged and at the boundaries of the papers.

use crate::allowance::read_all;
use crate::newer::{CHILD_THIRD, NEWER};
use crate::prefixes::{PREFIXES, instruction, size, widths};
use crate::registers::{BESIDE_OPERANDS, counting, first_register, needed};
use crate::rng::Rng;
use crate::sample::{self, BARE, STOP};
use model::{Flow, HEADER, OPCODES, Record, Role, Rows, Step, bound, flow, roles};

/// Makes files; the corpus is the stock of real ones.
pub struct Generator {
    pub corpus: Vec<Vec<u8>>,
}

/// The families of files, in the order in which they are counted.
pub const FAMILIES: [&str; 14] = [
    "structured",
    "debug",
    "overlapping",
    "sections",
    "header",
    "corpus, damaged",
    "structured, damaged",
    "inside code",
    "long",
    "many records",
    "many children",
    "bytes",
    "children above 255",
    "ident and size",
];

/// The family that meets 27 and 28; the others have the ident and no size above their length.
const IDENT_AND_SIZE: usize = 13;

/// JMP, JMPIF, JMPNOT, JMPNIL and JMPUW.
const JUMPS: [usize; 5] = [38, 39, 40, 41, 42];

/// LAMBDA, BLOCK, METHOD and EXEC, whose second operand is a child.
const CHILD_SECOND: [usize; 4] = [97, 98, 99, 105];

/// LOADL, SYMBOL, STRING and ERR, which have a constant.
const WITH_CONSTANT: [usize; 4] = [2, 91, 92, 114];

/// LOADSYM, ALIAS and UNDEF, which have symbols.
const WITH_SYMBOL: [usize; 3] = [16, 109, 110];

/// The prefixes that widen a second operand.
const SECOND_WIDE: [u8; 2] = [116, 117];

/// How many numbers an operand of one byte has.
const NARROW: usize = 256;

impl Generator {
    /// The file of a seed and an index, with its family.
    pub fn file(&self, seed: u64, index: u64) -> (usize, Vec<u8>) {
        let mut rng = Rng::new(seed, index);
        let odd = rng.pick(&[0, 0, 0, 400, 100, 40, 15]);
        let mut maker = Maker {
            rng,
            odd,
            sound: false,
        };
        let family = match maker.rng.below(1000) {
            0..250 => 0,
            250..400 => 1,
            400..500 => 2,
            500..600 => 3,
            600..640 => 4,
            640..760 => 5,
            760..880 => 6,
            880..920 => 7,
            920..940 => 8,
            940..945 => 9,
            945..950 => 10,
            950..958 => 11,
            958..960 => 12,
            _ => IDENT_AND_SIZE,
        };
        let mut file = match family {
            0 => maker.structured(false),
            1 => maker.structured(true),
            2 => maker.overlapping(),
            3 => maker.sections(),
            4 => maker.header_only(),
            5 if !self.corpus.is_empty() => {
                let file = self.corpus[maker.rng.below(self.corpus.len())].clone();
                maker.damaged(file)
            }
            5 | 6 => {
                maker.odd = 0;
                let file = maker.structured(true);
                maker.damaged(file)
            }
            7 => maker.inside_code(),
            8 => maker.long(),
            9 => maker.many_records(),
            10 => maker.many_children(),
            11 => maker.any_bytes(),
            12 => maker.children_above_255(),
            _ => maker.ident_and_size(),
        };
        if family != IDENT_AND_SIZE {
            maker.finish_header(&mut file);
        }
        (family, file)
    }

    /// The file of a seed and an index for examination: two in three pass, or would but for one change where examination looks.
    pub fn examinable(&self, seed: u64, index: u64) -> Vec<u8> {
        let mut rng = Rng::new(seed.wrapping_add(1 << 32), index);
        if rng.one_in(3) {
            return self.file(seed, index).1;
        }
        let mut maker = Maker::sound(rng);
        let debug = maker.rng.one_in(2);
        let mut file = if maker.rng.one_in(8) && !self.corpus.is_empty() {
            self.corpus[maker.rng.below(self.corpus.len())].clone()
        } else {
            maker.sound_file(debug)
        };
        if maker.rng.one_in(2) {
            maker.flaw(&mut file);
            // Two numbers in one file, of which the first is met.
            if maker.rng.one_in(8) {
                maker.flaw(&mut file);
            }
        }
        maker.finish_header(&mut file);
        file
    }

    /// The file of a seed and an index for a run: most pass.
    pub fn runnable(&self, seed: u64, index: u64) -> Vec<u8> {
        let mut rng = Rng::new(seed.wrapping_add(2 << 32), index);
        match rng.below(16) {
            0 => self.examinable(seed, index),
            1 if !self.corpus.is_empty() => self.corpus[rng.below(self.corpus.len())].clone(),
            _ => {
                let debug = rng.one_in(2);
                let mut maker = Maker::sound(rng);
                let mut file = maker.sound_file(debug);
                maker.finish_header(&mut file);
                file
            }
        }
    }
}

/// A byte of the DBG section, which may be of a position.
pub fn flaw_map(file: &mut [u8], rng: &mut Rng) {
    let Some(start) = crate::expected::section(file, b"DBG\0") else {
        return;
    };
    let size = u32::from_be_bytes(file[start + 4..start + 8].try_into().unwrap()) as usize;
    if size > 10 {
        let at = start + rng.between(10, size - 1);
        file[at] = rng.byte();
    }
}

/// The file with one change where examination looks.
pub fn flawed(file: &[u8], rng: Rng) -> Vec<u8> {
    let mut file = file.to_vec();
    Maker::sound(rng).flaw(&mut file);
    file
}

/// Makes one file; each field is odd once in so many times, never where that is 0.
struct Maker {
    rng: Rng,
    odd: usize,
    /// Whether trees are whole, and code, handlers and most maps are such that they pass.
    sound: bool,
}

/// What the walks look at in a record.
#[derive(Clone, Copy)]
struct Seen {
    nlocals: usize,
    rlen: usize,
}

pub fn be2(n: usize) -> [u8; 2] {
    (n as u16).to_be_bytes()
}

pub fn be4(n: usize) -> [u8; 4] {
    (n as u32).to_be_bytes()
}

/// States a size in a file's header.
pub fn state_size(file: &mut [u8], size: usize) {
    overwrite(file, 8, &be4(size));
}

/// Writes bytes at a place, as far as the file goes.
pub fn overwrite(file: &mut [u8], at: usize, bytes: &[u8]) {
    for (byte, new) in file.iter_mut().skip(at).zip(bytes) {
        *byte = *new;
    }
}

/// A section with any stated size.
fn section(mark: &[u8; 4], size: usize, content: &[u8]) -> Vec<u8> {
    [&mark[..], &be4(size), content].concat()
}

/// A section with its exact size.
pub fn exact(mark: &[u8; 4], content: &[u8]) -> Vec<u8> {
    section(mark, content.len() + 8, content)
}

/// The number of records that a walk visits.
fn visited(records: &[Seen]) -> usize {
    let mut next = 0;
    let mut pending = 1;
    while pending > 0 && next < records.len() {
        pending += records[next].rlen;
        pending -= 1;
        next += 1;
    }
    next
}

/// The records of a file that ends behind its IREP section, as far as they are read.
fn seen(file: &[u8]) -> Vec<Seen> {
    let records = read_all(file).rows.records.rows;
    records
        .iter()
        .map(|record| Seen {
            nlocals: record.nlocals as usize,
            rlen: record.rlen as usize,
        })
        .collect()
}

/// The instructions of a record, as far as they are whole.
pub fn steps(file: &[u8], record: &Record) -> Vec<Step> {
    steps_of(&file[record.place as usize..][..record.ilen as usize])
}

/// The instructions of a code, as far as they are whole.
fn steps_of(code: &[u8]) -> Vec<Step> {
    let mut steps = Vec::new();
    let mut offset = 0;
    while let Ok(step) = model::step_at(code, offset) {
        offset = step.next;
        steps.push(step);
    }
    steps
}

/// The place in the file of an instruction's opcode, which stands behind its prefix.
fn opcode_place(record: &Record, step: &Step) -> usize {
    record.place as usize + step.offset + usize::from(step.prefix.is_some())
}

/// How many registers a record needs for these instructions.
fn needed_by(steps: &[Step]) -> usize {
    let needed = steps.iter().map(needed_by_step).max();
    needed.unwrap_or(0) as usize
}

/// How many registers a record needs for an instruction.
pub fn needed_by_step(step: &Step) -> u32 {
    needed(step.opcode as u8, &step.operands)
}

/// Whether an operand of an instruction is not below its count by these roles.
pub fn past_counts(record: &Record, step: &Step, roles: [Role; 3]) -> bool {
    let mut held = step.operands.into_iter().zip(roles);
    held.any(|(operand, role)| bound(role, record).is_some_and(|bound| operand >= bound))
}

/// Writes a number for an operand of an instruction, its low byte where it has one byte.
fn write_operand(file: &mut [u8], record: &Record, step: &Step, operand: usize, number: u16) {
    let widths = widths(step.prefix, OPCODES[step.opcode].kind);
    let before: usize = widths[..operand].iter().sum();
    let at = opcode_place(record, step) + 1 + before;
    let width = widths[operand];
    file[at..at + width].copy_from_slice(&number.to_be_bytes()[2 - width..]);
}

/// Those instructions that jump.
fn jumps(steps: &[Step]) -> Vec<Step> {
    let jumps = steps.iter().copied();
    jumps.filter(|step| JUMPS.contains(&step.opcode)).collect()
}

/// Leads a jump of a record to an offset; its distance stands last.
fn lead_jump(file: &mut [u8], record: &Record, jump: &Step, target: usize) {
    let next = record.place as usize + jump.next;
    let distance = target.wrapping_sub(jump.next);
    file[next - 2..next].copy_from_slice(&be2(distance));
}

/// Leads a handler of a record to an offset.
fn lead_handler(file: &mut [u8], record: &Record, handler: usize, target: usize) {
    let at = (record.place + record.ilen) as usize + 13 * handler + 9;
    file[at..at + 4].copy_from_slice(&be4(target));
}

/// All instructions of a file, with their records.
pub fn all_steps<'a>(file: &'a [u8], rows: &'a Rows) -> impl Iterator<Item = (&'a Record, Step)> {
    let records = rows.records.rows.iter();
    records.flat_map(|record| {
        let steps = steps(file, record).into_iter();
        steps.map(move |step| (record, step))
    })
}

impl Maker {
    /// Makes what passes.
    fn sound(rng: Rng) -> Maker {
        Maker {
            rng,
            odd: 0,
            sound: true,
        }
    }

    fn odd(&mut self) -> bool {
        let times = self.odd;
        self.rng.one_in(times)
    }

    /// A number that is small most of the time.
    fn small(&mut self, bound: usize) -> usize {
        let bound = self.rng.between(1, bound);
        self.rng.below(bound)
    }

    /// A number that is 0 half of the time, and else small.
    fn few_or_none(&mut self) -> usize {
        if self.rng.one_in(2) { self.small(8) } else { 0 }
    }

    /// This number of texts, or once in a while one about as large as what an operand of one byte reaches.
    fn many_or(&mut self, few: usize) -> usize {
        if self.rng.one_in(60) {
            return self.rng.between(NARROW - 2, NARROW + 6);
        }
        few
    }

    /// A count or size, odd once in a while.
    fn count(&mut self, right: usize) -> usize {
        if !self.odd() {
            return right;
        }
        match self.rng.below(8) {
            0 => right + 1,
            1 => right.saturating_sub(1),
            2 => 0,
            3 => right + self.rng.between(2, 20),
            4 => right.saturating_sub(self.rng.between(2, 20)),
            5 => self
                .rng
                .pick(&[255, 256, 32_767, 32_768, 65_534, 65_535, 65_536]),
            6 => u32::MAX as usize - self.rng.below(3),
            _ => self.rng.below(64),
        }
    }

    /// A text without zeros.
    fn text(&mut self) -> Vec<u8> {
        let length = self.small(12);
        if self.rng.one_in(4) {
            return (0..length)
                .map(|_| self.rng.between(1, 255) as u8)
                .collect();
        }
        (0..length)
            .map(|_| self.rng.pick(b"abcdefxyz_?!"))
            .collect()
    }

    /// A pool string's text, which has zeros once in a while: one, any, at its end, or nothing else.
    fn pool_text(&mut self) -> Vec<u8> {
        let mut text = self.text();
        if text.is_empty() || !self.rng.one_in(8) {
            return text;
        }
        let last = text.len() - 1;
        match self.rng.below(4) {
            0 => text[self.rng.below(last + 1)] = 0,
            1 => text
                .iter_mut()
                .for_each(|byte| *byte *= self.rng.pick(&[0, 1])),
            2 => text[last] = 0,
            _ => text.fill(0),
        }
        text
    }

    /// A text that no other in its list has, most of the time.
    fn own_text(&mut self, number: usize) -> Vec<u8> {
        let mut text = self.text();
        if !self.rng.one_in(8) {
            text.extend(number.to_string().bytes());
        }
        text
    }

    /// A text with its length before it, odd once in a while; symbols and constants have a zero behind it.
    fn counted_text(&mut self, mut text: Vec<u8>, zero: bool) -> Vec<u8> {
        let mut end = vec![0; usize::from(zero)];
        let length = self.count(text.len());
        if self.odd() && !text.is_empty() {
            let at = self.rng.below(text.len());
            text[at] = 0;
        }
        if self.odd() && zero {
            end[0] = self.rng.between(1, 255) as u8;
        }
        [&be2(length)[..], &text, &end].concat()
    }

    fn constant(&mut self) -> Vec<u8> {
        let kind = self.rng.pick(&[0, 1, 2, 3, 5, 7]);
        let mut entry = vec![kind];
        match kind {
            0 | 2 => {
                let text = self.pool_text();
                entry.extend(self.counted_text(text, true));
            }
            1 => entry.extend(self.number(4)),
            3 | 5 => entry.extend(self.number(8)),
            _ => {
                let digits = match self.rng.below(12) {
                    0 => 0,
                    1 => self.rng.between(100, 255),
                    _ => self.small(12),
                };
                let length = self.count(digits);
                entry.push(length as u8);
                entry.extend(self.rng.bytes(digits + 1));
            }
        }
        if self.odd() {
            entry[0] = self.rng.pick(&[4, 6, 8, 9, 127, 128, 255]);
        }
        entry
    }

    /// The bytes of a number: any, small, or all ones but for a few bits.
    fn number(&mut self, bytes: usize) -> Vec<u8> {
        match self.rng.below(3) {
            0 => self.rng.bytes(bytes),
            1 => {
                let mut number = vec![0; bytes];
                let at = self.rng.below(bytes);
                number[at] = self.rng.byte();
                number
            }
            _ => {
                let mut number = vec![255; bytes];
                let at = self.rng.below(bytes);
                number[at] = self.rng.byte();
                number
            }
        }
    }

    /// A prefix once in so many times.
    fn prefix(&mut self, times: usize) -> Option<u8> {
        self.rng.one_in(times).then(|| self.rng.pick(&PREFIXES))
    }

    /// Instructions, or any bytes.
    fn code(&mut self) -> Vec<u8> {
        let mut code = Vec::new();
        if self.rng.one_in(6) {
            let length = self.small(40);
            return self.rng.bytes(length);
        }
        for _ in 0..self.small(10) {
            let prefix = self.prefix(4);
            let opcode = self.rng.below(OPCODES.len());
            code.extend(prefix);
            code.push(opcode as u8);
            for _ in 0..widths(prefix, OPCODES[opcode].kind)
                .into_iter()
                .sum::<usize>()
            {
                code.push(if self.rng.one_in(3) {
                    self.rng.byte()
                } else {
                    self.rng.below(4) as u8
                });
            }
        }
        code
    }

    /// Instructions that pass examination in a record with these bounds, and where they begin.
    fn good_code(&mut self, bound: impl Fn(Role) -> usize) -> (Vec<u8>, Vec<usize>) {
        let number = if self.sound {
            self.rng.below(14)
        } else {
            self.small(12)
        };
        let fits = |opcode: usize| {
            let has_rows = |role: &Role| *role == Role::Plain || bound(*role) > 0;
            let registers = needed(opcode as u8, &[]) as usize;
            !PREFIXES.contains(&(opcode as u8))
                && roles(&OPCODES[opcode]).iter().all(has_rows)
                && registers <= bound(Role::Register)
        };
        // Where children are many the first steps can enter all of them.
        let entries = if self.sound && bound(Role::Child) > NARROW {
            3
        } else {
            0
        };
        let mut opcodes: Vec<usize> = (0..entries).map(|_| self.rng.pick(&CHILD_SECOND)).collect();
        while opcodes.len() < entries + number {
            let mut opcode = self.rng.below(OPCODES.len());
            if self.sound && self.rng.one_in(2) {
                let mut often = self.rng.pick(&[&JUMPS[..], &CHILD_SECOND, &NEWER]);
                if self.rng.one_in(6) {
                    often = &BESIDE_OPERANDS;
                }
                for (role, opcodes) in [
                    (Role::Child, &CHILD_SECOND[..]),
                    (Role::Pool, &WITH_CONSTANT),
                    (Role::Symbol, &WITH_SYMBOL),
                ] {
                    if bound(role) > NARROW && self.rng.one_in(2) {
                        often = opcodes;
                    }
                }
                opcode = self.rng.pick(often);
            }
            if fits(opcode) {
                opcodes.push(opcode);
            }
        }
        let mut last = 118;
        if self.sound {
            // Ending opcodes, JMP and JMPUW.
            last = self
                .rng
                .pick(&[118, 61, 62, 63, 64, 65, 66, 67, 53, 114, 38, 42]);
        }
        opcodes.push(if fits(last) { last } else { 118 });
        let many = [Role::Child, Role::Pool, Role::Symbol].map(|role| bound(role) > NARROW);
        let times = if many.contains(&true) { 2 } else { 4 };
        let mut prefixed: Vec<(Option<u8>, usize)> = opcodes
            .into_iter()
            .map(|opcode| (self.prefix(times), opcode))
            .collect();
        for (prefix, _) in &mut prefixed[..entries] {
            *prefix = Some(self.rng.pick(&SECOND_WIDE));
        }
        let mut begins = vec![0];
        for (prefix, opcode) in &prefixed {
            begins.push(begins[begins.len() - 1] + size(*prefix, OPCODES[*opcode].kind));
        }
        let length = begins.pop().unwrap();
        let mut code = Vec::new();
        for (prefix, opcode) in prefixed {
            let row = &OPCODES[opcode];
            let places = widths(prefix, row.kind).into_iter().zip(roles(row));
            let mut operands: Vec<u32> = places
                .map(|(width, role)| self.good_operand(width, role, bound(role)))
                .collect();
            if let Flow::Jump | Flow::MayJump = flow(row) {
                let next = code.len() + size(prefix, row.kind);
                let distance = self.rng.pick(&begins).wrapping_sub(next);
                *operands.last_mut().unwrap() = u32::from(distance as u16);
            }
            self.name_below(opcode as u8, &mut operands, bound(Role::Register) as u32);
            code.extend(instruction(prefix, opcode as u8, &operands));
        }
        debug_assert_eq!(code.len(), length);
        (code, begins)
    }

    /// An operand of so many bytes: any where it is plain, else below its bound and often the last that is.
    fn good_operand(&mut self, width: usize, role: Role, bound: usize) -> u32 {
        let end = 1 << (8 * width);
        let end = match role {
            Role::Plain => end,
            _ => bound.min(end),
        };
        match self.rng.below(4) {
            0 if role != Role::Plain => end as u32 - 1,
            1 if end > NARROW => self.rng.between(NARROW - 1, end - 1) as u32,
            _ => self.rng.below(end) as u32,
        }
    }

    /// Lowers an instruction's operands until it names registers below a bound alone, most of the time as little as it takes.
    fn name_below(&mut self, opcode: u8, operands: &mut [u32], bound: u32) {
        let counts = counting(opcode);
        if let Some(counts) = counts
            && !self.rng.one_in(4)
        {
            operands[counts] = self.few_registers();
        }
        let roles = roles(&OPCODES[usize::from(opcode)]);
        loop {
            let past = needed(opcode, operands).saturating_sub(bound);
            if past == 0 {
                return;
            }
            let mut lowered: Vec<usize> = (0..operands.len())
                .filter(|at| roles[*at] == Role::Register || counts == Some(*at))
                .filter(|at| operands[*at] > 0)
                .collect();
            let first = first_register(opcode);
            if operands[first] >= past && !self.rng.one_in(4) {
                lowered = vec![first];
            }
            let operand = &mut operands[self.rng.pick(&lowered)];
            *operand = operand.saturating_sub(past);
        }
    }

    /// How many registers an instruction names, or both numbers of a send's arguments, which are 15 now and then.
    fn few_registers(&mut self) -> u32 {
        if self.rng.one_in(2) {
            return self.small(10) as u32;
        }
        self.rng.pick(&[0, 1, 2, 14, 15]) + 16 * self.rng.pick(&[0, 0, 1, 2, 15])
    }

    fn handler(&mut self) -> Vec<u8> {
        let mut handler = vec![self.rng.pick(&[0, 1, 1, 2, 255])];
        for _ in 0..3 {
            let number = self.small(40);
            handler.extend(if self.rng.one_in(8) {
                self.number(4)
            } else {
                be4(number).to_vec()
            });
        }
        handler
    }

    /// A record with these instructions, or with good or any ones; `more` is added to its stated size.
    fn record(&mut self, rlen: usize, code: Option<&[u8]>, more: usize) -> Vec<u8> {
        let nlocals = match self.rng.below(20) {
            0 => self.rng.between(1, 40),
            _ => 1 + self.small(5),
        };
        let nlocals = if self.odd() {
            self.rng.pick(&[0, 0, 300, 65_535])
        } else {
            nlocals
        };
        let few = nlocals + self.small(8);
        let nregs = match self.rng.below(6) {
            0 => self.rng.pick(&[255, 256, 257, 300, 515, 65_535]).max(few),
            _ => few,
        };
        let handlers = if self.sound || self.rng.one_in(3) {
            self.small(5)
        } else {
            0
        };
        let symbols = if self.sound && rlen > 0 {
            // TDEF and SDEF have a symbol beside their child.
            1 + self.small(8)
        } else {
            self.few_or_none()
        };
        let constants = if self.sound && self.rng.one_in(4) {
            symbols + self.small(4)
        } else {
            self.few_or_none()
        };
        let [symbols, constants] = [symbols, constants].map(|few| self.many_or(few));
        let (code, begins) = match code {
            Some(code) => (code.to_vec(), vec![0]),
            None if !self.sound && self.rng.one_in(4) => (self.code(), vec![0]),
            None => self.good_code(|role| match role {
                Role::Plain => 0,
                Role::Register => nregs,
                Role::Pool => constants,
                Role::Symbol => symbols,
                Role::Child => rlen,
            }),
        };
        let nregs = if self.sound && self.rng.one_in(3) {
            needed_by(&steps_of(&code))
        } else {
            nregs
        };
        let mut body = Vec::new();
        body.extend(be2(nlocals));
        body.extend(be2(nregs));
        body.extend(be2(rlen));
        body.extend(be2(self.count(handlers)));
        body.extend(be4(self.count(code.len())));
        body.extend(code);
        for _ in 0..handlers {
            let mut handler = self.handler();
            if self.sound || !self.rng.one_in(8) {
                let target = self.rng.pick(&begins);
                handler[9..].copy_from_slice(&be4(target));
            }
            body.extend(handler);
        }
        body.extend(be2(self.count(constants)));
        for _ in 0..constants {
            body.extend(self.constant());
        }
        body.extend(be2(self.count(symbols)));
        for _ in 0..symbols {
            let text = self.text();
            body.extend(self.counted_text(text, true));
        }
        let size = self.count(body.len() + 4 + more);
        [&be4(size)[..], &body].concat()
    }

    /// Numbers of children: of a whole tree, or any.
    fn rlens(&mut self, count: usize) -> Vec<usize> {
        if !self.sound && self.rng.one_in(6) {
            let bound = self.rng.pick(&[2, 3, 5, 65_536]);
            return (0..count).map(|_| self.rng.below(bound)).collect();
        }
        let mut left = count - 1;
        let mut pending = 1;
        let mut rlens = Vec::new();
        for _ in 0..count {
            pending -= 1;
            let rlen = match pending {
                0 if left > 0 => self.rng.between(1, left),
                _ if left > 0 && self.rng.one_in(2) => self.rng.between(0, left),
                _ => 0,
            };
            left -= rlen;
            pending += rlen;
            rlens.push(rlen);
        }
        rlens
    }

    /// The file header with size 0 and any of the fields that are not looked at.
    fn header(&mut self) -> Vec<u8> {
        let mut header = b"RITE0400\0\0\0\0".to_vec();
        header.extend(self.rng.bytes(8));
        if self.rng.one_in(8) {
            header[6..8].copy_from_slice(&be2(self.rng.below(65_536)));
        }
        if self.odd() {
            let major = self.rng.pick(b"03");
            header[4..6].copy_from_slice(&[major, self.rng.pick(b"0345\x04\0")]);
        }
        header
    }

    fn other_major(&mut self) -> [u8; 2] {
        self.rng.pick(&[*b"03", *b"05", *b"40", *b"0\0", *b"14"])
    }

    /// Gives a whole header the ident and a size that the file has: its length, or now and then one below it.
    fn finish_header(&mut self, file: &mut [u8]) {
        if file.len() < HEADER {
            return;
        }
        overwrite(file, 0, b"RITE");
        let length = file.len();
        let size = match self.rng.below(8) {
            0 => self.rng.pick(&[0, 1, length - 1]),
            1 => self.rng.below(length),
            _ => length,
        };
        state_size(file, size);
    }

    /// A file with another ident, a size around its length, another major, or some of these.
    fn ident_and_size(&mut self) -> Vec<u8> {
        let mut file = match self.rng.below(16) {
            0 => self.long(),
            1..=6 => self.header_only(),
            _ => self.structured(false),
        };
        self.finish_header(&mut file);
        if self.rng.one_in(3) {
            let ident = self.other_ident();
            overwrite(&mut file, 0, &ident);
        }
        if !self.rng.one_in(3) {
            let size = self.any_size(file.len());
            state_size(&mut file, size);
        }
        if self.rng.one_in(4) {
            let major = self.other_major();
            overwrite(&mut file, 4, &major);
        }
        file
    }

    /// An ident with one letter changed, or the first bytes of another file.
    fn other_ident(&mut self) -> [u8; 4] {
        if self.rng.one_in(2) {
            return self.rng.pick(&[
                *b"\x89PNG",
                *b"\xff\xd8\xff\xe0",
                *b"%PDF",
                *b"PK\x03\x04",
                *b"puts",
                *b"ETIR",
                [0; 4],
            ]);
        }
        let mut ident = *b"RITE";
        let letter = &mut ident[self.rng.below(4)];
        *letter = match self.rng.below(4) {
            0 => *letter ^ 32,
            1 => 0,
            2 => *letter ^ (1 << self.rng.below(8)),
            _ => *letter + self.rng.between(1, 6) as u8,
        };
        ident
    }

    /// A size at a file's length, a little or far above it, or with its bytes in another order.
    fn any_size(&mut self, length: usize) -> usize {
        match self.rng.below(10) {
            0 => length,
            1..=3 => length + 1,
            4 => length + self.rng.between(2, 300),
            5 => length + (1 << self.rng.pick(&[8, 16, 24])),
            6 => (length as u32).swap_bytes() as usize,
            7 => 1 << 31,
            8 => u32::MAX as usize,
            _ => self.rng.word() as usize,
        }
    }

    /// An IREP section of these records, one behind the other.
    fn irep(&mut self, records: &[u8]) -> Vec<u8> {
        let mut content = self.rng.bytes(4);
        content.extend(records);
        let size = self.count(content.len() + 8);
        section(b"IREP", size, &content)
    }

    /// Header and IREP of a random tree.
    fn tree(&mut self) -> Vec<u8> {
        let count = match self.rng.below(10) {
            0 => 1,
            1 => self.rng.between(8, 30),
            _ => self.rng.between(1, 7),
        };
        let mut records = Vec::new();
        for rlen in self.rlens(count) {
            let gap = if self.rng.one_in(12) {
                self.rng.below(20)
            } else {
                0
            };
            records.extend(self.record(rlen, None, gap));
            records.extend(self.rng.bytes(gap));
        }
        let mut file = self.header();
        let irep = self.irep(&records);
        file.extend(irep);
        file
    }

    /// An LVAR section for these records.
    fn lvar(&mut self, records: &[Seen]) -> Vec<u8> {
        let strings = self.small(8);
        let mut content = be4(self.count(strings)).to_vec();
        for i in 0..strings {
            let text = self.own_text(i);
            content.extend(self.counted_text(text, false));
        }
        for record in &records[..visited(records)] {
            for _ in 1..record.nlocals {
                let index = match self.rng.below(4) {
                    _ if self.odd() => self.rng.pick(&[strings, strings + 1, 256, 65_534, 32_768]),
                    0 => 65_535,
                    _ if strings == 0 => 65_535,
                    _ => self.rng.below(strings),
                };
                content.extend(be2(index));
            }
        }
        let size = self.count(content.len() + 8);
        section(b"LVAR", size, &content)
    }

    /// A DBG section for these records.
    fn dbg(&mut self, records: &[Seen]) -> Vec<u8> {
        let names = 1 + self.small(5);
        let mut content = be2(self.count(names)).to_vec();
        for i in 0..names {
            let text = self.own_text(i);
            content.extend(self.counted_text(text, false));
        }
        let mut visits = visited(records);
        if self.rng.one_in(8) {
            // The section is used up before the walk ends.
            visits = self.rng.below(visits + 1);
        } else if self.rng.one_in(10) {
            visits += self.rng.below(3);
        }
        for _ in 0..visits {
            content.extend(self.debug_record(names));
        }
        if self.odd > 0 && self.rng.one_in(12) {
            content.extend(self.last_positions());
        }
        if self.odd > 0 && self.rng.one_in(12) {
            // The section ends inside what it holds.
            let cut = self.rng.below(content.len().min(24) + 1);
            content.truncate(content.len() - cut);
        }
        if self.rng.one_in(10) {
            let padding = self.rng.below(12);
            content.extend(self.rng.bytes(padding));
        }
        let size = self.count(content.len() + 8);
        section(b"DBG\0", size, &content)
    }

    fn debug_record(&mut self, names: usize) -> Vec<u8> {
        let count = match self.rng.below(8) {
            0 => 0,
            1..=4 => 1,
            _ if self.sound && !self.rng.one_in(8) => 1,
            _ => self.rng.between(2, 4),
        };
        let mut start = if self.rng.one_in(3) {
            self.small(100)
        } else {
            0
        };
        if !self.sound && self.rng.one_in(12) {
            start = u32::MAX as usize - self.rng.below(12);
        }
        let mut content = be2(self.count(count)).to_vec();
        for _ in 0..count {
            content.extend(self.debug_file(start, names));
            start += if self.odd() {
                0
            } else {
                self.rng.between(1, 30)
            };
            start = start.min(u32::MAX as usize);
        }
        let size = self.count(content.len() + 4);
        [&be4(size)[..], &content].concat()
    }

    /// A debug record of kind 0 whose lines go up to the last position or past it, with a line more or less.
    fn last_positions(&mut self) -> Vec<u8> {
        let before = self.rng.below(5);
        let count = before + self.rng.between(1, 3);
        let lines = (count + self.rng.below(3)).saturating_sub(1);
        let mut content = vec![0, 1];
        content.extend(be4(u32::MAX as usize - before));
        content.extend([0, 0]);
        content.extend(be4(count));
        content.push(0);
        for _ in 0..lines {
            content.extend([0, self.rng.below(2) as u8]);
        }
        if self.rng.one_in(4) {
            content.pop();
        }
        [&be4(content.len() + 4)[..], &content].concat()
    }

    fn debug_file(&mut self, start: usize, names: usize) -> Vec<u8> {
        let name = if self.odd() {
            self.rng.pick(&[names, names + 1, 65_535, 256])
        } else {
            self.rng.below(names)
        };
        let kind = self.rng.below(3);
        let entries = match self.rng.below(10) {
            0 => 0,
            1 => self.rng.between(8, 60),
            _ => self.small(8),
        };
        let mut data = Vec::new();
        let mut last_pair = 0;
        let mut line = self.small(20);
        let mut position = start;
        for _ in 0..entries {
            // A line stays as it is half of the time, so that entries are dropped.
            let change = match self.rng.below(8) {
                0..=3 => 0,
                4..=6 => self.rng.between(1, 9),
                _ => self.rng.below(65_536),
            };
            line = (line + change) % 65_536;
            position += self.small(12);
            if !self.sound && self.rng.one_in(12) {
                position = self.rng.word() as usize;
            }
            match kind {
                0 => data.extend(be2(line)),
                1 => {
                    data.extend(be4(position));
                    data.extend(be2(line));
                }
                _ => {
                    let pair = [self.packed(), self.packed()].concat();
                    last_pair = pair.len();
                    data.extend(pair);
                }
            }
        }
        let mut count = if kind == 2 { data.len() } else { entries };
        if last_pair > 0 && self.rng.one_in(5) {
            // The last pair runs past the count.
            count -= self.rng.below(last_pair);
        }
        let mut file = be4(start).to_vec();
        file.extend(be2(name));
        file.extend(be4(self.count(count)));
        file.push(if self.odd() {
            self.rng.pick(&[3, 4, 128, 255])
        } else {
            kind as u8
        });
        file.extend(data);
        file
    }

    /// A packed number of every length: shortest, longer than needed, with bits above 31.
    fn packed(&mut self) -> Vec<u8> {
        let number = match self.rng.below(10) {
            _ if self.sound => self.small(100) as u64,
            0..=2 => 0,
            3..=6 => self.small(100) as u64,
            7 => {
                let edge = 1u64 << (7 * self.rng.between(1, 4));
                edge - 1 + self.rng.below(3) as u64
            }
            8 => u64::from(u32::MAX) - self.small(40) as u64,
            _ => u64::from(self.rng.word()),
        };
        let mut bytes = Vec::new();
        let mut rest = number;
        while rest >= 128 {
            bytes.push((rest % 128) as u8 + 128);
            rest /= 128;
        }
        bytes.push(rest as u8);
        if self.rng.one_in(12) {
            while bytes.len() < 5 && !self.rng.one_in(3) {
                *bytes.last_mut().unwrap() += 128;
                bytes.push(0);
            }
        }
        if bytes.len() == 5 && self.rng.one_in(3) {
            bytes[4] += 16 * self.rng.below(8) as u8;
        }
        if bytes.len() == 5 && self.odd() {
            bytes[4] |= 128;
        }
        bytes
    }

    /// An END section, now and then with content.
    fn end(&mut self) -> Vec<u8> {
        let content = if self.rng.one_in(10) {
            self.rng.below(12)
        } else {
            0
        };
        let content = self.rng.bytes(content);
        let size = self.count(content.len() + 8);
        section(b"END\0", size, &content)
    }

    /// Sections behind an IREP, in any order, and what stands behind the last.
    fn with_sections(&mut self, mut file: Vec<u8>, debug: bool) -> Vec<u8> {
        let records = seen(&file);
        let mut sections = Vec::new();
        if self.rng.one_in(2) {
            sections.push(self.lvar(&records));
        }
        if debug || self.rng.one_in(3) {
            sections.push(self.dbg(&records));
        }
        if self.rng.one_in(2) {
            sections.reverse();
        }
        if self.rng.one_in(8) {
            let at = self.rng.below(sections.len() + 1);
            let end = self.end();
            sections.insert(at, end);
        }
        if !self.rng.one_in(10) {
            sections.push(self.end());
        }
        file.extend(sections.concat());
        if self.rng.one_in(8) {
            let extra = if self.odd() {
                self.rng.below(8)
            } else {
                self.rng.below(4)
            };
            file.extend(self.rng.bytes(extra));
        }
        if self.odd() {
            file.truncate(self.rng.below(file.len() + 1));
        }
        file
    }

    fn structured(&mut self, debug: bool) -> Vec<u8> {
        let mut file = self.tree();
        if self.rng.one_in(16) {
            // END may stand before IREP.
            let end = self.end();
            file.splice(20..20, end);
        }
        self.with_sections(file, debug)
    }

    /// A file that passes, but for a map now and then.
    fn sound_file(&mut self, debug: bool) -> Vec<u8> {
        if self.rng.one_in(40) {
            return self.children_above_255();
        }
        self.structured(debug)
    }

    /// A first record with about 256 children, one of them with children of its own; the others have three steps.
    fn children_above_255(&mut self) -> Vec<u8> {
        let children = self.rng.between(NARROW - 2, NARROW + 44);
        let parent = self.rng.below(4);
        let own = self.rng.below(3);
        let bare = sample::record(&[0, 0, STOP], &[], BARE);
        let mut records = self.record(children, None, 0);
        for child in 0..children {
            if child == parent {
                records.extend(self.record(own, None, 0));
                records.extend(bare.repeat(own));
            } else {
                records.extend(&bare);
            }
        }
        let mut file = self.header();
        let irep = self.irep(&records);
        file.extend(irep);
        self.with_sections(file, false)
    }

    /// Records that overlap: one inside another's code, or steps smaller than a record.
    fn overlapping(&mut self) -> Vec<u8> {
        let mut file = self.header();
        let mut records = Vec::new();
        let mut cut = 0;
        match self.rng.below(3) {
            0 => {
                // Each record's code begins with the next one, whose stated size passes the outer rest.
                let mut inner = self.record(0, None, 0);
                for _ in 0..self.rng.between(1, 5) {
                    let rlen = self.rng.below(3);
                    let outer = self.record(rlen, Some(&inner), 0);
                    let rest = outer.len() - 16 - inner.len();
                    if self.rng.one_in(2) {
                        let size = u32::from_be_bytes(inner[..4].try_into().unwrap());
                        let longer = size.wrapping_add(rest as u32);
                        inner[..4].copy_from_slice(&longer.to_be_bytes());
                    }
                    let mut whole = outer;
                    let at = 16;
                    whole[at..at + inner.len()].copy_from_slice(&inner);
                    if !self.odd() {
                        whole[..4].copy_from_slice(&be4(16));
                    }
                    inner = whole;
                }
                records = inner;
            }
            1 => {
                // A ladder: every word is the same, and the lists behind every step end among zeros.
                let step = 4 * self.rng.between(1, 16);
                let most = (16 + 14 * step) / 4;
                let words = self.rng.between(step / 4, most);
                for _ in 0..words {
                    records.extend(be4(step));
                }
                let zeros = 16 + 14 * step + 8;
                records.extend(vec![0; zeros]);
                cut = zeros;
                if self.odd() {
                    cut = self.rng.below(zeros);
                }
            }
            _ => {
                // Any small stated sizes.
                for _ in 0..self.rng.between(1, 5) {
                    let zeros = vec![0; self.small(60)];
                    let code = self.rng.one_in(2).then_some(&zeros[..]);
                    let rlen = self.rng.below(2);
                    let mut record = self.record(rlen, code, 0);
                    if self.rng.one_in(2) {
                        let size = self.rng.below(record.len() + 4);
                        record[..4].copy_from_slice(&be4(size));
                    }
                    records.extend(record);
                }
            }
        }
        let mut content = self.rng.bytes(4);
        content.extend(&records);
        let size = self.count(content.len() + 8 - cut);
        if cut > 0 {
            // The next section begins behind the zeros only where they are one.
            let tail = content.len() + 8 - size.min(content.len() + 8);
            let at = content.len() - tail.min(content.len());
            if tail >= 8 {
                content[at..at + 8].copy_from_slice(&exact(b"END\0", &[]));
                content[at + 4..at + 8].copy_from_slice(&be4(tail));
            }
        }
        file.extend(section(b"IREP", size, &content));
        self.with_sections(file, false)
    }

    /// Sections in any order and number, with small sizes among them.
    fn sections(&mut self) -> Vec<u8> {
        let mut file = self.header();
        let mut records = Vec::new();
        let number = self.rng.between(1, 6);
        let mut had = [false; 3];
        // Half of these files are good up to the last section.
        let calm = self.rng.one_in(2);
        if calm {
            self.odd = 0;
        }
        for i in 0..number {
            let wild = !calm && self.rng.one_in(6);
            let mut kind = if i == 0 && (calm || !self.rng.one_in(8)) {
                0
            } else {
                self.rng.below(4)
            };
            if !wild && kind < 3 && (had[kind] || (kind > 0 && !had[0])) {
                kind = 3;
            }
            let section = match kind {
                0 => {
                    had[0] = true;
                    if calm && self.rng.one_in(2) {
                        exact(b"IREP", &[0; 4])
                    } else if !calm && self.rng.one_in(2) {
                        let size = self.rng.between(0, 13);
                        let mut section = section(b"IREP", size, &[0; 4]);
                        section.truncate(self.rng.between(8, 12).max(size.min(12)));
                        section
                    } else {
                        let tree = self.tree();
                        tree[20..].to_vec()
                    }
                }
                1 => {
                    had[1] = true;
                    let mut section = self.lvar(&records);
                    self.small_size(&mut section, 16, calm);
                    section
                }
                2 => {
                    had[2] = true;
                    let mut section = self.dbg(&records);
                    self.small_size(&mut section, 12, calm);
                    section
                }
                _ => {
                    let mut section = self.end();
                    self.small_size(&mut section, 9, calm);
                    section
                }
            };
            file.extend(section);
            if kind == 0 {
                records = seen(&file);
            }
        }
        if self.rng.one_in(4) {
            let mark = self
                .rng
                .pick(&[b"IREP", b"LVAR", b"DBG\0", b"END\0", b"LINE"]);
            file.extend(&mark[..self.rng.between(1, 4)]);
            let more = self.rng.below(9);
            file.extend(&[0, 0, 0, 8, 0, 0, 0, 0, 0][..more]);
        }
        file
    }

    /// Gives a section a small stated size now and then.
    fn small_size(&mut self, section: &mut [u8], bound: usize, calm: bool) {
        if !calm && self.rng.one_in(5) {
            let size = self.rng.below(bound);
            section[4..8].copy_from_slice(&be4(size));
        }
    }

    /// Files about as long as the headers.
    fn header_only(&mut self) -> Vec<u8> {
        let mut file = self.header();
        if self.rng.one_in(3) {
            let major = self.other_major();
            overwrite(&mut file, 4, &major);
        }
        let rest = match self.rng.below(4) {
            0 => b"END\0\0\0\0\x0c\0\0\0\0".to_vec(),
            1 => b"IREP\0\0\0\x0c0400END\0\0\0\0\x08".to_vec(),
            2 => b"IREP\0\0\0\x080400".to_vec(),
            _ => self.rng.bytes(24),
        };
        file.extend(rest);
        if self.rng.one_in(2) {
            let mut at = self.rng.pick(&[0, 19, 20, 31, 32]) + self.rng.below(3);
            at = at.saturating_sub(1);
            file.truncate(at);
        } else {
            file.truncate(self.rng.below(45));
        }
        file
    }

    /// A section inside the code of the last record, where the IREP section ends.
    fn inside_code(&mut self) -> Vec<u8> {
        let mut file = self.header();
        let mut records = Vec::new();
        for _ in 0..self.rng.below(3) {
            records.extend(self.record(1, None, 0));
        }
        let outer = records.len();
        let before = {
            let mut content = vec![0; 4];
            content.extend(&records);
            content.extend(be4(16));
            content.extend(be2(1 + self.small(4)));
            content.extend([0, 9, 0, 0, 0, 0]);
            content
        };
        let known = {
            let records = [vec![0; 4], records.clone()].concat();
            let mut known = seen(&[file.clone(), exact(b"IREP", &records)].concat());
            known.push(Seen {
                nlocals: usize::from(before[4 + outer + 5]),
                rlen: 0,
            });
            known
        };
        let inner = match self.rng.below(4) {
            0 => self.lvar(&known),
            1 => self.dbg(&known),
            2 => [self.lvar(&known), self.dbg(&known)].concat(),
            _ => self.end(),
        };
        // The record's pool and symbol counts stand in an END section behind the inner one.
        let tail = [&b"END\0"[..], &be4(self.count(8 + 8)), &[0; 8]].concat();
        let code = inner.len() + 8;
        let size = self.count(8 + before.len() + 4);
        file.extend(section(b"IREP", size, &before));
        file.extend(be4(code));
        file.extend(inner);
        file.extend(tail);
        if self.rng.one_in(3) {
            file.extend(self.end());
        }
        file
    }

    /// Files about as long as the limit.
    fn long(&mut self) -> Vec<u8> {
        let length = self.rng.pick(&[
            65_536, 65_536, 65_536, 65_535, 65_530, 65_537, 65_537, 65_540, 70_000,
        ]);
        let mut file = self.header();
        if self.rng.one_in(2) {
            // A long code, text or big table fills the file.
            let room = length - 20 - 12 - 20 - 8;
            let code = match self.rng.below(3) {
                0 => self.rng.bytes(room),
                _ => vec![0; room],
            };
            let mut record = vec![0, 0, 0, 0, 0, 1, 0, 1, 0, 0, 0, 0];
            record.extend(be4(self.count(room)));
            record.extend(code);
            record.extend([0; 4]);
            let size = record.len();
            record[..4].copy_from_slice(&be4(size));
            let irep = self.irep(&record);
            file.extend(irep);
            file.extend(self.end());
        } else {
            let tree = self.tree();
            file = self.with_sections(tree, true);
            if file.len() + 8 < length {
                let rest = length - file.len();
                file.extend(section(b"END\0", rest, &vec![0; rest - 8]));
            }
        }
        file
    }

    /// About as many records as the limit.
    fn many_records(&mut self) -> Vec<u8> {
        let count = match self.rng.below(6) {
            0 => 1_024,
            1 => 1_025,
            _ => self.rng.between(1_015, 1_030),
        };
        let chain = self.rng.below(3);
        let any_first = self.rng.one_in(2);
        let mut records = Vec::new();
        for i in 0..count {
            let rlen = match chain {
                0 => usize::from(i + 1 < count),
                1 if i == 0 => count - 1,
                _ => 0,
            };
            if i == 0 && any_first {
                records.extend(self.record(rlen, None, 0));
                continue;
            }
            records.extend([0, 0, 0, 20, 0, 1, 0, 1]);
            records.extend(be2(rlen));
            records.extend([0; 10]);
        }
        let mut file = self.header();
        let irep = self.irep(&records);
        file.extend(irep);
        if self.rng.one_in(2) {
            let records = seen(&file);
            file.extend(self.lvar(&records));
        }
        if self.rng.one_in(2) {
            let visits = self.rng.between(1_000, 1_024);
            let mut content = vec![0, 0];
            for _ in 0..visits {
                content.extend([0, 0, 0, 6, 0, 0]);
            }
            file.extend(exact(b"DBG\0", &content));
        }
        file.extend(self.end());
        file
    }

    /// Records that claim many children.
    fn many_children(&mut self) -> Vec<u8> {
        let mut records = Vec::new();
        if self.rng.one_in(400) {
            // The most visits that a file can ask for.
            for _ in 0..1_024 {
                records.extend([0, 0, 0, 20, 0, 1, 0, 0, 255, 255]);
                records.extend([0; 10]);
            }
        } else {
            for _ in 0..self.rng.between(1, 40) {
                let rlen = self.rng.pick(&[1, 2, 300, 65_535, 65_535]);
                records.extend(self.record(rlen, None, 0));
            }
        }
        let mut file = self.header();
        let irep = self.irep(&records);
        file.extend(irep);
        self.with_sections(file, true)
    }

    /// Any bytes behind a header and, most of the time, a mark.
    fn any_bytes(&mut self) -> Vec<u8> {
        let mut file = self.header();
        if !self.rng.one_in(4) {
            file.extend(b"IREP");
            file.extend(be4(self.rng.between(12, 60)));
        }
        let number = self.rng.below(200);
        let mut rest = self.rng.bytes(number);
        if self.rng.one_in(2) {
            for byte in &mut rest {
                *byte %= 4;
            }
        }
        file.extend(rest);
        file
    }

    /// Changes one thing that examination looks at, in a record of the file as it loads.
    fn flaw(&mut self, file: &mut [u8]) {
        let reading = read_all(file);
        let records = &reading.rows.records.rows;
        if reading.end.is_err() || records.is_empty() {
            return;
        }
        // The first record of many has most of what can be changed.
        let record = match records.len() {
            NARROW.. if !self.rng.one_in(4) => records[0],
            _ => self.rng.pick(records),
        };
        let place = record.place as usize;
        let ilen = record.ilen as usize;
        let steps = steps(file, &record);
        let Some(last) = steps.last() else {
            return;
        };
        let last = opcode_place(&record, last);
        let step = self.rng.pick(&steps);
        match self.rng.below(36) {
            0 => {
                // The number of children.
                let rlen = record.rlen as usize + self.rng.pick(&[1, 2, 65_535, 65_534]);
                file[place - 8..place - 6].copy_from_slice(&be2(rlen));
            }
            1 => {
                let other = self.rng.pick(&[115, 116, 117, 119, 120, 127, 128, 255]);
                file[place + step.offset] = other;
            }
            2 => file[last] = self.rng.below(119) as u8,
            3 => {
                // An instruction of one byte that does not end, or a longer one that is cut.
                file[last] = self.rng.pick(&[0, 59, 0, 59, 1, 15, 57]);
            }
            4..=7 => self.flaw_operand(file, &record, &step),
            8 | 9 => {
                let jumps = jumps(&steps);
                if !jumps.is_empty() {
                    let jump = self.rng.pick(&jumps);
                    self.flaw_jump(file, &record, &jump);
                }
            }
            10..=12 if record.clen > 0 => {
                let handler = self.rng.below(record.clen as usize);
                let target = match self.rng.below(4) {
                    0 => ilen,
                    1 => self.rng.word() as usize,
                    _ => self.rng.below(ilen + 2),
                };
                lead_handler(file, &record, handler, target);
            }
            13 => {
                let at = place + self.rng.below(ilen);
                file[at] = self.rng.byte();
            }
            14..=18 => self.flaw_newer(file, &reading.rows),
            19..=24 => self.flaw_prefix(file, &reading.rows),
            25 | 26 => {
                // The number of registers: one less than the instructions need, two less, or just enough.
                let less = self.rng.pick(&[1, 1, 1, 2, 0]);
                let registers = needed_by(&steps).saturating_sub(less);
                file[place - 10..place - 8].copy_from_slice(&be2(registers));
            }
            27..=33 => self.flaw_range(file, &reading.rows),
            _ => flaw_map(file, &mut self.rng),
        }
    }

    /// An instruction that names registers beside its operands, in any record: where they begin, or how many they are.
    fn flaw_range(&mut self, file: &mut [u8], rows: &Rows) {
        let beside = self.any_step(file, rows, |step| BESIDE_OPERANDS.contains(&step.opcode));
        let Some((record, step)) = beside else {
            return;
        };
        match counting(step.opcode as u8) {
            Some(operand) if self.rng.one_in(2) => {
                let number = self.other_count(step.operands[operand] as u16);
                write_operand(file, &record, &step, operand, number);
            }
            _ => self.flaw_first(file, &record, &step),
        }
    }

    /// Lets the registers that an instruction names begin where the last of them is one behind the record's last, two behind it, or just it.
    fn flaw_first(&mut self, file: &mut [u8], record: &Record, step: &Step) {
        let operand = first_register(step.opcode as u8);
        let registers = record.nregs + self.rng.pick(&[1, 1, 1, 2, 0]);
        let first = (step.operands[operand] + registers).saturating_sub(needed_by_step(step));
        let most = match widths(step.prefix, OPCODES[step.opcode].kind)[operand] {
            1 => 255,
            _ => 65_535,
        };
        write_operand(file, record, step, operand, first.min(most) as u16);
    }

    /// Another number of registers: one less or more, with 15 or 0 for one of a send's numbers, or with another highest bit.
    fn other_count(&mut self, number: u16) -> u16 {
        match self.rng.below(8) {
            0 => number | 15,
            1 => number | 240,
            2 => number & !15,
            3 => number & !240,
            4 => number ^ 16,
            5 => number ^ 32_768,
            _ => number.wrapping_add(self.rng.pick(&[1, u16::MAX])),
        }
    }

    /// An operand of a newer opcode in any record, of TDEF and SDEF half of the time.
    fn flaw_newer(&mut self, file: &mut [u8], rows: &Rows) {
        let opcodes = self.rng.pick(&[&NEWER[..], &CHILD_THIRD]);
        let newer = self.any_step(file, rows, |step| opcodes.contains(&step.opcode));
        if let Some((record, step)) = newer {
            self.flaw_operand(file, &record, &step);
        }
    }

    /// One of the instructions of a file that are such, with its record.
    fn any_step(
        &mut self,
        file: &[u8],
        rows: &Rows,
        is_such: impl Fn(&Step) -> bool,
    ) -> Option<(Record, Step)> {
        let such: Vec<(Record, Step)> = all_steps(file, rows)
            .filter(|(_, step)| is_such(step))
            .map(|(record, step)| (*record, step))
            .collect();
        (!such.is_empty()).then(|| self.rng.pick(&such))
    }

    /// A prefix in any record: another or none, what stands behind it, what leads to that, or a prefix that is last.
    fn flaw_prefix(&mut self, file: &mut [u8], rows: &Rows) {
        let prefixed = self.any_step(file, rows, |step| step.prefix.is_some());
        let Some((record, step)) = prefixed else {
            return;
        };
        let opcode = opcode_place(&record, &step);
        match self.rng.below(11) {
            0 => file[opcode - 1] = self.rng.pick(&PREFIXES),
            1 => file[opcode - 1] = 0,
            2 => file[opcode] = self.rng.pick(&PREFIXES),
            3 => file[opcode] = self.rng.pick(&[119, 120, 127, 128, 255]),
            4 => file[opcode] = self.rng.below(119) as u8,
            5 | 6 => file[(record.place + record.ilen) as usize - 1] = self.rng.pick(&PREFIXES),
            7 | 8 => self.lead_somewhere(file, &record, step.offset + 1),
            _ => self.flaw_operand(file, &record, &step),
        }
    }

    /// Leads a jump or a handler of a record to an offset, where it has one.
    fn lead_somewhere(&mut self, file: &mut [u8], record: &Record, target: usize) {
        let jumps = jumps(&steps(file, record));
        if record.clen > 0 && (jumps.is_empty() || self.rng.one_in(2)) {
            let handler = self.rng.below(record.clen as usize);
            lead_handler(file, record, handler, target);
        } else if !jumps.is_empty() {
            let jump = self.rng.pick(&jumps);
            lead_jump(file, record, &jump, target);
        }
    }

    /// An operand of an instruction that has a role: at or beside its bound, or now and then another role's.
    fn flaw_operand(&mut self, file: &mut [u8], record: &Record, step: &Step) {
        let row = &OPCODES[step.opcode];
        let roles = roles(row);
        let held: Vec<usize> = (0..roles.len())
            .filter(|operand| roles[*operand] != Role::Plain)
            .collect();
        if held.is_empty() {
            return;
        }
        let operand = self.rng.pick(&held);
        let role = if self.rng.one_in(3) {
            self.rng
                .pick(&[Role::Register, Role::Pool, Role::Symbol, Role::Child])
        } else {
            roles[operand]
        };
        let bound = bound(role, record).unwrap_or(0);
        let number = (bound + self.rng.pick(&[0, 0, 1])).saturating_sub(self.rng.pick(&[0, 0, 1]));
        let number = number.min(65_535) as u16;
        let number = match widths(step.prefix, row.kind)[operand] {
            // An operand of one byte does not reach a higher bound.
            1 => number.min(255),
            _ => self.other_wide(number),
        };
        write_operand(file, record, step, operand, number);
    }

    /// A number of two bytes: this one, or now and then one with its bytes exchanged or with another high byte.
    fn other_wide(&mut self, number: u16) -> u16 {
        match self.rng.below(6) {
            0 => number.swap_bytes(),
            1 => number ^ 256,
            _ => number,
        }
    }

    /// A jump's distance: to the code's end, below its start, beside the right one, or any.
    fn flaw_jump(&mut self, file: &mut [u8], record: &Record, jump: &Step) {
        let ilen = record.ilen as usize;
        let right = jump.target().unwrap_or(0) as usize;
        let target = match self.rng.below(4) {
            0 => right + 1,
            1 => right.wrapping_sub(1),
            2 => (jump.next + self.rng.below(ilen + 4)).wrapping_sub(ilen / 2),
            _ => jump.next + self.rng.pick(&[32_767, 32_768, 65_535, 0]),
        };
        lead_jump(file, record, jump, target);
    }

    /// A file with one to four changes.
    fn damaged(&mut self, mut file: Vec<u8>) -> Vec<u8> {
        for _ in 0..self.rng.pick(&[1, 1, 1, 2, 2, 3, 4]) {
            self.damage(&mut file);
        }
        file
    }

    fn damage(&mut self, file: &mut Vec<u8>) {
        if file.len() < 8 {
            return;
        }
        let from = self.rng.pick(&[0, 20, 20, 20, 32, 32]).min(file.len() - 8);
        let at = self.rng.between(from, file.len() - 4);
        match self.rng.below(14) {
            0 | 1 => file[at] ^= 1 << self.rng.below(8),
            2 | 3 => file[at] = self.rng.pick(&[0, 1, 2, 3, 4, 7, 127, 128, 254, 255]),
            4 => file[at] = self.rng.byte(),
            5 => file[at] = file[at].wrapping_add(self.rng.pick(&[1, 255])),
            6 => {
                let number = self.number(4);
                file[at..at + 4].copy_from_slice(&number);
            }
            7 => {
                let number = self.count(0);
                file[at..at + 2].copy_from_slice(&be2(number));
            }
            8 => file.truncate(at),
            9 => {
                let more = self.small(6);
                let bytes = self.rng.bytes(more);
                file.splice(at..at, bytes);
            }
            10 => {
                let end = (at + 1 + self.small(6)).min(file.len());
                file.drain(at..end);
            }
            11 => {
                let length = self.small(24).min(file.len() - at);
                let copy = file[at..at + length].to_vec();
                let to = self.rng.between(20.min(file.len()), file.len());
                file.splice(to..to, copy);
            }
            _ => self.damage_section(file),
        }
    }

    /// Changes a section's size, doubles it, drops it, or moves it to the end.
    fn damage_section(&mut self, file: &mut Vec<u8>) {
        let mut parts = Vec::new();
        let mut start = 20;
        while start + 8 <= file.len() {
            let size = u32::from_be_bytes(file[start + 4..start + 8].try_into().unwrap()) as usize;
            if size < 8 || start + size > file.len() {
                break;
            }
            parts.push((start, size));
            start += size;
        }
        if parts.is_empty() {
            return;
        }
        let (start, size) = parts[self.rng.below(parts.len())];
        let part = file[start..start + size].to_vec();
        match self.rng.below(6) {
            0 => {
                let other = self
                    .rng
                    .pick(&[0, 1, 4, 7, 8, 9, 10, 11, 12, 13, size + 1, size - 1]);
                file[start + 4..start + 8].copy_from_slice(&be4(other));
            }
            1 => {
                let other = file.len() - start + self.rng.below(3) - 1;
                file[start + 4..start + 8].copy_from_slice(&be4(other));
            }
            2 => file.extend(part),
            3 => {
                file.drain(start..start + size);
            }
            4 => {
                file.drain(start..start + size);
                file.extend(part);
            }
            _ => {
                let end = exact(b"END\0", &[]);
                file.splice(start..start, end);
            }
        }
    }
}

#[cfg(test)]
pub mod tests {
    use super::*;
    use crate::held::is_string;
    use model::EVERYTHING;
    use std::collections::BTreeSet;

    /// A generator with the corpus, where it is there.
    fn generator() -> Generator {
        let corpus = crate::load::corpus().into_iter().map(|(_, file)| file);
        Generator {
            corpus: corpus.collect(),
        }
    }

    #[test]
    fn opcodes_have_their_names() {
        let jumps = JUMPS.map(|opcode| OPCODES[opcode].name);
        assert_eq!(jumps, ["JMP", "JMPIF", "JMPNOT", "JMPNIL", "JMPUW"]);
        let names = CHILD_SECOND.map(|opcode| OPCODES[opcode].name);
        assert_eq!(names, ["LAMBDA", "BLOCK", "METHOD", "EXEC"]);
        let names = WITH_CONSTANT.map(|opcode| OPCODES[opcode].name);
        assert_eq!(names, ["LOADL", "SYMBOL", "STRING", "ERR"]);
        let names = WITH_SYMBOL.map(|opcode| OPCODES[opcode].name);
        assert_eq!(names, ["LOADSYM", "ALIAS", "UNDEF"]);
    }

    /// The texts of a file's pool strings, where it loads.
    fn pool_texts(file: &[u8]) -> Vec<&[u8]> {
        let reading = read_all(file);
        if reading.end.is_err() {
            return Vec::new();
        }
        let strings = reading.rows.pool.rows.into_iter();
        strings
            .filter(is_string)
            .map(|row| &file[row.place as usize..][..row.length as usize])
            .collect()
    }

    #[test]
    fn pool_strings_have_zeros_inside() {
        let generator = generator();
        let files: [&dyn Fn(u64) -> Vec<u8>; 3] = [
            &|index| generator.file(1, index).1,
            &|index| generator.examinable(1, index),
            &|index| generator.runnable(1, index),
        ];
        for file in files {
            let files: Vec<Vec<u8>> = (0..2_000).map(file).collect();
            let texts: Vec<&[u8]> = files.iter().flat_map(|file| pool_texts(file)).collect();
            let shapes: [fn(&[u8]) -> bool; 4] = [
                |text| text.len() > 1 && text.iter().all(|byte| *byte == 0),
                |text| text.len() > 1 && text[0] != 0 && text.ends_with(&[0]),
                |text| text.contains(&0) && !text.ends_with(&[0]),
                |text| !text.is_empty() && !text.contains(&0),
            ];
            for is_such in shapes {
                assert!(texts.iter().any(|text| is_such(text)));
            }
        }
    }

    /// Generated files that pass or meet 17, with their rows and whether they meet it.
    pub fn passing_or_17(number: u64) -> Vec<(Vec<u8>, Rows, bool)> {
        let generator = generator();
        let files = (0..number).map(|index| generator.examinable(1, index));
        let answered = files.filter_map(|file| {
            let reading = read_all(&file);
            reading.end.ok()?;
            let answer = model::passes(&file, &EVERYTHING, &reading.rows);
            matches!(answer, Ok(()) | Err(17)).then_some((file, reading.rows, answer.is_err()))
        });
        answered.collect()
    }

    /// Whether a file meets 17 where one opcode has these roles, and names no register beside its operands.
    fn meets_17(file: &[u8], rows: &Rows, opcode: usize, other: [Role; 3]) -> bool {
        all_steps(file, rows).any(|(record, step)| {
            if step.opcode == opcode {
                return past_counts(record, &step, other);
            }
            let roles = roles(&OPCODES[step.opcode]);
            past_counts(record, &step, roles) || needed_by_step(&step) > record.nregs
        })
    }

    /// The roles of an opcode with another one for one operand behind the first.
    fn mistaken_roles(opcode: usize) -> Vec<[Role; 3]> {
        use Role::*;
        let right = roles(&OPCODES[opcode]);
        let operands = OPCODES[opcode].kind.size() - 1;
        let changes = (1..operands)
            .flat_map(|operand| [Plain, Register, Pool, Symbol, Child].map(|role| (operand, role)));
        let mistaken = changes.filter(|(operand, role)| right[*operand] != *role);
        mistaken
            .map(|(operand, role)| {
                let mut roles = right;
                roles[operand] = role;
                roles
            })
            .collect()
    }

    #[test]
    fn mistaken_roles_are_seen() {
        use Role::*;
        let files = passing_or_17(6_000);
        let sees = |opcode: usize, roles: [Role; 3]| {
            let is_otherwise = |(file, rows, refused): &(Vec<u8>, Rows, bool)| {
                meets_17(file, rows, opcode, roles) != *refused
            };
            let seen = files.iter().any(is_otherwise);
            assert!(seen, "{} {roles:?}", OPCODES[opcode].name);
        };
        for opcode in CHILD_THIRD {
            sees(opcode, [Register, Child, Plain]);
            sees(opcode, [Register, Child, Symbol]);
        }
        // These keep their roles, as does MATCHERR, which has no second operand.
        let keep = ["BLKCALL", "ADDILV", "SUBILV"];
        let others = (0..OPCODES.len()).filter(|opcode| keep.contains(&OPCODES[*opcode].name));
        for opcode in NEWER.into_iter().chain(others) {
            for roles in mistaken_roles(opcode) {
                sees(opcode, roles);
            }
        }
    }

    #[test]
    fn opcodes_and_wide_operands_stand_behind_prefixes() {
        let files = passing_or_17(12_000).into_iter();
        let passing = files.filter_map(|(file, rows, refused)| (!refused).then_some((file, rows)));
        let mut met = BTreeSet::new();
        let mut wide = BTreeSet::new();
        for (file, rows) in passing {
            for (_, step) in all_steps(&file, &rows) {
                let Some(prefix) = step.prefix else {
                    continue;
                };
                met.insert((prefix, step.opcode));
                let row = &OPCODES[step.opcode];
                for (operand, role) in roles(row).into_iter().enumerate() {
                    let is_wide = widths(step.prefix, row.kind).get(operand) == Some(&2);
                    if is_wide && step.operands[operand] > 255 {
                        wide.insert((prefix, operand, format!("{role:?}")));
                    }
                }
            }
        }
        assert_eq!(met.len(), PREFIXES.len() * (OPCODES.len() - PREFIXES.len()));
        for prefix in [116, 117] {
            for role in ["Register", "Pool", "Symbol", "Child"] {
                assert!(wide.contains(&(prefix, 1, role.to_owned())), "{role}");
            }
        }
        for prefix in [115, 117] {
            for role in ["Register", "Symbol"] {
                assert!(wide.contains(&(prefix, 0, role.to_owned())), "{role}");
            }
        }
    }

    /// Whether a file has a prefix without an opcode, last in its record or before another one.
    fn stray_prefixes(file: &[u8], rows: &Rows) -> [bool; 2] {
        let mut stray = [false; 2];
        for record in &rows.records.rows {
            let offset = steps(file, record).last().map_or(0, |step| step.next);
            let code = &file[record.place as usize..][..record.ilen as usize];
            let rest = &code[offset..];
            stray[0] |= rest.len() == 1 && model::is_prefix(rest[0]);
            stray[1] |= rest.len() > 1 && rest[..2].iter().all(|byte| model::is_prefix(*byte));
        }
        stray
    }

    #[test]
    fn prefixes_are_last_and_before_others() {
        let generator = generator();
        let mut met = [0; 2];
        for index in 0..6_000 {
            let file = generator.examinable(1, index);
            let reading = read_all(&file);
            if reading.end.is_ok() && model::passes(&file, &EVERYTHING, &reading.rows) == Err(25) {
                let stray = stray_prefixes(&file, &reading.rows);
                assert_ne!(stray, [false; 2]);
                met = [met[0] + u32::from(stray[0]), met[1] + u32::from(stray[1])];
            }
        }
        assert!(met.iter().all(|files| *files > 10), "{met:?}");
    }

    #[test]
    fn one_family_meets_27_and_28() {
        let generator = generator();
        let mut met = Vec::new();
        for index in 0..3_000 {
            let (family, file) = generator.file(1, index);
            let end = read_all(&file).end;
            if let Err(number @ (27 | 28)) = end {
                assert_eq!(family, IDENT_AND_SIZE, "index {index} is of {number}");
                met.push(number);
            }
        }
        assert!(met.contains(&27) && met.contains(&28));
    }
}
