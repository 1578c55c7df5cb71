//! The instructions of a record, read one behind the other.

use crate::ffi;
use crate::opcode::{Flow, Role, flow, is_prefix, name, roles, widens};
use crate::refusal::Refusal;

/// The kinds of operands, in the order of their numbers at the C boundary.
#[derive(Debug, Clone, Copy, PartialEq, Eq)]
pub enum Kind {
    Z,
    B,
    BB,
    S,
    BBB,
    BS,
    W,
    BSS,
}

impl Kind {
    fn of(number: u32) -> Option<Kind> {
        use Kind::*;
        [Z, B, BB, S, BBB, BS, W, BSS].get(number as usize).copied()
    }

    /// The bytes of each operand without a prefix; the kinds in the order in which ops.h first uses them.
    fn widths(self) -> &'static [u32] {
        match self {
            Kind::Z => &[],
            Kind::BB => &[1, 1],
            Kind::B => &[1],
            Kind::BS => &[1, 2],
            Kind::BSS => &[1, 2, 2],
            Kind::BBB => &[1, 1, 1],
            Kind::S => &[2],
            Kind::W => &[3],
        }
    }

    /// The bytes of an operand, behind a prefix or without one.
    fn width(self, place: usize, prefix: Option<u8>) -> u32 {
        match (self.widths()[place], prefix) {
            (1, Some(prefix)) if widens(prefix, place) => 2,
            (bytes, _) => bytes,
        }
    }

    /// The bytes of an instruction of this kind without a prefix.
    pub fn size(self) -> u32 {
        1 + self.widths().iter().sum::<u32>()
    }

    /// The number of operands.
    pub fn operands(self) -> usize {
        self.widths().len()
    }
}

/// A kind by its name in ops.h.
impl std::fmt::Display for Kind {
    fn fmt(&self, f: &mut std::fmt::Formatter) -> std::fmt::Result {
        write!(f, "{self:?}")
    }
}

/// An instruction of a record.
#[derive(Debug, Clone, Copy, PartialEq, Eq)]
pub struct Step {
    /// Where it begins: at its prefix, where it has one.
    pub offset: u32,
    pub prefix: Option<u8>,
    pub opcode: u8,
    pub kind: Kind,
    pub operands: [u32; 3],
    pub next: u32,
}

/// As many zeros as the operands of any kind have bytes behind any prefix.
const ZEROS: [u8; 6] = [0; 6];

impl Step {
    /// An opcode with zeros for its operands, fetched by itself or read behind a prefix; none where that is refused.
    pub(crate) fn of_zeros(prefix: Option<u8>, opcode: u8) -> Option<Step> {
        let code = [&[opcode], &ZEROS[..]].concat();
        let read = match prefix {
            None => fetch(None, opcode, &code, 0),
            Some(prefix) => read_behind(prefix, &[&[prefix], &code[..]].concat(), 0),
        };
        read.ok()
    }

    /// The opcode's name, with that of its prefix before it: `EXT2 STRING`.
    pub fn name(&self) -> String {
        let opcode = name(self.opcode).unwrap_or_default();
        match self.prefix.and_then(name) {
            Some(prefix) => format!("{prefix} {opcode}"),
            None => opcode.to_owned(),
        }
    }

    /// The operands that the kind has.
    pub fn given(&self) -> &[u32] {
        &self.operands[..self.kind.operands()]
    }

    /// The operands that the kind has, each with its role.
    pub fn with_roles(&self) -> impl Iterator<Item = (u32, Role)> {
        self.given().iter().copied().zip(roles(self.opcode))
    }

    /// The first operand of a role, wherever it stands.
    pub fn first_of(&self, role: Role) -> Option<u32> {
        let mut operands = self.with_roles();
        operands.find_map(|(operand, its)| (its == role).then_some(operand))
    }

    /// The bytes from the instruction's first up to an operand; up to its end, where the operand is one past the last.
    fn bytes_before(&self, operand: usize) -> u32 {
        let prefix = u32::from(self.prefix.is_some());
        let widths = (0..operand).map(|place| self.kind.width(place, self.prefix));
        prefix + 1 + widths.sum::<u32>()
    }

    /// The offset at which an operand's bytes begin.
    pub fn offset_of(&self, operand: usize) -> u32 {
        self.offset + self.bytes_before(operand)
    }

    /// The place among the operands of a jump's distance.
    pub fn distance(&self) -> Option<usize> {
        match flow(self.opcode) {
            Flow::Jump => Some(0),
            Flow::MayJump => Some(1),
            Flow::Next | Flow::Ends => None,
        }
    }

    /// Where a jump goes: the next offset plus the signed distance.
    pub fn target(&self) -> Option<i64> {
        let distance = self.operands[self.distance()?] as u16 as i16;
        Some(i64::from(self.next) + i64::from(distance))
    }
}

/// Why the instructions of a record cannot be read on.
#[derive(Debug, Clone, Copy, PartialEq, Eq)]
pub enum BadStep {
    Unknown {
        offset: u32,
        prefix: Option<u8>,
        opcode: u8,
    },
    Cut {
        offset: u32,
        prefix: Option<u8>,
        opcode: u8,
    },
    /// A prefix at the end.
    LastPrefix { offset: u32, prefix: u8 },
    /// A prefix with another one behind it.
    TwoPrefixes { offset: u32, prefix: u8, other: u8 },
}

impl BadStep {
    /// Where the instruction would begin.
    pub fn offset(self) -> u32 {
        match self {
            BadStep::Unknown { offset, .. }
            | BadStep::Cut { offset, .. }
            | BadStep::LastPrefix { offset, .. }
            | BadStep::TwoPrefixes { offset, .. } => offset,
        }
    }

    /// The offset of the byte that is refused: an unknown opcode, a prefix, or the first of what is cut.
    pub fn refused_at(self) -> u32 {
        match self {
            BadStep::Unknown { offset, prefix, .. } => offset + u32::from(prefix.is_some()),
            other => other.offset(),
        }
    }

    /// The refusal that examination meets here.
    pub fn refusal(self) -> Refusal {
        match self {
            BadStep::Unknown { .. } | BadStep::Cut { .. } => Refusal(16),
            BadStep::LastPrefix { .. } | BadStep::TwoPrefixes { .. } => Refusal(25),
        }
    }
}

/// A prefix by its name.
fn named(prefix: u8) -> String {
    format!("the prefix {}", name(prefix).unwrap_or_default())
}

/// Words for what stands before an opcode.
fn behind(prefix: Option<u8>) -> String {
    prefix.map_or(String::new(), |prefix| format!(" behind {}", named(prefix)))
}

impl std::fmt::Display for BadStep {
    fn fmt(&self, f: &mut std::fmt::Formatter) -> std::fmt::Result {
        match *self {
            BadStep::Unknown { prefix, opcode, .. } => {
                write!(f, "the opcode {opcode}{} is unknown", behind(prefix))
            }
            BadStep::Cut { prefix, opcode, .. } => write!(
                f,
                "the instruction of opcode {opcode}{} is cut short",
                behind(prefix)
            ),
            BadStep::LastPrefix { prefix, .. } => {
                write!(f, "{} is the last byte of its record", named(prefix))
            }
            BadStep::TwoPrefixes { prefix, other, .. } => {
                let other = name(other).unwrap_or_default();
                write!(f, "another prefix, {other}, follows {}", named(prefix))
            }
        }
    }
}

/// Reads the instruction that begins at the first of these bytes, which is at an offset.
fn read(code: &[u8], first: u8, offset: u32) -> Result<Step, BadStep> {
    match is_prefix(first) {
        true => read_behind(first, code, offset),
        false => fetch(None, first, code, offset),
    }
}

/// Fetches the instruction of an opcode, the first of these bytes; its operands are those that it has without a prefix.
fn fetch(prefix: Option<u8>, opcode: u8, code: &[u8], offset: u32) -> Result<Step, BadStep> {
    let fetched = ffi::fetch(code);
    if fetched.refusal == 23 {
        return Err(BadStep::Unknown {
            offset,
            prefix,
            opcode,
        });
    }
    match Kind::of(fetched.kind) {
        Some(kind) if fetched.refusal == 0 => Ok(Step {
            offset,
            prefix,
            opcode,
            kind,
            operands: [fetched.a, fetched.b, fetched.c],
            next: offset + kind.size(),
        }),
        _ => Err(BadStep::Cut {
            offset,
            prefix,
            opcode,
        }),
    }
}

/// Reads a prefix, the first of these bytes, with the instruction behind it as one.
fn read_behind(prefix: u8, code: &[u8], offset: u32) -> Result<Step, BadStep> {
    let behind = &code[1..];
    let mut step = match behind.first() {
        None => return Err(BadStep::LastPrefix { offset, prefix }),
        Some(other) if is_prefix(*other) => {
            return Err(BadStep::TwoPrefixes {
                offset,
                prefix,
                other: *other,
            });
        }
        Some(opcode) => fetch(Some(prefix), *opcode, behind, offset)?,
    };
    for place in 0..step.kind.operands() {
        let bytes = step.bytes_before(place) as usize..step.bytes_before(place + 1) as usize;
        let bytes = code.get(bytes).ok_or(BadStep::Cut {
            offset,
            prefix: Some(prefix),
            opcode: step.opcode,
        })?;
        step.operands[place] = high_byte_first(bytes);
    }
    step.next = step.offset_of(step.kind.operands());
    Ok(step)
}

fn high_byte_first(bytes: &[u8]) -> u32 {
    bytes
        .iter()
        .fold(0, |high, byte| high << 8 | u32::from(*byte))
}

/// Reads instructions from offset 0 on, up to the end or to one that cannot be read.
#[derive(Debug, Clone)]
pub struct Steps<'a> {
    code: &'a [u8],
    offset: usize,
}

impl<'a> Steps<'a> {
    pub fn new(code: &'a [u8]) -> Steps<'a> {
        Steps { code, offset: 0 }
    }
}

impl Iterator for Steps<'_> {
    type Item = Result<Step, BadStep>;

    fn next(&mut self) -> Option<Result<Step, BadStep>> {
        let code = self.code.get(self.offset..)?;
        let read = read(code, *code.first()?, self.offset as u32);
        self.offset = match read {
            Ok(step) => step.next as usize,
            Err(_) => self.code.len(),
        };
        Some(read)
    }
}

#[cfg(test)]
mod tests {
    use super::*;
    use crate::opcode::byte_of;

    const EXT1: u8 = 115;
    const EXT2: u8 = 116;
    const EXT3: u8 = 117;
    const PREFIXES: [u8; 3] = [EXT1, EXT2, EXT3];

    /// The bytes behind an opcode, as many as any kind has behind any prefix.
    const BEHIND: [u8; 6] = [1, 2, 3, 4, 5, 6];

    /// The bytes of an instruction, and more behind it.
    fn code(prefix: Option<u8>, opcode: u8) -> Vec<u8> {
        let first: Vec<u8> = prefix.into_iter().chain([opcode]).collect();
        [&first, &BEHIND[..]].concat()
    }

    fn step(prefix: Option<u8>, opcode: u8) -> Option<Step> {
        Steps::new(&code(prefix, opcode)).next()?.ok()
    }

    fn read_bad(code: &[u8]) -> BadStep {
        Steps::new(code).last().unwrap().unwrap_err()
    }

    fn by_name(prefix: Option<u8>, name: &str) -> Step {
        step(prefix, byte_of(name).unwrap()).unwrap()
    }

    /// Every opcode that is no prefix, behind each prefix and without one.
    fn all() -> impl Iterator<Item = (Option<u8>, u8, &'static model::Opcode)> {
        let opcodes = (0..).zip(&model::OPCODES);
        let opcodes = opcodes.filter(|(opcode, _)| !PREFIXES.contains(opcode));
        let prefixes = [None, Some(EXT1), Some(EXT2), Some(EXT3)];
        opcodes.flat_map(move |(opcode, known)| prefixes.map(|prefix| (prefix, opcode, known)))
    }

    /// The bytes that a prefix adds: its own, and one for each operand that it widens.
    fn added(prefix: Option<u8>, kind: model::Kind) -> usize {
        use model::Kind::*;
        let first = usize::from(matches!(kind, B | BB | BBB | BS | BSS));
        let second = usize::from(matches!(kind, BB | BBB));
        match prefix {
            None => 0,
            Some(EXT1) => 1 + first,
            Some(EXT2) => 1 + second,
            Some(_) => 1 + first + second,
        }
    }

    #[test]
    fn sizes_are_those_of_the_model_and_what_a_prefix_adds() {
        for (prefix, opcode, known) in all() {
            let step = step(prefix, opcode).unwrap();
            assert_eq!((step.prefix, step.opcode), (prefix, opcode));
            let size = known.kind.size() + added(prefix, known.kind);
            assert_eq!(step.next as usize, size, "{}", step.name());
        }
    }

    #[test]
    fn operands_stand_one_behind_the_other() {
        for (prefix, opcode, _) in all() {
            let (code, step) = (code(prefix, opcode), step(prefix, opcode).unwrap());
            for (place, operand) in step.given().iter().enumerate() {
                let bytes = step.offset_of(place)..step.offset_of(place + 1);
                let bytes = bytes.map(|offset| u32::from(code[offset as usize]));
                assert_eq!(bytes.fold(0, |high, byte| high << 8 | byte), *operand);
            }
            assert_eq!(step.offset_of(step.given().len()), step.next);
        }
    }

    #[test]
    fn what_a_prefix_widens() {
        for (name, prefix, operands) in [
            ("NOP", EXT3, &[][..]),
            ("LOADNIL", EXT1, &[0x0102]),
            ("LOADNIL", EXT2, &[1]),
            ("LOADNIL", EXT3, &[0x0102]),
            ("LOADL", EXT1, &[0x0102, 3]),
            ("LOADL", EXT2, &[1, 0x0203]),
            ("LOADL", EXT3, &[0x0102, 0x0304]),
            ("SEND", EXT1, &[0x0102, 3, 4]),
            ("SEND", EXT2, &[1, 0x0203, 4]),
            ("SEND", EXT3, &[0x0102, 0x0304, 5]),
            ("JMP", EXT3, &[0x0102]),
            ("ENTER", EXT3, &[0x01_0203]),
            ("JMPIF", EXT1, &[0x0102, 0x0304]),
            ("JMPIF", EXT2, &[1, 0x0203]),
            ("JMPIF", EXT3, &[0x0102, 0x0304]),
            ("LOADI32", EXT1, &[0x0102, 0x0304, 0x0506]),
            ("LOADI32", EXT2, &[1, 0x0203, 0x0405]),
            ("LOADI32", EXT3, &[0x0102, 0x0304, 0x0506]),
        ] {
            let step = by_name(Some(prefix), name);
            assert_eq!(step.given(), operands, "{}", step.name());
        }
    }

    #[test]
    fn a_prefix_is_part_of_its_step() {
        let code = [0, EXT2, 2, 1, 1, 44, EXT1, 38, 0, 1, 0, 118];
        let steps: Vec<Step> = Steps::new(&code).map(Result::unwrap).collect();
        let told: Vec<(u32, String, u32)> = steps
            .iter()
            .map(|step| (step.offset, step.name(), step.next))
            .collect();
        let expected = [
            (0, "NOP", 1),
            (1, "EXT2 LOADL", 6),
            (6, "EXT1 JMP", 10),
            (10, "NOP", 11),
            (11, "STOP", 12),
        ];
        assert_eq!(
            told,
            expected.map(|(offset, name, next)| (offset, name.to_owned(), next))
        );
        assert_eq!(steps[1].given(), [1, 300]);
        assert_eq!(steps[2].target(), Some(11));
    }

    #[test]
    fn a_child_stands_second_or_third() {
        for name in ["LAMBDA", "BLOCK", "METHOD", "EXEC"] {
            let child = |prefix| by_name(prefix, name).first_of(Role::Child);
            assert_eq!(child(None), Some(2), "{name}");
            assert_eq!(child(Some(EXT2)), Some(0x0203), "{name}");
        }
        for name in ["TDEF", "SDEF"] {
            let step = |prefix| by_name(prefix, name);
            assert_eq!(step(None).first_of(Role::Child), Some(3), "{name}");
            assert_eq!(step(None).first_of(Role::Symbol), Some(2), "{name}");
            assert_eq!(step(Some(EXT3)).first_of(Role::Child), Some(5), "{name}");
            assert_eq!(
                step(Some(EXT3)).first_of(Role::Symbol),
                Some(0x0304),
                "{name}"
            );
        }
        assert_eq!(by_name(None, "DEF").first_of(Role::Child), None);
    }

    #[test]
    fn what_cannot_be_read_is_told() {
        for (code, number, offset, at, what) in [
            (&[0, 119][..], 16, 1, 1, "the opcode 119 is unknown"),
            (
                &[0, EXT1, 119],
                16,
                1,
                2,
                "the opcode 119 behind the prefix EXT1 is unknown",
            ),
            (
                &[0, 17],
                16,
                1,
                1,
                "the instruction of opcode 17 is cut short",
            ),
            (
                &[0, EXT1, 17, 1],
                16,
                1,
                1,
                "the instruction of opcode 17 behind the prefix EXT1 is cut short",
            ),
            (
                &[0, EXT3],
                25,
                1,
                1,
                "the prefix EXT3 is the last byte of its record",
            ),
            (
                &[0, EXT2, EXT1],
                25,
                1,
                1,
                "another prefix, EXT1, follows the prefix EXT2",
            ),
        ] {
            let bad = read_bad(code);
            let told = (bad.refusal(), bad.offset(), bad.refused_at());
            assert_eq!(told, (Refusal(number), offset, at), "{what}");
            assert_eq!(bad.to_string(), what);
        }
    }

    #[test]
    fn every_cut_instruction_is_told() {
        for (prefix, opcode, _) in all() {
            let code = code(prefix, opcode);
            let size = step(prefix, opcode).unwrap().next as usize;
            let opcode_ends = 1 + usize::from(prefix.is_some());
            for length in opcode_ends..size {
                let cut = BadStep::Cut {
                    offset: 0,
                    prefix,
                    opcode,
                };
                assert_eq!(read_bad(&code[..length]), cut);
            }
            assert!(Steps::new(&code[..size]).all(|step| step.is_ok()));
        }
    }
}
