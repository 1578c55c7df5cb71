//! Where a refusal by 15 to 20, 25 or 32 lies, or 22 of a single record: a search over the loaded rows, in examination's order.

use super::{Met, Place};
use crate::opcode::{Flow, Role, flow, name};
use crate::pattern::{Pattern, Record};
use crate::permitted::Permitted;
use crate::step::{BadStep, Step};

/// The bytes of a handler, and of those before its target.
const HANDLER_BYTES: u32 = 13;
const BEFORE_TARGET: u32 = 9;

/// The operands of an instruction in words.
const ORDINALS: [&str; 3] = ["first", "second", "third"];

/// The first refusal that examination for permitted opcodes meets, and where.
pub fn search(pattern: &Pattern, permitted: &Permitted) -> Option<Met> {
    if let Some(what) = broken_tree(pattern) {
        let section = (pattern.counts().records > 0).then_some("IREP");
        return Some((15, of_no_record(section, what)));
    }
    let mut begins = Begins::default();
    (0..)
        .zip(pattern.records())
        .find_map(|(number, record)| search_in(pattern, permitted, number, &record, &mut begins))
}

/// The refusal that the examination of one record by itself meets, and where; 22 where there is no such record.
pub fn search_single(pattern: &Pattern, permitted: &Permitted, number: u32) -> Option<Met> {
    match pattern.record(number) {
        Some(record) => search_in(pattern, permitted, number, &record, &mut Begins::default()),
        None => Some((22, of_no_record(None, numbered(pattern.counts().records)))),
    }
}

/// A place in no record and at no byte.
fn of_no_record(section: Option<&'static str>, what: String) -> Place {
    Place {
        section,
        byte: None,
        record: None,
        offset: None,
        line: None,
        what,
    }
}

/// How many records a file has, and their numbers.
fn numbered(records: u32) -> String {
    match records {
        0 => "the file has no record".to_owned(),
        1 => "the file has 1 record, record 0".to_owned(),
        records => format!("the file has {records} records, 0 to {}", records - 1),
    }
}

/// The first refusal that a record meets, and where.
fn search_in(
    pattern: &Pattern,
    permitted: &Permitted,
    number: u32,
    record: &Record,
    begins: &mut Begins,
) -> Option<Met> {
    let found = search_record(pattern, permitted, number, record, begins)?;
    let offset = found.offset;
    let place = Place {
        section: Some(found.section),
        byte: found.byte,
        record: Some(number),
        offset,
        line: offset.and_then(|offset| pattern.line(number, offset).ok()?),
        what: found.what,
    };
    Some((found.refusal, place))
}

/// Why the records do not form one whole tree.
fn broken_tree(pattern: &Pattern) -> Option<String> {
    let count = u64::from(pattern.counts().records);
    if count == 0 {
        return Some("there is no record".to_owned());
    }
    let sum: u64 = pattern.records().map(|record| u64::from(record.rlen)).sum();
    if sum + 1 != count {
        return Some(format!(
            "{count} records have {sum} children in all, and {} are needed",
            count - 1
        ));
    }
    let mut first = 0;
    for (index, record) in pattern.records().enumerate() {
        first += u64::from(record.rlen);
        let read = index as u64 + 1;
        if read < count && first < read {
            return Some(format!("the tree ends behind record {index}"));
        }
    }
    None
}

/// What a record's search finds.
struct Found {
    refusal: u32,
    section: &'static str,
    byte: Option<u32>,
    offset: Option<u32>,
    what: String,
}

impl Found {
    /// A refusal at an offset of a record's instructions.
    fn at(refusal: u32, record: &Record, offset: u32, what: String) -> Option<Found> {
        Some(Found {
            refusal,
            section: "IREP",
            byte: Some(record.place + offset),
            offset: Some(offset),
            what,
        })
    }

    /// A refusal by 17 at an operand of a step.
    fn at_operand(record: &Record, step: &Step, place: usize, what: String) -> Found {
        Found {
            refusal: 17,
            section: "IREP",
            byte: Some(record.place + step.offset_of(place)),
            offset: Some(step.offset),
            what,
        }
    }

    /// An instruction that cannot be read; the byte is the one that is refused.
    fn unreadable(record: &Record, bad: BadStep) -> Found {
        Found {
            refusal: bad.refusal().number(),
            section: "IREP",
            byte: Some(record.place + bad.refused_at()),
            offset: Some(bad.offset()),
            what: bad.to_string(),
        }
    }
}

/// What a byte of a record's instructions is.
#[derive(Clone, Copy, PartialEq, Eq)]
enum Byte {
    /// The first of an instruction.
    First,
    /// The opcode behind a prefix.
    BehindPrefix,
    Other,
}

/// The offsets of a record at which instructions begin.
#[derive(Default)]
struct Begins(Vec<Byte>);

impl Begins {
    fn clear(&mut self, length: usize) {
        self.0.clear();
        self.0.resize(length, Byte::Other);
    }

    fn mark(&mut self, step: &Step) {
        let offset = step.offset as usize;
        self.0[offset] = Byte::First;
        if step.prefix.is_some() {
            self.0[offset + 1] = Byte::BehindPrefix;
        }
    }

    fn byte(&self, offset: i64) -> Option<Byte> {
        self.0.get(usize::try_from(offset).ok()?).copied()
    }

    fn at(&self, offset: i64) -> bool {
        self.byte(offset) == Some(Byte::First)
    }

    /// An offset in words: what stands there is told where a reader may take it for an instruction.
    fn told(&self, offset: i64) -> String {
        match self.byte(offset) {
            Some(Byte::BehindPrefix) => format!("{offset}, the opcode behind a prefix"),
            _ => offset.to_string(),
        }
    }
}

fn search_record(
    pattern: &Pattern,
    permitted: &Permitted,
    number: u32,
    record: &Record,
    begins: &mut Begins,
) -> Option<Found> {
    let code = pattern.instructions(number).ok()?.bytes;
    if code.is_empty() {
        return Found::at(16, record, 0, "the record has no instructions".to_owned());
    }
    begins.clear(code.len());
    let mut forbidden = None;
    for step in pattern.steps(number).ok()? {
        match step {
            Ok(step) => {
                begins.mark(&step);
                forbidden = forbidden.or_else(|| search_forbidden(record, &step, permitted));
            }
            Err(bad) => return Some(Found::unreadable(record, bad)),
        }
    }
    let mut steps = pattern.steps(number).ok()?.flatten();
    forbidden
        .or_else(|| steps.find_map(|step| search_step(record, &step, begins)))
        .or_else(|| search_handlers(pattern, number, record, begins))
        .or_else(|| search_lines(pattern, record))
}

/// A prefix or an opcode that is not permitted; the byte is its own, that of the prefix where neither is.
fn search_forbidden(record: &Record, step: &Step, permitted: &Permitted) -> Option<Found> {
    let first = permitted.forbidden_of(step).next()?;
    let is_prefix = step.prefix == Some(first);
    let opcode = name(step.opcode).unwrap_or_default();
    let what = match step.prefix.and_then(name) {
        None => format!("{opcode} is not permitted"),
        Some(prefix) if !is_prefix => {
            format!("{opcode} behind the prefix {prefix} is not permitted")
        }
        Some(prefix) if permitted.permits(step.opcode) => {
            format!("the prefix {prefix} before {opcode} is not permitted")
        }
        Some(prefix) => format!("the prefix {prefix} and {opcode} behind it are not permitted"),
    };
    let before = u32::from(step.prefix.is_some() && !is_prefix);
    Some(Found {
        refusal: 32,
        section: "IREP",
        byte: Some(record.place + step.offset + before),
        offset: Some(step.offset),
        what,
    })
}

fn search_step(record: &Record, step: &Step, begins: &Begins) -> Option<Found> {
    search_operands(record, step)
        .or_else(|| search_registers(record, step))
        .or_else(|| search_targets(record, step, begins))
}

/// The first operand that names what the record does not have; the byte is the operand's own.
fn search_operands(record: &Record, step: &Step) -> Option<Found> {
    let mut operands = step.with_roles().enumerate();
    operands.find_map(|(place, (operand, role))| {
        let number = known(record, role)?;
        if operand < number {
            return None;
        }
        let (ordinal, name, thing) = (ORDINALS[place], step.name(), role.word());
        let what = format!(
            "the {ordinal} operand of {name} names {thing} {operand}, counted from 0, and the record has {number}"
        );
        Some(Found::at_operand(record, step, place, what))
    })
}

/// The first registers that a step touches and the record does not have; the byte is that of the operand from which they are counted.
fn search_registers(record: &Record, step: &Step) -> Option<Found> {
    let number = record.nregs;
    let touched = step.registers().find(|touched| touched.last >= number)?;
    let first = touched.first.max(number);
    let registers = match touched.last {
        last if last == first => format!("register {first}"),
        last => format!("registers {first} to {last}"),
    };
    let name = step.name();
    let what = format!("{name} touches {registers}, counted from 0, and the record has {number}");
    Some(Found::at_operand(record, step, touched.operand, what))
}

/// How many things of a role a record has; a plain operand names none.
fn known(record: &Record, role: Role) -> Option<u32> {
    match role {
        Role::Plain => None,
        Role::Register => Some(record.nregs),
        Role::Constant => Some(record.constants.number),
        Role::Symbol => Some(record.symbols.number),
        Role::Child => Some(record.rlen),
    }
}

/// A jump's target or a next offset at which no instruction begins.
fn search_targets(record: &Record, step: &Step, begins: &Begins) -> Option<Found> {
    if let Some(target) = step.target().filter(|target| !begins.at(*target)) {
        let what = format!("the jump goes to {}", begins.told(target));
        return Found::at(18, record, step.offset, what);
    }
    let goes_on = matches!(flow(step.opcode), Flow::Next | Flow::MayJump);
    if goes_on && !begins.at(step.next.into()) {
        let what = "the last instruction goes on behind the record's end".to_owned();
        return Found::at(18, record, step.offset, what);
    }
    None
}

fn search_handlers(
    pattern: &Pattern,
    number: u32,
    record: &Record,
    begins: &Begins,
) -> Option<Found> {
    for index in 0..record.clen {
        let target = pattern.handler(number, index).ok()?.target;
        if !begins.at(target.into()) {
            return Some(Found {
                refusal: 19,
                section: "IREP",
                byte: Some(record.place + record.ilen + index * HANDLER_BYTES + BEFORE_TARGET),
                offset: None,
                what: format!("handler {index} goes to {}", begins.told(target.into())),
            });
        }
    }
    None
}

fn search_lines(pattern: &Pattern, record: &Record) -> Option<Found> {
    for index in 1..record.lines.number {
        let before = pattern.entry(record.lines.first + index - 1)?.position;
        let position = pattern.entry(record.lines.first + index)?.position;
        if position < before {
            return Some(Found {
                refusal: 20,
                section: "DBG",
                byte: None,
                offset: None,
                what: format!("position {position} comes behind {before} in the line map"),
            });
        }
    }
    None
}
