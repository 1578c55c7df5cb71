//! What the operands of a step mean, and which registers it touches.

use super::json::Json;
use super::load::{constant_members, short_text};
use super::text;
use blotheath::{Constant, Pattern, Record, Registers, Role, Step, Text, Tree, opcode_name, roles};
use std::io;

/// An operand with its meaning.
#[derive(Debug, Clone, PartialEq)]
pub enum Meaning<'a> {
    /// A register, with the local's name where there is one.
    Register(u32, Option<Text<'a>>),
    Constant(u32, Option<Constant<'a>>),
    Symbol(u32, Option<Text<'a>>),
    /// A child, with its record.
    Child(u32, Option<u32>),
    /// A distance, with the offset that it leads to.
    Jump(u32, i64),
    /// A number that the step itself uses.
    Number(u32, i64),
    /// A register of an outer record, with the local's name where there is one.
    Outer(u32, Option<Text<'a>>),
    /// Anything else, with words for it where there are some.
    Plain(u32, Option<String>),
}

/// A pattern with its tree, to ask what operands mean.
pub struct Reader<'p, 'a> {
    pub pattern: &'p Pattern<'a>,
    pub tree: &'p Tree,
}

impl<'a> Reader<'_, 'a> {
    /// The operands of a step of a record.
    pub fn meanings(&self, number: u32, record: &Record, step: &Step) -> Vec<Meaning<'a>> {
        let roles = roles(step.opcode);
        let given = match halves(step) {
            Some(_) => &step.operands[..2],
            None => step.given(),
        };
        given
            .iter()
            .enumerate()
            .map(|(place, value)| match roles[place] {
                Role::Register => Meaning::Register(*value, self.local(number, record, *value)),
                Role::Constant => Meaning::Constant(*value, self.constant(number, *value)),
                Role::Symbol => Meaning::Symbol(*value, self.pattern.symbol(number, *value).ok()),
                Role::Child => Meaning::Child(*value, self.tree.child(number, *value)),
                Role::Plain => match self.outer(number, step, place) {
                    Some(local) => Meaning::Outer(*value, local),
                    None => plain(step, place),
                },
            })
            .collect()
    }

    /// The register of an outer record that GETUPVAR and SETUPVAR name second: their third operand counts the records between.
    fn outer(&self, number: u32, step: &Step, place: usize) -> Option<Option<Text<'a>>> {
        if !matches!(opcode_name(step.opcode), Some("GETUPVAR" | "SETUPVAR")) || place != 1 {
            return None;
        }
        let [_, register, between] = step.operands;
        let mut outer = number;
        for _ in 0..=between {
            outer = self.pattern.record(outer)?.parent?;
        }
        Some(self.local(outer, &self.pattern.record(outer)?, register))
    }

    /// The name of a register that holds a local.
    fn local(&self, number: u32, record: &Record, register: u32) -> Option<Text<'a>> {
        if register == 0 || register > record.names.number {
            return None;
        }
        self.pattern.name(number, register - 1).ok()?
    }

    fn constant(&self, number: u32, index: u32) -> Option<Constant<'a>> {
        self.pattern.constant(number, index).ok()
    }
}

/// The registers that a step touches, where they are more than its operands name: `touches R4..R6`.
pub fn touched(step: &Step) -> Option<String> {
    let registers: Vec<Registers> = step.registers().collect();
    let is_more = registers.iter().any(|one| one.first < one.last);
    is_more.then(|| {
        let shown: Vec<String> = registers.iter().map(Registers::to_string).collect();
        format!("touches {}", shown.join(", "))
    })
}

/// All registers that a step touches as a member of a JSON object: pairs of the first and the last.
pub fn registers_member(json: &mut Json, step: &Step) -> io::Result<()> {
    json.key("registers")?.array(|json| {
        let mut registers = step.registers();
        registers.try_for_each(|one| {
            json.array(|json| {
                json.number(one.first)?;
                json.number(one.last)
            })
        })
    })
}

/// The number of LOADI32, whose second and third operand are its halves.
fn halves(step: &Step) -> Option<i32> {
    let [_, high, low] = step.operands;
    (opcode_name(step.opcode) == Some("LOADI32")).then_some((high << 16 | low) as i32)
}

/// An operand that no table holds.
fn plain<'a>(step: &Step, place: usize) -> Meaning<'a> {
    let value = step.operands[place];
    if let Some(target) = step.target()
        && step.distance() == Some(place)
    {
        return Meaning::Jump(value, target);
    }
    if let Some(number) = halves(step) {
        return Meaning::Number(number as u32, number.into());
    }
    match (opcode_name(step.opcode), place) {
        (Some("LOADI" | "ADDI" | "SUBI"), 1) => Meaning::Number(value, value.into()),
        (Some("LOADINEG"), 1) => Meaning::Number(value, -i64::from(value)),
        (Some("LOADI16"), 1) => Meaning::Number(value, (value as u16 as i16).into()),
        (Some("SEND" | "SENDB" | "SSEND" | "SSENDB"), 2) | (Some("SUPER"), 1) => {
            Meaning::Plain(value, Some(arguments(value)))
        }
        (Some("GETUPVAR" | "SETUPVAR"), 1) => Meaning::Plain(value, Some(format!("R{value}"))),
        (Some("GETUPVAR" | "SETUPVAR"), 2) => {
            Meaning::Plain(value, Some(format!("{} up", value + 1)))
        }
        (Some("ENTER"), 0) => Meaning::Plain(value, Some(parameters(value))),
        _ => Meaning::Plain(value, None),
    }
}

/// The arguments of a call: the low four bits count those in turn, the next four those with keys, 15 is a list of them.
fn arguments(value: u32) -> String {
    let (number, keys) = (value & 15, value >> 4 & 15);
    let mut shown = match number {
        15 => "a list of arguments".to_owned(),
        number => text::counted(number.into(), "argument"),
    };
    match keys {
        0 => {}
        15 => shown += ", a hash of keys",
        keys => shown += &format!(", {}", text::counted(keys.into(), "key")),
    }
    shown
}

/// The parameters that ENTER takes, as mruby packs them.
fn parameters(value: u32) -> String {
    let five = |shift: u32| u64::from(value >> shift & 31);
    let mut parts = Vec::new();
    for (number, noun) in [
        (five(18), "required"),
        (five(13), "optional"),
        (five(7), "behind them"),
        (five(2), "with keys"),
    ] {
        if number > 0 {
            parts.push(format!("{number} {noun}"));
        }
    }
    for (bit, noun) in [(12, "a rest"), (1, "a hash of keys"), (0, "a block")] {
        if value >> bit & 1 == 1 {
            parts.push(noun.to_owned());
        }
    }
    match parts.is_empty() {
        true => "no parameters".to_owned(),
        false => format!("parameters: {}", parts.join(", ")),
    }
}

impl Meaning<'_> {
    /// The operand in a word or two.
    pub fn shown(&self) -> String {
        self.shown_up_to(text::SHORT)
    }

    /// The operand, a text of the file cut where it is longer than the most bytes.
    pub fn shown_up_to(&self, most: usize) -> String {
        match self {
            Meaning::Register(number, None) | Meaning::Outer(number, None) => format!("R{number}"),
            Meaning::Register(number, Some(name)) | Meaning::Outer(number, Some(name)) => {
                format!("R{number} {}", text::plain(name.bytes, most))
            }
            Meaning::Constant(_, Some(constant)) => text::constant_up_to(constant, most),
            Meaning::Constant(number, None) => format!("constant {number}, which is not there"),
            Meaning::Symbol(_, Some(symbol)) => text::symbol_up_to(*symbol, most),
            Meaning::Symbol(number, None) => format!("symbol {number}, which is not there"),
            Meaning::Child(_, Some(record)) => format!("record {record}"),
            Meaning::Child(number, None) => format!("child {number}, which is not there"),
            Meaning::Jump(_, target) => format!("to {target}"),
            Meaning::Number(_, number) => number.to_string(),
            Meaning::Plain(_, Some(words)) => words.clone(),
            Meaning::Plain(value, None) => value.to_string(),
        }
    }

    /// The operand of a step of a record as a JSON object, texts up to the most bytes.
    pub fn write(
        &self,
        json: &mut Json,
        reader: &Reader,
        record: u32,
        most: usize,
    ) -> io::Result<()> {
        json.object(|json| match self {
            Meaning::Register(number, name) => {
                head(json, "register", *number)?;
                match name {
                    Some(name) => json
                        .key("name")?
                        .object(|json| short_text(json, name.bytes, most)),
                    None => Ok(()),
                }
            }
            Meaning::Constant(number, constant) => {
                head(json, "constant", *number)?;
                let bytes = reader.pattern.constant_bytes(record, *number);
                match (constant, bytes) {
                    (Some(constant), Ok((_, bytes))) => write_constant(json, constant, bytes, most),
                    _ => Ok(()),
                }
            }
            Meaning::Symbol(number, symbol) => {
                head(json, "symbol", *number)?;
                match symbol {
                    Some(symbol) => short_text(json, symbol.bytes, most),
                    None => Ok(()),
                }
            }
            Meaning::Child(number, record) => {
                head(json, "child", *number)?;
                json.key("record")?.optional(*record)
            }
            Meaning::Jump(value, target) => {
                head(json, "jump", *value)?;
                json.key("target")?.number(*target)
            }
            Meaning::Number(value, number) => {
                head(json, "number", *value)?;
                json.key("means")?.number(*number)
            }
            Meaning::Outer(value, _) | Meaning::Plain(value, _) => head(json, "plain", *value),
        })
    }
}

fn head(json: &mut Json, role: &str, value: u32) -> io::Result<()> {
    json.key("role")?.string(role)?;
    json.key("operand")?.number(value)
}

fn write_constant(
    json: &mut Json,
    constant: &Constant,
    bytes: Text,
    most: usize,
) -> io::Result<()> {
    match constant {
        Constant::Text(text) => {
            json.key("kind")?.string(text::kind(constant))?;
            constant_text(json, text.bytes, most)
        }
        constant => constant_members(json, constant, bytes),
    }
}

/// A constant's text; one that is cut tells its length and how many of its bytes are zero.
fn constant_text(json: &mut Json, bytes: &[u8], most: usize) -> io::Result<()> {
    if bytes.len() > most {
        json.key("length")?.number(bytes.len() as i64)?;
        json.key("zeros")?.number(text::zeros(bytes) as i64)?;
    }
    short_text(json, bytes, most)
}
