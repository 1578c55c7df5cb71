//! `blotheath opcodes`: each opcode with its sizes and the registers that it touches, a page to hold beside mruby's ops.h.

use super::json::Json;
use super::load::aligned;
use super::style::Style;
use super::{Status, identity};
use blotheath::{Flow, Group, Opcode, PREFIXES, Role};
use std::io::{self, Write};

/// What stands above the columns.
const ABOUT: &str = "\
Sizes are the bytes of a whole instruction, its opcode and its prefix counted. A prefix adds one
byte, and one for each operand that it widens; a prefix behind a prefix is refused by 25 (-).
Registers are those that an instruction touches by its operands a, b and c. n is the low four bits
of the last operand, k the next four; n or 2k is one register where n or k is 15. A range that ends
below its start has none, and an operand that is a register always counts.
";

/// The headings; one that begins with `>` stands above numbers.
const HEADINGS: [&str; 10] = [
    ">byte",
    "name",
    "kind",
    ">size",
    ">EXT1",
    ">EXT2",
    ">EXT3",
    "operands",
    "registers",
    "run",
];

pub fn run(out: &mut dyn Write, style: Style, json: bool) -> io::Result<Status> {
    match json {
        true => write_json(out)?,
        false => write(out, style)?,
    }
    Ok(Status::Passed)
}

fn write(out: &mut dyn Write, style: Style) -> io::Result<()> {
    let heads = HEADINGS.map(|heading| heading.trim_start_matches('>').to_owned());
    let rows: Vec<Cells> = Opcode::all().map(|opcode| cells(&opcode)).collect();
    let widths = widths(&heads, &rows);
    let line = |cells: &Cells| aligned(&HEADINGS, &widths, cells);
    writeln!(out, "{ABOUT}")?;
    writeln!(out, "{}", style.dim(&line(&heads)))?;
    rows.iter()
        .try_for_each(|row| writeln!(out, "{}", line(row)))?;
    writeln!(out, "\nGroups, as --permit and --forbid take them")?;
    Group::all().try_for_each(|group| write_group(out, style, group))
}

/// The columns of a line of opcodes, and what it begins with before the blank of its first.
const COLUMNS: usize = 100;
const INDENT: &str = "   ";

/// Writes a group and, where these are not all, its opcodes.
fn write_group(out: &mut dyn Write, style: Style, group: &Group) -> io::Result<()> {
    writeln!(out, "  {}: {}", style.bold(group.name), group.about)?;
    if group.opcodes().eq(Opcode::all().map(|opcode| opcode.byte)) {
        return Ok(());
    }
    let mut line = INDENT.to_owned();
    for name in group.names {
        if line.len() + name.len() > COLUMNS {
            writeln!(out, "{}", line.trim_end())?;
            line.truncate(INDENT.len());
        }
        line += &format!(" {name}");
    }
    writeln!(out, "{line}")
}

/// The cells of a line.
type Cells = [String; HEADINGS.len()];

fn cells(opcode: &Opcode) -> Cells {
    let shown = |size: Option<u32>| size.map_or("-".to_owned(), |size| size.to_string());
    let [ext1, ext2, ext3] = opcode.behind.map(shown);
    [
        opcode.byte.to_string(),
        opcode.name.to_owned(),
        opcode.kind.to_string(),
        opcode.size.to_string(),
        ext1,
        ext2,
        ext3,
        role_words(opcode).join(", "),
        opcode.registers.join(", "),
        flow_word(opcode).to_owned(),
    ]
}

/// How wide the widest cell below each heading is, or the heading.
fn widths(heads: &Cells, rows: &[Cells]) -> [usize; HEADINGS.len()] {
    std::array::from_fn(|place| {
        let widest = rows.iter().map(|cells| cells[place].len()).max();
        widest.unwrap_or(0).max(heads[place].len())
    })
}

/// The words for the operands, those that `steps` has in JSON.
fn role_words(opcode: &Opcode) -> Vec<&'static str> {
    let word = |(place, role): (usize, &Role)| match opcode.distance == Some(place) {
        true => "jump",
        false => role.word(),
    };
    opcode.roles.iter().enumerate().map(word).collect()
}

/// The words for where a run goes from an instruction.
fn flow_word(opcode: &Opcode) -> &'static str {
    match opcode.flow {
        Some(Flow::Next) => "goes on",
        Some(Flow::Jump) => "jumps",
        Some(Flow::MayJump) => "goes on or jumps",
        Some(Flow::Ends) => "ends",
        None => "prefix",
    }
}

fn write_json(out: &mut dyn Write) -> io::Result<()> {
    let mut json = Json::new(out);
    json.object(|json| {
        identity::members(json)?;
        json.key("opcodes")?.array(|json| {
            for opcode in Opcode::all() {
                json.line()?;
                json.object(|json| members(json, &opcode))?;
            }
            Ok(())
        })?;
        json.key("groups")?.array(|json| {
            for group in Group::all() {
                json.line()?;
                json.object(|json| group_members(json, group))?;
            }
            Ok(())
        })
    })?;
    json.end()
}

fn group_members(json: &mut Json, group: &Group) -> io::Result<()> {
    json.key("name")?.string(group.name)?;
    json.key("about")?.string(group.about)?;
    json.key("opcodes")?
        .array(|json| group.names.iter().try_for_each(|name| json.string(name)))
}

fn members(json: &mut Json, opcode: &Opcode) -> io::Result<()> {
    json.key("opcode")?.number(opcode.byte)?;
    json.key("name")?.string(opcode.name)?;
    json.key("kind")?.string(&opcode.kind.to_string())?;
    json.key("size")?.number(opcode.size)?;
    json.key("behind")?.object(|json| {
        for (prefix, size) in PREFIXES.iter().zip(opcode.behind) {
            json.key(&prefix.to_string())?.optional(size)?;
        }
        Ok(())
    })?;
    json.key("roles")?.array(|json| {
        let mut words = role_words(opcode).into_iter();
        words.try_for_each(|word| json.string(word))
    })?;
    json.key("registers")?
        .string(&opcode.registers.join(", "))?;
    json.key("flow")?.string(flow_word(opcode))
}
