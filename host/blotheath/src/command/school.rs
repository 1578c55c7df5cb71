//! The opcodes that a school permits: by options and by files of the school, in words and in JSON.

use super::json::Json;
use super::near::meant;
use super::scope::Scope;
use super::style::Style;
use super::text;
use blotheath::{Group, Opcode, Pattern, Permitted, Step, UnknownName, opcode_name};
use std::collections::BTreeSet;
use std::fs::File;
use std::io::{self, Read, Write};
use std::path::{Path, PathBuf};

/// What a school permits.
#[derive(Debug, Clone, Default, PartialEq, Eq)]
pub struct School {
    pub permitted: Permitted,
    /// What would be permitted with the narrower group in the place of `classes`.
    narrowed: Permitted,
    /// The files that said so.
    pub files: Vec<PathBuf>,
    /// Whether a file has the last word, and no option behind it.
    ends_with_file: bool,
}

/// An option that permits or forbids.
#[derive(Debug, Clone, PartialEq, Eq)]
pub enum Rule {
    Permit(String),
    Forbid(String),
    File(PathBuf),
}

#[derive(Debug, Clone, Copy, PartialEq, Eq)]
enum Verb {
    Permit,
    Forbid,
}

/// The group that has every def, and the one that has no plain def.
const CLASSES: &str = "classes";
const CLASS_DEFINITIONS: &str = "class-definitions";

/// An order to permit or to forbid what some names stand for, and where it stands.
struct Order {
    verb: Verb,
    names: Vec<String>,
    from: String,
}

impl School {
    /// Takes the orders of options and files in turn, from everything on where the first forbids, from nothing where it permits.
    pub fn of(rules: &[Rule]) -> Result<School, String> {
        let mut orders = Vec::new();
        let mut files = Vec::new();
        for rule in rules {
            match rule {
                Rule::Permit(names) => orders.push(Order::of(Verb::Permit, names, "--permit")?),
                Rule::Forbid(names) => orders.push(Order::of(Verb::Forbid, names, "--forbid")?),
                Rule::File(path) => {
                    orders.extend(read(path)?);
                    files.push(path.clone());
                }
            }
        }
        let permitted = permitted_by(&orders)?;
        orders.iter_mut().for_each(Order::narrow);
        Ok(School {
            permitted,
            narrowed: permitted_by(&orders)?,
            files,
            ends_with_file: matches!(rules.last(), Some(Rule::File(_))),
        })
    }

    /// What is permitted in words, with at most so many names, and the names of the school's files, without their folders.
    pub fn told(&self, most: usize) -> String {
        let told = told(&self.permitted, most);
        let files = self.files.iter().filter_map(|path| path.file_name());
        let files: Vec<String> = files
            .map(|name| text::escaped(name.as_encoded_bytes()))
            .collect();
        match files.is_empty() {
            true => told,
            false => format!("{told} ({})", files.join(", ")),
        }
    }

    /// What of a step of a pattern is not permitted, and what else of what is examined.
    pub fn forbidden(&self, scope: Scope, pattern: &Pattern, step: &Step) -> Forbidden {
        let opcodes: Vec<u8> = self.permitted.forbidden_of(step).collect();
        let mut others = self.held(scope, pattern);
        others.retain(|opcode| !opcodes.contains(opcode));
        Forbidden {
            how: self.how(&opcodes),
            opcodes,
            others,
            scope,
        }
    }

    /// What a pattern, or one record of it, holds that is not permitted.
    fn held(&self, scope: Scope, pattern: &Pattern) -> Vec<u8> {
        let records = scope.records(pattern);
        let steps = records.filter_map(|number| pattern.steps(number).ok());
        let mut held = BTreeSet::new();
        for step in steps.flatten().flatten() {
            held.extend(self.permitted.forbidden_of(&step));
        }
        held.into_iter().collect()
    }

    /// How to permit opcodes.
    fn how(&self, opcodes: &[u8]) -> String {
        let names = names(opcodes);
        let option = format!("--permit {} behind the other options", names.join(","));
        let mut how = format!("to permit that, add {option}");
        if let Some(file) = self.files.last().filter(|_| self.ends_with_file) {
            let (names, file) = (names.join(" "), text::path(file));
            how += &format!(", or the line \"permit {names}\" at the end of {file}");
        }
        if opcodes.iter().all(|opcode| self.narrowed.permits(*opcode)) {
            how += &format!(
                "; {CLASSES} forbids every def, and {CLASS_DEFINITIONS} in its place leaves a plain def permitted"
            );
        }
        how
    }
}

/// What of a step is not permitted, what else of its pattern or record is not, and how it would be.
pub struct Forbidden {
    opcodes: Vec<u8>,
    others: Vec<u8>,
    how: String,
    scope: Scope,
}

impl Forbidden {
    /// How to permit it, and what else is not permitted.
    pub fn hint(&self) -> String {
        match self.also(MOST_NAMES) {
            Some(also) => format!("{}; {also}", self.how),
            None => self.how.clone(),
        }
    }

    /// What else the pattern or the record holds that is not permitted, with at most so many names.
    pub fn also(&self, most: usize) -> Option<String> {
        let others = listed(&self.others, most);
        let holder = self.scope.noun();
        let told = || format!("the {holder} also holds {others}, not permitted either");
        (!others.is_empty()).then(told)
    }
}

/// The names of opcodes.
fn names(opcodes: &[u8]) -> Vec<&'static str> {
    opcodes.iter().copied().filter_map(opcode_name).collect()
}

/// What orders permit, taken in turn.
fn permitted_by(orders: &[Order]) -> Result<Permitted, String> {
    let mut permitted = match orders.first().map(|order| order.verb) {
        Some(Verb::Permit) => Permitted::nothing(),
        Some(Verb::Forbid) | None => Permitted::everything(),
    };
    for order in orders {
        order.take(&mut permitted)?;
    }
    Ok(permitted)
}

impl Order {
    /// Names that blanks or commas part.
    fn of(verb: Verb, names: &str, from: &str) -> Result<Order, String> {
        let is_between = |c: char| c == ',' || c.is_whitespace();
        let names = names.split(is_between).filter(|name| !name.is_empty());
        let names: Vec<String> = names.map(str::to_owned).collect();
        match names.is_empty() {
            true => Err(format!("{from}: no opcode and no group is named")),
            false => Ok(Order {
                verb,
                names,
                from: from.to_owned(),
            }),
        }
    }

    fn take(&self, permitted: &mut Permitted) -> Result<(), String> {
        for name in &self.names {
            let taken = match self.verb {
                Verb::Permit => permitted.permit_named(name),
                Verb::Forbid => permitted.forbid_named(name),
            };
            taken.map_err(|unknown| format!("{}: {}", self.from, self.fault(&unknown)))?;
        }
        Ok(())
    }

    /// Forbids the narrower group where it forbids `classes`.
    fn narrow(&mut self) {
        if self.verb == Verb::Forbid {
            let names = self.names.iter_mut();
            let wide = names.filter(|name| name.eq_ignore_ascii_case(CLASSES));
            wide.for_each(|name| *name = CLASS_DEFINITIONS.to_owned());
        }
    }

    /// What is wrong with a name, and what may be meant by it.
    fn fault(&self, unknown: &UnknownName) -> String {
        let UnknownName(name) = unknown;
        let shown = text::word(name);
        if name.bytes().all(|byte| byte.is_ascii_digit()) {
            let last = Opcode::all().last().map_or(0, |opcode| opcode.byte);
            return format!("there is no opcode {shown}; they go from 0 to {last}");
        }
        format!(
            "there is no opcode and no group {shown}{}",
            self.instead(name)
        )
    }

    /// What to write in the place of an unknown name.
    fn instead(&self, name: &str) -> String {
        let name = name.to_ascii_lowercase();
        match (&name[..], self.verb) {
            ("all", _) => "; did you mean everything?".to_owned(),
            ("nothing" | "none", Verb::Permit) => {
                "; to permit nothing, forbid everything".to_owned()
            }
            ("nothing" | "none", Verb::Forbid) => {
                "; to forbid nothing, permit everything".to_owned()
            }
            (name, _) => near(name.strip_prefix(PREFIX_IN_C).unwrap_or(name)),
        }
    }
}

/// What the names of opcodes begin with in mruby's C.
const PREFIX_IN_C: &str = "op_";

/// The most names that are told for one that is unknown.
const MOST_MEANT: usize = 3;

/// The names that are near to an unknown one, or where all of them are listed.
fn near(name: &str) -> String {
    let opcodes = Opcode::all().map(|opcode| opcode.name);
    let known = opcodes.chain(Group::all().map(|group| group.name));
    let question = meant(name, known, MOST_MEANT);
    match question.is_empty() {
        true => "; `blotheath opcodes` lists them".to_owned(),
        false => question,
    }
}

/// The most bytes of a school's file.
const MOST_BYTES: u64 = 1 << 16;

/// What some programs put before text.
const BYTE_ORDER_MARK: char = '\u{feff}';

/// Reads the orders of a school's file, one a line; `#` begins a comment.
fn read(path: &Path) -> Result<Vec<Order>, String> {
    if path == Path::new("-") {
        return Err("--school: standard input is read for patterns alone".to_owned());
    }
    let name = text::path(path);
    let text = read_text(path).map_err(|fault| format!("{name}: {}", text::fault(&fault)))?;
    let lines = text.trim_start_matches(BYTE_ORDER_MARK).lines();
    let mut orders = Vec::new();
    for (number, line) in (1..).zip(lines) {
        let order = line.split('#').next().unwrap_or_default().trim();
        if !order.is_empty() {
            orders.push(order_of(order, &format!("{name}, line {number}"))?);
        }
    }
    match orders.is_empty() {
        true => Err(format!("{name}: no line permits or forbids anything")),
        false => Ok(orders),
    }
}

fn read_text(path: &Path) -> io::Result<String> {
    let mut bytes = Vec::new();
    let file = File::open(path)?;
    file.take(MOST_BYTES + 1).read_to_end(&mut bytes)?;
    match bytes.len() as u64 > MOST_BYTES {
        true => Err(io::Error::other("this is too long for a school's file")),
        false => Ok(String::from_utf8_lossy(&bytes).into_owned()),
    }
}

/// The order of a line: a verb, then names.
fn order_of(line: &str, from: &str) -> Result<Order, String> {
    let (verb, names) = line.split_once(char::is_whitespace).unwrap_or((line, ""));
    let is = |word: &str| verb.eq_ignore_ascii_case(word);
    match (is("permit"), is("forbid")) {
        (true, _) => Order::of(Verb::Permit, names, from),
        (_, true) => Order::of(Verb::Forbid, names, from),
        _ => Err(format!(
            "{from}: a line begins with permit or forbid, and this one with {}",
            text::word(verb)
        )),
    }
}

/// The most names that a line of text tells.
const MOST_NAMES: usize = 12;

/// What is permitted, in words: by what is forbidden or by what is permitted, whichever is shorter.
fn told(permitted: &Permitted, most: usize) -> String {
    let opcodes = Opcode::all().map(|opcode| opcode.byte);
    let (yes, no): (Vec<u8>, Vec<u8>) = opcodes.partition(|opcode| permitted.permits(*opcode));
    match (yes.len(), no.len()) {
        (_, 0) => "every opcode".to_owned(),
        (0, _) => "no opcode".to_owned(),
        (permitted, forbidden) if permitted < forbidden => format!("only {}", listed(&yes, most)),
        _ => format!("every opcode but {}", listed(&no, most)),
    }
}

/// The first names, and how many there are besides.
fn listed(opcodes: &[u8], most: usize) -> String {
    let shown = &opcodes[..most.min(opcodes.len())];
    let listed = names(shown).join(", ");
    match opcodes.len().saturating_sub(most) {
        0 => listed,
        more => format!("{listed} and {more} more"),
    }
}

/// Writes a line that tells what is permitted, where that is not everything or a file of the school says so.
pub fn write(out: &mut dyn Write, style: Style, school: &School) -> io::Result<()> {
    if *school == School::default() {
        return Ok(());
    }
    let line = format!("permitted: {}", school.told(MOST_NAMES));
    writeln!(out, "{}", style.dim(&line))
}

/// What is permitted as a member of a JSON object.
pub fn member(json: &mut Json, school: &School) -> io::Result<()> {
    let forbidden: Vec<u8> = school.permitted.forbidden().collect();
    json.key("permitted")?.object(|json| {
        json.key("everything")?.boolean(forbidden.is_empty())?;
        names_member(json, "forbidden", &forbidden)?;
        json.key("schools")?.array(|json| {
            let mut files = school.files.iter();
            files.try_for_each(|path| json.string(&path.to_string_lossy()))
        })
    })
}

/// What of a step is not permitted, as a member of a JSON object.
pub fn forbidden_member(json: &mut Json, forbidden: &Forbidden) -> io::Result<()> {
    json.key("not_permitted")?.object(|json| {
        names_member(json, "opcodes", &forbidden.opcodes)?;
        names_member(json, "others", &forbidden.others)?;
        json.key("hint")?.string(&forbidden.hint())
    })
}

fn names_member(json: &mut Json, key: &str, opcodes: &[u8]) -> io::Result<()> {
    let mut names = names(opcodes).into_iter();
    json.key(key)?
        .array(|json| names.try_for_each(|name| json.string(name)))
}
