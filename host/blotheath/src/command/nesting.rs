//! Which record contains a record, and how deep it lies.

use super::json::Json;
use super::text::grouped;
use blotheath::Record;
use std::io;

/// What is said of a record, other than record 0, that nothing contains.
pub const UNREACHED: &str = "never reached";

/// The place of the record with this number in the tree, in words: `inside 1, depth 2`.
pub fn told(number: u32, record: &Record) -> String {
    match record.parent {
        Some(parent) => format!("inside {parent}, {}", depth(record)),
        None if number == 0 => format!("outermost, {}", depth(record)),
        None => UNREACHED.to_owned(),
    }
}

/// A record's depth in words.
pub fn depth(record: &Record) -> String {
    format!("depth {}", grouped(record.depth.into()))
}

/// A record's depth and parent, null for none, as members of a JSON object.
pub fn members(json: &mut Json, record: &Record) -> io::Result<()> {
    json.key("depth")?.number(record.depth)?;
    json.key("parent")?.optional(record.parent)
}
