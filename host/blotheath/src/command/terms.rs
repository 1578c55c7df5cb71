//! The terms that a file is examined on: its allowance, and the opcodes that are permitted.

use super::allowance;
use super::json::Json;
use super::school::{self, School};
use super::style::Style;
use blotheath::Allowance;
use std::io::{self, Write};

#[derive(Debug, Clone, PartialEq, Eq)]
pub struct Terms {
    pub allowance: Allowance,
    pub school: School,
}

impl Default for Terms {
    /// The desktop's allowance, and every opcode.
    fn default() -> Terms {
        Terms {
            allowance: Allowance::DESKTOP,
            school: School::default(),
        }
    }
}

/// Writes a line for each of the terms that is not the usual one.
pub fn write(out: &mut dyn Write, style: Style, terms: &Terms) -> io::Result<()> {
    allowance::write(out, style, terms.allowance)?;
    school::write(out, style, &terms.school)
}

/// The terms as members of a JSON object.
pub fn members(json: &mut Json, terms: &Terms) -> io::Result<()> {
    allowance::member(json, terms.allowance)?;
    school::member(json, &terms.school)
}
