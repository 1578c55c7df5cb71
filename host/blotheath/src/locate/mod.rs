//! Where a refusal lies.
//!
//! The verdict is never taken from here. A search answers a place only where it meets the very number of the verdict.

mod examined;
mod forward;

use crate::allowance::Allowance;
use crate::pattern::Pattern;
use crate::permitted::Permitted;
use crate::refusal::Refusal;

/// Where a refusal lies.
#[derive(Debug, Clone, PartialEq, Eq)]
pub struct Place {
    /// The mark of the section, or `header`.
    pub section: Option<&'static str>,
    /// The place in the file of the byte that is refused, counted from 0; the file's length where a byte is missing.
    pub byte: Option<u32>,
    pub record: Option<u32>,
    pub offset: Option<u32>,
    pub line: Option<u32>,
    /// What stands there.
    pub what: String,
}

/// The place of a file's refusal under the desktop's allowance, every opcode being permitted.
pub fn locate(file: &[u8], pattern: Option<&Pattern>, refusal: Refusal) -> Option<Place> {
    let permitted = Permitted::everything();
    locate_within(file, Allowance::DESKTOP, &permitted, pattern, refusal)
}

/// The place of a file's refusal under an allowance: by examination for permitted opcodes over the pattern that it loads to, by loading over its bytes
/// alone.
pub fn locate_within(
    file: &[u8],
    allowance: Allowance,
    permitted: &Permitted,
    pattern: Option<&Pattern>,
    refusal: Refusal,
) -> Option<Place> {
    let met = match pattern {
        Some(pattern) => examined::search(pattern, permitted),
        None => forward::search(file, allowance),
    };
    at(met, refusal)
}

/// The place of the refusal of one record by itself, under the desktop's allowance, every opcode being permitted.
pub fn locate_record(
    file: &[u8],
    pattern: Option<&Pattern>,
    record: u32,
    refusal: Refusal,
) -> Option<Place> {
    let permitted = Permitted::everything();
    locate_record_within(
        file,
        Allowance::DESKTOP,
        &permitted,
        pattern,
        record,
        refusal,
    )
}

/// The place of the refusal of one record by itself under an allowance: over the pattern that the file loads to that of the record, whatever refuses
/// another, by loading over its bytes alone.
pub fn locate_record_within(
    file: &[u8],
    allowance: Allowance,
    permitted: &Permitted,
    pattern: Option<&Pattern>,
    record: u32,
    refusal: Refusal,
) -> Option<Place> {
    let met = match pattern {
        Some(pattern) => examined::search_single(pattern, permitted, record),
        None => forward::search(file, allowance),
    };
    at(met, refusal)
}

/// The number of a refusal that a search meets, and where.
type Met = (u32, Place);

/// The place of what a search meets, where that is the refusal.
fn at(met: Option<Met>, refusal: Refusal) -> Option<Place> {
    let (number, place) = met?;
    (number == refusal.number()).then_some(place)
}
