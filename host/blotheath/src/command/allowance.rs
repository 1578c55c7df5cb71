//! The allowance that a file is read under, and how far a file is beyond it, in words and in JSON.

use super::json::Json;
use super::style::Style;
use super::text::{counted, grouped};
use super::verdict::by_itself;
use blotheath::{Allowance, Desktop, Excess, Limit};
use std::io::{self, Write};

/// An allowance in words, and whose it is where that is known.
pub fn told(allowance: Allowance) -> String {
    let granted = allowance.granted();
    let whose = match granted {
        Allowance::DESKTOP => ", the desktop's",
        Allowance::PREVIEW => ", the preview's",
        _ => "",
    };
    format!(
        "{} and {}{whose}",
        counted(granted.bytes.into(), "byte"),
        counted(granted.records.into(), "record")
    )
}

/// Writes a line that tells the allowance, where it is not the desktop's.
pub fn write(out: &mut dyn Write, style: Style, allowance: Allowance) -> io::Result<()> {
    if allowance.granted() == Allowance::DESKTOP {
        return Ok(());
    }
    let line = format!("allowance: {}", told(allowance));
    writeln!(out, "{}", style.dim(&line))
}

/// The allowance as a member of a JSON object.
pub fn member(json: &mut Json, allowance: Allowance) -> io::Result<()> {
    let granted = allowance.granted();
    json.key("allowance")?.object(|json| {
        json.key("bytes")?.number(granted.bytes)?;
        json.key("records")?.number(granted.records)
    })
}

fn noun(limit: Limit) -> &'static str {
    match limit {
        Limit::Bytes => "byte",
        Limit::Records => "record",
    }
}

/// How far a file is beyond its allowance, and what the desktop says of it.
pub fn beyond(excess: &Excess) -> String {
    let (noun, allowed) = (noun(excess.of), grouped(excess.allowed.into()));
    let far = match excess.has.zip(excess.by()) {
        Some((has, by)) => format!(
            "it has {}, {} more than the {allowed} allowed",
            counted(has.into(), noun),
            grouped(by.into())
        ),
        None => format!("it has more {noun}s than the {allowed} allowed"),
    };
    let desktop = match excess.desktop {
        Desktop::Loads => "it loads".to_owned(),
        Desktop::Passes => "it passes".to_owned(),
        Desktop::RecordPasses(number) => by_itself(number),
        Desktop::Refuses(refusal) => format!("it is {refusal}"),
    };
    format!("{far}; under the desktop's allowance {desktop}")
}

/// How far a file is beyond its allowance, as a member of a JSON object.
pub fn excess_member(json: &mut Json, excess: &Excess) -> io::Result<()> {
    json.key("excess")?.object(|json| {
        json.key("of")?.string(&format!("{}s", noun(excess.of)))?;
        json.key("allowed")?.number(excess.allowed)?;
        json.key("has")?.optional(excess.has)?;
        json.key("by")?.optional(excess.by())?;
        json.key("sentence")?.string(&beyond(excess))?;
        json.key("desktop")?
            .object(|json| desktop_members(json, excess.desktop))
    })
}

fn desktop_members(json: &mut Json, desktop: Desktop) -> io::Result<()> {
    match desktop {
        Desktop::Loads => json.key("loads")?.boolean(true),
        Desktop::Passes => json.key("passes")?.boolean(true),
        Desktop::RecordPasses(number) => {
            json.key("record")?.number(number)?;
            json.key("passes")?.boolean(true)
        }
        Desktop::Refuses(refusal) => {
            json.key("refusal")?.number(refusal.number())?;
            json.key("sentence")?.string(refusal.sentence())
        }
    }
}

#[cfg(test)]
mod tests {
    use super::*;
    use blotheath::Refusal;

    #[test]
    fn allowances_in_words() {
        for (bytes, records, right) in [
            (
                65_536,
                1_024,
                "65,536 bytes and 1,024 records, the desktop's",
            ),
            (
                u32::MAX,
                1_025,
                "65,536 bytes and 1,024 records, the desktop's",
            ),
            (16_384, 64, "16,384 bytes and 64 records, the preview's"),
            (16_384, 65, "16,384 bytes and 65 records"),
            (1, 1, "1 byte and 1 record"),
            (0, 0, "0 bytes and 0 records"),
        ] {
            assert_eq!(told(Allowance { bytes, records }), right);
        }
    }

    #[test]
    fn what_is_beyond_in_words() {
        let mut excess = Excess {
            of: Limit::Bytes,
            allowed: 16_384,
            has: Some(20_000),
            desktop: Desktop::Passes,
        };
        let right = "it has 20,000 bytes, 3,616 more than the 16,384 allowed; under the desktop's allowance it passes";
        assert_eq!(beyond(&excess), right);
        (excess.of, excess.allowed, excess.has) = (Limit::Records, 0, Some(1));
        excess.desktop = Desktop::Loads;
        let right =
            "it has 1 record, 1 more than the 0 allowed; under the desktop's allowance it loads";
        assert_eq!(beyond(&excess), right);
        excess.desktop = Desktop::RecordPasses(3);
        let right = "it has 1 record, 1 more than the 0 allowed; under the desktop's allowance record 3 passes by itself";
        assert_eq!(beyond(&excess), right);
        excess.has = None;
        excess.desktop = Desktop::Refuses(Refusal(10));
        let right = "it has more records than the 0 allowed; under the desktop's allowance it is refused by 10: a constant is of an unknown kind";
        assert_eq!(beyond(&excess), right);
    }
}
