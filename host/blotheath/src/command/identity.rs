//! What this build is, in words and in JSON.

use super::Status;
use super::json::Json;
use blotheath::{DOUBT, IDENTITY, PROVED};
use std::io::{self, Write};

/// The parts of the identity besides the version, with their names.
fn parts() -> [(&'static str, Option<&'static str>); 3] {
    [
        ("archive", IDENTITY.archive),
        ("commit", IDENTITY.commit),
        ("kit", IDENTITY.kit),
    ]
}

/// Whether the answers are proved, and the identity, as members of a JSON object.
pub fn members(json: &mut Json) -> io::Result<()> {
    json.key("proved")?.boolean(PROVED)?;
    json.key("identity")?.object(|json| {
        json.key("version")?.string(IDENTITY.version)?;
        for (name, part) in parts() {
            match part {
                Some(part) => json.key(name)?.string(part)?,
                None => json.key(name)?.null()?,
            }
        }
        Ok(())
    })
}

pub fn write_version(out: &mut dyn Write) -> io::Result<Status> {
    let answers = match DOUBT {
        None => "answers by the proved archive libblotheath.a".to_owned(),
        Some(doubt) => format!("nothing that this build says is proved: {doubt}"),
    };
    writeln!(out, "blotheath {}: {answers}", IDENTITY.version)?;
    for (name, part) in parts() {
        writeln!(out, "{name:<8} {}", part.unwrap_or("not known"))?;
    }
    Ok(Status::Passed)
}
