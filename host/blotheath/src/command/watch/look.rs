//! Looks at a file that may change, vanish and come back.

use crate::command::input::{self, Identity};
use crate::command::text;
use std::fs::Metadata;
use std::io;
use std::os::unix::fs::MetadataExt;
use std::path::Path;

/// A file that can be looked at again and again.
pub trait Watched {
    fn seen(&self) -> Seen;
    fn read(&self) -> io::Result<Vec<u8>>;
}

impl Watched for Path {
    fn seen(&self) -> Seen {
        match input::file_metadata(self) {
            Ok(metadata) => Seen::File(Stamp::of(&metadata)),
            Err(fault) => Seen::Fault(text::fault(&fault)),
        }
    }

    fn read(&self) -> io::Result<Vec<u8>> {
        input::read_bytes(self)
    }
}

/// What a look sees: a file, or why there is none.
#[derive(Debug, Clone, PartialEq, Eq)]
pub enum Seen {
    File(Stamp),
    Fault(String),
}

/// What tells a file that has changed, or that another has taken the place of.
#[derive(Debug, Clone, Copy, PartialEq, Eq)]
pub struct Stamp {
    /// When the system last noted a change, in seconds and billionths of them: by a write, by a new name, or by new permissions.
    changed: (i64, i64),
    length: u64,
    identity: Identity,
}

impl Stamp {
    fn of(metadata: &Metadata) -> Stamp {
        Stamp {
            changed: (metadata.ctime(), metadata.ctime_nsec()),
            length: metadata.len(),
            identity: input::identity(metadata),
        }
    }

    /// That of a file that was written so often.
    #[cfg(test)]
    pub fn new(written: u64, length: usize) -> Stamp {
        Stamp {
            changed: (written as i64, 0),
            length: length as u64,
            identity: (0, 0),
        }
    }
}

/// What was seen last, and what was told last.
#[derive(Debug, Default)]
pub struct Looks {
    seen: Option<Seen>,
    told: Option<Seen>,
}

impl Looks {
    /// Whether what is seen now is to be told: the look before saw the same, so nobody is at work on it, and it was not told yet.
    pub fn is_due(&mut self, now: &Seen) -> bool {
        let before = self.seen.replace(now.clone());
        before.as_ref() == Some(now) && self.told.as_ref() != Some(now)
    }

    /// Notes what is told.
    pub fn tell(&mut self, now: Seen) {
        self.told = Some(now);
    }
}
