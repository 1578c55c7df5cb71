//! Where a page goes: never over a file that was read for it, and never half written over a page that is there.

use crate::command::input::{self, Identity, identity};
use std::fs::{self, File, Metadata, OpenOptions, Permissions};
use std::io::{self, BufWriter, Read, Write};
use std::path::{Path, PathBuf};

/// Where a page goes.
pub enum Output {
    Standard,
    /// A device or a pipe.
    Special(PathBuf),
    /// A file, with the permissions of the one that is there.
    File(PathBuf, Option<Permissions>),
}

impl Output {
    /// The output of this name; a file that was read is refused, and without force one that is no page.
    pub fn of(path: Option<&Path>, read: &[Identity], force: bool) -> io::Result<Output> {
        let Some(path) = path.filter(|path| *path != Path::new("-")) else {
            return standard(read);
        };
        let there = match fs::metadata(path) {
            Ok(there) => there,
            Err(fault) if fault.kind() == io::ErrorKind::NotFound => return absent(path),
            Err(fault) => return Err(fault),
        };
        if there.is_dir() {
            return Err(io::Error::other("this is a folder"));
        }
        if identity(&input::standard_output()?) == identity(&there) {
            return standard(read);
        }
        if !there.is_file() {
            return Ok(Output::Special(path.to_owned()));
        }
        unread(&there, read)?;
        if !force && !may_go(path)? {
            return Err(io::Error::other(
                "this file is there and is no page of this program; --force writes over it",
            ));
        }
        // A page goes to where a link leads, and the link stays.
        let target = fs::canonicalize(path)?;
        Ok(Output::File(target, Some(there.permissions())))
    }

    /// Writes a page.
    pub fn write(
        &self,
        out: &mut dyn Write,
        page: impl FnOnce(&mut dyn Write) -> io::Result<()>,
    ) -> io::Result<()> {
        match self {
            Output::Standard => page(out),
            Output::Special(path) => fill(&OpenOptions::new().append(true).open(path)?, page),
            Output::File(target, permissions) => replace(target, permissions.as_ref(), page),
        }
    }
}

/// Standard output, where that is no file that was read.
fn standard(read: &[Identity]) -> io::Result<Output> {
    unread(&input::standard_output()?, read)?;
    Ok(Output::Standard)
}

/// Refuses a file that was read; devices and pipes, which keep nothing, may be.
fn unread(there: &Metadata, read: &[Identity]) -> io::Result<()> {
    match there.is_file() && read.contains(&identity(there)) {
        true => Err(io::Error::other(
            "this file is read for the page, so the page is not written over it",
        )),
        false => Ok(()),
    }
}

/// A file that is not there yet.
fn absent(path: &Path) -> io::Result<Output> {
    if fs::symlink_metadata(path).is_ok() {
        return Err(io::Error::other("this is a link to what is not there"));
    }
    match folder(path).is_dir() {
        true => Ok(Output::File(path.to_owned(), None)),
        false => Err(io::Error::other("there is no such folder")),
    }
}

fn folder(path: &Path) -> &Path {
    let parent = path
        .parent()
        .filter(|parent| !parent.as_os_str().is_empty());
    parent.unwrap_or(Path::new("."))
}

/// How a page is known for one of this program; the version comes behind it.
pub const MARK: &str = "<meta name=\"generator\" content=\"blotheath ";
pub const VERSION: &str = env!("CARGO_PKG_VERSION");

/// The bytes of a file among which a page has its mark.
const MARKED: u64 = 1024;

/// Whether a file that may be written to is a page of this program, or empty.
fn may_go(path: &Path) -> io::Result<bool> {
    let mut start = Vec::new();
    let file = OpenOptions::new().read(true).write(true).open(path)?;
    file.take(MARKED).read_to_end(&mut start)?;
    let mark = MARK.as_bytes();
    Ok(start.is_empty() || start.windows(mark.len()).any(|bytes| bytes == mark))
}

fn fill(file: &File, page: impl FnOnce(&mut dyn Write) -> io::Result<()>) -> io::Result<()> {
    let mut out = BufWriter::new(file);
    page(&mut out)?;
    out.flush()
}

/// Writes a page to a new file beside its target, then renames it; where that fails, the new file goes again.
fn replace(
    target: &Path,
    permissions: Option<&Permissions>,
    page: impl FnOnce(&mut dyn Write) -> io::Result<()>,
) -> io::Result<()> {
    let (beside, file) = create(folder(target))?;
    let written = fill(&file, page)
        .and_then(|()| match permissions {
            Some(permissions) => file.set_permissions(permissions.clone()),
            None => Ok(()),
        })
        .and_then(|()| fs::rename(&beside, target));
    if written.is_err() {
        let _ = fs::remove_file(&beside);
    }
    written
}

/// The most names that are tried for a new file.
const MOST_NAMES: u32 = 100;

/// A new file in a folder, under a name that nothing has.
fn create(folder: &Path) -> io::Result<(PathBuf, File)> {
    for number in 0..MOST_NAMES {
        let name = format!(".blotheath-{}-{number}.tmp", std::process::id());
        let path = folder.join(name);
        match OpenOptions::new().write(true).create_new(true).open(&path) {
            Err(fault) if fault.kind() == io::ErrorKind::AlreadyExists => {}
            opened => return Ok((path, opened?)),
        }
    }
    Err(io::Error::other("no name for a new file is free beside it"))
}
