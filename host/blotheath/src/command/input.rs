//! Reading of files and walking of folders.

use super::scope::Scope;
use super::terms::Terms;
use blotheath::{
    Excess, FILE_LIMIT, Pattern, Permitted, Place, Refusal, Standing, examine_record_within,
    examine_within, follow_within, load_within, locate_record_within, locate_within,
};
use std::fs::{self, File, Metadata};
use std::io::{self, Read};
use std::os::fd::AsFd;
use std::os::unix::fs::MetadataExt;
use std::path::{Path, PathBuf};

/// The bytes of a file, and the terms that it is read on.
pub struct Input {
    pub bytes: Vec<u8>,
    pub terms: Terms,
}

impl Input {
    pub fn load(&self) -> Result<Pattern<'_>, Refusal> {
        load_within(&self.bytes, self.terms.allowance)
    }

    pub fn examine(&self, scope: Scope) -> Result<Pattern<'_>, Refusal> {
        let (bytes, allowance) = (&self.bytes, self.terms.allowance);
        match scope {
            Scope::File => examine_within(bytes, allowance, self.permitted()),
            Scope::Record(number) => {
                examine_record_within(bytes, allowance, self.permitted(), number)
            }
        }
    }

    pub fn follow(&self, choices: &[u8]) -> Result<Standing, Refusal> {
        follow_within(&self.bytes, self.terms.allowance, self.permitted(), choices)
    }

    pub fn locate(
        &self,
        scope: Scope,
        pattern: Option<&Pattern>,
        refusal: Refusal,
    ) -> Option<Place> {
        let (bytes, allowance, permitted) = (&self.bytes, self.terms.allowance, self.permitted());
        match scope {
            Scope::File => locate_within(bytes, allowance, permitted, pattern, refusal),
            Scope::Record(number) => {
                locate_record_within(bytes, allowance, permitted, pattern, number, refusal)
            }
        }
    }

    /// How far the file is beyond its allowance, by the refusal of an examination or a run.
    pub fn excess(&self, scope: Scope, refusal: Refusal) -> Option<Excess> {
        let (bytes, allowance, permitted) = (&self.bytes, self.terms.allowance, self.permitted());
        match scope {
            Scope::File => Excess::of_examination(bytes, allowance, permitted, refusal),
            Scope::Record(number) => {
                Excess::of_record(bytes, allowance, permitted, number, refusal)
            }
        }
    }

    fn permitted(&self) -> &Permitted {
        &self.terms.school.permitted
    }
}

/// A file on terms: its bytes as [`read_bytes`] answers them, whatever the allowance is.
pub fn read(path: &Path, terms: &Terms) -> io::Result<Input> {
    Ok(Input {
        bytes: read_bytes(path)?,
        terms: terms.clone(),
    })
}

/// The bytes of a file up to one past the longest file's; `-` is standard input.
pub fn read_bytes(path: &Path) -> io::Result<Vec<u8>> {
    if path == Path::new("-") {
        return read_some(io::stdin().lock());
    }
    let file = File::open(path)?;
    no_folder(file.metadata()?)?;
    read_some(file)
}

fn no_folder(metadata: Metadata) -> io::Result<Metadata> {
    match metadata.is_dir() {
        true => Err(io::Error::other("this is a folder")),
        false => Ok(metadata),
    }
}

/// What a path names that is no folder.
pub fn file_metadata(path: &Path) -> io::Result<Metadata> {
    no_folder(fs::metadata(path)?)
}

/// The device and the number of a file.
pub type Identity = (u64, u64);

/// What tells a file, a device or a pipe from all others.
pub fn identity(metadata: &Metadata) -> Identity {
    (metadata.dev(), metadata.ino())
}

/// What a path names; `-` is standard input.
pub fn metadata(path: &Path) -> io::Result<Metadata> {
    match path == Path::new("-") {
        true => of_open(io::stdin()),
        false => fs::metadata(path),
    }
}

/// What standard output goes to.
pub fn standard_output() -> io::Result<Metadata> {
    of_open(io::stdout())
}

fn of_open(open: impl AsFd) -> io::Result<Metadata> {
    File::from(open.as_fd().try_clone_to_owned()?).metadata()
}

fn read_some(source: impl Read) -> io::Result<Vec<u8>> {
    let mut bytes = Vec::new();
    source.take(FILE_LIMIT as u64 + 1).read_to_end(&mut bytes)?;
    Ok(bytes)
}

/// Something to examine, or why it cannot be read.
pub struct Found {
    pub path: PathBuf,
    pub fault: Option<io::Error>,
}

impl Found {
    fn fault(path: &Path, fault: io::Error) -> Found {
        Found {
            path: path.to_owned(),
            fault: Some(fault),
        }
    }
}

/// The files that the paths name; folders are walked for files that end in .mrb.
pub fn find(paths: &[PathBuf]) -> Vec<Found> {
    let mut found = Vec::new();
    for path in paths {
        if path.is_dir() {
            walk(path, &mut found);
        } else {
            found.push(Found {
                path: path.clone(),
                fault: None,
            });
        }
    }
    found
}

/// Walks a folder in the order of names; links to folders are not followed.
fn walk(folder: &Path, found: &mut Vec<Found>) {
    let before = found.len();
    let mut folders = vec![folder.to_owned()];
    while let Some(folder) = folders.pop() {
        let mut inner = match list(&folder, found) {
            Ok(inner) => inner,
            Err(fault) => {
                found.push(Found::fault(&folder, fault));
                continue;
            }
        };
        inner.reverse();
        folders.append(&mut inner);
    }
    if found.len() == before {
        let fault = io::Error::other("no file in this folder ends in .mrb");
        found.push(Found::fault(folder, fault));
    }
}

/// Whether a name ends in .mrb, in letters of any case.
fn is_pattern(path: &Path) -> bool {
    path.extension()
        .is_some_and(|end| end.eq_ignore_ascii_case("mrb"))
}

/// Adds the patterns of one folder and answers the folders in it.
fn list(folder: &Path, found: &mut Vec<Found>) -> io::Result<Vec<PathBuf>> {
    let mut entries = fs::read_dir(folder)?.collect::<io::Result<Vec<_>>>()?;
    entries.sort_by_key(|entry| entry.file_name());
    let mut folders = Vec::new();
    for entry in entries {
        let path = entry.path();
        if entry.file_type()?.is_dir() {
            folders.push(path);
        } else if is_pattern(&path) && path.is_file() {
            found.push(Found { path, fault: None });
        }
    }
    Ok(folders)
}
