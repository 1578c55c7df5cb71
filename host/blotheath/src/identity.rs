//! What this build is: the program's version, the commit and the kit it was made from, and the archive it is linked with.
//!
//! build.rs sets what is read here, each part to nothing where it is not known.

/// What tells one build from another; a part that the build did not know is none.
#[derive(Debug, Clone, Copy, PartialEq, Eq)]
pub struct Identity {
    pub version: &'static str,
    /// The commit of the sources; `-changed` stands behind it where they are not those of the commit.
    pub commit: Option<&'static str>,
    /// The kit that proved the archive.
    pub kit: Option<&'static str>,
    /// The SHA-256 of the archive, in hexadecimal digits.
    pub archive: Option<&'static str>,
}

/// The identity of this build.
pub const IDENTITY: Identity = Identity {
    version: env!("CARGO_PKG_VERSION"),
    commit: known(env!("BLOTHEATH_COMMIT")),
    kit: known(env!("BLOTHEATH_KIT")),
    archive: known(env!("BLOTHEATH_ARCHIVE_DIGEST")),
};

/// Whether the answers are those of the archive that was proved.
pub const PROVED: bool = known(env!("BLOTHEATH_PROVED")).is_some();

/// Why the answers are not those of the archive that was proved.
pub const DOUBT: Option<&str> = match (PROVED, cfg!(feature = "model")) {
    (true, _) => None,
    (false, true) => Some("it asks a plain model of the format instead of the proved archive"),
    (false, false) => Some("its archive libblotheath.a is not known to be the one that was proved"),
};

const fn known(part: &'static str) -> Option<&'static str> {
    match part.is_empty() {
        true => None,
        false => Some(part),
    }
}
