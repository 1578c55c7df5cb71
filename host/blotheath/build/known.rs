//! What is known of an archive.

use crate::sha256;

/// What is known of an archive; a part that is not known is empty.
#[derive(Debug, Default, PartialEq, Eq)]
pub struct Known {
    /// Its SHA-256.
    pub digest: String,
    /// The kit that proved it.
    pub kit: String,
    pub proved: bool,
}

/// What is known of an archive by its bytes and by what host/archive has told of the one that was proved.
pub fn known(archive: &[u8], told: &str) -> Known {
    let digest = sha256::digest(archive);
    let part = |name| told.lines().find_map(|line| line.strip_prefix(name));
    if part("archive ") != Some(&digest) {
        return Known {
            digest,
            ..Known::default()
        };
    }
    Known {
        digest,
        kit: part("kit ").unwrap_or("").to_owned(),
        proved: true,
    }
}
