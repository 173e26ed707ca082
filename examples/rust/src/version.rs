// SPDX-License-Identifier: MIT
//! Of which build the archive is.

use crate::blocks;
use core::fmt;

/// The numbers of a library and of the document that it keeps.
#[derive(Clone, Copy, PartialEq, Eq, Debug)]
#[non_exhaustive]
pub struct Version {
    /// Major, minor and patch, a byte each.
    pub library: u32,
    /// The first eight hexadecimal digits of the SHA-256 of docs/01-scope.md.
    pub document: u32,
}

/// What this crate was written for.
pub const VERSION: Version = Version { library: 0x00010000, document: 0x031bd0da };

/// What the linked archive says of itself. A host that takes its archive from elsewhere compares it with [`VERSION`].
pub fn version() -> Version {
    let both = blocks::version();
    Version { library: (both >> 32) as u32, document: both as u32 }
}

impl fmt::Display for Version {
    fn fmt(&self, to: &mut fmt::Formatter<'_>) -> fmt::Result {
        let [_, major, minor, patch] = self.library.to_be_bytes();
        write!(to, "{major}.{minor}.{patch}, document {:08x}", self.document)
    }
}
