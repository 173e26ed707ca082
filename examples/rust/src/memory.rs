// SPDX-License-Identifier: MIT
//! Plain memory: 65,536 bytes.

use crate::blocks;
use alloc::{boxed::Box, vec};
use core::{fmt, ops};

/// The 65,536 bytes that the core runs on. It is used as the slice that it derefs to; the core takes any lent slice and
/// refuses one of another length ([`Refusal::MemoryLength`](crate::Refusal::MemoryLength)).
#[derive(Clone, PartialEq, Eq)]
pub struct Memory(Box<[u8]>);

/// An image that is not 65,536 bytes long.
#[derive(Clone, Copy, PartialEq, Eq, Debug)]
#[non_exhaustive]
pub struct WrongLength {
    /// How long it is.
    pub length: usize,
}

impl Memory {
    /// Every byte 0.
    pub fn new() -> Memory {
        Memory(vec![0; blocks::MEMORY_SIZE].into_boxed_slice())
    }

    /// A dump as it came.
    ///
    /// # Errors
    ///
    /// [`WrongLength`] if it is not 65,536 bytes long.
    pub fn from_image(image: &[u8]) -> Result<Memory, WrongLength> {
        if image.len() == blocks::MEMORY_SIZE {
            Ok(Memory(image.into()))
        } else {
            Err(WrongLength { length: image.len() })
        }
    }
}

impl Default for Memory {
    fn default() -> Memory {
        Memory::new()
    }
}

impl ops::Deref for Memory {
    type Target = [u8];
    fn deref(&self) -> &[u8] {
        &self.0
    }
}

impl ops::DerefMut for Memory {
    fn deref_mut(&mut self) -> &mut [u8] {
        &mut self.0
    }
}

impl fmt::Debug for Memory {
    fn fmt(&self, to: &mut fmt::Formatter<'_>) -> fmt::Result {
        write!(to, "Memory of {} bytes", self.len())
    }
}

impl fmt::Display for WrongLength {
    fn fmt(&self, to: &mut fmt::Formatter<'_>) -> fmt::Result {
        write!(to, "the image has {} bytes, not 65,536: take the dump again, of the whole address space", self.length)
    }
}

#[cfg(feature = "std")]
impl std::error::Error for WrongLength {}
