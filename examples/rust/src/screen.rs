// SPDX-License-Identifier: MIT
//! The routine screen.

use crate::{blocks, ScreenRefusal, ONE_BUILD};
use core::fmt;

#[cfg(feature = "alloc")]
use alloc::{vec, vec::Vec};

/// A routine that passes: one mark for each byte of the window, `true` at an instruction start.
#[cfg(feature = "alloc")]
#[derive(Clone, PartialEq, Eq, Debug)]
#[non_exhaustive]
pub struct Screened {
    /// The window's first address.
    pub first: u16,
    /// A mark for each byte from there.
    pub marks: Vec<bool>,
}

#[cfg(feature = "alloc")]
impl Screened {
    /// The addresses of the instruction starts, ascending.
    pub fn starts(&self) -> impl Iterator<Item = u16> + '_ {
        (self.first..=u16::MAX).zip(&self.marks).filter(|(_, mark)| **mark).map(|(at, _)| at)
    }
}

/// Why a window does not pass, and the address that it is about if the walk had begun.
#[derive(Clone, Copy, PartialEq, Eq, Debug)]
#[non_exhaustive]
pub struct Refused {
    /// The document's reason.
    pub refusal: ScreenRefusal,
    /// The address that it is about.
    pub address: Option<u16>,
}

/// Screens the routine from `first` to `last`, both in it, with lent marks: one for each byte of the window, 1 at an instruction start and 0 elsewhere.
/// Memory is not changed.
///
/// # Errors
///
/// [`Refused`] with the document's reason. The marks are then all 0 if an address is named, and as they came if none is.
///
/// # Panics
///
/// Only if the archive is not of this crate's build ([`version`](crate::version)).
pub fn screen_into(mem: &[u8], first: u16, last: u16, marks: &mut [u8]) -> Result<(), Refused> {
    let mut answer = [0; blocks::SCREEN_SIZE];
    let number = blocks::screen(mem, first, last, marks, &mut answer);
    assert_ne!(u16::from(number), blocks::MALFORMED, "{ONE_BUILD}");
    if number == 0 {
        return Ok(());
    }
    let address = (answer[1] == 1).then(|| blocks::word(&answer, 2));
    Err(Refused { refusal: ScreenRefusal::numbered(number.into()), address })
}

/// Screens the routine from `first` to `last`, both in it. Memory is not changed.
///
/// Marks of the right length are made here, so refusal 6 does not occur ([`screen_into`] takes the caller's).
///
/// # Errors
///
/// [`Refused`] with the document's reason.
///
/// # Panics
///
/// Only if the archive is not of this crate's build ([`version`](crate::version)).
#[cfg(feature = "alloc")]
pub fn screen(mem: &[u8], first: u16, last: u16) -> Result<Screened, Refused> {
    // a reversed window is refused before its marks are looked at
    let mut marks = vec![0; usize::from(last.saturating_sub(first)) + 1];
    screen_into(mem, first, last, &mut marks)?;
    Ok(Screened { first, marks: marks.into_iter().map(|mark| mark == 1).collect() })
}

impl fmt::Display for Refused {
    fn fmt(&self, to: &mut fmt::Formatter<'_>) -> fmt::Result {
        match self.address {
            Some(address) => write!(to, "{} at {address:04X}", self.refusal),
            None => write!(to, "{}", self.refusal),
        }
    }
}

#[cfg(feature = "std")]
impl std::error::Error for Refused {}
