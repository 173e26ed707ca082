// SPDX-License-Identifier: MIT
//! The proved SM83 core, for Rust: [`Cpu::step`], [`Cpu::run`] and [`screen_into`] (or `screen`, with the feature `alloc`).
//!
//! The rules are those of docs/01-scope.md. Nothing here is unsafe to call: the one module that calls the archive is
//! [`blocks`], whose functions take slices, so that every pointer and length handed over is true.
//!
//! ```
//! use phkarotuk::{Cpu, Outcome};
//! let mut memory = vec![0; 65536];
//! memory[0x0100..0x0102].copy_from_slice(&[0x18, 0xFE]); // JR to itself
//! let mut cpu = Cpu::dmg();
//! assert_eq!(cpu.run(&mut memory, 1000).outcome, Outcome::InfiniteLoop);
//! ```
//!
//! # Features
//!
//! The crate is `no_std`. `std` (on by default) adds [`std::error::Error`](https://doc.rust-lang.org/std/error/trait.Error.html) to
//! what is refused, and `alloc`, which it includes, what allocates: `Memory` and `screen`.
//!
//! # Panics
//!
//! Calls panic only where the linked archive is not of this crate's build: at a number that this crate does not know, or at a block that the archive
//! finds malformed. [`version`] equal to [`VERSION`] rules it out.
#![no_std]
#![deny(missing_docs, unsafe_op_in_unsafe_fn)]
#![warn(clippy::missing_errors_doc, clippy::missing_panics_doc, clippy::exhaustive_enums, clippy::exhaustive_structs)]

#[cfg(feature = "alloc")]
extern crate alloc;
#[cfg(feature = "std")]
extern crate std;

pub mod blocks;
mod cpu;
#[cfg(feature = "alloc")]
mod memory;
mod outcome;
mod screen;
mod version;

pub use cpu::{Cpu, HaltMode, Malformed, Model, Registers, StateBlock};
#[cfg(feature = "alloc")]
pub use memory::{Memory, WrongLength};
pub use outcome::{Answer, InterruptType, Outcome, Refusal, ScreenRefusal};
#[cfg(feature = "alloc")]
pub use screen::{screen, Screened};
pub use screen::{screen_into, Refused};
pub use version::{version, Version, VERSION};

/// What is said where crate and archive do not belong together.
const ONE_BUILD: &str = "libphkarotuk.a is not of this crate's build: take the crate and the archive from one revision";
