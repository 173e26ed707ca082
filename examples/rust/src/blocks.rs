// SPDX-License-Identifier: MIT
//! The archive's functions, on slices: blocks of bytes as `phkarotuk.h` lays them out.
//!
//! Each answers the document's number, or [`MALFORMED`] with nothing changed. The only unsafe code of the crate is here:
//! a slice is a true pointer with its true length, and `&mut` slices do not overlap, which is all that the archive asks.

/// Bytes of a state block.
pub const STATE_SIZE: usize = 24;
/// Bytes of the answer block of a step or a run.
pub const ANSWER_SIZE: usize = 24;
/// Bytes of the answer block of the screen.
pub const SCREEN_SIZE: usize = 4;
/// Bytes of the memory that a step, a run and the screen take.
pub const MEMORY_SIZE: usize = 65536;
/// The number for a block of the wrong length, a flag that is neither 0 nor 1, a halt mode above 3, or an unknown model.
pub const MALFORMED: u16 = 255;

mod archive {
    extern "C" {
        pub fn phk_version() -> u64;
        pub fn phk_power_on(state: *mut u8, state_size: usize, model: u16) -> u16;
        pub fn phk_run(state: *mut u8, state_size: usize, mem: *mut u8, mem_size: usize, budget: u16, answer: *mut u8, answer_size: usize) -> u16;
        pub fn phk_step(state: *mut u8, state_size: usize, mem: *mut u8, mem_size: usize, answer: *mut u8, answer_size: usize) -> u16;
        pub fn phk_screen(mem: *const u8, mem_size: usize, first: u16, last: u16, marks: *mut u8, marks_size: usize, answer: *mut u8, answer_size: usize)
            -> u8;
    }
}

/// The archive's version: the library's number in the upper 32 bits, the document's in the lower ([`crate::version`]).
pub fn version() -> u64 {
    // SAFETY: nothing is handed over
    unsafe { archive::phk_version() }
}

/// The whole state block at power-on of model 0 DMG, 1 CGB, 2 CGB with a DMG cartridge, or 3 every register 0, on a DMG.
pub fn power_on(state: &mut [u8], model: u16) -> u16 {
    // SAFETY: see the module's words
    unsafe { archive::phk_power_on(state.as_mut_ptr(), state.len(), model) }
}

/// Up to `budget` steps.
pub fn run(state: &mut [u8], mem: &mut [u8], budget: u16, answer: &mut [u8]) -> u16 {
    // SAFETY: see the module's words
    unsafe { archive::phk_run(state.as_mut_ptr(), state.len(), mem.as_mut_ptr(), mem.len(), budget, answer.as_mut_ptr(), answer.len()) }
}

/// A run of one step.
pub fn step(state: &mut [u8], mem: &mut [u8], answer: &mut [u8]) -> u16 {
    // SAFETY: see the module's words
    unsafe { archive::phk_step(state.as_mut_ptr(), state.len(), mem.as_mut_ptr(), mem.len(), answer.as_mut_ptr(), answer.len()) }
}

/// Screens the routine from `first` to `last`, both in it; `marks` has a byte for each byte of the window.
pub fn screen(mem: &[u8], first: u16, last: u16, marks: &mut [u8], answer: &mut [u8]) -> u8 {
    // SAFETY: see the module's words; phk_screen does not write to mem
    unsafe { archive::phk_screen(mem.as_ptr(), mem.len(), first, last, marks.as_mut_ptr(), marks.len(), answer.as_mut_ptr(), answer.len()) }
}

pub(crate) fn word(block: &[u8], at: usize) -> u16 {
    u16::from_le_bytes([block[at], block[at + 1]])
}

pub(crate) fn count(block: &[u8], at: usize) -> u32 {
    u32::from_le_bytes([block[at], block[at + 1], block[at + 2], block[at + 3]])
}
