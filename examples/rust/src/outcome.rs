// SPDX-License-Identifier: MIT
//! What the core answers, by the document's numbers.

use crate::{blocks, cpu::Registers, ONE_BUILD};
use core::fmt;

/// A kind of refusal: for each its case, the document's number and words ("When the core says no" of docs/01-scope.md).
macro_rules! refusals {
    ($(#[$about:meta])* $kind:ident { $($case:ident = $number:literal, $words:literal;)* }) => {
        $(#[$about])*
        #[derive(Clone, Copy, PartialEq, Eq, Debug)]
        #[allow(missing_docs)] // each case's words are in `Display`
        #[non_exhaustive]
        pub enum $kind {
            $($case = $number,)*
        }

        impl $kind {
            /// All of them, in the order of their numbers.
            pub const ALL: &'static [$kind] = &[$($kind::$case,)*];

            /// The document's number.
            pub fn number(self) -> u8 {
                self as u8
            }

            /// # Panics
            /// At a number that the document did not have when this was written: the archive is newer than this crate.
            pub(crate) fn numbered(number: u16) -> $kind {
                match $kind::ALL.iter().find(|refusal| u16::from(refusal.number()) == number) {
                    Some(refusal) => *refusal,
                    None => panic!("refusal {number} is not known here; {ONE_BUILD}"),
                }
            }
        }

        impl fmt::Display for $kind {
            fn fmt(&self, to: &mut fmt::Formatter<'_>) -> fmt::Result {
                let words = match self {
                    $($kind::$case => $words,)*
                };
                write!(to, "refusal {}: {words}", self.number())
            }
        }
    };
}

refusals! {
    /// Why a step or a run says no.
    Refusal {
        MemoryLength = 1, "memory is not 65,536 bytes long";
        LowBitsOfF = 2, "a low bit of F is set";
        IllegalOpcode = 3, "illegal opcode";
    }
}

refusals! {
    /// Why the screen says no.
    ScreenRefusal {
        MemoryLength = 1, "memory is not 65,536 bytes long";
        WindowReversed = 4, "the window's first address is above its last";
        WindowTooLong = 5, "the window is longer than 4,096 bytes";
        MarksLength = 6, "the marks are not as long as the window";
        ForbiddenOpcode = 7, "forbidden opcode";
        PastTheEnd = 8, "an instruction runs past the window's end";
        FallsThrough = 9, "the last instruction may fall through";
        JumpUnmarked = 10, "a jump to an address that is no instruction start";
    }
}

/// The five interrupts, by the names of the Rust; each goes to its vector.
#[derive(Clone, Copy, PartialEq, Eq, Debug)]
#[allow(missing_docs)] // the names say it
#[non_exhaustive]
pub enum InterruptType {
    Vblank,
    LcdStat,
    Timer,
    Serial,
    Joypad,
}

impl InterruptType {
    /// All of them, in the order of their numbers, 0 to 4.
    pub const ALL: &'static [InterruptType] =
        &[InterruptType::Vblank, InterruptType::LcdStat, InterruptType::Timer, InterruptType::Serial, InterruptType::Joypad];

    /// The document's number.
    pub fn number(self) -> u8 {
        self as u8
    }
}

/// How a step, or the last step of a run, ended.
#[derive(Clone, Copy, PartialEq, Eq, Debug)]
#[non_exhaustive]
pub enum Outcome {
    /// An instruction ran.
    Normal,
    /// A JP, JR or JP HL to its own start.
    InfiniteLoop,
    /// Halted, and no interrupt is pending.
    Halting,
    /// The host's flag is set.
    RunningHdma,
    /// After STOP, until the host clears the flag.
    Stopped,
    /// LD B,B, with the registers as they stand.
    Breakpoint(Registers),
    /// A run with budget 0.
    NothingRun,
    /// An interrupt was taken.
    RunningInterrupt(InterruptType),
    /// The core said no.
    Refused(Refusal),
}

/// What a step or a run answers.
#[derive(Clone, Copy, PartialEq, Eq, Debug)]
#[non_exhaustive]
pub struct Answer {
    /// How it ended.
    pub outcome: Outcome,
    /// Steps done.
    pub steps: u16,
    /// M-cycles spent.
    pub m_cycles: u32,
}

impl Answer {
    /// # Panics
    /// At a number that is no outcome of the document: the archive is newer than this crate.
    pub(crate) fn read(block: &[u8; blocks::ANSWER_SIZE]) -> Answer {
        let outcome = match blocks::word(block, 0) {
            0 => Outcome::Normal,
            1 => Outcome::InfiniteLoop,
            2 => Outcome::Halting,
            3 => Outcome::RunningHdma,
            4 => Outcome::Stopped,
            5 => Outcome::Breakpoint(Registers::read(&block[8..20])),
            6 => Outcome::NothingRun,
            number @ 8..=12 => Outcome::RunningInterrupt(InterruptType::ALL[usize::from(number - 8)]),
            number => Outcome::Refused(Refusal::numbered(number.wrapping_sub(16))),
        };
        Answer { outcome, steps: blocks::word(block, 2), m_cycles: blocks::count(block, 4) }
    }
}
