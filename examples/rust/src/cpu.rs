// SPDX-License-Identifier: MIT
//! The processor's state, and a step and a run of it.

use crate::{blocks, Answer, ONE_BUILD};
use core::{fmt, ops};

/// The registers.
#[derive(Clone, Copy, PartialEq, Eq, Debug, Default)]
#[allow(missing_docs)] // the names are the processor's
#[non_exhaustive]
pub struct Registers {
    pub a: u8,
    pub f: u8,
    pub b: u8,
    pub c: u8,
    pub d: u8,
    pub e: u8,
    pub h: u8,
    pub l: u8,
    pub sp: u16,
    pub pc: u16,
}

/// Bytes of the registers at the front of a state block.
const REGISTERS: usize = 12;
/// Where the reserved bytes begin.
const RESERVED: usize = 18;

impl Registers {
    /// From the front of a state block.
    pub(crate) fn read(block: &[u8]) -> Registers {
        let (sp, pc) = (blocks::word(block, 8), blocks::word(block, 10));
        Registers { a: block[0], f: block[1], b: block[2], c: block[3], d: block[4], e: block[5], h: block[6], l: block[7], sp, pc }
    }

    fn bytes(&self) -> [u8; REGISTERS] {
        let ([sp_low, sp_high], [pc_low, pc_high]) = (self.sp.to_le_bytes(), self.pc.to_le_bytes());
        [self.a, self.f, self.b, self.c, self.d, self.e, self.h, self.l, sp_low, sp_high, pc_low, pc_high]
    }
}

/// Whether the processor is halted, and how it wakes.
#[derive(Clone, Copy, PartialEq, Eq, Debug, Default)]
#[non_exhaustive]
pub enum HaltMode {
    /// Awake.
    #[default]
    NotHalting,
    /// HALT with IME set.
    HaltRunInterrupt,
    /// HALT with IME clear and nothing pending.
    HaltNoRunInterrupt,
    /// HALT with IME clear and an interrupt pending: the next opcode is read twice.
    HaltBug,
}

/// What is powered on.
#[derive(Clone, Copy, PartialEq, Eq, Debug)]
#[non_exhaustive]
pub enum Model {
    /// A DMG, as its boot ROM leaves it.
    Dmg = 0,
    /// A CGB with a CGB cartridge, as its boot ROM leaves it.
    Cgb = 1,
    /// A CGB with a DMG cartridge, as its boot ROM leaves it.
    CgbDmg = 2,
    /// A DMG without a boot skip: every register 0. ([`Cpu::default`] is that of a CGB.)
    Zero = 3,
}

/// The whole state. [`Cpu::default`] is the one without a boot skip, on a CGB.
#[derive(Clone, Copy, PartialEq, Eq, Debug, Default)]
#[non_exhaustive]
pub struct Cpu {
    /// The registers.
    pub registers: Registers,
    /// Interrupts on.
    pub ime: bool,
    /// EI has run: interrupts go on before the next instruction.
    pub ei_latch: bool,
    /// Halted, and how.
    pub halt: HaltMode,
    /// STOP sets it, the host clears it.
    pub stopped: bool,
    /// The host's: HDMA is running.
    pub hdma: bool,
    /// A DMG; else a CGB.
    pub dmg: bool,
    /// The end of the block: neither looked at nor changed by a step or a run, and carried along.
    reserved: [u8; blocks::STATE_SIZE - RESERVED],
}

/// A state as the bytes of `phkarotuk.h`; it is used as the slice that it derefs to.
#[derive(Clone, Copy, PartialEq, Eq, Debug)]
pub struct StateBlock([u8; blocks::STATE_SIZE]);

impl ops::Deref for StateBlock {
    type Target = [u8];
    fn deref(&self) -> &[u8] {
        &self.0
    }
}

impl ops::DerefMut for StateBlock {
    fn deref_mut(&mut self) -> &mut [u8] {
        &mut self.0
    }
}

/// What is no state block.
#[derive(Clone, Copy, PartialEq, Eq, Debug)]
#[non_exhaustive]
pub enum Malformed {
    /// Its length is not [`blocks::STATE_SIZE`] but this.
    Length(usize),
    /// The byte there is a flag that is neither 0 nor 1, or a halt mode above 3.
    Byte(usize),
}

impl Cpu {
    /// The state at power-on.
    ///
    /// # Panics
    ///
    /// Only if the archive is not of this crate's build ([`version`](crate::version)).
    pub fn power_on(model: Model) -> Cpu {
        let mut state = [0; blocks::STATE_SIZE];
        assert_eq!(blocks::power_on(&mut state, model as u16), 0, "{ONE_BUILD}");
        Cpu::from_block(&state).expect(ONE_BUILD)
    }

    /// As the boot ROM of a DMG leaves it.
    ///
    /// # Panics
    ///
    /// As [`Cpu::power_on`].
    pub fn dmg() -> Cpu {
        Cpu::power_on(Model::Dmg)
    }

    /// As the boot ROM of a CGB leaves it for a CGB cartridge.
    ///
    /// # Panics
    ///
    /// As [`Cpu::power_on`].
    pub fn cgb() -> Cpu {
        Cpu::power_on(Model::Cgb)
    }

    /// As the boot ROM of a CGB leaves it for a DMG cartridge.
    ///
    /// # Panics
    ///
    /// As [`Cpu::power_on`].
    pub fn cgb_dmg() -> Cpu {
        Cpu::power_on(Model::CgbDmg)
    }

    /// One step.
    ///
    /// # Panics
    ///
    /// Only if the archive is not of this crate's build ([`version`](crate::version)).
    pub fn step(&mut self, mem: &mut [u8]) -> Answer {
        self.by_block(|state, answer| blocks::step(state, mem, answer))
    }

    /// Up to `budget` steps; stops early only after InfiniteLoop, Breakpoint, Stopped or a refusal.
    ///
    /// # Panics
    ///
    /// Only if the archive is not of this crate's build ([`version`](crate::version)).
    pub fn run(&mut self, mem: &mut [u8], budget: u16) -> Answer {
        self.by_block(|state, answer| blocks::run(state, mem, budget, answer))
    }

    fn by_block(&mut self, call: impl FnOnce(&mut [u8], &mut [u8]) -> u16) -> Answer {
        let mut state = self.to_block();
        let mut answer = [0; blocks::ANSWER_SIZE];
        let number = call(&mut state, &mut answer);
        // no state of this type makes a malformed block: see `to_block`
        assert_ne!(number, blocks::MALFORMED, "{ONE_BUILD}");
        *self = Cpu::from_block(&state).expect(ONE_BUILD);
        Answer::read(&answer)
    }

    /// The state as the bytes of `phkarotuk.h`.
    pub fn to_block(&self) -> StateBlock {
        let mut block = [0; blocks::STATE_SIZE];
        block[..REGISTERS].copy_from_slice(&self.registers.bytes());
        let flags = [self.ime.into(), self.ei_latch.into(), self.halt as u8, self.stopped.into(), self.hdma.into(), self.dmg.into()];
        block[REGISTERS..RESERVED].copy_from_slice(&flags);
        block[RESERVED..].copy_from_slice(&self.reserved);
        StateBlock(block)
    }

    /// The state that the bytes hold.
    ///
    /// # Errors
    ///
    /// [`Malformed`] if they are no state block: their length, or the first byte that makes them malformed.
    pub fn from_block(block: &[u8]) -> Result<Cpu, Malformed> {
        if block.len() != blocks::STATE_SIZE {
            return Err(Malformed::Length(block.len()));
        }
        let flag = |at: usize| match block[at] {
            0 => Ok(false),
            1 => Ok(true),
            _ => Err(Malformed::Byte(at)),
        };
        let mut reserved = [0; blocks::STATE_SIZE - RESERVED];
        reserved.copy_from_slice(&block[RESERVED..]);
        Ok(Cpu {
            registers: Registers::read(block),
            ime: flag(12)?,
            ei_latch: flag(13)?,
            halt: match block[14] {
                0 => HaltMode::NotHalting,
                1 => HaltMode::HaltRunInterrupt,
                2 => HaltMode::HaltNoRunInterrupt,
                3 => HaltMode::HaltBug,
                _ => return Err(Malformed::Byte(14)),
            },
            stopped: flag(15)?,
            hdma: flag(16)?,
            dmg: flag(17)?,
            reserved,
        })
    }
}

impl fmt::Display for Malformed {
    fn fmt(&self, to: &mut fmt::Formatter<'_>) -> fmt::Result {
        match *self {
            Malformed::Length(length) => write!(to, "a state block has {} bytes, and this one {length}", blocks::STATE_SIZE),
            Malformed::Byte(at) => {
                let most = if at == 14 { 3 } else { 1 };
                write!(to, "byte {at} of the state block is above {most}: see phkarotuk.h for what stands there")
            }
        }
    }
}

#[cfg(feature = "std")]
impl std::error::Error for Malformed {}
