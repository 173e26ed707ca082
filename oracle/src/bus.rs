//! Plain memory as the document describes it: 65,536 bytes, one M-cycle for a read, a write or an idle access.
use crate::cpu::CpuBusProvider;
use crate::memory::InterruptType;
use std::collections::BTreeSet;

#[derive(Clone, Copy, PartialEq, Debug)]
pub enum Access {
    /// an idle access is `read(0)`
    Read(u16),
    Write(u16, u8),
    /// a write that a take follows at once
    WriteAndTake(u16, u8),
}

pub struct Bus {
    pub bytes: Vec<u8>,
    pub stopped: bool,
    pub hdma: bool,
    pub accesses: Vec<Access>,
    /// the addresses whose bytes can have mattered
    pub looked: BTreeSet<u16>,
}

impl Bus {
    pub fn new(bytes: Vec<u8>, stopped: bool, hdma: bool) -> Self {
        Bus { bytes, stopped, hdma, accesses: Vec::new(), looked: BTreeSet::new() }
    }

    /// "byte 0xFF0F AND byte 0xFFFF AND 0x1F; the lowest set bit wins"
    fn pending(&self) -> Option<u8> {
        let waiting = self.bytes[0xff0f] & self.bytes[0xffff] & 0x1f;
        (0..5).find(|i| waiting >> i & 1 == 1)
    }
}

impl CpuBusProvider for Bus {
    fn read(&mut self, addr: u16) -> u8 {
        self.accesses.push(Access::Read(addr));
        self.looked.insert(addr);
        self.bytes[addr as usize]
    }

    fn write(&mut self, addr: u16, data: u8) {
        self.accesses.push(Access::Write(addr, data));
        self.bytes[addr as usize] = data;
    }

    /// "Taking it clears that bit alone at 0xFF0F"
    fn take_next_interrupt(&mut self) -> Option<InterruptType> {
        match self.accesses.pop() {
            Some(Access::Write(addr, data)) => self.accesses.push(Access::WriteAndTake(addr, data)),
            other => panic!("a take after {:?}", other),
        }
        let taken = self.pending()?;
        self.bytes[0xff0f] &= !(1 << taken);
        InterruptType::try_from(taken).ok()
    }

    fn peek_next_interrupt(&mut self) -> Option<InterruptType> {
        self.pending().and_then(|i| InterruptType::try_from(i).ok())
    }

    fn is_hdma_running(&mut self) -> bool {
        self.hdma
    }

    fn enter_stop_mode(&mut self) {
        self.stopped = true;
    }

    fn stopped(&self) -> bool {
        self.stopped
    }

    // "The two OAM-bug triggers do nothing on plain memory and cost nothing; `read_no_oam_bug` is an ordinary read there."
    fn trigger_write_oam_bug(&mut self, _addr: u16) {}

    fn trigger_read_write_oam_bug(&mut self, _addr: u16) {}

    fn read_no_oam_bug(&mut self, addr: u16) -> u8 {
        self.read(addr)
    }
}
