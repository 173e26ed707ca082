//! Plain memory for speed: 65,536 bytes and a count of M-cycles, as the document describes it.
use crate::cpu::CpuBusProvider;
use crate::memory::InterruptType;

pub struct FlatBus {
    pub bytes: Box<[u8; 65536]>,
    pub cycles: u32,
    pub stopped: bool,
    pub hdma: bool,
}

impl FlatBus {
    /// "byte 0xFF0F AND byte 0xFFFF AND 0x1F; the lowest set bit wins"
    #[inline]
    fn pending(&self) -> Option<InterruptType> {
        let waiting = self.bytes[0xff0f] & self.bytes[0xffff] & 0x1f;
        if waiting == 0 {
            return None;
        }
        InterruptType::try_from(waiting.trailing_zeros() as u8).ok()
    }
}

impl CpuBusProvider for FlatBus {
    #[inline]
    fn read(&mut self, addr: u16) -> u8 {
        self.cycles = self.cycles.wrapping_add(1);
        self.bytes[addr as usize]
    }

    #[inline]
    fn write(&mut self, addr: u16, data: u8) {
        self.cycles = self.cycles.wrapping_add(1);
        self.bytes[addr as usize] = data;
    }

    fn take_next_interrupt(&mut self) -> Option<InterruptType> {
        let taken = self.pending()?;
        self.bytes[0xff0f] &= !(1 << taken as u8);
        Some(taken)
    }

    #[inline]
    fn peek_next_interrupt(&mut self) -> Option<InterruptType> {
        self.pending()
    }

    #[inline]
    fn is_hdma_running(&mut self) -> bool {
        self.hdma
    }

    fn enter_stop_mode(&mut self) {
        self.stopped = true;
    }

    #[inline]
    fn stopped(&self) -> bool {
        self.stopped
    }

    fn trigger_write_oam_bug(&mut self, _addr: u16) {}

    fn trigger_read_write_oam_bug(&mut self, _addr: u16) {}

    #[inline]
    fn read_no_oam_bug(&mut self, addr: u16) -> u8 {
        self.read(addr)
    }
}
