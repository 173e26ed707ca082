//! The unmodified text of cpu.rs, and in its module the two functions that reach its private fields, as a state block has them.
include!("../mizu/cpu.rs");

impl Cpu {
    pub fn from_block(s: &[u8; 24]) -> Self {
        let mut cpu = Cpu::new(GameBoyConfig { is_dmg: s[17] != 0 });
        (cpu.reg_a, cpu.reg_b, cpu.reg_c, cpu.reg_d, cpu.reg_e) = (s[0], s[2], s[3], s[4], s[5]);
        (cpu.reg_h, cpu.reg_l) = (s[6], s[7]);
        cpu.reg_f = CpuFlags::from_bits_truncate(s[1]);
        cpu.reg_sp = u16::from_le_bytes([s[8], s[9]]);
        cpu.reg_pc = u16::from_le_bytes([s[10], s[11]]);
        cpu.ime = s[12] != 0;
        cpu.enable_interrupt_next = s[13] != 0;
        cpu.halt_mode = match s[14] {
            0 => HaltMode::NotHalting,
            1 => HaltMode::HaltRunInterrupt,
            2 => HaltMode::HaltNoRunInterrupt,
            _ => HaltMode::HaltBug,
        };
        cpu
    }

    pub fn to_block(&self, s: &mut [u8; 24]) {
        s[..12].copy_from_slice(&bytes_of(&self.registers()));
        s[12] = self.ime as u8;
        s[13] = self.enable_interrupt_next as u8;
        s[14] = match self.halt_mode {
            HaltMode::NotHalting => 0,
            HaltMode::HaltRunInterrupt => 1,
            HaltMode::HaltNoRunInterrupt => 2,
            HaltMode::HaltBug => 3,
        };
    }
}

pub fn bytes_of(r: &CpuRegisters) -> [u8; 12] {
    let (sp, pc) = (r.sp.to_le_bytes(), r.pc.to_le_bytes());
    [r.a, r.f, r.b, r.c, r.d, r.e, r.h, r.l, sp[0], sp[1], pc[0], pc[1]]
}
