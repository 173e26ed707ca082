//! The unmodified Rust core on plain memory. Writes its answers to a fixed sample of steps and runs, with those of the second screen, as the file that crates/replay replays.
#![allow(dead_code)]
mod bus;
mod record;
mod sample;
mod screens;
mod show;
mod stored;
mod tables;

include!("around.rs");

#[derive(Clone, Copy, PartialEq, Debug, Default)]
pub struct Registers {
    pub a: u8,
    pub f: u8,
    pub b: u8,
    pub c: u8,
    pub d: u8,
    pub e: u8,
    pub h: u8,
    pub l: u8,
    pub sp: u16,
    pub pc: u16,
}

#[derive(Clone, Copy, PartialEq, Debug, Default)]
pub struct State {
    pub registers: Registers,
    pub ime: bool,
    pub latch: bool,
    /// 0 NotHalting, 1 HaltRunInterrupt, 2 HaltNoRunInterrupt, 3 HaltBug
    pub halt: u8,
    pub stopped: bool,
    pub hdma: bool,
    pub dmg: bool,
}

// The text of cpu.rs as it is, and in its module the two functions that reach the private fields.
mod cpu {
    include!("../mizu/cpu.rs");

    impl Cpu {
        pub fn put(&mut self, s: &crate::State) {
            let r = s.registers;
            (self.reg_a, self.reg_b, self.reg_c, self.reg_d, self.reg_e) = (r.a, r.b, r.c, r.d, r.e);
            (self.reg_h, self.reg_l, self.reg_sp, self.reg_pc) = (r.h, r.l, r.sp, r.pc);
            self.reg_f = CpuFlags::from_bits(r.f).expect("a low bit of F is set");
            self.ime = s.ime;
            self.enable_interrupt_next = s.latch;
            self.halt_mode = match s.halt {
                0 => HaltMode::NotHalting,
                1 => HaltMode::HaltRunInterrupt,
                2 => HaltMode::HaltNoRunInterrupt,
                _ => HaltMode::HaltBug,
            };
            self.config.is_dmg = s.dmg;
        }

        pub fn get(&self, stopped: bool, hdma: bool) -> crate::State {
            let halt = match self.halt_mode {
                HaltMode::NotHalting => 0,
                HaltMode::HaltRunInterrupt => 1,
                HaltMode::HaltNoRunInterrupt => 2,
                HaltMode::HaltBug => 3,
            };
            let registers = crate::named(&self.registers());
            crate::State { registers, ime: self.ime, latch: self.enable_interrupt_next, halt, stopped, hdma, dmg: self.config.is_dmg }
        }
    }
}

fn named(r: &cpu::CpuRegisters) -> Registers {
    Registers { a: r.a, f: r.f, b: r.b, c: r.c, d: r.d, e: r.e, h: r.h, l: r.l, sp: r.sp, pc: r.pc }
}

/// What the Rust answers to one step, or to the last step of a run.
pub struct Answer {
    /// the document's number of the outcome; 255 if nothing was run
    pub outcome: u8,
    pub state: State,
    pub bus: bus::Bus,
    pub steps: u16,
}

pub fn step(state: &State, bytes: &[u8]) -> Answer {
    run(state, bytes, 1)
}

/// The Rust's steps, one after the other, under the document's rule for a run: "it stops early only after InfiniteLoop, Breakpoint, Stopped or a refusal".
pub fn run(state: &State, bytes: &[u8], budget: u16) -> Answer {
    let mut cpu = cpu::Cpu::new(GameBoyConfig { is_dmg: state.dmg });
    cpu.put(state);
    let mut bus = bus::Bus::new(bytes.to_vec(), state.stopped, state.hdma);
    let (mut outcome, mut steps) = (255, 0);
    while steps < budget && ![1, 4, 5, 19].contains(&outcome) {
        outcome = match cpu.next_instruction(&mut bus) {
            Ok(cpu::CpuState::Normal) => 0,
            Ok(cpu::CpuState::InfiniteLoop) => 1,
            Ok(cpu::CpuState::Halting) => 2,
            Ok(cpu::CpuState::RunningHDMA) => 3,
            Ok(cpu::CpuState::Stopped) => 4,
            Ok(cpu::CpuState::Breakpoint(shown)) => {
                // so a record takes them from the state after
                assert_eq!(named(&shown), cpu.get(bus.stopped, bus.hdma).registers);
                5
            }
            Ok(cpu::CpuState::RunningInterrupt(i)) => 8 + i as u8,
            Err(cpu::RunError::IllegalInstruction) => 16 + 3,
        };
        steps += 1;
    }
    Answer { outcome, state: cpu.get(bus.stopped, bus.hdma), bus, steps }
}

/// The states at power-on: without a boot skip, DMG, CGB with a CGB cartridge, CGB with a DMG cartridge.
pub fn power_on() -> Vec<State> {
    let (dmg, cgb) = (GameBoyConfig { is_dmg: true }, GameBoyConfig { is_dmg: false });
    let all = [
        cpu::Cpu::new(dmg),
        cpu::Cpu::new(cgb),
        cpu::Cpu::new_without_boot_rom(dmg, false),
        cpu::Cpu::new_without_boot_rom(cgb, true),
        cpu::Cpu::new_without_boot_rom(cgb, false),
    ];
    all.iter().map(|cpu| cpu.get(false, false)).collect()
}

/// oracle sample FILE [SEED]: writes the sample to the file. oracle show FILE: says in words what a sample holds.
/// Another seed gives other states for the same opcodes.
fn main() {
    let words: Vec<String> = std::env::args().skip(1).collect();
    let seed = words.get(2).map_or(1, |s| s.parse().unwrap_or_else(|_| usage()));
    let path = std::path::Path::new(words.get(1).unwrap_or_else(|| usage()));
    match words[0].as_str() {
        "sample" => stored::write(path, seed),
        "show" => show::all(path),
        _ => usage(),
    }
}

fn usage() -> ! {
    eprintln!("oracle: want 'sample FILE [SEED]' or 'show FILE'");
    std::process::exit(2)
}
