// SPDX-License-Identifier: MIT
//! A tour: power-on, a run, a routine that passes the screen, one that does not. `cargo run --example tour`

use phkarotuk::{screen, Cpu, Memory};

fn main() {
    let mut memory = Memory::new();
    // LD A,45  ADD A,38  DAA  JR to itself
    memory[0x0100..0x0107].copy_from_slice(&[0x3E, 0x45, 0xC6, 0x38, 0x27, 0x18, 0xFE]);
    println!("archive: {}", phkarotuk::version());
    let mut cpu = Cpu::dmg();
    println!("power-on: SP={:04X} PC={:04X}", cpu.registers.sp, cpu.registers.pc);
    let answer = cpu.run(&mut memory, 1000);
    println!("45 + 38 = {:02X}: {:?} after {} steps, {} M-cycles", cpu.registers.a, answer.outcome, answer.steps, answer.m_cycles);
    for last in [0x0106, 0x0104] {
        match screen(&memory, 0x0100, last) {
            Ok(passed) => println!("0100-{last:04X} passes; starts {:04X?}", passed.starts().collect::<Vec<_>>()),
            Err(refused) => println!("0100-{last:04X}: {refused}"),
        }
    }
}
