// SPDX-License-Identifier: MIT
//! "Rows to be worked" of docs/01-scope.md, on the linked core.

#![cfg(feature = "alloc")]

use phkarotuk::{screen, Cpu, HaltMode, InterruptType, Memory, Model, Outcome, Refusal, ScreenRefusal};

const H: u8 = 0x20;
const C: u8 = 0x10;

/// A DMG at power-on, its PC at `pc`, where the bytes stand.
fn at(pc: u16, bytes: &[u8]) -> (Cpu, Memory) {
    let mut memory = Memory::new();
    memory[usize::from(pc)..usize::from(pc) + bytes.len()].copy_from_slice(bytes);
    let mut cpu = Cpu::dmg();
    cpu.registers.pc = pc;
    (cpu, memory)
}

/// The operation and DAA: A and the carry after both.
fn decimal(a: u8, f: u8, operation: [u8; 2]) -> (u8, bool) {
    let (mut cpu, mut memory) = at(0xC000, &[operation[0], operation[1], 0x27]);
    cpu.registers.a = a;
    cpu.registers.f = f;
    let answer = cpu.run(&mut memory, 2);
    assert_eq!((answer.outcome, answer.steps, cpu.registers.pc), (Outcome::Normal, 2, 0xC003));
    (cpu.registers.a, cpu.registers.f & C != 0)
}

#[test]
fn packed_decimal() {
    assert_eq!(decimal(0x45, 0, [0xC6, 0x38]), (0x83, false));
    assert_eq!(decimal(0x99, C, [0xCE, 0x99]), (0x99, true));
    assert_eq!(decimal(0x00, 0, [0xD6, 0x01]), (0x99, true));
}

#[test]
fn add_sp() {
    let (mut cpu, mut memory) = at(0xC000, &[0xE8, 0x01]);
    cpu.registers.sp = 0x00FF;
    let answer = cpu.step(&mut memory);
    assert_eq!((cpu.registers.sp, cpu.registers.f, answer.m_cycles), (0x0100, H | C, 4));
}

#[test]
fn ld_hl_sp() {
    let (mut cpu, mut memory) = at(0xC000, &[0xF8, 0xFF]);
    cpu.registers.sp = 0x0000;
    let answer = cpu.step(&mut memory);
    assert_eq!((cpu.registers.h, cpu.registers.l, cpu.registers.f, answer.m_cycles), (0xFF, 0xFF, 0, 3));
}

#[test]
fn ei_then_an_illegal_opcode() {
    let (mut cpu, mut memory) = at(0xC000, &[0xFB, 0xD3]);
    assert_eq!(cpu.step(&mut memory).outcome, Outcome::Normal);
    assert!(cpu.ei_latch && !cpu.ime);
    let answer = cpu.step(&mut memory);
    assert_eq!((answer.outcome, answer.steps, answer.m_cycles), (Outcome::Refused(Refusal::IllegalOpcode), 1, 1));
    assert_eq!((cpu.registers.pc, cpu.ime, cpu.ei_latch), (0xC001, true, false));
}

/// IME set, IE=01, IF=01: one step.
fn dispatch(sp: u16, pc: u16) -> (Cpu, Memory, phkarotuk::Answer) {
    let (mut cpu, mut memory) = at(pc, &[]);
    cpu.ime = true;
    cpu.registers.sp = sp;
    memory[0xFFFF] = 1;
    memory[0xFF0F] = 1;
    let answer = cpu.step(&mut memory);
    (cpu, memory, answer)
}

#[test]
fn a_cancelled_interrupt() {
    let (cpu, memory, answer) = dispatch(0x0000, 0x1234);
    assert_eq!((memory[0xFFFF], memory[0xFFFE], memory[0xFF0F]), (0x12, 0x34, 0x01));
    assert_eq!((cpu.registers.pc, cpu.registers.sp), (0x0000, 0xFFFE));
    assert_eq!((answer.outcome, answer.m_cycles), (Outcome::Normal, 5));
}

#[test]
fn an_interrupt_that_its_own_push_allows() {
    let (cpu, memory, answer) = dispatch(0x0000, 0x0134);
    assert_eq!((cpu.registers.pc, memory[0xFF0F]), (0x0040, 0x00));
    assert_eq!(answer.outcome, Outcome::RunningInterrupt(InterruptType::Vblank));
}

#[test]
fn each_interrupt_goes_to_its_vector() {
    assert_eq!(InterruptType::ALL.len(), 5);
    for (&interrupt, vector) in InterruptType::ALL.iter().zip([0x40, 0x48, 0x50, 0x58, 0x60]) {
        let (mut cpu, mut memory) = at(0xC000, &[]);
        cpu.ime = true;
        memory[0xFFFF] = 0x1F;
        memory[0xFF0F] = 1 << interrupt.number();
        let answer = cpu.step(&mut memory);
        assert_eq!((answer.outcome, cpu.registers.pc, memory[0xFF0F]), (Outcome::RunningInterrupt(interrupt), vector, 0));
    }
}

#[test]
fn the_low_byte_lands_on_if() {
    let (cpu, memory, _) = dispatch(0xFF11, 0x1234);
    assert_eq!((cpu.registers.pc, memory[0xFF0F]), (0x0040, 0x34));
}

#[test]
fn halt_bug_before_cb() {
    let (mut cpu, mut memory) = at(0xC000, &[0xCB]);
    cpu.halt = HaltMode::HaltBug;
    cpu.registers.e = 0x00;
    let answer = cpu.step(&mut memory);
    assert_eq!((cpu.registers.e, cpu.registers.pc, answer.m_cycles), (0x02, 0xC001, 2));
    assert_eq!(cpu.halt, HaltMode::NotHalting);
}

#[test]
fn pop_af() {
    let (mut cpu, mut memory) = at(0xC000, &[0xF1, 0xFF, 0xFF]);
    cpu.registers.sp = 0xC001;
    cpu.step(&mut memory);
    assert_eq!((cpu.registers.f, cpu.registers.a), (0xF0, 0xFF));
}

#[test]
fn a_woken_call_on_a_cgb() {
    let (mut cpu, mut memory) = at(0xC000, &[0xCD, 0x00, 0xD0]);
    cpu.dmg = false;
    cpu.halt = HaltMode::HaltNoRunInterrupt;
    memory[0xFFFF] = 1;
    memory[0xFF0F] = 1;
    let answer = cpu.step(&mut memory);
    assert_eq!((answer.m_cycles, cpu.registers.pc), (8, 0xD000));
}

#[test]
fn windows_that_pass() {
    for (bytes, marks) in [(&[0xC9][..], &[true][..]), (&[0x18, 0xFE], &[true, false])] {
        let (_, memory) = at(0xC000, bytes);
        let last = 0xC000 + bytes.len() as u16 - 1;
        let screened = screen(&memory, 0xC000, last).expect("the document lets it pass");
        assert_eq!(screened.marks, marks);
        assert_eq!(screened.starts().collect::<Vec<_>>(), [0xC000]);
    }
}

#[test]
fn windows_that_are_refused() {
    use ScreenRefusal::{FallsThrough, ForbiddenOpcode, JumpUnmarked, PastTheEnd};
    let rows: [(&[u8], ScreenRefusal); 5] =
        [(&[0x00], FallsThrough), (&[0x20, 0x00], FallsThrough), (&[0x18, 0xFF], JumpUnmarked), (&[0xCB], PastTheEnd), (&[0x76], ForbiddenOpcode)];
    for (bytes, refusal) in rows {
        let (_, memory) = at(0xC000, bytes);
        let last = 0xC000 + bytes.len() as u16 - 1;
        let refused = screen(&memory, 0xC000, last).expect_err("the document refuses it");
        assert_eq!((refused.refusal, refused.address), (refusal, Some(0xC000)), "{bytes:02X?}");
    }
}

#[test]
fn the_longest_window() {
    let mut memory = Memory::new();
    memory[0x0FFF] = 0xC9; // 4,095 NOPs and a RET
    assert!(screen(&memory, 0x0000, 0x0FFF).is_ok());
    memory[0x1000] = 0xC9;
    let refused = screen(&memory, 0x0000, 0x1000).expect_err("4,097 bytes");
    assert_eq!((refused.refusal, refused.address), (ScreenRefusal::WindowTooLong, None));
}

/// "Power-on from 000, with SP 0xFFFE and PC 0x0100", and "The state without a boot skip has every register 0"
#[test]
fn power_on() {
    let rows = [
        (Cpu::dmg(), [0x01B0, 0x0013, 0x00D8, 0x014D, 0xFFFE, 0x0100], true),
        (Cpu::cgb(), [0x1180, 0x0000, 0xFF56, 0x000D, 0xFFFE, 0x0100], false),
        (Cpu::cgb_dmg(), [0x1180, 0x0000, 0x0008, 0x007C, 0xFFFE, 0x0100], false),
        (Cpu::power_on(Model::Zero), [0; 6], true),
        (Cpu::default(), [0; 6], false),
    ];
    for (cpu, [af, bc, de, hl, sp, pc], dmg) in rows {
        let r = cpu.registers;
        let pairs = [[r.a, r.f], [r.b, r.c], [r.d, r.e], [r.h, r.l]].map(u16::from_be_bytes);
        assert_eq!((pairs, r.sp, r.pc), ([af, bc, de, hl], sp, pc));
        assert_eq!((cpu.ime, cpu.ei_latch, cpu.halt, cpu.stopped, cpu.hdma, cpu.dmg), (false, false, HaltMode::NotHalting, false, false, dmg));
        assert_eq!(cpu.to_block()[18..], [0; 6]);
    }
}
