// SPDX-License-Identifier: MIT
//! The demo's image (demo/label.lst): each routine's verdict as the listing announces it, the drawn line against one drawn here, and what the listing says that a technician sees.

#![cfg(feature = "alloc")]

use phkarotuk::{screen, Cpu, Memory, Outcome, ScreenRefusal};

/// demo/label.bin of the repository; `examples/rust/run` compares the two.
fn image() -> Memory {
    Memory::from_image(include_bytes!("label.bin")).expect("demo/build writes 65,536 bytes")
}

/// A DMG whose PC is there, with a stack as main sets it.
fn started(pc: u16) -> Cpu {
    let mut cpu = Cpu::dmg();
    cpu.registers.pc = pc;
    cpu.registers.sp = 0xDFFE;
    cpu
}

/// Whether PC comes to an address within so many steps.
fn reaches(mut cpu: Cpu, address: u16, steps: u16) -> bool {
    let mut memory = image();
    (0..steps).any(|_| {
        cpu.step(&mut memory);
        cpu.registers.pc == address
    })
}

#[test]
fn the_renderer_passes() {
    let screened = screen(&image(), 0x0150, 0x017C).expect("draw_line passes");
    assert_eq!(screened.starts().count(), 34); // lines with bytes between draw_line and its RET
}

#[test]
fn each_broken_routine_is_refused_as_announced() {
    for (first, last, refusal, address) in [
        (0x0300, 0x030B, ScreenRefusal::ForbiddenOpcode, 0x0306),
        (0x7FF4, 0x7FFF, ScreenRefusal::PastTheEnd, 0x7FFF),
        (0x0320, 0x032A, ScreenRefusal::FallsThrough, 0x0329),
        (0x0340, 0x034C, ScreenRefusal::JumpUnmarked, 0x034A),
    ] {
        let refused = screen(&image(), first, last).expect_err("it is broken");
        assert_eq!((refused.refusal, refused.address), (refusal, Some(address)));
    }
}

#[test]
fn main_draws_the_line() {
    let (mut cpu, mut memory) = (Cpu::dmg(), image());
    let answer = cpu.run(&mut memory, 65535);
    assert_eq!((answer.outcome, cpu.registers.pc), (Outcome::InfiniteLoop, 0x010D));
    let mut drawn = image();
    for (column, character) in b"EDTA 0417".iter().enumerate() {
        for row in 0..8 {
            let glyph = 0x1000 + 8 * (usize::from(*character) - 0x20);
            drawn[0xC000 + 16 * row + column] = drawn[glyph + row];
        }
    }
    assert!(memory[0xC000..0xC080] == drawn[0xC000..0xC080], "the page");
    assert!(memory[..0xC000] == drawn[..0xC000], "nothing below the page is written");
}

#[test]
fn what_a_technician_sees() {
    // clear_page: the HALT, and PC stays behind it
    let (mut cpu, mut memory) = (started(0x0300), image());
    let answer = cpu.run(&mut memory, 65535);
    assert_eq!((answer.outcome, answer.steps, cpu.registers.pc), (Outcome::Halting, 65535, 0x0307));
    // rule: past its end into invert
    assert!(reaches(started(0x0320), 0x0340, 100));
    // invert: RST 38, and from there on into main
    assert!(reaches(started(0x0340), 0x0038, 10));
    assert!(reaches(started(0x0340), 0x0100, 300));
}

/// docs/EMBEDDING.md, "Reentrancy": calls on blocks of their own, at the same time.
#[test]
fn eight_at_once() {
    let draw = || {
        let (mut cpu, mut memory) = (Cpu::dmg(), image());
        let answer = cpu.run(&mut memory, 65535);
        (cpu, memory, answer, screen(&image(), 0x0150, 0x017C))
    };
    let alone = draw();
    let threads: Vec<_> = (0..8).map(|_| std::thread::spawn(move || (0..20).map(|_| draw()).collect::<Vec<_>>())).collect();
    for thread in threads {
        assert!(thread.join().expect("a thread ends").iter().all(|each| *each == alone));
    }
}
