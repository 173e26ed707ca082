// SPDX-License-Identifier: MIT
//! What needs no allocation: it is the same with and without the crate's features.

use phkarotuk::{blocks, screen_into, version, Cpu, Outcome, Refusal, ScreenRefusal, VERSION};

/// The archive is of the crate's build: the same library, for the same document.
#[test]
fn one_build() {
    assert_eq!(version(), VERSION);
    assert_eq!(version().to_string(), format!("{}, document {:08x}", env!("CARGO_PKG_VERSION"), VERSION.document));
}

/// "A=45 ADD 38, DAA: 83, C clear"; "18 FE passes, marks 1 0"; "76: 7"
#[test]
fn on_lent_bytes() {
    let mut memory = [0; blocks::MEMORY_SIZE];
    memory[0x0100..0x0107].copy_from_slice(&[0x3E, 0x45, 0xC6, 0x38, 0x27, 0x18, 0xFE]);
    let mut cpu = Cpu::dmg();
    let answer = cpu.run(&mut memory, 1000);
    assert_eq!((answer.outcome, answer.steps, cpu.registers.a, cpu.registers.f & 0x10), (Outcome::InfiniteLoop, 4, 0x83, 0));

    let mut marks = [0xEE; 2];
    assert_eq!(screen_into(&memory, 0x0105, 0x0106, &mut marks), Ok(()));
    assert_eq!(marks, [1, 0]);
    memory[0x0106] = 0x76;
    let refused = screen_into(&memory, 0x0106, 0x0106, &mut marks[..1]).expect_err("a HALT");
    assert_eq!((refused.refusal, refused.address, marks), (ScreenRefusal::ForbiddenOpcode, Some(0x0106), [0, 0]));
    let refused = screen_into(&memory, 0x0106, 0x0106, &mut marks).expect_err("a mark too many");
    assert_eq!((refused.refusal, refused.address), (ScreenRefusal::MarksLength, None));
}

/// Each refusal says its number, "When the core says no" of docs/01-scope.md.
#[test]
fn numbers_and_words() {
    assert_eq!(Refusal::ALL.iter().map(|refusal| refusal.number()).collect::<Vec<_>>(), [1, 2, 3]);
    assert_eq!(ScreenRefusal::ALL.iter().map(|refusal| refusal.number()).collect::<Vec<_>>(), [1, 4, 5, 6, 7, 8, 9, 10]);
    assert_eq!(Refusal::IllegalOpcode.to_string(), "refusal 3: illegal opcode");
}
