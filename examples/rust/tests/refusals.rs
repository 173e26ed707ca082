// SPDX-License-Identifier: MIT
//! "When the core says no" of docs/01-scope.md, and the malformed blocks of docs/DECISIONS.md: the number, and that nothing is changed.

#![cfg(feature = "alloc")]

use phkarotuk::{blocks, screen, Cpu, Malformed, Memory, Model, Outcome, Refusal, ScreenRefusal};

/// A block of bytes that tells whether one of them was changed.
fn pattern(size: usize) -> Vec<u8> {
    (0..size).map(|i| (i * 7 + 3) as u8).collect()
}

#[test]
fn memory_of_another_length() {
    for size in [0, 1, 65535, 65537, 131072] {
        for budget in [0, 1, 9] {
            let (mut cpu, mut memory) = (Cpu::dmg(), pattern(size));
            cpu.registers.f = 0x0F; // 1 is tested before 2
            let before = cpu;
            let answer = cpu.run(&mut memory, budget);
            assert_eq!((answer.outcome, answer.steps, answer.m_cycles), (Outcome::Refused(Refusal::MemoryLength), 0, 0));
            assert_eq!((cpu, memory), (before, pattern(size)));
        }
        let refused = screen(&pattern(size), 2, 1).expect_err("1 is tested first");
        assert_eq!((refused.refusal, refused.address), (ScreenRefusal::MemoryLength, None));
    }
}

#[test]
fn a_low_bit_of_f() {
    for f in 1..=0x0F {
        for budget in [0, 1, 9] {
            let (mut cpu, mut memory) = (Cpu::dmg(), Memory::new());
            cpu.registers.f = f;
            let before = cpu;
            let answer = cpu.run(&mut memory, budget);
            assert_eq!((answer.outcome, answer.steps, answer.m_cycles), (Outcome::Refused(Refusal::LowBitsOfF), 0, 0));
            assert_eq!((cpu, memory), (before, Memory::new()));
        }
    }
}

#[test]
fn these_eleven_opcodes_and_no_others() {
    let eleven = [0xD3, 0xDB, 0xDD, 0xE3, 0xE4, 0xEB, 0xEC, 0xED, 0xF4, 0xFC, 0xFD];
    for opcode in 0..=255 {
        let (mut cpu, mut memory) = (Cpu::dmg(), Memory::new());
        memory[0x0100] = opcode;
        let refused = cpu.step(&mut memory).outcome == Outcome::Refused(Refusal::IllegalOpcode);
        assert_eq!(refused, eleven.contains(&opcode), "{opcode:02X}");
    }
}

#[test]
fn before_the_walk_the_marks_are_untouched() {
    let memory = Memory::new();
    for (first, last, marks, number) in [(5, 4, 0, 4), (0, 0x1000, 0x1001, 5), (0, 9, 9, 6), (0, 9, 11, 6)] {
        let (mut marks, mut answer) = (pattern(marks), [0xEE; 4]);
        let before = marks.clone();
        assert_eq!(blocks::screen(&memory, first, last, &mut marks, &mut answer), number);
        assert_eq!((answer, marks), ([number, 0, 0, 0], before));
    }
}

#[test]
fn after_the_walk_has_begun_the_marks_are_0() {
    let mut memory = Memory::new();
    for (bytes, number, address) in [([0x00, 0x76], 7, 0xC001), ([0x00, 0xCB], 8, 0xC001), ([0xC9, 0x00], 9, 0xC001), ([0x18, 0xFF], 10, 0xC000u16)] {
        memory[0xC000..0xC002].copy_from_slice(&bytes);
        let (mut marks, mut answer) = ([0xEE; 2], [0xEE; 4]);
        assert_eq!(blocks::screen(&memory, 0xC000, 0xC001, &mut marks, &mut answer), number);
        let [low, high] = address.to_le_bytes();
        assert_eq!((answer, marks), ([number, 1, low, high], [0; 2]));
    }
}

#[test]
fn a_malformed_block_changes_nothing() {
    let good = Cpu::dmg().to_block();
    let with = |at: usize, value: u8| {
        let mut block = good.to_vec();
        block[at] = value;
        block
    };
    let mut states: Vec<Vec<u8>> = [12, 13, 15, 16, 17].iter().flat_map(|&at| [2, 255].map(|value| with(at, value))).collect();
    states.extend([with(14, 4), with(14, 255), good[..23].to_vec(), [&good[..], &[0]].concat(), vec![]]);
    let tries = states.into_iter().map(|state| (state, 24)).chain([0, 23, 25].map(|answer| (good.to_vec(), answer)));
    for (state, answer_size) in tries {
        let (mut left, mut memory, mut answer) = (state.clone(), pattern(65536), pattern(answer_size));
        assert_eq!(blocks::step(&mut left, &mut memory, &mut answer), blocks::MALFORMED);
        assert_eq!(blocks::run(&mut left, &mut memory, 9, &mut answer), blocks::MALFORMED);
        assert!(left == state && memory == pattern(65536) && answer == pattern(answer_size));
    }
    for answer_size in [0, 3, 5, 24] {
        let (mut marks, mut answer) = (pattern(1), pattern(answer_size));
        assert_eq!(u16::from(blocks::screen(&pattern(65536), 0, 0, &mut marks, &mut answer)), blocks::MALFORMED);
        assert!(marks == pattern(1) && answer == pattern(answer_size));
    }
}

#[test]
fn reserved_bytes_are_kept() {
    let (mut block, mut memory) = (Cpu::dmg().to_block(), Memory::new());
    block[18..].copy_from_slice(&[1, 2, 3, 4, 5, 6]);
    let mut cpu = Cpu::from_block(&block).expect("any byte may be reserved");
    assert_eq!(cpu.run(&mut memory, 100).steps, 100);
    assert_eq!(cpu.to_block()[18..], [1, 2, 3, 4, 5, 6]);
}

#[test]
fn power_on_writes_all_or_nothing() {
    for model in [Model::Dmg, Model::Cgb, Model::CgbDmg, Model::Zero] {
        let mut block = pattern(24);
        assert_eq!(blocks::power_on(&mut block, model as u16), 0);
        assert_eq!(block, Cpu::power_on(model).to_block().to_vec());
    }
    for (size, model) in [(0, 0), (23, 0), (25, 0), (24, 4), (24, 256), (24, 65535)] {
        let mut block = pattern(size);
        assert_eq!((blocks::power_on(&mut block, model), block), (blocks::MALFORMED, pattern(size)));
    }
}

#[test]
fn what_the_wrapper_itself_refuses() {
    assert_eq!(Memory::from_image(&[0; 100]).expect_err("100 bytes").length, 100);
    let mut block = Cpu::dmg().to_block();
    assert_eq!(Cpu::from_block(&block), Ok(Cpu::dmg()));
    block[14] = 4;
    assert_eq!(Cpu::from_block(&block), Err(Malformed::Byte(14)));
    assert_eq!(Cpu::from_block(&block[..23]), Err(Malformed::Length(23)));
}
