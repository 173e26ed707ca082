//! Ten million steps of a loop over loads, stores, ADD, JR and CALL, on one of the two cores.
use crate::{cpu::Cpu, flat::FlatBus, ours};
use std::io::Write;
use std::time::Instant;

/// The loop of request 10: loads, stores, ADD, JR and CALL.
pub fn program() -> Box<[u8; 65536]> {
    let mut m: Box<[u8; 65536]> = vec![0u8; 65536].into_boxed_slice().try_into().unwrap();
    let code: &[u8] = &[
        0x31, 0xfe, 0xdf, // 0100 LD SP,DFFE
        0x21, 0x00, 0xc0, // 0103 LD HL,C000
        0x11, 0x00, 0xc1, // 0106 LD DE,C100
        0x06, 0x40, //       0109 LD B,40
        0x2a, //             010B LD A,(HL+)
        0x80, //             010C ADD A,B
        0x12, //             010D LD (DE),A
        0x4f, //             010E LD C,A
        0xc6, 0x07, //       010F ADD A,07
        0xea, 0x00, 0xc2, // 0111 LD (C200),A
        0xcd, 0x00, 0x02, // 0114 CALL 0200
        0x05, //             0117 DEC B
        0x20, 0xf1, //       0118 JR NZ,010B
        0x18, 0xe7, //       011A JR 0103
    ];
    m[0x100..0x100 + code.len()].copy_from_slice(code);
    let sub: &[u8] = &[0xfa, 0x00, 0xc2, 0x81, 0x77, 0xc9]; // LD A,(C200); ADD A,C; LD (HL),A; RET
    m[0x200..0x200 + sub.len()].copy_from_slice(sub);
    m
}

pub fn start() -> ours::Block {
    let mut s = [0; 24];
    s[11] = 0x01; // PC 0100
    s[17] = 1; // DMG
    s
}

/// Nanoseconds for one screening of the longest window: 4,095 NOPs and a RET.
pub fn screening(out: &mut impl Write, times: u64) {
    let mut mem = vec![0u8; 65536];
    mem[0x4fff] = 0xc9;
    let mut marks = vec![0u8; 4096];
    let began = Instant::now();
    for _ in 0..times {
        assert_eq!(ours::screen(&mem, 0x4000, 0x4fff, &mut marks), (0, None));
    }
    writeln!(out, "screen: {} ns a window of 4,096 bytes", began.elapsed().as_nanos() / times as u128).unwrap();
}

/// One core's nanoseconds for so many steps, and a sum over its state and memory: both cores must come to the same.
pub fn one(out: &mut impl Write, which: &str, steps: u64) {
    let (mut block, mut bytes) = (start(), program());
    let began = Instant::now();
    let cycles: u64 = match which {
        "rust" => {
            let mut cpu = Cpu::from_block(&block);
            let mut bus = FlatBus { bytes, cycles: 0, stopped: false, hdma: false };
            for _ in 0..steps {
                cpu.next_instruction(&mut bus).expect("no illegal opcode");
            }
            cpu.to_block(&mut block);
            bytes = bus.bytes;
            bus.cycles as u64
        }
        "ours" => {
            let (mut left, mut cycles) = (steps, 0);
            while left > 0 {
                let answer = ours::run(&mut block, &mut bytes[..], left.min(65535) as u16);
                left -= answer.steps as u64;
                cycles += answer.cycles as u64;
            }
            cycles
        }
        // one call a step: docs/EMBEDDING.md says what that costs beside a run
        "calls" => (0..steps).map(|_| ours::step(&mut block, &mut bytes[..]).cycles as u64).sum(),
        other => panic!("judge time: {other:?} is none of 'rust', 'ours' and 'calls'"),
    };
    let took = began.elapsed().as_nanos();
    let sum = block[..18].iter().chain(bytes.iter()).fold(cycles % (1 << 32), |h, b| (h ^ *b as u64).wrapping_mul(0x100_0000_01b3));
    writeln!(out, "{took} {sum:016x}").unwrap();
}
