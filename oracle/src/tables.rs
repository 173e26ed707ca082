//! The arithmetic on its own: one opcode over many bytes. What comes out in A and F is asked as a run over a list of cases, the rest a step at a time.
use crate::sample::Asked;
use crate::{run, step, State};

pub const BYTES: [u8; 9] = [0x00, 0x01, 0x0f, 0x10, 0x7f, 0x80, 0x99, 0x9a, 0xff];
pub const WORDS: [u16; 10] = [0x0000, 0x0001, 0x000f, 0x00f0, 0x00ff, 0x0fff, 0x1000, 0x7fff, 0x8000, 0xffff];

/// Where the list of cases stands: two bytes each, F and A.
const LIST: usize = 0x4000;
const CODE: usize = 0x0100;

fn memory(at: usize, code: &[u8]) -> Vec<u8> {
    let mut bytes = vec![0; 65536];
    bytes[at..at + code.len()].copy_from_slice(code);
    bytes
}

/// A and F after the code, asked by itself.
fn alone(code: &[u8], f: u8, a: u8) -> [u8; 2] {
    let mut state = State::default();
    (state.registers.a, state.registers.f) = (a, f);
    let after = step(&state, &memory(0, code)).state.registers;
    [after.f, after.a]
}

/// A run that pops one case after the other as F and A, runs the code on it and pushes what comes out to where the case stood; then it jumps to itself.
fn over(code: &[u8], cases: &[[u8; 2]]) -> (Asked, u16) {
    let back = -(code.len() as i8 + 9);
    // POP AF; the code; PUSH AF; ADD SP,+2; DEC BC; LD A,B; OR C; JR NZ to the POP; JR to itself
    let looped = [&[0xf1], code, &[0xf5, 0xe8, 0x02, 0x0b, 0x78, 0xb1, 0x20, back as u8, 0x18, 0xfe]].concat();
    let mut bytes = memory(CODE, &looped);
    bytes[LIST..LIST + 2 * cases.len()].copy_from_slice(&cases.concat());
    let mut state = State::default();
    let r = &mut state.registers;
    (r.b, r.c, r.sp, r.pc) = ((cases.len() >> 8) as u8, cases.len() as u8, LIST as u16, CODE as u16);
    let budget = 8 * cases.len() as u16 + 1;
    // the run asks what the steps alone ask
    let left = run(&state, &bytes, budget);
    let wanted: Vec<u8> = cases.iter().flat_map(|&[f, a]| alone(code, f, a)).collect();
    assert_eq!((left.outcome, &left.bus.bytes[LIST..LIST + wanted.len()]), (1, &wanted[..]), "a run over a list of cases");
    (Asked { state, bytes }, budget)
}

fn pairs(flags: impl Iterator<Item = u8>, values: impl Iterator<Item = u8> + Clone) -> Vec<[u8; 2]> {
    flags.flat_map(|f| values.clone().map(move |a| [f * 16, a])).collect()
}

/// The runs whose answers are A and F: 9,616 cases.
pub fn lists() -> Vec<(Asked, u16)> {
    let mut all = Vec::new();
    // DAA: N, H and C counting up (Z clear), and within it A from 0 to FF
    all.push(over(&[0x27], &pairs(0..8, 0..=255)));
    // RLCA RRCA RLA RRA DAA CPL SCF CCF: each F, and within it each edge as A
    for op in 0..8 {
        all.push(over(&[op * 8 + 7], &pairs(0..16, BYTES.into_iter())));
    }
    // ADD ADC SUB SBC AND XOR OR CP with n8 at each edge: C clear and set, within it each edge as A
    for op in 0..8 {
        for x in BYTES {
            all.push(over(&[0xc6 + op * 8, x], &pairs(0..2, BYTES.into_iter())));
        }
    }
    // RLC RRC RL RR SLA SRA SWAP SRL of A: C clear and set, within it each byte
    for op in 0..8 {
        all.push(over(&[0xcb, op * 8 + 7], &pairs(0..2, 0..=255)));
    }
    // INC A and DEC A: C clear and set, within it each byte
    for op in [0x3c, 0x3d] {
        all.push(over(&[op], &pairs(0..2, 0..=255)));
    }
    all
}

fn alike(code: &[u8], set: impl Fn(&mut State)) -> Asked {
    let mut state = State::default();
    set(&mut state);
    Asked { state, bytes: memory(0, code) }
}

/// The steps whose answers are words, 290 of them: ADD HL,SP, with Z clear and set, each edge as HL, within it each edge as SP; LD HL,SP+e8, each edge as SP, within it each edge as e8.
pub fn words() -> Vec<Asked> {
    let mut all = Vec::new();
    for zero in 0..2 {
        for x in WORDS {
            for y in WORDS {
                all.push(alike(&[0x39], |s| {
                    let r = &mut s.registers;
                    (r.h, r.l, r.sp, r.f) = ((x >> 8) as u8, x as u8, y, zero * 128)
                }));
            }
        }
    }
    for x in WORDS {
        for e in BYTES {
            all.push(alike(&[0xf8, e], |s| (s.registers.sp, s.registers.f) = (x, 0xf0)));
        }
    }
    all
}
