//! Which steps are asked: at least four for each opcode, and the cases that the document singles out.
use crate::State;

/// Numbers that look random and are the same on every run (xorshift).
pub struct Chance(u64);

impl Chance {
    pub fn new(seed: u64) -> Self {
        Chance(0x9e37_79b9_7f4a_7c15 ^ seed.wrapping_mul(0x2545_f491_4f6c_dd1d))
    }

    pub fn next(&mut self) -> u64 {
        self.0 ^= self.0 << 13;
        self.0 ^= self.0 >> 7;
        self.0 ^= self.0 << 17;
        self.0
    }

    pub fn below(&mut self, n: u64) -> u64 {
        (self.next() >> 16) % n
    }

    pub fn one_in(&mut self, n: u64) -> bool {
        self.below(n) == 0
    }

    pub fn of<A: Copy>(&mut self, choices: &[A]) -> A {
        choices[self.below(choices.len() as u64) as usize]
    }

    /// half of them at an edge
    pub fn byte(&mut self) -> u8 {
        if self.one_in(2) { self.of(&crate::tables::BYTES) } else { self.below(256) as u8 }
    }

    pub fn word(&mut self) -> u16 {
        u16::from_be_bytes([self.byte(), self.byte()])
    }
}

/// around the wrap, and around the bytes that say which interrupts wait
const PLACES: [u16; 12] = [0x0000, 0x0001, 0x0002, 0xff0e, 0xff0f, 0xff10, 0xff11, 0xff12, 0xfffd, 0xfffe, 0xffff, 0x00ff];

/// A step that is asked: the state, and the bytes that are not 0.
pub struct Asked {
    pub state: State,
    pub bytes: Vec<u8>,
}

/// Any registers, with bytes wherever an instruction may look.
pub fn anything(g: &mut Chance) -> Asked {
    let mut s = State::default();
    let r = &mut s.registers;
    for place in [&mut r.a, &mut r.b, &mut r.c, &mut r.d, &mut r.e, &mut r.h, &mut r.l] {
        *place = g.byte();
    }
    r.f = (g.below(16) * 16) as u8;
    r.sp = if g.one_in(2) { g.of(&PLACES) } else { g.word() };
    r.pc = if g.one_in(4) { g.of(&PLACES) } else { g.word() };
    if g.one_in(8) {
        let hl = g.of(&[r.pc, r.sp, 0xff0f, 0xffff, 0x0000]);
        (r.h, r.l) = ((hl >> 8) as u8, hl as u8);
    }
    s.dmg = g.one_in(2);
    let bytes = (0..65536).map(|_| g.byte()).collect();
    Asked { state: s, bytes }
}

/// How the two bytes of the interrupts stand: none waits, or at least one does.
pub fn interrupts(g: &mut Chance, waiting: bool, asked: &mut Asked) {
    loop {
        let (flags, enable) = (g.byte(), g.byte());
        if (flags & enable & 0x1f != 0) == waiting {
            asked.bytes[0xff0f] = flags;
            asked.bytes[0xffff] = enable;
            return;
        }
    }
}

/// An opcode (from 0x100 on: after CB), in one of four ways, so that each condition is met and not met.
pub fn opcode(g: &mut Chance, op: u16, way: u8) -> Asked {
    loop {
        let mut asked = anything(g);
        let waiting = match way {
            // interrupts off: what waits is not looked at
            0 => g.one_in(2),
            // interrupts on, and none waits
            1 => {
                asked.state.ime = true;
                asked.state.latch = g.one_in(4);
                false
            }
            // woken with interrupts off, which the latch may end
            2 => {
                asked.state.halt = g.of(&[1, 2]);
                asked.state.latch = g.one_in(4);
                true
            }
            // HaltBug, under which the byte after CB is CB
            _ => {
                asked.state.halt = if op < 0x100 || op == 0x1cb { 3 } else { 0 };
                asked.state.ime = g.one_in(2);
                asked.state.latch = g.one_in(4);
                !asked.state.ime && g.one_in(2)
            }
        };
        interrupts(g, waiting, &mut asked);
        let f = &mut asked.state.registers.f;
        *f = *f & 0x60 | [0x00, 0x80, 0x10, 0x90][way as usize];
        let pc = asked.state.registers.pc;
        let (first, second) = if op < 0x100 { (op as u8, g.byte()) } else { (0xcb, op as u8) };
        asked.bytes[pc.wrapping_add(1) as usize] = second;
        asked.bytes[pc as usize] = first;
        // the code may stand on the bytes of the interrupts: again, if the step would not come to the opcode
        let waits = asked.bytes[0xff0f] & asked.bytes[0xffff] & 0x1f != 0;
        if !(asked.state.ime && waits) && !(way == 2 && !waits) {
            return asked;
        }
    }
}

/// Points 1 to 4 of a step: stopped, HDMA running, halted, interrupted.
pub fn before_the_fetch(g: &mut Chance) -> Vec<Asked> {
    let mut all = Vec::new();
    // stopped and HDMA running, whatever else holds
    for flags in 1..4u8 {
        for halt in 0..4u8 {
            let mut asked = anything(g);
            (asked.state.stopped, asked.state.hdma) = (flags & 1 != 0, flags & 2 != 0);
            (asked.state.halt, asked.state.ime, asked.state.latch) = (halt, g.one_in(2), g.one_in(2));
            let waiting = g.one_in(2);
            interrupts(g, waiting, &mut asked);
            all.push(asked);
        }
    }
    // both halts, with and without IME, the latch, a waiting interrupt, on both models
    for bits in 0..32u8 {
        for _ in 0..2 {
            let mut asked = anything(g);
            let bit = |i: u8| bits >> i & 1 == 1;
            asked.state.halt = 1 + (bits & 1);
            (asked.state.ime, asked.state.latch, asked.state.dmg) = (bit(1), bit(2), bit(3));
            interrupts(g, bit(4), &mut asked);
            all.push(asked);
        }
    }
    // taken: each interrupt, SP where the two bytes land on 0xFF0F and 0xFFFF, PC's bytes with few bits
    for sp in PLACES {
        for way in 0..10u8 {
            let mut asked = anything(g);
            asked.state.ime = true;
            asked.state.latch = g.one_in(4);
            asked.state.halt = if g.one_in(4) { 3 } else { 0 };
            asked.state.registers.sp = sp;
            interrupts(g, true, &mut asked);
            if way < 5 {
                asked.bytes[0xff0f] = g.of(&[1 << way, 0xff]);
                asked.bytes[0xffff] = 1 << way;
            }
            if way % 2 == 0 {
                let (high, low) = (g.below(32) as u8, g.below(32) as u8);
                asked.state.registers.pc = u16::from_be_bytes([high, low]);
            }
            all.push(asked);
        }
    }
    all
}

/// Points 5 to 7 where the opcode alone does not decide: HALT, EI, jumps to their own start, breakpoints, illegal opcodes.
pub fn after_the_fetch(g: &mut Chance) -> Vec<Asked> {
    let mut all = Vec::new();
    for code in [0x76, 0xfb, 0xf3, 0xd9, 0x10, 0x40, 0xd3, 0xed] {
        for bits in 0..16u8 {
            let mut asked = anything(g);
            let bit = |i: u8| bits >> i & 1 == 1;
            (asked.state.ime, asked.state.latch) = (bit(0), bit(1));
            asked.state.halt = if bit(2) { 3 } else { 0 };
            interrupts(g, bit(3) && !bit(0), &mut asked);
            let pc = g.of(&[0x0000, 0x1234, 0xc0fe, 0xfffe]);
            asked.state.registers.pc = pc;
            asked.bytes[pc as usize] = code;
            all.push(asked);
        }
    }
    // jumps to their own start and beside it: absolute ones by a distance from PC, relative ones by their operand
    let absolute = [(0xc3, 0), (0xc3, 1), (0xca, 0), (0xd2, 0), (0xcd, 0), (0xe9, 0), (0xe9, 1)];
    let relative = [(0x18, 0xfe), (0x18, 0xfd), (0x18, 0xff), (0x28, 0xfe), (0x30, 0xfe), (0x18, 0x7f), (0x18, 0x80)];
    for (halt, f) in [(0, 0x00), (0, 0xf0), (3, 0x00), (3, 0xf0)] {
        for (op, by) in absolute {
            let pc = g.of(&[0x0000, 0x1234, 0xfffd, 0xffff]);
            all.push(jump(g, pc, [op, low(pc + by), high(pc + by)], halt, f));
        }
        for (op, e) in relative {
            let pc = g.of(&[0x0000, 0x1234, 0xfffd, 0xffff]);
            all.push(jump(g, pc, [op, e, 0], halt, f));
        }
    }
    // under HaltBug a jump's own first byte is the low byte of its target
    all.push(jump(g, 0x12c3, [0xc3, 0x12, 0x00], 3, 0x00));
    all
}

fn low(w: u32) -> u8 {
    w as u8
}

fn high(w: u32) -> u8 {
    (w >> 8) as u8
}

/// A jump at PC with no interrupt waiting; HL is the jump's operand too.
fn jump(g: &mut Chance, pc: u32, code: [u8; 3], halt: u8, f: u8) -> Asked {
    let mut asked = anything(g);
    let r = &mut asked.state.registers;
    (r.pc, r.f, r.l, r.h) = (pc as u16, f, code[1], code[2]);
    asked.state.halt = halt;
    asked.bytes[0xff0f] = 0;
    for i in [2, 1, 0] {
        asked.bytes[(pc as usize + i) % 65536] = code[i];
    }
    asked
}

/// Runs: up to three instructions, then one that ends the run or does not, each with four budgets.
pub fn runs(g: &mut Chance) -> Vec<(Asked, u16)> {
    let mut all = Vec::new();
    // JR to itself, LD B,B, STOP, an illegal opcode, HALT, EI and HALT, JR back to the byte before
    let endings: [&[u8]; 7] = [&[0x18, 0xfe], &[0x40], &[0x10], &[0xe3], &[0x76], &[0xfb, 0x76], &[0x18, 0xfd]];
    for ending in endings {
        for before in 0..4u16 {
            for budget in [0, before, before + 1, 9] {
                let mut asked = anything(g);
                asked.state.ime = g.one_in(4);
                let waiting = g.one_in(2);
                interrupts(g, waiting, &mut asked);
                let start = g.of(&[0x0000, 0x1234, 0xfffd]);
                asked.state.registers.pc = start;
                let plain = (0..before).map(|_| g.of(&[0x04, 0x0d, 0x12, 0x22, 0x27, 0x3a, 0x86, 0x9a, 0xc5, 0xe1, 0xf1, 0xf3]));
                let code: Vec<u8> = plain.chain(ending.iter().copied()).collect();
                for (i, byte) in code.iter().enumerate() {
                    asked.bytes[(start as usize + i) % 65536] = *byte;
                }
                all.push((asked, budget));
            }
        }
    }
    all
}
