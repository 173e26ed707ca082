//! Random and exhaustive steps on both cores: registers, flags, IME, latch, halt mode, stopped, outcome, M-cycles and the whole of memory.
use crate::cpu::{bytes_of, Cpu, CpuState, RunError};
use crate::ours::{Answer, Block};
use crate::{flat::FlatBus, ours, windows};
use std::io::Write;

pub struct Rng(pub u64);
impl Rng {
    /// xorshift64*
    pub fn next(&mut self) -> u64 {
        self.0 ^= self.0 >> 12;
        self.0 ^= self.0 << 25;
        self.0 ^= self.0 >> 27;
        self.0.wrapping_mul(0x2545_f491_4f6c_dd1d) >> 8
    }
    pub fn below(&mut self, n: u64) -> u64 {
        self.next() % n
    }
    pub fn pick<T: Copy>(&mut self, from: &[T]) -> T {
        from[self.below(from.len() as u64) as usize]
    }
}

/// How many of each kind were compared, and how many differed.
pub struct Tally<'a, W: Write> {
    pub out: &'a mut W,
    pub compared: u64,
    pub differ: u64,
}
impl<W: Write> Tally<'_, W> {
    pub fn count(&mut self, same: bool, tell: impl FnOnce() -> String) {
        self.compared += 1;
        if !same {
            self.differ += 1;
            if self.differ <= 20 {
                writeln!(self.out, "differs: {}", tell()).unwrap();
            }
        }
    }
    pub fn say(&mut self, kind: &str, since: u64) {
        writeln!(self.out, "{kind}: {}", self.compared - since).unwrap();
    }
}

fn rust_step(cpu: &mut Cpu, bus: &mut FlatBus) -> (u16, [u8; 12]) {
    match cpu.next_instruction(bus) {
        Ok(CpuState::Normal) => (0, [0; 12]),
        Ok(CpuState::InfiniteLoop) => (1, [0; 12]),
        Ok(CpuState::Halting) => (2, [0; 12]),
        Ok(CpuState::RunningHDMA) => (3, [0; 12]),
        Ok(CpuState::Stopped) => (4, [0; 12]),
        Ok(CpuState::Breakpoint(shown)) => (5, bytes_of(&shown)),
        Ok(CpuState::RunningInterrupt(i)) => (8 + i as u16, [0; 12]),
        Err(RunError::IllegalInstruction) => (16 + 3, [0; 12]),
    }
}

/// The Rust's steps under the document's rule for a run: "it stops early only after InfiniteLoop, Breakpoint, Stopped or a refusal".
fn rust_run(block: &mut Block, bus: &mut FlatBus, budget: u16) -> Answer {
    let mut cpu = Cpu::from_block(block);
    (bus.stopped, bus.hdma, bus.cycles) = (block[15] != 0, block[16] != 0, 0);
    let mut answer = Answer { outcome: 6, steps: 0, cycles: 0, shown: [0; 12] };
    while answer.steps < budget && ![1, 4, 5, 19].contains(&answer.outcome) {
        (answer.outcome, answer.shown) = rust_step(&mut cpu, bus);
        answer.steps += 1;
    }
    cpu.to_block(block);
    block[15] = bus.stopped as u8;
    answer.cycles = bus.cycles;
    answer
}

/// Two memories that are kept equal, one for each core.
pub struct Bench {
    bus: FlatBus,
    mem: Box<[u8; 65536]>,
}
impl Bench {
    pub fn new(r: &mut Rng) -> Self {
        let mut bytes: Box<[u8; 65536]> = vec![0u8; 65536].into_boxed_slice().try_into().unwrap();
        bytes.iter_mut().for_each(|b| *b = r.next() as u8);
        let mem = bytes.clone();
        Bench { bus: FlatBus { bytes, cycles: 0, stopped: false, hdma: false }, mem }
    }
    pub fn put(&mut self, a: u16, v: u8) {
        self.bus.bytes[a as usize] = v;
        self.mem[a as usize] = v;
    }
    /// budget 0xffff_ffff stands for the single step
    pub fn compare<W: Write>(&mut self, t: &mut Tally<W>, state: &Block, budget: u32) {
        let (mut rust, mut core) = (*state, *state);
        let single = budget == u32::MAX;
        let want = rust_run(&mut rust, &mut self.bus, if single { 1 } else { budget as u16 });
        let got = if single { ours::step(&mut core, &mut self.mem[..]) } else { ours::run(&mut core, &mut self.mem[..], budget as u16) };
        let same = want == got && rust == core && self.bus.bytes == self.mem;
        let pc = u16::from_le_bytes([state[10], state[11]]) as usize;
        t.count(same, || {
            let op = [self.mem[pc], self.mem[(pc + 1) & 0xffff], self.mem[(pc + 2) & 0xffff]];
            format!("state {state:02x?} budget {budget} bytes at PC {op:02x?}\n  rust {want:?} {rust:02x?}\n  ours {got:?} {core:02x?}\n  memory {}", if self.bus.bytes == self.mem { "same" } else { "differs" })
        });
        if !same {
            self.mem = self.bus.bytes.clone();
        }
    }
}

const BYTES: [u8; 9] = [0x00, 0x01, 0x0f, 0x10, 0x7f, 0x80, 0x99, 0x9a, 0xff];
const WORDS: [u16; 12] = [0, 1, 2, 0xfffd, 0xfffe, 0xffff, 0xff0e, 0xff0f, 0xff10, 0xff11, 0xff12, 0x8000];

fn random_state(r: &mut Rng) -> Block {
    let mut s = [0u8; 24];
    for b in s[..12].iter_mut() {
        *b = if r.below(3) == 0 { r.pick(&BYTES) } else { r.next() as u8 };
    }
    s[1] &= 0xf0;
    if r.below(4) == 0 {
        s[8..10].copy_from_slice(&r.pick(&WORDS).to_le_bytes());
    }
    if r.below(4) == 0 {
        s[10..12].copy_from_slice(&r.pick(&WORDS).to_le_bytes());
    }
    let x = r.next();
    s[12] = (x & 1) as u8;
    s[13] = (x >> 1 & 3 == 0) as u8;
    s[14] = if x >> 3 & 3 == 0 { (x >> 5 & 3) as u8 } else { 0 };
    s[15] = (x >> 7 & 63 == 0) as u8;
    s[16] = (x >> 13 & 63 == 0) as u8;
    s[17] = (x >> 19 & 1) as u8;
    s[18..].copy_from_slice(&[0xa1, 0xa2, 0xa3, 0xa4, 0xa5, 0xa6]);
    s
}

/// All 512 opcodes in turn from random states, with pending interrupts one time in four.
fn random_steps<W: Write>(t: &mut Tally<W>, r: &mut Rng, steps: u64) {
    let mut b = Bench::new(r);
    for k in 0..steps {
        let s = random_state(r);
        let pc = u16::from_le_bytes([s[10], s[11]]);
        b.put(0xffff, r.next() as u8);
        b.put(0xff0f, if r.below(4) == 0 { r.next() as u8 } else { 0 });
        let op = (k % 512) as u16;
        if op < 256 {
            b.put(pc, op as u8);
        } else {
            b.put(pc, 0xcb);
            b.put(pc.wrapping_add(1), op as u8);
        }
        b.compare(t, &s, u32::MAX);
    }
}

/// Runs of many steps, with random budgets, 0 among them.
fn random_runs<W: Write>(t: &mut Tally<W>, r: &mut Rng, runs: u64) {
    let mut b = Bench::new(r);
    for _ in 0..runs {
        let s = random_state(r);
        let budget = match r.below(8) {
            0 => 0,
            1 => 65535,
            _ => r.below(300) as u32,
        };
        b.put(0xff0f, r.next() as u8 & 0x1f);
        b.compare(t, &s, budget);
    }
}

/// Every value of A, every operand and both carries for ADD ADC SUB SBC AND XOR OR CP; all of DAA; every A and F for each one-byte opcode on registers and for each opcode after CB.
fn exhaustive<W: Write>(t: &mut Tally<W>, r: &mut Rng) {
    let mut b = Bench::new(r);
    let mut s = [0u8; 24];
    s[11] = 0xc0; // PC C000
    s[9] = 0xd0; // SP D000
    s[17] = 1;
    for op in 0..8u8 {
        for pair in 0..0x20000u32 {
            (s[0], s[1]) = (pair as u8, (pair >> 16) as u8 * 0x10);
            b.put(0xc000, 0xc6 + op * 8);
            b.put(0xc001, (pair >> 8) as u8);
            b.compare(t, &s, u32::MAX);
        }
    }
    for op in 0..512u16 {
        for af in 0..0x1000u16 {
            (s[0], s[1]) = (af as u8, (af >> 8) as u8 * 0x10);
            for i in 2..8 {
                s[i] = r.pick(&BYTES).wrapping_add(s[0]);
            }
            if op < 256 {
                b.put(0xc000, op as u8);
                b.put(0xc001, r.next() as u8);
                b.put(0xc002, r.next() as u8);
            } else {
                b.put(0xc000, 0xcb);
                b.put(0xc001, op as u8);
            }
            b.put(0xff0f, 0);
            b.compare(t, &s, u32::MAX);
        }
    }
}

/// Refusals 1 and 2, which the Rust does not have: the number, and everything as it came.
fn refusals<W: Write>(t: &mut Tally<W>, r: &mut Rng) {
    for length in [0usize, 1, 65535, 65537, 131072] {
        for low in 0..16u8 {
            for budget in [None, Some(0), Some(1), Some(65535)] {
                let mut s = random_state(r);
                s[1] |= low;
                refused(t, r, s, length, budget, 16 + 1);
            }
        }
    }
    for low in 1..16u8 {
        for budget in [None, Some(0), Some(1), Some(65535)] {
            let mut s = random_state(r);
            s[1] |= low;
            refused(t, r, s, 65536, budget, 16 + 2);
        }
    }
}

fn refused<W: Write>(t: &mut Tally<W>, r: &mut Rng, s: Block, length: usize, budget: Option<u16>, number: u16) {
    let before: Vec<u8> = (0..length).map(|_| r.next() as u8).collect();
    let (mut after, mut core) = (before.clone(), s);
    let got = match budget {
        None => ours::step(&mut core, &mut after),
        Some(b) => ours::run(&mut core, &mut after, b),
    };
    let steps = if budget.is_none() { 1 } else { 0 };
    let want = Answer { outcome: number, steps, cycles: 0, shown: [0; 12] };
    let steps_free = Answer { steps: got.steps, ..want };
    let same = (if budget.is_none() { got == steps_free } else { got == want }) && core == s && after == before;
    t.count(same, || format!("refusal: length {length}, state {s:02x?}, budget {budget:?}: {got:?} {core:02x?}"));
}

pub fn all<W: Write>(out: &mut W, steps: u64, seed: u64) -> i32 {
    let mut r = Rng(seed.wrapping_mul(0x9e37_79b9_7f4a_7c15) | 1);
    let mut t = Tally { out, compared: 0, differ: 0 };
    exhaustive(&mut t, &mut r);
    t.say("exhaustive steps (A, operand and carry; DAA; all 512 opcodes by A and F)", 0);
    let mut since = t.compared;
    random_steps(&mut t, &mut r, steps);
    t.say("random steps over all 512 opcodes", since);
    since = t.compared;
    random_runs(&mut t, &mut r, steps / 1000 + 1);
    t.say("random runs", since);
    since = t.compared;
    refusals(&mut t, &mut r);
    t.say("refusals 1 and 2", since);
    since = t.compared;
    windows::all(&mut t, &mut r, steps / 10 + 1);
    t.say("windows screened", since);
    let (compared, differ) = (t.compared, t.differ);
    writeln!(t.out, "compared {compared}, differ {differ}").unwrap();
    (differ != 0) as i32
}
