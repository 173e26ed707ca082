//! The stored sample: steps and runs from the unmodified Rust, windows from the second screen, refusals 1 and 2 from the document's table, and the
//! document's rows that are not starred.
use crate::bus::Access;
use crate::record::{self, Told};
use crate::sample::{self, Asked, Chance};
use crate::screens::{routine, screen};
use crate::{power_on, run, tables, Registers, State};
use std::path::Path;

/// The records, one after the other, behind their number.
struct Sample {
    count: u16,
    bytes: Vec<u8>,
}

impl Sample {
    fn put(&mut self, record: Vec<u8>) {
        self.count += 1;
        self.bytes.extend(record);
    }
}

/// What the Rust answers to a run, as a record tells it. "nothing run" is 6.
fn told(state: &State, bytes: &[u8], budget: u16) -> Told {
    let answer = run(state, bytes, budget);
    let outcome = if answer.outcome == 255 { 6 } else { answer.outcome };
    Told { state: record::block(&answer.state), outcome: outcome as u16, steps: answer.steps, cycles: answer.bus.accesses.len() as u32, bytes: answer.bus.bytes }
}

/// Only the bytes that are looked at, and the two that interrupts hang on, are kept; all others become 0.
fn pruned(asked: &Asked, budget: u16) -> Vec<u8> {
    let looked = run(&asked.state, &asked.bytes, budget).bus.looked;
    (0..=0xffffu16).map(|a| if looked.contains(&a) || a == 0xff0f || a == 0xffff { asked.bytes[a as usize] } else { 0 }).collect()
}

fn by_rust(kind: u8, name: &str, asked: &Asked, budget: u16) -> Vec<u8> {
    let bytes = pruned(asked, budget);
    record::run(kind, name, &asked.state, &bytes, budget, &told(&asked.state, &bytes, budget))
}

/// Each opcode in four ways, the cases that the document singles out, short runs, then runs on whatever bytes there are. Answers the records of `seen`.
fn steps_and_runs(s: &mut Sample, g: &mut Chance) -> Vec<Vec<u8>> {
    let mut again = Vec::new();
    let mut step = |s: &mut Sample, asked: &Asked| {
        s.put(by_rust(0, "", asked, 1));
        again.extend(seen(asked));
    };
    for op in 0..512 {
        for way in 0..4 {
            step(s, &sample::opcode(g, op, way));
        }
    }
    for asked in sample::before_the_fetch(g).iter().chain(&sample::after_the_fetch(g)) {
        step(s, asked);
    }
    for (asked, budget) in sample::runs(g) {
        s.put(by_rust(1, "", &asked, budget));
    }
    let mut k = 0;
    while k < 80 {
        let mut asked = sample::anything(g);
        asked.state.ime = k % 4 == 0;
        let budget = if k % 8 == 0 { 65535 } else { 2 + g.below(300) as u16 };
        // a run that wanders through all of memory would make a record of many thousand bytes
        let bus = run(&asked.state, &asked.bytes, budget).bus;
        let written = (0..65536).filter(|&a| bus.bytes[a] != asked.bytes[a]).count();
        if bus.looked.len() + written < 600 {
            s.put(by_rust(1, "", &asked, budget));
            k += 1;
        }
    }
    again
}

/// Where a step reads and writes, in order; and the addresses to which it writes what stood there, so that no byte shows it.
fn traced(state: &State, bytes: &[u8]) -> (Vec<(bool, usize)>, Vec<usize>) {
    let bus = run(state, bytes, 1).bus;
    let places = bus.accesses.iter().map(|access| match *access {
        Access::Read(a) => (false, a as usize),
        Access::Write(a, _) | Access::WriteAndTake(a, _) => (true, a as usize),
    });
    let places: Vec<(bool, usize)> = places.collect();
    let unseen = places.iter().filter(|&&(writes, a)| writes && bus.bytes[a] == bytes[a]).map(|&(_, a)| a).collect();
    (places, unseen)
}

/// A step with a write that no byte shows, once more: other bytes stand there before, so that each write shows, and all else goes where it went.
/// None if there is no such write, or no such byte.
fn seen(asked: &Asked) -> Option<Vec<u8>> {
    let bytes = pruned(asked, 1);
    let (places, unseen) = traced(&asked.state, &bytes);
    let code = [0, 1].map(|i| asked.state.registers.pc.wrapping_add(i) as usize);
    if unseen.is_empty() || unseen.iter().any(|a| code.contains(a)) {
        return None;
    }
    let other = |x: u8| -> Vec<u8> {
        let mut other = bytes.clone();
        unseen.iter().for_each(|&a| other[a] ^= x);
        other
    };
    let other = (1..=255).rev().map(other).find(|other| traced(&asked.state, other) == (places.clone(), vec![]));
    other.map(|other| record::run(0, "", &asked.state, &other, 1, &told(&asked.state, &other, 1)))
}

/// The arithmetic by itself.
fn arithmetic(s: &mut Sample) {
    for (asked, budget) in tables::lists() {
        s.put(by_rust(1, "", &asked, budget));
    }
    for asked in tables::words() {
        s.put(by_rust(0, "", &asked, 1));
    }
}

/// "memory is not 65,536 bytes long" and "a low bit of F is set": "state, bytes and marks as they came, 0 M-cycles". These are not in the Rust.
fn refusals(s: &mut Sample, g: &mut Chance) {
    for (length, low) in [0, 1, 65535, 65537, 131072].into_iter().flat_map(|n| [0u8, 1, 15].map(|low| (n, low))).chain((1..16).map(|low| (65536, low))) {
        for (kind, budget) in [(0, 1), (1, 0), (1, 1), (1, 65535)] {
            let mut state = sample::anything(g).state;
            state.registers.f |= low;
            state.halt = g.below(4) as u8;
            (state.ime, state.stopped) = (g.one_in(2), g.one_in(4));
            let mut bytes = vec![0; length];
            for a in [0, 1, 0x1234, 0xff0f, 0xffff, state.registers.pc as usize] {
                if a < length {
                    bytes[a] = g.byte();
                }
            }
            let outcome = if length == 65536 { 16 + 2 } else { 16 + 1 };
            let told = Told { state: record::block(&state), outcome, steps: 0, cycles: 0, bytes: bytes.clone() };
            s.put(record::run(kind, "", &state, &bytes, budget, &told));
        }
    }
}

/// A window of a memory, with marks that are neither 0 nor 1 all over.
fn screened(s: &mut Sample, g: &mut Chance, bytes: &[u8], first: u32, last: u32, marks: usize) -> u8 {
    let marks: Vec<u8> = (0..marks).map(|_| g.byte()).collect();
    let told = screen(bytes, first as u16, last as u16, &marks);
    s.put(record::window("", bytes, first as u16, last as u16, &marks, &told));
    told.0
}

/// Every verdict at least twelve times; windows at both ends of memory among them.
fn windows(s: &mut Sample, g: &mut Chance) {
    for length in [0, 1, 65535, 65537, 131072] {
        for marks in [0, 3, 5] {
            screened(s, g, &vec![7; length.min(2)].into_iter().chain(vec![0; length.saturating_sub(2)]).collect::<Vec<u8>>(), 2, 4, marks);
        }
    }
    let mut hit = [0; 11];
    while [0, 7, 8, 9, 10].iter().any(|&v| hit[v] < 24) {
        let window = 1 + g.below(28) as u32;
        let anywhere = g.below(65537 - window as u64) as u32;
        let first = g.of(&[0, 65536 - window, anywhere]);
        let mut bytes = vec![0u8; 65536];
        routine(&mut || g.next() >> 16, &mut bytes, first, window);
        for _ in 0..g.below(3) {
            bytes[(first + g.below(window as u64) as u32) as usize] = g.byte();
        }
        let verdict = screen(&bytes, first as u16, (first + window - 1) as u16, &vec![0; window as usize]).0;
        if hit[verdict as usize] < 24 {
            hit[screened(s, g, &bytes, first, first + window - 1, window as usize) as usize] += 1;
        }
    }
    for k in 0..12 {
        let (first, last) = (g.below(65000) as u32 + 1, g.below(500) as u32);
        let (high, low) = (first.max(last), first.min(last));
        screened(s, g, &vec![0; 65536], high + 1, low, k); // 4
        screened(s, g, &vec![0; 65536], low, low + 4096 + k as u32, k); // 5
        screened(s, g, &vec![0; 65536], low, low + 20, if k < 6 { k } else { 16 + k }); // 6
    }
}

/// Windows of 4,095, 4,096 and 4,097 bytes: all NOP but the last instruction, which ends the routine, falls through, is forbidden, runs past the end or strays.
fn limits(s: &mut Sample, g: &mut Chance) {
    for (window, end) in [(4095, 0xc9), (4096, 0xc9), (4096, 0x00), (4096, 0x76), (4096, 0xc3), (4097, 0xc9), (4097, 0x00)] {
        let mut bytes = vec![0u8; 65536];
        bytes[0x2000 + window - 1] = end;
        screened(s, g, &bytes, 0x2000, 0x2000 + window as u32 - 1, window);
    }
}

/// A state on a CGB with the rest 0.
fn still(pc: u16, sp: u16) -> State {
    State { registers: Registers { pc, sp, ..Registers::default() }, ..State::default() }
}

/// The rows of "Rows to be worked" that are not starred. What the document prints is held against the oracle's answer before it is stored.
fn rows(s: &mut Sample) {
    let mut bytes = vec![0u8; 65536];
    (bytes[0xff0f], bytes[0xffff]) = (1, 1);
    bytes[0x4000..0x4003].copy_from_slice(&[0xcd, 0x34, 0x12]);
    let mut state = still(0x4000, 0xd000);
    state.halt = 2;
    let answer = told(&state, &bytes, 1);
    assert_eq!(answer.cycles, 8, "the document's 8 M-cycles");
    s.put(record::run(0, "CGB, HaltNoRunInterrupt, IME clear, pending, unconditional CALL at PC: 8 M-cycles", &state, &bytes, 1, &answer));
    for (name, window, verdict) in [("window 00: 9", &[0x00][..], 9), ("window 20 00: 9", &[0x20, 0x00], 9), ("window 18 FF: 10", &[0x18, 0xff], 10), ("window CB: 8", &[0xcb], 8), ("window 76: 7", &[0x76], 7)] {
        let mut bytes = vec![0u8; 65536];
        bytes[..window.len()].copy_from_slice(window);
        row(s, name, &bytes, window.len(), (verdict, Some(0), vec![0; window.len()]));
    }
    let mut bytes = vec![0u8; 65536];
    bytes[4095] = 0xc9;
    row(s, "window of 4,096 bytes, 00 .. 00 C9: not 5, it passes", &bytes, 4096, (0, None, vec![1; 4096]));
    (bytes[4095], bytes[4096]) = (0, 0xc9);
    row(s, "window of 4,097 bytes, 00 .. 00 C9: 5", &bytes, 4097, (5, None, vec![0xee; 4097]));
}

/// A window at 0 whose verdict the document prints.
fn row(s: &mut Sample, name: &str, bytes: &[u8], window: usize, printed: (u8, Option<u16>, Vec<u8>)) {
    let marks = vec![0xee; window];
    assert_eq!(screen(bytes, 0, window as u16 - 1, &marks), printed, "{name}");
    s.put(record::window(name, bytes, 0, window as u16 - 1, &marks, &printed));
}

/// The Rust's states at power-on are those of the document's table. From each a run that pushes its registers, so that bytes show them.
fn from_power_on(s: &mut Sample) {
    let mut bytes = vec![0u8; 65536];
    // PUSH AF; PUSH BC; PUSH DE; PUSH HL; LD (C000),SP; JR to itself
    let code = [0xf5, 0xc5, 0xd5, 0xe5, 0x08, 0x00, 0xc0, 0x18, 0xfe];
    bytes[..9].copy_from_slice(&code);
    bytes[0x100..0x109].copy_from_slice(&code);
    let printed = [("no boot skip, DMG", [0; 6], true), ("no boot skip, CGB", [0; 6], false), ("DMG", [0x01b0, 0x0013, 0x00d8, 0x014d, 0xfffe, 0x0100], true), ("CGB, CGB cartridge", [0x1180, 0x0000, 0xff56, 0x000d, 0xfffe, 0x0100], false), ("CGB, DMG cartridge", [0x1180, 0x0000, 0x0008, 0x007c, 0xfffe, 0x0100], false)];
    for (state, (name, words, dmg)) in power_on().iter().zip(printed) {
        let [[a, f], [b, c], [d, e], [h, l], _, _] = words.map(u16::to_be_bytes);
        let registers = Registers { a, f, b, c, d, e, h, l, sp: words[4], pc: words[5] };
        assert_eq!(*state, State { registers, dmg, ..State::default() }, "the document's state at power-on: {name}");
        let name = format!("power-on, {name}");
        s.put(record::run(1, &name, state, &bytes, 9, &told(state, &bytes, 9)));
    }
}

/// EI directly before HALT, with an interrupt pending and RETI as its handler: docs/DIFFERENCES.md.
fn halted_after_ei(s: &mut Sample) {
    let mut bytes = vec![0u8; 65536];
    bytes[0x0100..0x0102].copy_from_slice(&[0xfb, 0x76]);
    (bytes[0x0040], bytes[0xff0f], bytes[0xffff]) = (0xd9, 0x01, 0x01);
    let state = State { dmg: true, ..still(0x0100, 0xd000) };
    for budget in 1..=4 {
        let answer = told(&state, &bytes, budget);
        let pc = u16::from_le_bytes([answer.state[10], answer.state[11]]);
        let name = format!("EI, HALT with an interrupt pending, steps {budget}: PC {pc:04X}");
        s.put(record::run(1, &name, &state, &bytes, budget, &answer));
    }
}

pub fn write(path: &Path, seed: u64) {
    let mut g = Chance::new(seed);
    let mut s = Sample { count: 0, bytes: Vec::new() };
    rows(&mut s);
    from_power_on(&mut s);
    halted_after_ei(&mut s);
    let again = steps_and_runs(&mut s, &mut g);
    refusals(&mut s, &mut g);
    windows(&mut s, &mut g);
    limits(&mut s, &mut g);
    again.into_iter().for_each(|record| s.put(record));
    arithmetic(&mut s);
    let file = [&s.count.to_le_bytes()[..], &s.bytes].concat();
    // whole or not at all
    let part = path.with_extension("part");
    std::fs::write(&part, &file).and_then(|()| std::fs::rename(&part, path)).unwrap_or_else(|e| {
        eprintln!("oracle: {}: {e}", path.display());
        std::process::exit(1)
    });
    eprintln!("{} records, {} bytes", s.count, file.len());
}
