//! The second screen against the proved one: random windows, and good routines with a few bytes changed.
use crate::compare::{Rng, Tally};
use crate::ours;
use crate::screens::{routine, screen};
use std::io::Write;

pub fn all<W: Write>(t: &mut Tally<W>, r: &mut Rng, windows: u64) {
    let mut mem = vec![0u8; 65536];
    mem.iter_mut().for_each(|b| *b = r.next() as u8);
    let mut hit = [0u64; 11];
    for k in 0..windows {
        let mut window = 1 + if r.below(4) == 0 { r.below(200) } else { r.below(24) } as u32;
        let mut first = r.below((65537 - window) as u64) as u32;
        if k % 5 == 0 {
            first = 65536 - window;
        }
        if k % 3 != 0 {
            routine(&mut || r.next(), &mut mem, first, window);
            for _ in 0..r.below(3) {
                let a = first + r.below(window as u64) as u32;
                mem[a as usize] = r.next() as u8;
            }
        }
        let mut last = first + window - 1;
        let mut size = window as usize;
        match k % 4099 {
            0 => (first, last, size) = (last, first, window as usize),
            1 => size = r.below(40) as usize,
            2 => {
                window = 4096 + r.below(2) as u32;
                first = r.below((65537 - window) as u64) as u32;
                last = first + window - 1;
                size = window as usize;
            }
            _ => {}
        }
        let lent = [0, 1, 65535, 65536, 65537][if k % 997 == 0 { r.below(5) as usize } else { 3 }];
        let whole = std::mem::take(&mut mem);
        let mut cut = if lent == 65536 { whole.clone() } else { vec![7; lent] };
        let marks: Vec<u8> = vec![0xee; size];
        let want = screen(&cut, first as u16, last as u16, &marks);
        let mut left = marks.clone();
        let (number, address) = ours::screen(&cut, first as u16, last as u16, &mut left);
        hit[want.0 as usize] += 1;
        let kept = lent != 65536 || cut == whole;
        let same = number == want.0 && address == want.1 && left == want.2 && kept;
        cut.clear();
        mem = whole;
        t.count(same, || format!("screen {first:04x} to {last:04x}: document {:?}, ours {:?}", (want.0, want.1), (number, address)));
    }
    for (n, c) in hit.iter().enumerate() {
        if *c > 0 {
            writeln!(t.out, "  verdict {n}: {c}").unwrap();
        }
    }
}
