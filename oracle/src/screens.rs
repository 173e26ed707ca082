//! A second screen, written from the document alone, and routines that it is likely to pass.

/// Length by the opcode, CB opcodes being two bytes long.
fn length(op: u8) -> u32 {
    match op {
        0x01 | 0x11 | 0x21 | 0x31 | 0x08 | 0xc2 | 0xca | 0xd2 | 0xda | 0xc3 | 0xc4 | 0xcc | 0xd4 | 0xdc | 0xcd | 0xea | 0xfa => 3,
        0x06 | 0x0e | 0x16 | 0x1e | 0x26 | 0x2e | 0x36 | 0x3e | 0x18 | 0x20 | 0x28 | 0x30 | 0x38 | 0xc6 | 0xce | 0xd6 | 0xde | 0xe6 | 0xee | 0xf6 | 0xfe | 0xe0 | 0xf0 | 0xe8 | 0xf8 | 0xcb => 2,
        _ => 1,
    }
}

/// "the eleven of refusal 3, STOP, HALT, EI, RETI, JP HL, every CALL and RST"
fn forbidden(op: u8) -> bool {
    matches!(op, 0xd3 | 0xdb | 0xdd | 0xe3 | 0xe4 | 0xeb | 0xec | 0xed | 0xf4 | 0xfc | 0xfd)
        || matches!(op, 0x10 | 0x76 | 0xfb | 0xd9 | 0xe9 | 0xc4 | 0xcc | 0xcd | 0xd4 | 0xdc)
        || op & 0xc7 == 0xc7
}

/// Where a JP or JR goes, conditional or not. "A JR target counts from the byte after the JR, modulo 65,536."
fn target(mem: &[u8], at: u32) -> Option<u32> {
    let byte = |k: u32| mem[(at + k) as usize & 0xffff];
    match byte(0) {
        0xc3 | 0xc2 | 0xca | 0xd2 | 0xda => Some(u16::from_le_bytes([byte(1), byte(2)]) as u32),
        0x18 | 0x20 | 0x28 | 0x30 | 0x38 => Some((at as u16).wrapping_add(2).wrapping_add(byte(1) as i8 as u16) as u32),
        _ => None,
    }
}

/// The verdict's number, the address that it names, and the marks.
pub fn screen(mem: &[u8], first: u16, last: u16, marks: &[u8]) -> (u8, Option<u16>, Vec<u8>) {
    let early = |n: u8| (n, None, marks.to_vec());
    if mem.len() != 65536 {
        return early(1);
    }
    if first > last {
        return early(4);
    }
    let window = last as usize - first as usize + 1;
    if window > 4096 {
        return early(5);
    }
    if marks.len() != window {
        return early(6);
    }
    let refused = |n: u8, at: u32| (n, Some(at as u16), vec![0; window]);
    let (from, end) = (first as u32, last as u32 + 1);
    let mut starts = Vec::new();
    let mut at = from;
    while at < end {
        let op = mem[at as usize];
        if forbidden(op) {
            return refused(7, at);
        }
        if at + length(op) > end {
            return refused(8, at);
        }
        starts.push(at);
        at += length(op);
    }
    let tail = *starts.last().unwrap();
    if !matches!(mem[tail as usize], 0xc3 | 0x18 | 0xc9) {
        return refused(9, tail);
    }
    for &at in &starts {
        if target(mem, at).is_some_and(|t| starts.binary_search(&t).is_err()) {
            return refused(10, at);
        }
    }
    let mut left = vec![0; window];
    starts.iter().for_each(|&s| left[(s - from) as usize] = 1);
    (0, None, left)
}

/// A routine that is likely to pass: allowed instructions, jumps to starts, a jump or a return at the end.
pub fn routine(next: &mut dyn FnMut() -> u64, mem: &mut [u8], first: u32, window: u32) {
    let end = first + window;
    let (mut at, mut starts) = (first, Vec::new());
    while at < end {
        let op = next() as u8;
        let n = length(op);
        if forbidden(op) || at + n > end || (at + n < end && end - at - n < 1) {
            if end - at < 4 {
                break;
            }
            continue;
        }
        if at + n >= end {
            break;
        }
        starts.push(at);
        mem[at as usize] = op;
        at += n;
    }
    while at < end {
        starts.push(at);
        mem[at as usize] = if at + 1 == end { 0xc9 } else { 0x00 };
        at += 1;
    }
    for &s in &starts {
        match mem[s as usize] {
            0xc3 | 0xc2 | 0xca | 0xd2 | 0xda => {
                let t = (pick(next, &starts) as u16).to_le_bytes();
                mem[s as usize + 1..s as usize + 3].copy_from_slice(&t);
            }
            0x18 | 0x20 | 0x28 | 0x30 | 0x38 => {
                let near: Vec<u32> = starts.iter().copied().filter(|t| (*t as i64 - s as i64 - 2).abs() < 127).collect();
                mem[s as usize + 1] = (pick(next, &near) as i64 - s as i64 - 2) as u8;
            }
            _ => {}
        }
    }
}

fn pick(next: &mut dyn FnMut() -> u64, from: &[u32]) -> u32 {
    from[(next() % from.len() as u64) as usize]
}
