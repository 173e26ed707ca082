//! A record of the stored sample, in the layout of crates/records/specs/Record.antt.
use crate::{Registers, State};

fn registers(r: &Registers) -> [u8; 12] {
    let (sp, pc) = (r.sp.to_le_bytes(), r.pc.to_le_bytes());
    [r.a, r.f, r.b, r.c, r.d, r.e, r.h, r.l, sp[0], sp[1], pc[0], pc[1]]
}

/// A state block as include/phkarotuk.h has it. The six reserved bytes are not 0, so that it shows whether they are kept.
pub fn block(s: &State) -> [u8; 24] {
    let mut b = [0; 24];
    b[..12].copy_from_slice(&registers(&s.registers));
    b[12..18].copy_from_slice(&[s.ime as u8, s.latch as u8, s.halt, s.stopped as u8, s.hdma as u8, s.dmg as u8]);
    b[18..].copy_from_slice(&[0xa1, 0xa2, 0xa3, 0xa4, 0xa5, 0xa6]);
    b
}

/// Outcome, steps, M-cycles, and the registers that a breakpoint shows.
pub struct Told {
    pub state: [u8; 24],
    pub outcome: u16,
    pub steps: u16,
    pub cycles: u32,
    pub bytes: Vec<u8>,
}

impl Told {
    fn answer(&self) -> [u8; 24] {
        let mut b = [0; 24];
        b[..2].copy_from_slice(&self.outcome.to_le_bytes());
        b[2..4].copy_from_slice(&self.steps.to_le_bytes());
        b[4..8].copy_from_slice(&self.cycles.to_le_bytes());
        if self.outcome == 5 {
            b[8..20].copy_from_slice(&self.state[..12]);
        }
        b
    }
}

fn word(r: &mut Vec<u8>, n: usize) {
    r.extend(u16::try_from(n).expect("a number of a record fits two bytes").to_le_bytes());
}

/// The part that every record begins with; its length comes when it is whole.
fn begun(kind: u8, name: &str, memory: usize, listed: usize, changed: usize) -> Vec<u8> {
    let mut r = vec![0, 0, kind, u8::try_from(name.len()).expect("a name has at most 255 bytes")];
    r.extend(&(memory as u32).to_le_bytes()[..3]);
    word(&mut r, listed);
    word(&mut r, changed);
    r
}

fn ended(mut r: Vec<u8>, name: &str) -> Vec<u8> {
    r.extend(name.as_bytes());
    let length = u16::try_from(r.len()).expect("a record has at most 65,535 bytes").to_le_bytes();
    r[..2].copy_from_slice(&length);
    r
}

/// Three bytes for each byte that differs between the two: its address, and what stands in the second.
fn triples(before: &[u8], after: &[u8]) -> Vec<u8> {
    let differ = (0..after.len()).filter(|&a| before[a] != after[a]);
    differ.flat_map(|a| [a as u8, (a >> 8) as u8, after[a]]).collect()
}

/// A step (kind 0) or a run (kind 1).
pub fn run(kind: u8, name: &str, state: &State, bytes: &[u8], budget: u16, told: &Told) -> Vec<u8> {
    let (listed, changed) = (triples(&vec![0; bytes.len()], bytes), triples(bytes, &told.bytes));
    let mut r = begun(kind, name, bytes.len(), listed.len() / 3, changed.len() / 3);
    word(&mut r, budget as usize);
    word(&mut r, 0);
    r.extend(block(state));
    r.extend(told.state);
    r.extend(told.answer());
    r.extend(listed);
    r.extend(changed);
    ended(r, name)
}

/// A window: the verdict, the address that it names, and the marks before and after.
pub fn window(name: &str, bytes: &[u8], first: u16, last: u16, marks: &[u8], told: &(u8, Option<u16>, Vec<u8>)) -> Vec<u8> {
    let listed = triples(&vec![0; bytes.len()], bytes);
    let mut r = begun(2, name, bytes.len(), listed.len() / 3, marks.len());
    word(&mut r, first as usize);
    word(&mut r, last as usize);
    r.extend([told.0, told.1.is_some() as u8]);
    word(&mut r, told.1.unwrap_or(0) as usize);
    r.extend(marks);
    r.extend(&told.2);
    r.extend(listed);
    ended(r, name)
}
