//! The proved core, linked as C would link it: state, memory, marks and answers are blocks of bytes (include/phkarotuk.h has the offsets).

/// A state block: A F B C D E H L, SP, PC (low byte first), IME, EI latch, halt mode, stopped, HDMA running, DMG, six bytes kept.
pub type Block = [u8; 24];

extern "C" {
    fn phk_run(state: *mut u8, state_len: usize, mem: *mut u8, mem_len: usize, budget: u16, answer: *mut u8, answer_len: usize) -> u16;
    fn phk_step(state: *mut u8, state_len: usize, mem: *mut u8, mem_len: usize, answer: *mut u8, answer_len: usize) -> u16;
    fn phk_screen(mem: *const u8, mem_len: usize, first: u16, last: u16, marks: *mut u8, marks_len: usize, answer: *mut u8, answer_len: usize) -> u8;
}

/// What a step or a run answered: the outcome's number, steps, M-cycles and a breakpoint's registers.
#[derive(Clone, Copy, PartialEq, Debug)]
pub struct Answer {
    pub outcome: u16,
    pub steps: u16,
    pub cycles: u32,
    pub shown: [u8; 12],
}

fn read(block: &[u8; 24]) -> Answer {
    Answer {
        outcome: u16::from_le_bytes([block[0], block[1]]),
        steps: u16::from_le_bytes([block[2], block[3]]),
        cycles: u32::from_le_bytes([block[4], block[5], block[6], block[7]]),
        shown: block[8..20].try_into().unwrap(),
    }
}

pub fn run(state: &mut Block, mem: &mut [u8], budget: u16) -> Answer {
    let mut answer = [0xee; 24];
    let number = unsafe { phk_run(state.as_mut_ptr(), 24, mem.as_mut_ptr(), mem.len(), budget, answer.as_mut_ptr(), 24) };
    let read = read(&answer);
    assert_eq!(number, read.outcome, "the number that phk_run answers is not the one that it writes");
    read
}

pub fn step(state: &mut Block, mem: &mut [u8]) -> Answer {
    let mut answer = [0xee; 24];
    let number = unsafe { phk_step(state.as_mut_ptr(), 24, mem.as_mut_ptr(), mem.len(), answer.as_mut_ptr(), 24) };
    let read = read(&answer);
    assert_eq!(number, read.outcome, "the number that phk_step answers is not the one that it writes");
    read
}

/// The verdict's number, and the address that it names.
pub fn screen(mem: &[u8], first: u16, last: u16, marks: &mut [u8]) -> (u8, Option<u16>) {
    let mut answer = [0xee; 4];
    let number = unsafe { phk_screen(mem.as_ptr(), mem.len(), first, last, marks.as_mut_ptr(), marks.len(), answer.as_mut_ptr(), 4) };
    assert_eq!(number, answer[0], "the number that phk_screen answers is not the one that it writes");
    (number, (answer[1] == 1).then(|| u16::from_le_bytes([answer[2], answer[3]])))
}
