//! The unmodified Rust core and the proved core in one program: compared step by step, or timed.
//! judge compare STEPS SEED | judge time rust|ours|calls STEPS | judge screen TIMES
#![allow(dead_code)]
mod compare;
mod flat;
mod ours;
mod screens;
mod timing;
mod windows;

include!("around.rs");
#[path = "mizu.rs"]
mod cpu;

use std::fs::File;
use std::os::fd::FromRawFd;

extern "C" {
    fn dup(fd: i32) -> i32;
    fn dup2(from: i32, to: i32) -> i32;
    fn open(path: *const u8, flags: i32, ...) -> i32;
}

/// LD B,B prints a line in the Rust: what we say goes to the old standard output, what it says goes nowhere.
fn quiet() -> File {
    unsafe {
        let kept = dup(1);
        let nowhere = open(b"/dev/null\0".as_ptr(), 1);
        dup2(nowhere, 1);
        File::from_raw_fd(kept)
    }
}

fn usage() -> ! {
    eprintln!("judge: want 'compare STEPS SEED', 'time rust|ours|calls STEPS' or 'screen TIMES'");
    std::process::exit(2)
}

fn main() {
    let words: Vec<String> = std::env::args().skip(1).collect();
    let number = |i: usize| words.get(i).and_then(|w| w.parse::<u64>().ok()).unwrap_or_else(|| usage());
    let mut out = quiet();
    match words.first().map(String::as_str) {
        Some("compare") => std::process::exit(compare::all(&mut out, number(1), number(2))),
        Some("screen") => timing::screening(&mut out, number(1)),
        Some("time") => timing::one(&mut out, words.get(1).map_or_else(|| usage(), |w| w.as_str()), number(2)),
        _ => usage(),
    }
}
