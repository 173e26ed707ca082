//! A stored sample in words: one record a line.
use std::io::Write;
use std::path::Path;

fn word(r: &[u8], at: usize) -> usize {
    r[at] as usize + 256 * r[at + 1] as usize
}

fn hex(bytes: &[u8]) -> String {
    bytes.iter().map(|b| format!("{b:02x}")).collect()
}

fn triples(r: &[u8], at: usize, n: usize) -> String {
    (0..n).map(|i| format!(" {:04x}={:02x}", word(r, at + 3 * i), r[at + 3 * i + 2])).collect()
}

/// Registers, then IME, latch, halt mode, stopped, HDMA running and DMG as digits.
fn state(b: &[u8]) -> String {
    let flags: String = b[12..18].iter().map(u8::to_string).collect();
    format!("AF {:02x}{:02x} BC {:02x}{:02x} DE {:02x}{:02x} HL {:02x}{:02x} SP {:04x} PC {:04x} flags {flags}", b[0], b[1], b[2], b[3], b[4], b[5], b[6], b[7], word(b, 8), word(b, 10))
}

fn line(r: &[u8]) -> String {
    let (listed, changed, memory) = (word(r, 7), word(r, 9), word(r, 4) + 65536 * r[6] as usize);
    let name = String::from_utf8_lossy(&r[r.len() - r[3] as usize..]).into_owned();
    let said = if r[2] == 2 {
        let marks = 19 + changed;
        let verdict = format!("verdict {} named {} address {:02x}{:02x}", r[15], r[16], r[18], r[17]);
        format!("window {:04x} to {:04x}{}: {verdict} marks {} then {}", word(r, 11), word(r, 13), triples(r, 19 + 2 * changed, listed), hex(&r[19..marks]), hex(&r[marks..marks + changed]))
    } else {
        let kind = if r[2] == 0 { "step".to_string() } else { format!("run {}", word(r, 11)) };
        let answer = format!("outcome {} steps {} M-cycles {}", word(r, 63), word(r, 65), word(r, 67) + 65536 * word(r, 69));
        format!("{kind} {}{}: {answer} {}{}", state(&r[15..39]), triples(r, 87, listed), state(&r[39..63]), triples(r, 87 + 3 * listed, changed))
    };
    format!("memory {memory} {said} {name}")
}

pub fn all(path: &Path) {
    let file = std::fs::read(path).unwrap_or_else(|e| {
        eprintln!("oracle: {}: {e}", path.display());
        std::process::exit(1)
    });
    let mut out = std::io::stdout().lock();
    let mut at = 2;
    for n in 1..=word(&file, 0) {
        let length = word(&file, at);
        // a reader that has seen enough closes the pipe
        if writeln!(out, "{n} at byte {at}: {}", line(&file[at..at + length])).is_err() {
            return;
        }
        at += length;
    }
}
