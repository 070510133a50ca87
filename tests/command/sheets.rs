//! Reads notations, a line of hex each, and writes what the command makes of them: the sheet in hex, or ! and the fault.

#[allow(dead_code)]
#[path = "../../command/src/notation.rs"]
mod notation;
#[path = "../../command/src/sheet.rs"]
mod sheet;
#[path = "../../command/src/words.rs"]
mod words;

use std::io::{stdin, stdout, BufWriter, Write};

fn bytes(hex: &str) -> Vec<u8> {
    (0..hex.len()).step_by(2).map(|at| u8::from_str_radix(&hex[at..at + 2], 16).expect("hex")).collect()
}

fn main() {
    let mut out = BufWriter::new(stdout().lock());
    for line in stdin().lines() {
        let text = String::from_utf8(bytes(&line.expect("a line"))).expect("UTF-8");
        match notation::write(&text) {
            Ok(written) => {
                let hex: String = written.sheet.iter().map(|byte| format!("{byte:02x}")).collect();
                writeln!(out, "{hex} {}", written.tests.len())
            }
            Err(fault) => writeln!(out, "! {}", fault.0),
        }
        .expect("a line can be written");
    }
}
