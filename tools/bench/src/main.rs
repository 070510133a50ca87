//! The Rust generator, compiled unchanged, and ours behind the wrapper of bindings/rust, on the same sheets.

include!(concat!(env!("OUT_DIR"), "/rust.rs"));
#[path = "../../differential/src/codegen.rs"]
mod codegen;
#[path = "../../differential/src/error.rs"]
mod error;
mod machine;
mod shapes;
#[allow(dead_code)]
#[path = "../../differential/src/sheet.rs"]
mod sheet;
#[path = "../../differential/src/tree.rs"]
mod tree;

use bromaveluth::{Link, Mode};
use codegen::LinkType;
use error::Error;
use std::hint::black_box;
use std::process::exit;
use std::time::Instant;

const USAGE: &str = "usage: bench check SHAPE N              equal answers, then L and the steps of a run on the frame
       bench compile WHO SHAPE N REPS     WHO: ours (sheet to bytes), rust (ready tree), whole (sheet to bytes)
       bench machine WHO SHAPE N REPS     WHO: ours, rust
       bench time WHAT WHO SHAPE N        nanoseconds for one; best of ten";

/// Sixty bytes: tcp from 10.9.9.9 to 10.8.8.8, port 502. No chain of shapes.rs ends before its last term on it.
const FRAME: [u8; 60] = {
    let mut f = [0; 60];
    (f[12], f[14], f[23]) = (8, 0x45, 6);
    (f[26], f[27], f[28], f[29]) = (10, 9, 9, 9);
    (f[30], f[31], f[32], f[33]) = (10, 8, 8, 8);
    (f[36], f[37]) = (1, 0xf6);
    f
};

/// The Rust's text for refusal 10.
const TOO_LONG: &str = "filter expression is too complex: eBPF jump offset overflow";

/// Buffers for our side, lent once: L is at most 65536 in every shape.
struct Room {
    output: Vec<u8>,
    work: Vec<u32>,
}

impl Room {
    fn new() -> Self {
        Room { output: vec![0; 8 << 16], work: vec![0; 1 << 20] }
    }

    fn ours(&mut self, sheet: &[u8]) -> Result<usize, u8> {
        bromaveluth::compile(sheet, Link::Ethernet, Mode::Plain, &mut self.output, &mut self.work)
            .map_err(|refused| refused.refusal.number())
    }
}

fn read(bytes: &[u8]) -> sheet::Sheet {
    sheet::read(0, 0, bytes).unwrap_or_else(|_| panic!("the sheet is not well formed"))
}

/// The program from a ready tree, or the Rust's message.
fn rust(expr: &ast::Expr) -> Result<ebpf::Program, String> {
    ebpf_codegen::compile(expr, LinkType::Ethernet).map_err(|Error::CodegenError { message }| message)
}

fn bytes_of(program: &ebpf::Program) -> Vec<u8> {
    program.instructions().iter().flat_map(|i| i.to_le_bytes()).collect()
}

/// Stops unless both generators and both machines agree; else L, whether it is a program, and the steps on the frame.
fn check(bytes: &[u8]) {
    let mut room = Room::new();
    let theirs = rust(&tree::tree(&read(bytes)));
    match (room.ours(bytes), theirs) {
        (Ok(length), Ok(program)) => {
            let code = bytes_of(&program);
            assert!(code == room.output[..8 * length], "the programs differ");
            let ours = bromaveluth::run(&code, &FRAME, 0, length as u64);
            let hand = machine::run(&code, &FRAME, 0, length as u64);
            assert_eq!((ours.stop.number(), ours.r0, ours.steps), hand, "the machines differ");
            let held = bromaveluth::evaluate(bytes, Link::Ethernet, &FRAME).ok();
            assert!(held.is_none() || held == ours.verdict(), "the evaluator differs");
            println!("{length} {}", ours.steps);
        }
        // L is 6, one for each Or and Not, and three for each `len`, of which the refused shapes are made
        (Err(10), Err(message)) if message == TOO_LONG => println!("{} 0", shapes::length_of_len_chain(bytes)),
        (ours, theirs) => panic!("ours {ours:?}, the Rust's {:?}", theirs.map(|p| p.len())),
    }
}

/// What is measured, as a function to be called again and again.
fn job(what: &str, who: &str, bytes: Vec<u8>) -> Option<Box<dyn FnMut()>> {
    let mut room = Room::new();
    let run_on = |run: fn(&[u8], u64)| -> Box<dyn FnMut()> {
        let code = bytes_of(&rust(&tree::tree(&read(&bytes))).unwrap());
        Box::new(move || run(black_box(&code), code.len() as u64 / 8))
    };
    Some(match (what, who) {
        ("compile", "ours") => Box::new(move || {
            let _ = black_box(room.ours(black_box(&bytes)));
        }),
        ("compile", "rust") => {
            let expr = tree::tree(&read(&bytes));
            Box::new(move || drop(black_box(rust(black_box(&expr)))))
        }
        ("compile", "whole") => Box::new(move || {
            let program = rust(&tree::tree(&read(black_box(&bytes))));
            let _ = black_box(program.map(|p| bytes_of(&p)));
        }),
        ("machine", "ours") => run_on(|code, n| {
            black_box(bromaveluth::run(code, black_box(&FRAME), 0, n));
        }),
        ("machine", "rust") => run_on(|code, n| {
            black_box(machine::run(code, black_box(&FRAME), 0, n));
        }),
        _ => return None,
    })
}

/// Nanoseconds for one call: the best of ten rounds of a hundredth of a second or more.
fn time(mut job: Box<dyn FnMut()>) -> f64 {
    let mut best = f64::INFINITY;
    for _ in 0..10 {
        let (start, mut calls) = (Instant::now(), 0);
        while start.elapsed().as_millis() < 10 {
            job();
            calls += 1;
        }
        best = best.min(start.elapsed().as_nanos() as f64 / calls as f64);
    }
    best
}

fn perform(args: &[&str]) -> Option<()> {
    match *args {
        ["check", shape, n] => check(&shapes::sheet(shape, n.parse().ok()?)?),
        ["time", what, who, shape, n] => {
            println!("{:.1}", time(job(what, who, shapes::sheet(shape, n.parse().ok()?)?)?));
        }
        [what, who, shape, n, reps] => {
            let mut job = job(what, who, shapes::sheet(shape, n.parse().ok()?)?)?;
            (0..reps.parse().ok()?).for_each(|_: u64| job());
        }
        _ => return None,
    }
    Some(())
}

fn main() {
    let args: Vec<String> = std::env::args().skip(1).collect();
    if perform(&args.iter().map(String::as_str).collect::<Vec<_>>()).is_none() {
        eprintln!("{USAGE}");
        exit(2);
    }
}
