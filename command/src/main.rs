//! The command `bromaveluth`: the proved functions of libbromaveluth.a for a person at a terminal.

mod args;
mod capture;
mod endings;
mod filter;
mod frames;
mod mapped;
mod notation;
mod progress;
mod report;
mod say;
mod sheet;
mod words;

use say::Failure;
use std::any::Any;
use std::ffi::OsString;
use std::panic;
use std::process::ExitCode;

const USAGE: &str = "usage: bromaveluth capture FILTER FILE...   (bromaveluth --help says more)";

const HELP: &str = "\
usage: bromaveluth capture [OPTIONS] FILTER FILE...

  capture    counts the frames of captures that a filter passes

bromaveluth capture --help tells the options and how a filter is written.
--version tells the version.";

fn main() -> ExitCode {
    // A panic is a fault of this program: it is told in one sentence, not as a place in the source.
    panic::set_hook(Box::new(|_| {}));
    let answer = panic::catch_unwind(|| verb(std::env::args_os().skip(1).collect()));
    let answer = answer.unwrap_or_else(|fault| Err(Failure::Failed(format!("an internal fault: {}", told(&*fault)))));
    ExitCode::from(answer.unwrap_or_else(|failure| failure.end()))
}

/// What a panic says.
fn told(fault: &(dyn Any + Send)) -> &str {
    let text = fault.downcast_ref::<String>().map(String::as_str);
    text.or_else(|| fault.downcast_ref::<&str>().copied()).unwrap_or("without words")
}

/// Does what the first word asks and gives the exit code.
fn verb(mut words: Vec<OsString>) -> Result<u8, Failure> {
    if words.is_empty() {
        return Err(Failure::Usage("which verb?".to_string(), USAGE));
    }
    let first = words.remove(0);
    match first.to_str() {
        Some("capture") => capture::verb(words),
        Some("--help" | "-h" | "help") => say::answer(HELP),
        Some("--version" | "-V") => say::answer(concat!("bromaveluth ", env!("CARGO_PKG_VERSION"))),
        _ => Err(Failure::Usage(format!("there is no verb \"{}\"", first.to_string_lossy()), USAGE)),
    }
}
