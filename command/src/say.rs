//! What is said beside the answers: failures and their exit codes. Nothing here fails when nobody listens.

use std::io::{self, ErrorKind, Write};

pub const COUNTED: u8 = 0;
pub const REFUSED: u8 = 1;
pub const USAGE: u8 = 2;
pub const FAILED: u8 = 3;

/// Why the command ends without its answer.
#[derive(Debug)]
pub enum Failure {
    /// The command line or the notation is wrong; and the line that says how it is written.
    Usage(String, &'static str),
    /// Something cannot be read or written.
    Failed(String),
    /// The reader of our answer went away; there is nobody to tell.
    Unheard,
}

impl Failure {
    /// Tells the failure and gives its exit code.
    pub fn end(self) -> u8 {
        match self {
            Failure::Usage(text, usage) => {
                say(&text);
                _ = writeln!(io::stderr(), "{usage}");
                USAGE
            }
            Failure::Failed(text) => {
                say(&text);
                FAILED
            }
            Failure::Unheard => FAILED,
        }
    }
}

/// An answer that could not be written.
impl From<io::Error> for Failure {
    fn from(error: io::Error) -> Failure {
        match error.kind() {
            ErrorKind::BrokenPipe => Failure::Unheard,
            _ => Failure::Failed(format!("the answer cannot be written: {}", reason(&error))),
        }
    }
}

/// A line on standard error.
pub fn say(text: &str) {
    _ = writeln!(io::stderr(), "bromaveluth: {}", shown(text));
}

/// A whole answer on standard output.
pub fn answer(text: &str) -> Result<u8, Failure> {
    writeln!(io::stdout(), "{text}")?;
    Ok(COUNTED)
}

/// A text without control characters, which a file's name may have and a terminal would obey.
pub fn shown(text: &str) -> String {
    text.chars().map(|c| if c.is_control() { c.escape_default().to_string() } else { c.to_string() }).collect()
}

/// What the system says went wrong, without its number.
pub fn reason(error: &io::Error) -> String {
    let text = error.to_string();
    match text.find(" (os error") {
        Some(end) => text[..end].to_string(),
        None => text,
    }
}
