//! How a run of the machine ends.

use std::fmt;

/// Why the machine stopped.
#[derive(Clone, Copy, Debug, PartialEq, Eq, Hash)]
#[repr(u8)]
pub enum Stop {
    /// 0: exit.
    Exit = 0,
    /// 30: a form emitted in neither mode.
    Form = 30,
    /// 31: load outside the frame, or through R1 at other than 0 and 4.
    Outside = 31,
    /// 32: register not yet written.
    NotWritten = 32,
    /// 33: no instruction there.
    NoInstruction = 33,
    /// 34: budget spent.
    Budget = 34,
    /// 35: length zero or no multiple of 8, or start plus frame length 2^32 or more.
    Input = 35,
}

impl Stop {
    /// The stop that the machine told.
    pub(crate) fn told(number: u8) -> Stop {
        match number {
            0 => Stop::Exit,
            30 => Stop::Form,
            31 => Stop::Outside,
            32 => Stop::NotWritten,
            33 => Stop::NoInstruction,
            34 => Stop::Budget,
            35 => Stop::Input,
            _ => unreachable!("there is no stop {number}"),
        }
    }

    /// Its number, as in bindings/c/bromaveluth.h.
    pub fn number(self) -> u8 {
        self as u8
    }

    /// Its words, the same as there.
    pub fn text(self) -> &'static str {
        match self {
            Stop::Exit => "exit",
            Stop::Form => "a form emitted in neither mode",
            Stop::Outside => "load outside the frame, or through R1 at other than 0 and 4",
            Stop::NotWritten => "register not yet written",
            Stop::NoInstruction => "no instruction there",
            Stop::Budget => "budget spent",
            Stop::Input => "length zero or no multiple of 8, or start plus frame length 2^32 or more",
        }
    }
}

impl fmt::Display for Stop {
    fn fmt(&self, f: &mut fmt::Formatter<'_>) -> fmt::Result {
        f.write_str(self.text())
    }
}

/// The end of a run.
#[derive(Clone, Copy, Debug, PartialEq, Eq, Hash)]
pub struct Outcome {
    /// Why it ended.
    pub stop: Stop,
    /// R0 after an exit, 0 after any other stop.
    pub r0: u64,
    /// Steps carried out, an exit counted.
    pub steps: u64,
}

impl Outcome {
    /// Whether the frame passes: R0 is 2 (XDP_PASS). None if the program did not exit.
    pub fn verdict(self) -> Option<bool> {
        (self.stop == Stop::Exit).then_some(self.r0 == 2)
    }
}
