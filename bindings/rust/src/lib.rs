//! Safe functions over `libbromaveluth.a`: [`measure`] a filter's sheet, [`compile`] it, [`evaluate`] it on a frame, [`run`] its program,
//! push its Nots down ([`nots`]), count what it passes of a [`mod@capture`].
//!
//! `tools/archive` proves the archive's functions against their contracts and writes it; it links into x86-64 Linux programs.
//! The functions take any bytes and any lengths; they panic only at an answer that the archive's contracts rule out, as of another
//! archive. docs/SHEET.md says how a filter is written as a sheet, docs/GLOSSARY.md what the words mean, bindings/c/bromaveluth.h how
//! much stack a call takes, of what type the programs are and what a kernel may still refuse.
//!
//! ```no_run
//! use bromaveluth::{program, run, Link, Mode};
//!
//! let ip = [0, 0, 0, 1, 7, 0, 1, 0, 0, 0, 0, 0, 0, 0, 0, 0, 0, 0, 0, 0, 0, 0, 0, 0, 0, 0, 0, 0, 0, 1, 0];
//! let code = program(&ip, Link::Ethernet, Mode::Mended).unwrap();
//! let end = run(&code, &[0; 60], 0, code.len() as u64 / 8);
//! assert_eq!(end.verdict(), Some(false));
//! ```
#![deny(unsafe_op_in_unsafe_fn, missing_docs)]

pub mod capture;
mod refusal;
mod stop;

pub use refusal::{Refusal, Refused};
pub use stop::{Outcome, Stop};

/// What stands before the network header of a frame.
#[derive(Clone, Copy, Debug, PartialEq, Eq)]
#[repr(u8)]
pub enum Link {
    /// Ethertype at byte 12, network header at 14.
    Ethernet = 0,
    /// No ethertype, network header at 0.
    RawIp = 1,
    /// Linux's cooked header: ethertype at byte 14, network header at 16, no MAC addresses.
    LinuxSll = 2,
}

/// How a program compares.
#[derive(Clone, Copy, Debug, PartialEq, Eq)]
#[repr(u8)]
pub enum Mode {
    /// The original generator's programs, byte for byte: a constant of 2^31 or more is compared as a negative number.
    Plain = 0,
    /// Comparisons of 32 bits, right for every constant.
    Mended = 1,
}

#[link(name = "bromaveluth", kind = "static")]
extern "C" {
    fn bromaveluth_version() -> u32;
    fn bromaveluth_measure(
        sheet: *const u8,
        sheet_bytes: usize,
        link: u8,
        mode: u8,
        tokens: *mut u64,
        output_bytes: *mut u64,
        work_numbers: *mut u64,
        answer: *mut u64,
    ) -> u8;
    fn bromaveluth_compile(
        sheet: *const u8,
        sheet_bytes: usize,
        link: u8,
        mode: u8,
        output: *mut u8,
        output_bytes: usize,
        work: *mut u32,
        work_numbers: usize,
        answer: *mut u64,
    ) -> u8;
    fn bromaveluth_evaluate(
        sheet: *const u8,
        sheet_bytes: usize,
        link: u8,
        frame: *const u8,
        frame_bytes: usize,
        answer: *mut u64,
    ) -> u8;
    fn bromaveluth_run(
        program: *const u8,
        program_bytes: usize,
        frame: *const u8,
        frame_bytes: usize,
        start: u64,
        budget: u64,
        r0: *mut u64,
        steps: *mut u64,
    ) -> u8;
    fn bromaveluth_nots(sheet: *const u8, sheet_bytes: usize, output: *mut u8, output_bytes: usize, answer: *mut u64) -> u8;
}

/// The archive's version: 1,000,000 x major + 1,000 x minor + patch. It should be this crate's.
pub fn version() -> u32 {
    // SAFETY: nothing is lent.
    unsafe { bromaveluth_version() }
}

/// Compiles a sheet and gives the number L of the program's instructions.
///
/// Accepted, the first 8 x L bytes of `output` are the program. After refusals 1 to 8 `output` and `work` are as they were; after 10 to
/// 19 the first 8 x L bytes of `output` are zero. Except after 1 to 8 the first L + 8 x tokens numbers of `work` are zero. Nothing else
/// changes.
pub fn compile(sheet: &[u8], link: Link, mode: Mode, output: &mut [u8], work: &mut [u32]) -> Result<usize, Refused> {
    let mut answer = 0;
    // SAFETY: each pointer and count come from a slice or a number that is borrowed for the call; two mutable borrows never overlap.
    let status = unsafe {
        bromaveluth_compile(
            sheet.as_ptr(),
            sheet.len(),
            link as u8,
            mode as u8,
            output.as_mut_ptr(),
            output.len(),
            work.as_mut_ptr(),
            work.len(),
            &mut answer,
        )
    };
    match status {
        0 => Ok(answer as usize),
        number => Err(Refused::told(number, answer)),
    }
}

/// What a sheet asks for.
#[derive(Clone, Copy, Debug, PartialEq, Eq, Hash)]
pub struct Size {
    /// L, the program's instructions.
    pub length: usize,
    /// The tokens of the sheet's tree.
    pub tokens: usize,
    /// The least output that is not refused (7): 8 x L bytes.
    pub output: usize,
    /// The least work that is not refused (8): L + 8 x tokens numbers.
    pub work: usize,
}

/// What [`compile`] asks for a sheet, or one of refusals 1 to 6. What earns 10 to 19 is not looked for.
pub fn measure(sheet: &[u8], link: Link, mode: Mode) -> Result<Size, Refused> {
    let (mut tokens, mut output, mut work, mut answer) = (0, 0, 0, 0);
    // SAFETY: as in `compile`.
    let status = unsafe {
        bromaveluth_measure(sheet.as_ptr(), sheet.len(), link as u8, mode as u8, &mut tokens, &mut output, &mut work, &mut answer)
    };
    match status {
        0 => Ok(Size { length: answer as usize, tokens: tokens as usize, output: output as usize, work: work as usize }),
        number => Err(Refused::told(number, answer)),
    }
}

/// The program of a sheet, in buffers of its own: as [`compile`], but never refused 7 or 8.
pub fn program(sheet: &[u8], link: Link, mode: Mode) -> Result<Vec<u8>, Refused> {
    let size = measure(sheet, link, mode)?;
    let (mut output, mut work) = (vec![0; size.output], vec![0; size.work]);
    compile(sheet, link, mode, &mut output, &mut work)?;
    Ok(output)
}

/// Whether a sheet's expression holds on a frame, found without a program. Trees deeper than 256 are refused (9).
pub fn evaluate(sheet: &[u8], link: Link, frame: &[u8]) -> Result<bool, Refused> {
    let mut answer = 0;
    // SAFETY: as in `compile`.
    let status =
        unsafe { bromaveluth_evaluate(sheet.as_ptr(), sheet.len(), link as u8, frame.as_ptr(), frame.len(), &mut answer) };
    match status {
        0 => Ok(answer == 1),
        number => Err(Refused::told(number, answer)),
    }
}

/// Writes a sheet with its Nots pushed down and gives the new sheet's length: the same steps and primitives in the same order, Not only
/// directly above a primitive and never twice. On every link and frame it is evaluated as the old one is.
///
/// Accepted, the first bytes of `output` are the new sheet; after a refusal (2 to 4, 9, 50, 7) `output` is as it was. Nothing else changes.
pub fn nots(sheet: &[u8], output: &mut [u8]) -> Result<usize, Refused> {
    let mut answer = 0;
    // SAFETY: as in `compile`.
    let status = unsafe { bromaveluth_nots(sheet.as_ptr(), sheet.len(), output.as_mut_ptr(), output.len(), &mut answer) };
    match status {
        0 => Ok(answer as usize),
        number => Err(Refused::told(number, answer)),
    }
}

/// The sheet with its Nots pushed down, in a buffer of its own: as [`nots`], but never refused 7, as a new tree of at most 65,535 tokens has
/// at most so many more than the old one.
pub fn nots_pushed(sheet: &[u8]) -> Result<Vec<u8>, Refused> {
    let mut output = vec![0; sheet.len() + 65535];
    let length = nots(sheet, &mut output)?;
    output.truncate(length);
    Ok(output)
}

/// Runs a program's bytes on a frame that lies at `start`, for at most `budget` steps.
pub fn run(program: &[u8], frame: &[u8], start: u64, budget: u64) -> Outcome {
    let (mut r0, mut steps) = (0, 0);
    // SAFETY: as in `compile`.
    let stop = unsafe {
        bromaveluth_run(program.as_ptr(), program.len(), frame.as_ptr(), frame.len(), start, budget, &mut r0, &mut steps)
    };
    Outcome { stop: Stop::told(stop), r0, steps }
}
