//! `bromaveluth capture`: each file counted, written on where that is asked, and reported.

use crate::args::{self, Args, Asked};
use crate::filter::Filter;
use crate::frames::{self, Wanted};
use crate::mapped;
use crate::progress::Progress;
use crate::report::{Outcome, Report};
use crate::say::{self, reason, Failure};
use bromaveluth::capture::{open, Counts, Parts, HEADER};
use bromaveluth::{program, Link, Refused};
use std::ffi::{OsStr, OsString};

/// Records between two looks at the clock: at most half a gigabyte, and the filter is compiled again for each part.
const PART: u64 = 32_768;

pub fn verb(words: Vec<OsString>) -> Result<u8, Failure> {
    match args::read(words)? {
        Asked::Help => say::answer(args::HELP),
        Asked::Version => say::answer(concat!("bromaveluth ", env!("CARGO_PKG_VERSION"))),
        Asked::Count(args) => all(&args),
    }
}

fn all(args: &Args) -> Result<u8, Failure> {
    for new in [&args.passed, &args.dropped].into_iter().flatten() {
        frames::is_free(new).map_err(Failure::Failed)?;
    }
    let filter = Filter::from(&args.source)?;
    let mut report = Report::begun(args.shape)?;
    for name in &args.files {
        let shown = name.to_string_lossy();
        report.add(&shown, outcome(args, &filter, name, &shown))?;
    }
    report.wrote(args.passed.as_deref(), args.dropped.as_deref())?;
    Ok(report.ended()?)
}

fn outcome(args: &Args, filter: &Filter, name: &OsStr, shown: &str) -> Outcome {
    let file = match mapped::read(name) {
        Ok(file) => file,
        Err(error) => return Outcome::Failed(format!("cannot be read: {}", reason(&error))),
    };
    match counted(args, filter, &file, shown) {
        Err(refused) => Outcome::Refused(refused, filter.words_for(refused, &file)),
        Ok((link, counts)) => match written(args, filter, &file, link, counts, shown) {
            Ok(()) => Outcome::Counted(link, counts),
            Err(text) => Outcome::Failed(text),
        },
    }
}

/// The link and the counts of a file.
fn counted(args: &Args, filter: &Filter, file: &[u8], name: &str) -> Result<(Link, Counts), Refused> {
    let (mut counts, mut progress) = (Counts::default(), Progress::of(name));
    for part in Parts::new(file, &filter.sheet, args.mode, PART) {
        let part = part?;
        counts += part.counts;
        progress.at(part.next, file.len() as u64);
    }
    // The header alone is a capture without records: it tells the link.
    Ok((open(&file[..HEADER])?, counts))
}

/// Writes the new captures that are asked for.
fn written(args: &Args, filter: &Filter, file: &[u8], link: Link, counts: Counts, name: &str) -> Result<(), String> {
    let wanted = Wanted { passed: args.passed.as_deref(), dropped: args.dropped.as_deref() };
    if wanted.passed.is_none() && wanted.dropped.is_none() {
        return Ok(());
    }
    let program = program(&filter.sheet, link, args.mode).map_err(|refused| refused.to_string())?;
    frames::write(file, &program, counts, &wanted, name)
}
