//! The filter: its sheet, and words for what is refused in it.

use crate::args::{Source, USAGE};
use crate::mapped;
use crate::notation;
use crate::say::{reason, Failure};
use bromaveluth::capture::link_type;
use bromaveluth::{Refusal, Refused};
use std::ffi::OsStr;

pub struct Filter {
    pub sheet: Vec<u8>,
    /// The notation of each test; none if a sheet was given.
    tests: Vec<String>,
}

impl Filter {
    pub fn from(source: &Source) -> Result<Filter, Failure> {
        match source {
            Source::Notation(word) => Filter::written(word.as_encoded_bytes(), "the filter"),
            Source::NotationFile(file) => Filter::written(&read(file)?, &file.to_string_lossy()),
            Source::SheetFile(file) => Ok(Filter { sheet: read(file)?.to_vec(), tests: Vec::new() }),
        }
    }

    /// The filter of a notation; `name` is where that stands.
    fn written(notation: &[u8], name: &str) -> Result<Filter, Failure> {
        let text =
            std::str::from_utf8(notation).map_err(|_| Failure::Usage(format!("{name}: this is no text in UTF-8"), USAGE))?;
        let written = notation::write(text).map_err(|fault| Failure::Usage(format!("{name}: {}", fault.0), USAGE))?;
        Ok(Filter { sheet: written.sheet, tests: written.tests })
    }

    /// A refusal in words, with what is refused.
    pub fn words_for(&self, refused: Refused, file: &[u8]) -> String {
        let Refused { refusal, place } = refused;
        match refusal.number() {
            3 => format!("{refusal}: byte {place} of the sheet"),
            5 | 6 | 11..=19 => match self.tests.get(place) {
                Some(test) => format!("{refusal}: test {} of the filter, \"{}\"", place + 1, in_short(test)),
                None => format!("{refusal}: primitive {place} of the sheet"),
            },
            40..=43 => format!("{refusal}, at byte {place} of the file{}", hint(refusal, file)),
            _ => refusal.to_string(),
        }
    }
}

/// A test in one line that a person can read.
fn in_short(test: &str) -> String {
    let line = test.split_whitespace().collect::<Vec<_>>().join(" ");
    match line.char_indices().nth(100) {
        Some((end, _)) => format!("{}...", &line[..end]),
        None => line,
    }
}

/// What a person may want to know of a refused file.
fn hint(refusal: Refusal, file: &[u8]) -> String {
    match (refusal, link_type(file)) {
        (Refusal::Magic, _) if file.starts_with(&[0x0a, 0x0d, 0x0d, 0x0a]) => {
            "; this is pcapng, which \"editcap -F pcap\" turns into a capture that can be read".to_string()
        }
        (Refusal::Magic, _) if file.starts_with(&[0x1f, 0x8b]) => "; this is compressed by gzip".to_string(),
        (Refusal::LinkType, Some(number)) => format!("; it is {number}, and 1 (Ethernet), 101 (raw IP) and 113 (Linux cooked) can be read"),
        _ => String::new(),
    }
}

fn read(name: &OsStr) -> Result<mapped::Bytes, Failure> {
    mapped::read(name).map_err(|error| Failure::Failed(format!("{}: cannot be read: {}", name.to_string_lossy(), reason(&error))))
}
