//! The words after `bromaveluth capture`.

use crate::say::Failure;
use bromaveluth::Mode;
use std::ffi::{OsStr, OsString};
use std::os::unix::ffi::OsStrExt;
use std::path::PathBuf;

pub const USAGE: &str =
    "usage: bromaveluth capture [OPTIONS] FILTER FILE...   (bromaveluth capture --help tells the options and the notation)";

pub const HELP: &str = "\
usage: bromaveluth capture [OPTIONS] FILTER FILE...
       bromaveluth capture [OPTIONS] --filter FILE FILE...
       bromaveluth capture [OPTIONS] --sheet FILE FILE...

Counts the frames of captures (libpcap savefiles, Ethernet, raw IP or Linux cooked) that a filter passes and that it drops. A frame of which the capturing
machine kept only the front is cut: it is counted, and not judged. FILE may be - for standard input.

  --filter FILE       the filter's notation is in a file
  --sheet FILE        the filter is a sheet, as tools/sheet writes it
  --mode plain        compare as the original generator does, where a number of 2^31 or more counts as negative
  --mode mended       compare rightly; this is the default
  --json              one JSON object: files, each with its counts or its refusal, and their total
  --tsv               lines of fields with tabs between them, the names of the fields first
  --passed NEW        write the frames that passed to a new capture; with one FILE only
  --dropped NEW       write the frames that were dropped to a new capture; with one FILE only
  --help, --version

A filter is one word of the shell:
  X and Y, X or Y, not X, ( X )       not binds first; and with or only in parentheses
  ip ip6 arp rarp tcp udp icmp icmp6 igmp sctp, ip proto N, ip6 proto N
  [DIR] host ADDRESS                  DIR: src, dst, both; without it either
  [DIR] net ADDRESS/PREFIX            IPv4 also: net ADDRESS mask MASK
  [PROTO] [DIR] port N                [PROTO] [DIR] portrange LOW-HIGH
  ether [DIR] host MAC, ether proto N, ether multicast
  ip broadcast, ip multicast, ip6 multicast, ip protochain N, ip6 protochain N
  vlan [N], mpls [N], pppoed, pppoes [N], inbound, outbound
  len CMP N                           CMP: = != < <= > >=, has (common bits are not zero)
  LAYER[OFFSET:SIZE] STEPS CMP N      LAYER: raw, net, trans; :SIZE 1, 2 or 4, 1 without it;
                                      STEPS, none or more: + - * / % & | ^ << >> and a number;
                                      in place of N another LAYER[OFFSET:SIZE]
Numbers are decimal or 0x hexadecimal.

Exit codes; of several that apply, the highest:
  0  every file was counted
  1  a file or the filter was refused; other files were counted
  2  the command line or the notation is wrong; nothing was counted
  3  something cannot be read or written";

/// Where the filter comes from.
#[derive(Debug)]
pub enum Source {
    Notation(OsString),
    NotationFile(OsString),
    SheetFile(OsString),
}

/// How answers are written.
#[derive(Clone, Copy, Debug, PartialEq)]
pub enum Shape {
    Words,
    Json,
    Tsv,
}

/// What is asked.
#[derive(Debug)]
pub struct Args {
    pub source: Source,
    pub files: Vec<OsString>,
    pub mode: Mode,
    pub shape: Shape,
    pub passed: Option<PathBuf>,
    pub dropped: Option<PathBuf>,
}

pub enum Asked {
    Count(Args),
    Help,
    Version,
}

/// The words as they come: each option at most once, and the words that are no options.
#[derive(Default)]
struct Given {
    filter: Option<OsString>,
    sheet: Option<OsString>,
    mode: Option<OsString>,
    passed: Option<OsString>,
    dropped: Option<OsString>,
    json: bool,
    tsv: bool,
    plain: Vec<OsString>,
}

fn usage(text: impl Into<String>) -> Failure {
    Failure::Usage(text.into(), USAGE)
}

/// Reads the words after the verb.
pub fn read(words: Vec<OsString>) -> Result<Asked, Failure> {
    let (mut given, mut words) = (Given::default(), words.into_iter());
    while let Some(word) = words.next() {
        match word.as_bytes() {
            b"--" => given.plain.extend(words.by_ref()),
            b"--help" | b"-h" => return Ok(Asked::Help),
            b"--version" | b"-V" => return Ok(Asked::Version),
            b"--json" => given.json = true,
            b"--tsv" => given.tsv = true,
            [b'-', _, ..] => given.option(&word, &mut words)?,
            _ => given.plain.push(word),
        }
    }
    given.whole().map(Asked::Count)
}

/// The value of an option that is written --NAME=VALUE.
fn behind_equals(word: &OsStr) -> (&[u8], Option<OsString>) {
    let bytes = word.as_bytes();
    match bytes.iter().position(|&b| b == b'=') {
        Some(at) => (&bytes[..at], Some(OsStr::from_bytes(&bytes[at + 1..]).to_owned())),
        None => (bytes, None),
    }
}

impl Given {
    /// An option that takes a value.
    fn option(&mut self, word: &OsStr, rest: &mut impl Iterator<Item = OsString>) -> Result<(), Failure> {
        let (name, value) = behind_equals(word);
        let shown = String::from_utf8_lossy(name);
        let place = match name {
            b"--filter" => &mut self.filter,
            b"--sheet" => &mut self.sheet,
            b"--mode" => &mut self.mode,
            b"--passed" => &mut self.passed,
            b"--dropped" => &mut self.dropped,
            _ => return Err(usage(format!("there is no option {shown}"))),
        };
        if place.is_some() {
            return Err(usage(format!("{shown} is given twice")));
        }
        *place = Some(value.or_else(|| rest.next()).ok_or_else(|| usage(format!("what follows {shown}?")))?);
        Ok(())
    }

    fn whole(mut self) -> Result<Args, Failure> {
        let source = match (self.filter.take(), self.sheet.take()) {
            (None, None) if self.plain.is_empty() => return Err(usage("which filter, and which capture?")),
            (None, None) => Source::Notation(self.plain.remove(0)),
            (Some(file), None) => Source::NotationFile(file),
            (None, Some(file)) => Source::SheetFile(file),
            (Some(_), Some(_)) => return Err(usage("--filter and --sheet: there can be one filter only")),
        };
        let args = Args {
            mode: self.mode()?,
            shape: self.shape()?,
            source,
            files: self.plain,
            passed: self.passed.map(Into::into),
            dropped: self.dropped.map(Into::into),
        };
        args.fits()?;
        Ok(args)
    }

    fn mode(&self) -> Result<Mode, Failure> {
        match self.mode.as_deref().map(OsStr::as_bytes) {
            None | Some(b"mended") => Ok(Mode::Mended),
            Some(b"plain") => Ok(Mode::Plain),
            Some(_) => Err(usage("--mode is plain or mended")),
        }
    }

    fn shape(&self) -> Result<Shape, Failure> {
        match (self.json, self.tsv) {
            (true, true) => Err(usage("--json and --tsv: there can be one shape only")),
            (true, false) => Ok(Shape::Json),
            (false, true) => Ok(Shape::Tsv),
            (false, false) => Ok(Shape::Words),
        }
    }
}

impl Args {
    /// What each word alone cannot tell.
    fn fits(&self) -> Result<(), Failure> {
        let of_source = match &self.source {
            Source::Notation(_) => None,
            Source::NotationFile(file) | Source::SheetFile(file) => Some(file),
        };
        let new_ones = [&self.passed, &self.dropped];
        if self.files.is_empty() {
            return Err(usage("which capture? A FILE must be named, or - for standard input"));
        }
        if self.files.iter().chain(of_source).filter(|file| *file == "-").count() > 1 {
            return Err(usage("standard input (-) can be read once only"));
        }
        if self.files.len() > 1 && new_ones.iter().any(|new| new.is_some()) {
            return Err(usage("--passed and --dropped take one FILE only"));
        }
        if self.passed.is_some() && self.passed == self.dropped {
            return Err(usage("--passed and --dropped need two files"));
        }
        if new_ones.into_iter().flatten().any(|new| new.as_os_str() == "-" || new.as_os_str().is_empty()) {
            return Err(usage("--passed and --dropped take the name of a new file"));
        }
        Ok(())
    }
}
