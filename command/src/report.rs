//! The answers: in words, as one JSON object, or as lines of fields.

use crate::args::Shape;
use crate::say::{say, shown, COUNTED, FAILED, REFUSED};
use bromaveluth::capture::Counts;
use bromaveluth::{Link, Refused};
use std::io::{self, Write};
use std::path::Path;

/// What came of a file.
pub enum Outcome {
    Counted(Link, Counts),
    /// And the refusal in words.
    Refused(Refused, String),
    /// It could not be read, or what was asked of it not written.
    Failed(String),
}

pub struct Report {
    shape: Shape,
    /// The objects of the files so far: JSON is written at once, so that none is ever half an object.
    objects: Vec<String>,
    files: u64,
    counted: u64,
    refused: u64,
    total: Counts,
    code: u8,
}

impl Report {
    pub fn begun(shape: Shape) -> io::Result<Report> {
        if shape == Shape::Tsv {
            line("file\tlink\trecords\tpassed\tdropped\tcut\trefusal\tplace\ttext")?;
        }
        Ok(Report { shape, objects: Vec::new(), files: 0, counted: 0, refused: 0, total: Counts::default(), code: COUNTED })
    }

    pub fn add(&mut self, name: &str, outcome: Outcome) -> io::Result<()> {
        self.files += 1;
        let code = match &outcome {
            Outcome::Counted(_, counts) => {
                self.counted += 1;
                self.total += *counts;
                COUNTED
            }
            Outcome::Refused(..) => {
                self.refused += 1;
                REFUSED
            }
            Outcome::Failed(_) => FAILED,
        };
        self.code = self.code.max(code);
        match self.shape {
            Shape::Words => in_words(name, &outcome),
            Shape::Tsv => line(&fields(name, &outcome)),
            Shape::Json => {
                self.objects.push(object(name, &outcome));
                Ok(())
            }
        }
    }

    /// Says which new captures were written from the one file that was counted.
    pub fn wrote(&self, passed: Option<&Path>, dropped: Option<&Path>) -> io::Result<()> {
        for (new, frames) in [(passed, self.total.passed), (dropped, self.total.dropped)] {
            if let (Some(new), Shape::Words, COUNTED) = (new, self.shape, self.code) {
                line(&format!("{}: {} written", shown(&new.to_string_lossy()), plural(frames, "frame")))?;
            }
        }
        Ok(())
    }

    /// The total, and the exit code.
    pub fn ended(self) -> io::Result<u8> {
        match self.shape {
            Shape::Words if self.files > 1 => {
                let left = self.files - self.counted;
                let others = if left == 0 { String::new() } else { format!(", {left} not counted") };
                line(&format!("total of {}{others}: {}", plural(self.counted, "file"), classes(self.total)))?;
            }
            Shape::Json => {
                let failed = self.files - self.counted - self.refused;
                let files = format!("\"counted\":{},\"refused\":{},\"failed\":{failed}", self.counted, self.refused);
                line(&format!("{{\"files\":[{}],\"total\":{{{files},{}}}}}", self.objects.join(","), numbers(self.total)))?;
            }
            _ => {}
        }
        Ok(self.code)
    }
}

/// A line on standard output, written at once.
fn line(text: &str) -> io::Result<()> {
    let mut out = io::stdout().lock();
    out.write_all(format!("{text}\n").as_bytes())?;
    out.flush()
}

/// The counts are the answer; refusals and failures are said on standard error.
fn in_words(name: &str, outcome: &Outcome) -> io::Result<()> {
    match outcome {
        Outcome::Counted(link, counts) => {
            return line(&format!("{}: {}, {}", shown(name), link_words(*link), classes(*counts)));
        }
        Outcome::Refused(refused, text) => say(&format!("{name}: refused ({}): {text}", refused.refusal.number())),
        Outcome::Failed(text) => say(&format!("{name}: {text}")),
    }
    Ok(())
}

fn classes(counts: Counts) -> String {
    let Counts { passed, dropped, cut } = counts;
    format!("{}: {passed} passed, {dropped} dropped, {cut} cut", plural(counts.records(), "record"))
}

fn plural(n: u64, what: &str) -> String {
    format!("{n} {what}{}", if n == 1 { "" } else { "s" })
}

fn link_name(link: Link) -> &'static str {
    match link {
        Link::Ethernet => "Ethernet",
        Link::RawIp => "RawIp",
        Link::LinuxSll => "LinuxSll",
    }
}

fn link_words(link: Link) -> &'static str {
    match link {
        Link::Ethernet => "Ethernet",
        Link::RawIp => "raw IP",
        Link::LinuxSll => "Linux cooked",
    }
}

/// A line of --tsv. Control characters, tabs among them, are escaped, so that a line is a file and a tab ends a field.
fn fields(name: &str, outcome: &Outcome) -> String {
    let name = shown(name);
    match outcome {
        Outcome::Counted(link, Counts { passed, dropped, cut }) => {
            format!("{name}\t{}\t{}\t{passed}\t{dropped}\t{cut}\t\t\t", link_name(*link), passed + dropped + cut)
        }
        Outcome::Refused(refused, text) => {
            format!("{name}\t\t\t\t\t\t{}\t{}\t{}", refused.refusal.number(), refused.place, shown(text))
        }
        Outcome::Failed(text) => format!("{name}\t\t\t\t\t\t\t\t{}", shown(text)),
    }
}

fn numbers(counts: Counts) -> String {
    let Counts { passed, dropped, cut } = counts;
    format!("\"records\":{},\"passed\":{passed},\"dropped\":{dropped},\"cut\":{cut}", counts.records())
}

fn object(name: &str, outcome: &Outcome) -> String {
    let name = quoted(name);
    match outcome {
        Outcome::Counted(link, counts) => format!("{{\"file\":{name},\"link\":\"{}\",{}}}", link_name(*link), numbers(*counts)),
        Outcome::Refused(refused, text) => {
            let (number, place, text) = (refused.refusal.number(), refused.place, quoted(text));
            format!("{{\"file\":{name},\"refusal\":{number},\"place\":{place},\"text\":{text}}}")
        }
        Outcome::Failed(text) => format!("{{\"file\":{name},\"text\":{}}}", quoted(text)),
    }
}

/// A string of JSON.
fn quoted(text: &str) -> String {
    let mut out = String::from("\"");
    for c in text.chars() {
        match c {
            '"' | '\\' => out.extend(['\\', c]),
            c if c < ' ' || c == '\x7f' => out.push_str(&format!("\\u{:04x}", u32::from(c))),
            c => out.push(c),
        }
    }
    out.push('"');
    out
}
