//! The words of a notation, read from the left.

use std::ops::Range;

/// What is wrong with a notation, in words.
#[derive(Debug, PartialEq)]
pub struct Fault(pub String);

/// The words of a notation and how many of them are read.
pub struct Words<'a> {
    text: &'a str,
    places: Vec<Range<usize>>,
    at: usize,
}

const PAIRS: [&str; 6] = ["<<", ">>", "<=", ">=", "==", "!="];
const SIGNS: &str = "[]()=<>+*/%&|^!-";

/// Space as tools/sheet takes it: Unicode's, and the four separators of ASCII.
fn is_space(c: char) -> bool {
    c.is_whitespace() || ('\x1c'..='\x1f').contains(&c)
}

/// How long the word is with which a text begins; 0 if it begins with none.
fn word_length(text: &str) -> usize {
    if PAIRS.iter().any(|pair| text.starts_with(pair)) {
        return 2;
    }
    if text.starts_with(|c| SIGNS.contains(c)) {
        return 1;
    }
    if !text.starts_with(|c: char| c.is_ascii_alphanumeric() || c == ':') {
        return 0;
    }
    text.find(|c: char| !c.is_ascii_alphanumeric() && !"_.:/-".contains(c)).unwrap_or(text.len())
}

impl<'a> Words<'a> {
    pub fn of(text: &'a str) -> Result<Words<'a>, Fault> {
        let (mut places, mut at) = (Vec::new(), 0);
        while let Some(space) = text[at..].find(|c| !is_space(c)) {
            at += space;
            match word_length(&text[at..]) {
                0 => {
                    let stray = text[at..].chars().next().unwrap_or(' ');
                    return Err(Fault(format!("\"{stray}\" has no meaning here")));
                }
                length => places.push(at..at + length),
            }
            at = places[places.len() - 1].end;
        }
        Ok(Words { text, places, at: 0 })
    }

    /// The next word; empty at the end.
    pub fn peek(&self) -> &'a str {
        self.places.get(self.at).map_or("", |place| &self.text[place.clone()])
    }

    /// The next word, whichever it is.
    pub fn take(&mut self, wanted: &str) -> Result<&'a str, Fault> {
        let word = self.peek();
        if word.is_empty() {
            return Err(self.bad(wanted));
        }
        self.at += 1;
        Ok(word)
    }

    /// The next word, which must be this one.
    pub fn must(&mut self, word: &str) -> Result<(), Fault> {
        match self.took(word) {
            true => Ok(()),
            false => Err(self.bad(&format!("\"{word}\""))),
        }
    }

    /// Whether the next word is this one, which is then read.
    pub fn took(&mut self, word: &str) -> bool {
        let is = self.peek() == word;
        self.at += usize::from(is);
        is
    }

    /// The next word's code in a table; a word that is not there is not read.
    pub fn took_of<T: Copy>(&mut self, table: &[(&str, T)]) -> Option<T> {
        let found = table.iter().find(|(word, _)| *word == self.peek()).map(|&(_, code)| code);
        self.at += usize::from(found.is_some());
        found
    }

    /// The next word as something that a function makes of it; a word that it makes nothing of is not read.
    pub fn parsed<T>(&mut self, wanted: &str, parse: impl FnOnce(&'a str) -> Option<T>) -> Result<T, Fault> {
        match parse(self.peek()) {
            Some(made) if !self.peek().is_empty() => {
                self.at += 1;
                Ok(made)
            }
            _ => Err(self.bad(wanted)),
        }
    }

    /// A decimal or 0x hexadecimal number.
    pub fn number(&mut self, most: u32) -> Result<u32, Fault> {
        if self.peek().is_empty() {
            return Err(self.bad("a number"));
        }
        let wanted = format!("a number up to {most}");
        self.parsed(&wanted, |word| {
            let value = match word.strip_prefix("0x") {
                Some(digits) => value(digits, 16),
                None => value(word, 10),
            };
            value.filter(|&n| n <= u64::from(most)).map(|n| n as u32)
        })
    }

    /// Unreads a word.
    pub fn back(&mut self) {
        self.at -= 1;
    }

    pub fn bad(&self, wanted: &str) -> Fault {
        Fault(match self.peek() {
            "" => format!("{wanted} expected, not the end"),
            word => format!("{wanted} expected, not \"{word}\" (word {})", self.at + 1),
        })
    }

    /// How many words are read.
    pub fn read(&self) -> usize {
        self.at
    }

    /// The text from one word to before another.
    pub fn between(&self, first: usize, past: usize) -> &'a str {
        &self.text[self.places[first].start..self.places[past - 1].end]
    }
}

/// The number that digits write; the most that fits where it is larger. None if there is no digit or another character.
pub fn value(digits: &str, base: u32) -> Option<u64> {
    let grown = |n: u64, digit: u32| n.saturating_mul(base.into()).saturating_add(digit.into());
    let n = digits.chars().try_fold(0, |n, c| c.to_digit(base).map(|digit| grown(n, digit)));
    n.filter(|_| !digits.is_empty())
}
