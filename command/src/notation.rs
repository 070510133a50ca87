//! The notation of tools/sheet: same words, same sheets, same faults.

use crate::sheet::{kind, Node, Primitive, Tree};
use crate::words::{value, Fault, Words};
use std::net::{IpAddr, Ipv4Addr};

const EITHER: u8 = 0;
const DIRECTIONS: [(&str, u8); 3] = [("src", 1), ("dst", 2), ("both", 3)];
const IP: u8 = 1;
const IP6: u8 = 2;
/// `ip proto` and `ip6 proto`.
const NUM: u8 = 11;
const IP6_PROTO: u8 = 12;
/// Protocols by `Proto`'s numbers.
const PROTOCOLS: [(&str, u8); 10] = [
    ("ip", IP),
    ("ip6", IP6),
    ("arp", 3),
    ("rarp", 4),
    ("tcp", 5),
    ("udp", 6),
    ("icmp", 7),
    ("icmp6", 8),
    ("igmp", 9),
    ("sctp", 10),
];
const COMPARISONS: [(&str, u8); 8] = [("=", 0), ("==", 0), ("!=", 1), ("<", 2), ("<=", 3), (">", 4), (">=", 5), ("has", 6)];
const STEPS: [(&str, u8); 10] =
    [("+", 0), ("-", 1), ("*", 2), ("/", 3), ("%", 4), ("&", 5), ("|", 6), ("^", 7), ("<<", 8), (">>", 9)];
const LAYERS: [(&str, u8); 3] = [("raw", 0), ("net", 1), ("trans", 2)];
const SIZES: [(&str, u8); 3] = [("1", 0), ("2", 1), ("4", 2)];
const DIRECTED: &str = "\"host\", \"net\", \"port\" or \"portrange\"";

/// A notation's sheet, and the text of each of its tests, in their order.
#[derive(Debug)]
pub struct Written {
    pub sheet: Vec<u8>,
    pub tests: Vec<String>,
}

/// Writes the sheet of a notation.
pub fn write(text: &str) -> Result<Written, Fault> {
    let mut reading = Reading { words: Words::of(text)?, tree: Tree::default(), tests: Vec::new() };
    let root = reading.whole()?;
    if !reading.words.peek().is_empty() {
        return Err(reading.words.bad("\"and\", \"or\" or the end"));
    }
    let too_many = || Fault("more than 65535 tests, operators or steps".to_string());
    Ok(Written { sheet: reading.tree.write(root).ok_or_else(too_many)?, tests: reading.tests })
}

#[derive(Clone, Copy, PartialEq)]
enum Join {
    And,
    Or,
}

impl Join {
    const WORDS: [(&'static str, Join); 2] = [("and", Join::And), ("or", Join::Or)];

    fn word(self) -> &'static str {
        Join::WORDS[self as usize].0
    }
}

/// Tests side by side, joined from the left as far as they are read.
#[derive(Default)]
struct Group {
    left: Option<usize>,
    join: Option<Join>,
    /// Nots before the parenthesis that was opened inside this group.
    nots: usize,
}

struct Reading<'a> {
    words: Words<'a>,
    tree: Tree,
    tests: Vec<String>,
}

impl Reading<'_> {
    /// The tree of all words. Open parentheses stand in a run of their own: no number of them is too large for the stack.
    fn whole(&mut self) -> Result<usize, Fault> {
        let (mut group, mut outer) = (Group::default(), Vec::new());
        loop {
            let nots = self.nots();
            if self.words.took("(") {
                outer.push(Group { nots, ..group });
                group = Group::default();
                continue;
            }
            let test = self.test()?;
            let mut part = self.under(nots, test);
            while !self.joined(&mut group, part)? {
                let Some(around) = outer.pop() else { return Ok(group.left.unwrap_or(part)) };
                self.words.must(")")?;
                part = self.under(around.nots, group.left.unwrap_or(part));
                group = around;
            }
        }
    }

    fn nots(&mut self) -> usize {
        let first = self.words.read();
        while self.words.took("not") || self.words.took("!") {}
        self.words.read() - first
    }

    fn under(&mut self, nots: usize, part: usize) -> usize {
        (0..nots).fold(part, |part, _| self.tree.add(Node::Not(part)))
    }

    /// Joins a part to its group; true if `and` or `or` follows, so that another part must.
    fn joined(&mut self, group: &mut Group, part: usize) -> Result<bool, Fault> {
        group.left = Some(match (group.left, group.join) {
            (Some(left), Some(Join::And)) => self.tree.add(Node::And(left, part)),
            (Some(left), Some(Join::Or)) => self.tree.add(Node::Or(left, part)),
            _ => part,
        });
        let again = self.words.took_of(&Join::WORDS);
        match (group.join, again) {
            (Some(join), Some(other)) if join != other => Err(Fault(format!(
                "\"{}\" and \"{}\" side by side (word {}): parentheses must say which comes first",
                join.word(),
                other.word(),
                self.words.read()
            ))),
            _ => {
                group.join = again;
                Ok(again.is_some())
            }
        }
    }

    fn test(&mut self) -> Result<usize, Fault> {
        let first = self.words.read();
        self.tree.primitives.push(test(&mut self.words)?);
        self.tests.push(self.words.between(first, self.words.read()).to_string());
        Ok(self.tree.add(Node::Test))
    }
}

fn code_of(table: &[(&str, u8)], word: &str) -> Option<u8> {
    table.iter().find(|row| row.0 == word).map(|row| row.1)
}

fn test(words: &mut Words) -> Result<Primitive, Fault> {
    let word = words.take("a test")?;
    match (word, code_of(&LAYERS, word)) {
        ("vlan", _) => tag(words, kind::VLAN, 65535),
        ("mpls", _) => tag(words, kind::MPLS, u32::MAX),
        ("pppoes", _) => tag(words, kind::PPPOE_SESSION, 65535),
        ("pppoed", _) => Ok(Primitive::of(kind::PPPOE_DISCOVERY)),
        ("inbound", _) => Ok(Primitive::of(kind::INBOUND)),
        ("outbound", _) => Ok(Primitive::of(kind::OUTBOUND)),
        ("len", _) => length(words),
        ("ether", _) => ether(words),
        (_, Some(layer)) if words.peek() == "[" => byte_access(words, layer),
        _ => match code_of(&PROTOCOLS, word) {
            Some(p) => of_protocol(words, p),
            None => directed(words, word, None),
        },
    }
}

/// The number of a tag, which may be left out.
fn tag(words: &mut Words, kind: u8, most: u32) -> Result<Primitive, Fault> {
    if !words.peek().starts_with(|c: char| c.is_ascii_digit()) {
        return Ok(Primitive::of(kind));
    }
    Ok(Primitive { p: 1, n: words.number(most)?, ..Primitive::of(kind) })
}

fn comparison(words: &mut Words, wanted: &str) -> Result<u8, Fault> {
    words.took_of(&COMPARISONS).ok_or_else(|| words.bad(wanted))
}

fn length(words: &mut Words) -> Result<Primitive, Fault> {
    let p = comparison(words, "a comparison")?;
    Ok(Primitive { p, n: words.number(u32::MAX)?, ..Primitive::of(kind::LEN) })
}

fn ether(words: &mut Words) -> Result<Primitive, Fault> {
    if words.took("proto") {
        return Ok(Primitive { n: words.number(65535)?, ..Primitive::of(kind::ETHER_PROTO) });
    }
    if words.took("multicast") {
        return Ok(Primitive::of(kind::ETHER_MULTICAST));
    }
    let direction = words.took_of(&DIRECTIONS).unwrap_or(EITHER);
    words.must("host")?;
    let mac = words.parsed("a MAC address", mac)?;
    Ok(Primitive { direction, ..Primitive::of(kind::ETHER_HOST) }.with(&mac))
}

fn mac(word: &str) -> Option<Vec<u8>> {
    let byte = |part: &str| value(part, 16).filter(|_| part.len() == 2).map(|n| n as u8);
    let bytes: Option<Vec<u8>> = word.split(':').map(byte).collect();
    bytes.filter(|bytes| bytes.len() == 6)
}

/// What follows a protocol: nothing, a word of `ip` or `ip6`, or ports.
fn of_protocol(words: &mut Words, p: u8) -> Result<Primitive, Fault> {
    let (mut p, mut q, six) = (p, 0, usize::from(p == IP6));
    if p == IP || p == IP6 {
        if words.took("proto") {
            (p, q) = ([NUM, IP6_PROTO][six], words.number(255)? as u8);
        } else if words.took("protochain") {
            let kind = [kind::IP_PROTO_CHAIN, kind::IP6_PROTO_CHAIN][six];
            return Ok(Primitive { p: words.number(255)? as u8, ..Primitive::of(kind) });
        } else if words.took("multicast") {
            return Ok(Primitive::of([kind::IP_MULTICAST, kind::IP6_MULTICAST][six]));
        } else if p == IP && words.took("broadcast") {
            return Ok(Primitive::of(kind::IP_BROADCAST));
        }
    }
    let next = words.peek();
    if code_of(&DIRECTIONS, next).is_none() && next != "port" && next != "portrange" {
        return Ok(Primitive { p, q, ..Primitive::of(kind::PROTO) });
    }
    words.take("")?;
    directed(words, next, Some((p, q)))
}

/// A test that may have a direction before it; its first word is read.
fn directed(words: &mut Words, word: &str, protocol: Option<(u8, u8)>) -> Result<Primitive, Fault> {
    let (direction, word) = match code_of(&DIRECTIONS, word) {
        Some(direction) => (direction, words.take(DIRECTED)?),
        None => (EITHER, word),
    };
    let (p, q) = protocol.unwrap_or((0, 0));
    match (word, protocol) {
        ("port", _) => Ok(Primitive { direction, p, q, n: words.number(65535)?, ..Primitive::of(kind::PORT) }),
        ("portrange", _) => {
            let n = words.parsed("two ports as 10-20", port_range)?;
            Ok(Primitive { direction, p, q, n, ..Primitive::of(kind::PORT_RANGE) })
        }
        ("host", None) => host(words, direction),
        ("net", None) => network(words, direction),
        _ => {
            words.back();
            Err(words.bad(match (protocol, direction) {
                (Some(_), _) => "\"port\" or \"portrange\"",
                (None, EITHER) => "a test",
                (None, _) => DIRECTED,
            }))
        }
    }
}

fn port_range(word: &str) -> Option<u32> {
    let (low, high) = word.split_once('-')?;
    let (low, high) = (value(low, 10)?, value(high, 10)?);
    (low.max(high) <= 65535).then_some((low * 65536 + high) as u32)
}

fn host(words: &mut Words, direction: u8) -> Result<Primitive, Fault> {
    Ok(match words.parsed("an address", |word| word.parse().ok())? {
        IpAddr::V4(address) => Primitive { direction, n: address.into(), ..Primitive::of(kind::HOST4) },
        IpAddr::V6(address) => Primitive { direction, ..Primitive::of(kind::HOST6) }.with(&address.octets()),
    })
}

/// An address and its prefix; an IPv4 address may stand alone.
fn network_word(word: &str) -> Option<(IpAddr, Option<u8>)> {
    let (base, prefix) = match word.split_once('/') {
        Some((base, prefix)) => (base, Some(prefix)),
        None => (word, None),
    };
    let address: IpAddr = base.parse().ok()?;
    let most = if address.is_ipv4() { 32 } else { 128 };
    match prefix {
        None => address.is_ipv4().then_some((address, None)),
        Some(digits) => value(digits, 10).filter(|&bits| bits <= most).map(|bits| (address, Some(bits as u8))),
    }
}

fn network(words: &mut Words, direction: u8) -> Result<Primitive, Fault> {
    let (address, bits) = words.parsed("a network such as 10.0.0.0/8 or fe80::/10", network_word)?;
    let address = match address {
        IpAddr::V4(address) => address,
        IpAddr::V6(address) => {
            return Ok(Primitive { direction, p: bits.unwrap_or(128), ..Primitive::of(kind::NET6) }.with(&address.octets()));
        }
    };
    let mask = match bits {
        Some(bits) => (!0u32).checked_shl(32 - u32::from(bits)).unwrap_or(0),
        None => {
            words.must("mask")?;
            words.parsed("a mask such as 255.0.255.0", |word| word.parse::<Ipv4Addr>().ok())?.into()
        }
    };
    Ok(Primitive { direction, n: address.into(), ..Primitive::of(kind::NET) }.with(&mask.to_be_bytes()))
}

/// What a byte access reads: size code and offset.
struct Load {
    size: u8,
    offset: i32,
}

/// [OFFSET:SIZE], after its layer.
fn load(words: &mut Words) -> Result<Load, Fault> {
    words.must("[")?;
    let negative = words.took("-");
    let (digits, size) = words.parsed("an offset, or offset:size with size 1, 2 or 4", |word| {
        let (digits, size) = word.split_once(':').unwrap_or((word, "1"));
        Some((digits, code_of(&SIZES, size)?)).filter(|_| value(digits, 10).is_some())
    })?;
    let offset = value(digits, 10).and_then(|n| i32::try_from(n).ok());
    let offset = offset.ok_or_else(|| Fault(format!("the offset {digits} is above 2147483647")))?;
    words.must("]")?;
    Ok(Load { size, offset: if negative { -offset } else { offset } })
}

fn byte_access(words: &mut Words, layer: u8) -> Result<Primitive, Fault> {
    let Load { size, offset } = load(words)?;
    let mut steps = Vec::new();
    while let Some(operator) = words.took_of(&STEPS) {
        steps.push((operator, words.number(u32::MAX)?));
    }
    let p = comparison(words, "a step or a comparison")?;
    let mut a = [0; 13];
    // More steps than fit here are more than fit in the sheet, which is then not written.
    a[4..6].copy_from_slice(&(steps.len() as u16).to_be_bytes());
    match words.took_of(&LAYERS) {
        Some(other) => {
            let right = load(words)?;
            a[6..9].copy_from_slice(&[1, other, right.size]);
            a[9..].copy_from_slice(&right.offset.to_be_bytes());
        }
        None => a[..4].copy_from_slice(&words.number(u32::MAX)?.to_be_bytes()),
    }
    Ok(Primitive { direction: layer, p, q: size, n: offset as u32, steps, ..Primitive::of(kind::BYTE_ACCESS) }.with(&a))
}
