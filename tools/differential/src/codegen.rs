//! Stands in for what the generator takes from a file that is not at hand.

#[derive(Clone, Copy, PartialEq, Eq)]
pub enum LinkType {
    Ethernet,
    RawIp,
    /// Linux's cooked header, which the Rust does not know: where its ethertype and its network header stand is all that the generator asks.
    Cooked,
}

impl LinkType {
    pub fn ether_proto_offset(self) -> Option<u32> {
        match self {
            LinkType::Ethernet => Some(12),
            LinkType::RawIp => None,
            LinkType::Cooked => Some(14),
        }
    }

    pub fn net_offset(self) -> u32 {
        match self {
            LinkType::Ethernet => 14,
            LinkType::RawIp => 0,
            LinkType::Cooked => 16,
        }
    }
}

/// `b` after `a`. No answer hangs on the order: it decides only which of several jumps that are too long is met first.
pub fn concat<T>(mut a: Vec<T>, b: Vec<T>) -> Vec<T> {
    a.extend(b);
    a
}
