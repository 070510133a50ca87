//! Document 01's sheet, read into the Rust's own types, and refusals 1 to 6. The Rust knows neither.

use crate::ast::*;
use crate::codegen::LinkType;
use std::net::{IpAddr, Ipv4Addr, Ipv6Addr};

/// Number and place.
pub type Refusal = (u32, usize);

pub struct Sheet {
    pub link: LinkType,
    pub mended: bool,
    pub primitives: Vec<Primitive>,
    /// A whole tree in prefix order.
    pub tokens: Vec<u8>,
}

fn be16(b: &[u8]) -> u16 {
    u16::from_be_bytes([b[0], b[1]])
}

fn be32(b: &[u8]) -> u32 {
    u32::from_be_bytes([b[0], b[1], b[2], b[3]])
}

/// The next section's records, each of `size` bytes; none if the count or a record is cut.
fn section<'a>(rest: &mut &'a [u8], size: usize) -> Option<&'a [u8]> {
    let (count, after) = rest.split_at_checked(2)?;
    let (records, after) = after.split_at_checked(be16(count) as usize * size)?;
    *rest = after;
    Some(records)
}

/// Whether byte `i` of a primitive may stand there. The bytes below it are taken to be right: only the lowest wrong one is told.
fn right(r: &[u8], i: usize) -> bool {
    let b = r[i];
    let (p, side) = (r[2], r[14]);
    match (r[0], i) {
        (kind, 0) => (1..=23).contains(&kind),
        // direction
        (1..=6 | 8, 1) => b <= 3,
        // p and q
        (3 | 4, 2) => b <= 12,
        (7, 2) => (1..=12).contains(&b),
        (3 | 4 | 7, 3) => b == 0 || p == 11 || p == 12,
        (6 | 18 | 19, 2) => true,
        (14 | 15 | 17, 2) => b <= 1,
        (20 | 23, 2) => b <= 6,
        // n
        (1 | 4 | 5 | 20 | 23, 4..=7) => true,
        (3 | 9, 6..=7) => true,
        (14 | 17, 6..=7) | (15, 4..=7) => b == 0 || p == 1,
        // a
        (2 | 6, 8..=23) => true,
        (5, 8..=11) => true,
        (8, 8..=13) => true,
        // a byte access: layer, size, then the side it is compared with; if 14 is neither, it is the only fault of 8-23
        (23, 1 | 3) => b <= 2,
        (23, 14) => b <= 1,
        (23, 8..=13) if side > 1 => true,
        (23, 8..=11) => b == 0 || side == 0,
        (23, 12..=13) => true,
        (23, 15..=16) => b == 0 || side == 1 && b <= 2,
        (23, 17..=20) => b == 0 || side == 1,
        _ => b == 0,
    }
}

fn lowest_wrong_byte(steps: &[u8], primitives: &[u8], tokens: &[u8]) -> Option<usize> {
    // each section starts after its count
    let start = 2;
    if let Some(i) = (0..steps.len()).step_by(5).find(|&i| steps[i] > 9) {
        return Some(start + i);
    }
    let start = start + steps.len() + 2;
    if let Some(i) = (0..primitives.len()).find(|&i| !right(&primitives[i / 24 * 24..][..24], i % 24)) {
        return Some(start + i);
    }
    let start = start + primitives.len() + 2;
    tokens.iter().position(|&t| t > 3).map(|i| start + i)
}

/// Whether the tokens are one whole tree.
fn one_tree(tokens: &[u8]) -> bool {
    let mut missing = 1;
    for &t in tokens {
        if missing == 0 {
            return false;
        }
        match t {
            0 => missing -= 1,
            1 | 2 => missing += 1,
            _ => {}
        }
    }
    missing == 0
}

fn dir(b: u8) -> Dir {
    [Dir::SrcOrDst, Dir::Src, Dir::Dst, Dir::SrcAndDst][b as usize]
}

fn proto(p: u8, q: u8) -> Option<Proto> {
    Some(match p {
        0 => return None,
        1 => Proto::Ip,
        2 => Proto::Ip6,
        3 => Proto::Arp,
        4 => Proto::Rarp,
        5 => Proto::Tcp,
        6 => Proto::Udp,
        7 => Proto::Icmp,
        8 => Proto::Icmp6,
        9 => Proto::Igmp,
        10 => Proto::Sctp,
        11 => Proto::Num(q),
        _ => Proto::Ip6Proto(q),
    })
}

fn cmp(b: u8) -> CmpOp {
    [CmpOp::Eq, CmpOp::Ne, CmpOp::Lt, CmpOp::Le, CmpOp::Gt, CmpOp::Ge, CmpOp::BitAnd][b as usize]
}

fn arith(b: u8) -> ArithOp {
    use ArithOp::*;
    [Add, Sub, Mul, Div, Mod, And, Or, Xor, Shl, Shr][b as usize]
}

fn layer(b: u8) -> Layer {
    [Layer::Raw, Layer::Net, Layer::Trans][b as usize]
}

fn size(b: u8) -> AccessSize {
    [AccessSize::Byte, AccessSize::Half, AccessSize::Word][b as usize]
}

fn ip4(b: &[u8]) -> Ipv4Addr {
    be32(b).into()
}

fn ip6(b: &[u8]) -> Ipv6Addr {
    <[u8; 16]>::try_from(b).unwrap().into()
}

/// How many steps a primitive takes.
fn takes(r: &[u8]) -> usize {
    if r[0] == 23 {
        be16(&r[12..]) as usize
    } else {
        0
    }
}

/// The primitive of a record without wrong bytes, with the steps it takes.
fn primitive(r: &[u8], steps: &[u8]) -> Primitive {
    let (p, q, n, a) = (r[2], r[3], &r[4..8], &r[8..24]);
    let dir = || dir(r[1]);
    let number = || (p == 1).then(|| be32(n));
    match r[0] {
        1 => Primitive::Host { addr: IpAddr::V4(ip4(n)), dir: dir() },
        2 => Primitive::Host { addr: IpAddr::V6(ip6(a)), dir: dir() },
        3 => Primitive::Port { port: be16(&n[2..]), dir: dir(), proto: proto(p, q) },
        4 => Primitive::PortRange { lo: be16(n), hi: be16(&n[2..]), dir: dir(), proto: proto(p, q) },
        5 => Primitive::Net { net: IpNet { addr: ip4(n), mask: be32(a) }, dir: dir() },
        6 => Primitive::Net6 { net: Ipv6Net { addr: ip6(a), prefix_len: p }, dir: dir() },
        7 => Primitive::Proto(proto(p, q).unwrap()),
        8 => Primitive::EtherHost { addr: MacAddr(a[..6].try_into().unwrap()), dir: dir() },
        9 => Primitive::EtherProto(be16(&n[2..])),
        10 => Primitive::EtherMulticast,
        11 => Primitive::IpBroadcast,
        12 => Primitive::IpMulticast,
        13 => Primitive::Ip6Multicast,
        14 => Primitive::Vlan { id: number().map(|n| n as u16) },
        15 => Primitive::Mpls { label: number() },
        16 => Primitive::PppoeDiscovery,
        17 => Primitive::PppoeSession { session_id: number().map(|n| n as u16) },
        18 => Primitive::IpProtoChain(p),
        19 => Primitive::Ip6ProtoChain(p),
        20 => Primitive::Len { op: cmp(p), value: be32(n) },
        21 => Primitive::Inbound,
        22 => Primitive::Outbound,
        _ => Primitive::ByteAccess(ByteAccess {
            layer: layer(r[1]),
            offset: be32(n) as i32,
            size: size(q),
            alu_ops: steps.chunks(5).map(|s| (arith(s[0]), be32(&s[1..]))).collect(),
            op: cmp(p),
            rhs: if r[14] == 0 {
                CmpRhs::Const(be32(a))
            } else {
                CmpRhs::Load(ByteLoad { layer: layer(r[15]), offset: be32(&r[17..]) as i32, size: size(r[16]) })
            },
        }),
    }
}

fn bad_offset(p: &Primitive, link: LinkType) -> bool {
    let Primitive::ByteAccess(a) = p else { return false };
    let header = if a.layer == Layer::Net { link.net_offset() } else { 0 };
    a.offset < 0 || a.offset as i64 + header as i64 > 32767
}

fn bad_shift(p: &Primitive) -> bool {
    let Primitive::ByteAccess(a) = p else { return false };
    a.alu_ops.iter().any(|&(op, by)| matches!(op, ArithOp::Shl | ArithOp::Shr) && by >= 32)
}

/// The sheet, or the first of refusals 1 to 6.
pub fn read(link: u8, mode: u8, mut sheet: &[u8]) -> Result<Sheet, Refusal> {
    let link = match link {
        0 => LinkType::Ethernet,
        1 => LinkType::RawIp,
        2 => LinkType::Cooked,
        _ => return Err((1, 0)),
    };
    if mode > 1 {
        return Err((1, 0));
    }
    let mut part = |size| section(&mut sheet, size).ok_or((2, 0));
    let (steps, records, tokens) = (part(5)?, part(24)?, part(1)?);
    if !sheet.is_empty() {
        return Err((2, 0));
    }
    if let Some(place) = lowest_wrong_byte(steps, records, tokens) {
        return Err((3, place));
    }
    let wanted = tokens.iter().filter(|&&t| t == 0).count();
    let taken: usize = records.chunks(24).map(takes).sum();
    if !one_tree(tokens) || wanted != records.len() / 24 || taken != steps.len() / 5 {
        return Err((4, 0));
    }
    let mut left = steps;
    let primitives: Vec<_> = records
        .chunks(24)
        .map(|r| {
            let (own, after) = left.split_at(5 * takes(r));
            left = after;
            primitive(r, own)
        })
        .collect();
    if let Some(i) = primitives.iter().position(|p| bad_offset(p, link)) {
        return Err((5, i));
    }
    if let Some(i) = primitives.iter().position(bad_shift) {
        return Err((6, i));
    }
    Ok(Sheet { link, mended: mode == 1, primitives, tokens: tokens.to_vec() })
}
