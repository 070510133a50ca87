//! Sheets to measure, by shape and number of terms.

/// A primitive's record: kind, direction, p, q, n, and the bytes from 8 on.
fn record(kind: u8, dir: u8, p: u8, q: u8, n: u32, a: &[u8]) -> [u8; 24] {
    let mut r = [0; 24];
    r[..4].copy_from_slice(&[kind, dir, p, q]);
    r[4..8].copy_from_slice(&n.to_be_bytes());
    r[8..8 + a.len()].copy_from_slice(a);
    r
}

fn bytes(steps: &[[u8; 5]], primitives: &[[u8; 24]], tokens: &[u8]) -> Vec<u8> {
    let mut out = Vec::new();
    for (count, records) in
        [(steps.len(), steps.concat()), (primitives.len(), primitives.concat()), (tokens.len(), tokens.to_vec())]
    {
        out.extend(u16::try_from(count).expect("a count has 16 bits").to_be_bytes());
        out.extend(records);
    }
    out
}

fn src_host(k: u32) -> [u8; 24] {
    record(1, 1, 0, 0, 0x0a00_0000 + k, &[])
}

/// `len <= 1000 + k`: three instructions, true of a short frame.
fn short(k: u32) -> [u8; 24] {
    record(20, 0, 3, 0, 1000 + k, &[])
}

/// `len > 1000 + k`: false of a short frame.
fn long(k: u32) -> [u8; 24] {
    record(20, 0, 4, 0, 1000 + k, &[])
}

fn tcp_port(port: u32) -> [u8; 24] {
    record(3, 0, 5, 0, port, &[])
}

fn src_net_10() -> [u8; 24] {
    record(5, 1, 0, 0, 0x0a00_0000, &0xff00_0000u32.to_be_bytes())
}

fn proto(p: u8) -> [u8; 24] {
    record(7, 0, p, 0, 0, &[])
}

const AND: u8 = 1;
const OR: u8 = 2;
const NOT: u8 = 3;

/// `n` terms under one operator: ((a op b) op c) op ..
fn left(op: u8, n: usize, term: fn(u32) -> [u8; 24]) -> Vec<u8> {
    let tokens = [vec![op; n - 1], vec![0; n]].concat();
    bytes(&[], &(0..n as u32).map(term).collect::<Vec<_>>(), &tokens)
}

/// The same as a op (b op (c op ..)).
fn right(op: u8, n: usize, term: fn(u32) -> [u8; 24]) -> Vec<u8> {
    let tokens = [[op, 0].repeat(n - 1), vec![0]].concat();
    bytes(&[], &(0..n as u32).map(term).collect::<Vec<_>>(), &tokens)
}

/// A raw byte access, equal to n: n times 1 is added, to a byte that is 0 in the frame.
fn steps(n: u16) -> Vec<u8> {
    let rest = [u32::from(n).to_be_bytes().to_vec(), n.to_be_bytes().to_vec()].concat();
    bytes(&vec![[0, 0, 0, 0, 1]; n.into()], &[record(23, 0, 0, 0, 0, &rest)], &[0])
}

/// The sheet of a shape; none if the name is not known or n is 0.
pub fn sheet(shape: &str, n: usize) -> Option<Vec<u8>> {
    if n == 0 {
        return None;
    }
    Some(match shape {
        "ip" => bytes(&[], &[proto(1)], &[0]),
        "host" => bytes(&[], &[record(1, 0, 0, 0, 0x0a00_0001, &[])], &[0]),
        "small" => bytes(&[], &[tcp_port(502), src_net_10()], &[AND, 0, 0]),
        "gate" => {
            bytes(&[], &[proto(6), proto(3), tcp_port(502), tcp_port(80), src_net_10()], &[AND, AND, NOT, OR, 0, 0, OR, 0, 0, 0])
        }
        "host-or-left" => left(OR, n, src_host),
        "host-or-right" => right(OR, n, src_host),
        "or-left" => left(OR, n, long),
        "or-right" => right(OR, n, long),
        "and-left" => left(AND, n, short),
        "and-right" => right(AND, n, short),
        "not" => bytes(&[], &[short(0)], &[vec![NOT; n], vec![0]].concat()),
        "steps" => steps(n.try_into().ok()?),
        _ => return None,
    })
}

/// L of a chain of `len`s: 6, one for each Or and Not, three for each primitive.
pub fn length_of_len_chain(sheet: &[u8]) -> usize {
    let primitives = usize::from(u16::from_be_bytes([sheet[2], sheet[3]]));
    let tokens = &sheet[6 + 24 * primitives..];
    6 + tokens.iter().filter(|&&t| t > AND).count() + 3 * primitives
}
