//! Document 01's sheet, written from a tree of tests.

/// Kinds of primitives, by document 01's numbers.
pub mod kind {
    pub const HOST4: u8 = 1;
    pub const HOST6: u8 = 2;
    pub const PORT: u8 = 3;
    pub const PORT_RANGE: u8 = 4;
    pub const NET: u8 = 5;
    pub const NET6: u8 = 6;
    pub const PROTO: u8 = 7;
    pub const ETHER_HOST: u8 = 8;
    pub const ETHER_PROTO: u8 = 9;
    pub const ETHER_MULTICAST: u8 = 10;
    pub const IP_BROADCAST: u8 = 11;
    pub const IP_MULTICAST: u8 = 12;
    pub const IP6_MULTICAST: u8 = 13;
    pub const VLAN: u8 = 14;
    pub const MPLS: u8 = 15;
    pub const PPPOE_DISCOVERY: u8 = 16;
    pub const PPPOE_SESSION: u8 = 17;
    pub const IP_PROTO_CHAIN: u8 = 18;
    pub const IP6_PROTO_CHAIN: u8 = 19;
    pub const LEN: u8 = 20;
    pub const INBOUND: u8 = 21;
    pub const OUTBOUND: u8 = 22;
    pub const BYTE_ACCESS: u8 = 23;
}

/// A primitive's fields, as the sheet names them, and the steps of a byte access: operator and operand.
#[derive(Default)]
pub struct Primitive {
    pub kind: u8,
    pub direction: u8,
    pub p: u8,
    pub q: u8,
    pub n: u32,
    pub a: [u8; 16],
    pub steps: Vec<(u8, u32)>,
}

impl Primitive {
    pub fn of(kind: u8) -> Primitive {
        Primitive { kind, ..Primitive::default() }
    }

    /// Bytes 8 and on; the rest stays zero.
    pub fn with(mut self, bytes: &[u8]) -> Primitive {
        self.a[..bytes.len()].copy_from_slice(bytes);
        self
    }
}

/// A part of a tree; parts stand in one run and name each other by their places, so that no depth is too deep for the stack.
pub enum Node {
    /// The next primitive of the sheet.
    Test,
    Not(usize),
    And(usize, usize),
    Or(usize, usize),
}

/// Tests in the order in which the tree names them, and its parts.
#[derive(Default)]
pub struct Tree {
    pub primitives: Vec<Primitive>,
    nodes: Vec<Node>,
}

impl Tree {
    /// Adds a part and gives its place.
    pub fn add(&mut self, node: Node) -> usize {
        self.nodes.push(node);
        self.nodes.len() - 1
    }

    /// The tokens of a part, in prefix order.
    fn tokens(&self, root: usize) -> Vec<u8> {
        let (mut tokens, mut to_come) = (Vec::new(), vec![root]);
        while let Some(at) = to_come.pop() {
            match self.nodes[at] {
                Node::Test => tokens.push(0),
                Node::And(left, right) => {
                    tokens.push(1);
                    to_come.extend([right, left]);
                }
                Node::Or(left, right) => {
                    tokens.push(2);
                    to_come.extend([right, left]);
                }
                Node::Not(part) => {
                    tokens.push(3);
                    to_come.push(part);
                }
            }
        }
        tokens
    }

    /// The sheet of the tree with this root. None if a count does not fit in 16 bits.
    pub fn write(&self, root: usize) -> Option<Vec<u8>> {
        let steps: Vec<_> = self.primitives.iter().flat_map(|primitive| &primitive.steps).collect();
        let mut sheet = count(steps.len())?.to_vec();
        for (operator, operand) in steps {
            sheet.push(*operator);
            sheet.extend(operand.to_be_bytes());
        }
        sheet.extend(count(self.primitives.len())?);
        for Primitive { kind, direction, p, q, n, a, .. } in &self.primitives {
            sheet.extend([*kind, *direction, *p, *q]);
            sheet.extend(n.to_be_bytes());
            sheet.extend(a);
        }
        let tokens = self.tokens(root);
        sheet.extend(count(tokens.len())?);
        sheet.extend(tokens);
        Some(sheet)
    }
}

fn count(n: usize) -> Option<[u8; 2]> {
    u16::try_from(n).ok().map(u16::to_be_bytes)
}
