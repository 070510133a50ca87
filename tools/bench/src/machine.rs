//! A yardstick for the machine: document 01's checks, written by hand in plain safe Rust, one instruction decoded at each step.

/// Stop, R0, steps.
pub type End = (u8, u64, u64);

/// A step's effect: a register written, a jump, or the end.
enum Act {
    Write(usize, u64),
    Jump(i16),
    Next,
    Stop(u8, u64),
}

struct Machine<'a> {
    frame: &'a [u8],
    start: u64,
    regs: [Option<u64>; 7],
}

fn plain(r: u8) -> bool {
    r < 7 && r != 1
}

fn holds(op: u8, a: u64, b: u64) -> bool {
    match op {
        0x10 => a == b,
        0x20 => a > b,
        0x30 => a >= b,
        0x40 => a & b != 0,
        0x50 => a != b,
        0xa0 => a < b,
        _ => a <= b,
    }
}

impl Machine<'_> {
    /// A load from the context or the frame.
    fn load(&self, size: usize, dst: u8, src: u8, off: i16) -> Act {
        if src == 1 {
            return match (size, off) {
                (4, 0) => Act::Write(dst.into(), self.start),
                (4, 4) => Act::Write(dst.into(), self.start + self.frame.len() as u64),
                (4, _) => Act::Stop(31, 0),
                _ => Act::Stop(30, 0),
            };
        }
        if !plain(src) {
            return Act::Stop(30, 0);
        }
        let Some(base) = self.regs[usize::from(src)] else { return Act::Stop(32, 0) };
        let at = base.wrapping_add(off as u64).wrapping_sub(self.start) as usize;
        match at.checked_add(size).and_then(|end| self.frame.get(at..end)) {
            Some(b) => Act::Write(dst.into(), b.iter().rev().fold(0, |n, &x| n << 8 | u64::from(x))),
            None => Act::Stop(31, 0),
        }
    }

    fn wide(&self, op: u8, dst: u8, b: Option<u64>) -> Act {
        let (Some(b), a) = (b, self.regs[usize::from(dst)]) else { return Act::Stop(32, 0) };
        match (op, a) {
            (0xb0, _) => Act::Write(dst.into(), b),
            (_, None) => Act::Stop(32, 0),
            (0, Some(a)) => Act::Write(dst.into(), a.wrapping_add(b)),
            (_, Some(a)) => Act::Write(dst.into(), a.wrapping_sub(b)),
        }
    }

    fn narrow(&self, op: u8, dst: u8, b: u32) -> Act {
        if op == 0x30 && b == 0 || (op == 0x60 || op == 0x70) && b > 31 {
            return Act::Stop(30, 0);
        }
        let Some(a) = self.regs[usize::from(dst)] else { return Act::Stop(32, 0) };
        let a = a as u32;
        let v = match op {
            0x00 => a.wrapping_add(b),
            0x10 => a.wrapping_sub(b),
            0x20 => a.wrapping_mul(b),
            0x30 => a / b,
            0x40 => a | b,
            0x50 => a & b,
            0x60 => a << b,
            0x70 => a >> b,
            _ => a ^ b,
        };
        Act::Write(dst.into(), v.into())
    }

    fn swap(&self, dst: u8, bits: u32) -> Act {
        match (bits, self.regs[usize::from(dst)]) {
            (16 | 32, None) => Act::Stop(32, 0),
            (16, Some(a)) => Act::Write(dst.into(), (a as u16).swap_bytes().into()),
            (32, Some(a)) => Act::Write(dst.into(), (a as u32).swap_bytes().into()),
            _ => Act::Stop(30, 0),
        }
    }

    fn branch(&self, test: bool, off: i16) -> Act {
        if test {
            Act::Jump(off)
        } else {
            Act::Next
        }
    }

    /// What the instruction does; the guards say which fields are reserved.
    fn act(&self, i: [u8; 8]) -> Act {
        let (code, regs) = (i[0], i[1]);
        let (dst, src) = (regs & 15, regs >> 4);
        let off = i16::from_le_bytes([i[2], i[3]]);
        let imm = i32::from_le_bytes([i[4], i[5], i[6], i[7]]);
        let of = |r: u8| self.regs[usize::from(r)];
        match code {
            0x61 | 0x69 | 0x71 if imm == 0 && plain(dst) => self.load([4, 2, 1][usize::from(code >> 3 & 3)], dst, src, off),
            0x0f | 0x1f | 0xbf if off == 0 && imm == 0 && plain(dst) && plain(src) => self.wide(code & 0xf0, dst, of(src)),
            0x07 | 0xb7 if off == 0 && plain(regs) => self.wide(code & 0xf0, dst, Some(imm as u64)),
            0x04 | 0x14 | 0x24 | 0x34 | 0x44 | 0x54 | 0x64 | 0x74 | 0xa4 if off == 0 && plain(regs) => {
                self.narrow(code & 0xf0, dst, imm as u32)
            }
            0xdc if off == 0 && plain(regs) => self.swap(dst, imm as u32),
            0x05 if regs == 0 && imm == 0 => Act::Jump(off),
            0x15 | 0x25 | 0x35 | 0x45 | 0x55 | 0xa5 | 0xb5 if plain(regs) => match of(dst) {
                Some(a) => self.branch(holds(code & 0xf0, a, imm as u64), off),
                None => Act::Stop(32, 0),
            },
            0x16 | 0x26 | 0x36 | 0x46 | 0x56 | 0xa6 | 0xb6 if plain(regs) => match of(dst) {
                Some(a) => self.branch(holds(code & 0xf0, a as u32 as u64, imm as u32 as u64), off),
                None => Act::Stop(32, 0),
            },
            0x2d if imm == 0 && plain(dst) && plain(src) => match (of(dst), of(src)) {
                (Some(a), Some(b)) => self.branch(a > b, off),
                _ => Act::Stop(32, 0),
            },
            0x95 if regs == 0 && off == 0 && imm == 0 => match self.regs[0] {
                Some(r0) => Act::Stop(0, r0),
                None => Act::Stop(32, 0),
            },
            _ => Act::Stop(30, 0),
        }
    }
}

pub fn run(program: &[u8], frame: &[u8], start: u64, budget: u64) -> End {
    let end = start.checked_add(frame.len() as u64);
    if program.is_empty() || program.len() % 8 != 0 || end.is_none_or(|e| e >= 1 << 32) {
        return (35, 0, 0);
    }
    let mut m = Machine { frame, start, regs: [None; 7] };
    let mut pc: u64 = 0;
    for n in 0..budget {
        let at = (pc as usize).checked_mul(8);
        let Some(i) = at.and_then(|at| program.get(at..)?.first_chunk::<8>()) else { return (33, 0, n) };
        match m.act(*i) {
            Act::Write(dst, v) => m.regs[dst] = Some(v),
            Act::Jump(off) => pc = pc.wrapping_add(off as u64),
            Act::Next => {}
            Act::Stop(0, r0) => return (0, r0, n + 1),
            Act::Stop(stop, _) => return (stop, 0, n),
        }
        pc = pc.wrapping_add(1);
    }
    (34, 0, budget)
}
