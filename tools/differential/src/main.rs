//! What the listing of document 01 must be, with the Rust generator itself as the source of programs and messages.

include!(concat!(env!("OUT_DIR"), "/rust.rs"));
mod codegen;
mod error;
mod sheet;
mod tree;

use ast::*;
use codegen::LinkType;
use ebpf::Insn;
use error::Error;
use sheet::Refusal;
use std::fmt::Write as _;
use std::io::{self, BufWriter, Read, Write};
use std::process::exit;
use tree::tree;

/// The program, or the Rust's message.
fn compile(expr: &Expr, link: LinkType) -> Result<Vec<Insn>, String> {
    match ebpf_codegen::compile(expr, link) {
        Ok(program) => Ok(program.instructions().to_vec()),
        Err(Error::CodegenError { message }) => Err(message),
    }
}

fn alone(p: &Primitive, link: LinkType) -> Result<Vec<Insn>, String> {
    compile(&Expr::Primitive(p.clone()), link)
}

fn access(alu_ops: Vec<(ArithOp, u32)>, rhs: CmpRhs) -> Primitive {
    let (layer, offset, size) = (Layer::Raw, 0, AccessSize::Byte);
    Primitive::ByteAccess(ByteAccess { layer, offset, size, alu_ops, op: CmpOp::Eq, rhs })
}

/// Which refusal a message of the Rust stands for. The texts are asked of the Rust, by one primitive that must fail for each.
struct Messages(Vec<(u32, String)>);

impl Messages {
    fn ask() -> Self {
        let mac = MacAddr([0; 6]);
        let load = ByteLoad { layer: Layer::Raw, offset: 0, size: AccessSize::Byte };
        let by = |op, operand| access(vec![(op, operand)], CmpRhs::Const(0));
        let failing = [
            (10, access(vec![(ArithOp::Add, 1); 65535], CmpRhs::Const(0))),
            (13, Primitive::EtherHost { addr: mac, dir: Dir::Src }),
            (14, Primitive::EtherMulticast),
            (15, Primitive::Mpls { label: None }),
            (16, Primitive::Inbound),
            (17, access(vec![], CmpRhs::Load(load))),
            (18, by(ArithOp::Div, 0)),
            (19, by(ArithOp::Mod, 1)),
        ];
        let text = |p| alone(p, LinkType::RawIp).expect_err("the Rust refuses this");
        Messages(failing.iter().map(|(number, p)| (*number, text(p))).collect())
    }

    /// The texts of 11 and 12 vary; 12 is of ports alone.
    fn number(&self, message: &str, p: &Primitive) -> u32 {
        match self.0.iter().find(|(_, text)| text == message) {
            Some((number, _)) => *number,
            None if matches!(p, Primitive::Port { .. } | Primitive::PortRange { .. }) => 12,
            None => 11,
        }
    }

    fn too_long(&self, message: &str) -> bool {
        self.0[0].1 == message
    }

    fn text(&self, number: u32) -> String {
        self.0.iter().find(|(n, _)| *n == number).unwrap().1.clone()
    }
}

/// Which refusal a test of MAC addresses earns on a cooked frame, which has none: document 02's A9. The Rust knows nothing of it.
fn without_macs(p: &Primitive, link: LinkType) -> Option<u32> {
    match p {
        Primitive::EtherHost { .. } if link == LinkType::Cooked => Some(13),
        Primitive::EtherMulticast if link == LinkType::Cooked => Some(14),
        _ => None,
    }
}

/// A primitive's instructions, 0 if it is refused. One that is too long by itself is a byte access: one instruction a step.
fn count(p: &Primitive, link: LinkType, messages: &Messages) -> usize {
    match (alone(p, link), p) {
        (Ok(program), _) => program.len() - 6,
        (Err(message), Primitive::ByteAccess(a)) if messages.too_long(&message) => {
            let short = ByteAccess { alu_ops: vec![], ..a.clone() };
            count(&Primitive::ByteAccess(short), link, messages) + a.alu_ops.len()
        }
        _ => 0,
    }
}

/// Mended mode, which is document 01's rule and not the Rust's: class 6 for a conditional jump on R4 and an immediate.
fn mend(i: Insn) -> Insn {
    use ebpf::*;
    let conditional = ![BPF_JA, BPF_EXIT].contains(&(i.code & 0xf0));
    if i.code & 7 == BPF_JMP && i.code & BPF_X == 0 && conditional && i.dst() == R4 {
        Insn { code: i.code & !7 | BPF_JMP32, ..i }
    } else {
        i
    }
}

enum Answer {
    Refused(Refusal),
    /// 10 to 19, with the Rust's message.
    Told(Refusal, String),
    Program(Vec<Insn>),
}

fn answer(link: u8, mode: u8, output: usize, work: usize, bytes: &[u8], messages: &Messages) -> Answer {
    let mut sheet = match sheet::read(link, mode, bytes) {
        Ok(sheet) => sheet,
        Err(refusal) => return Answer::Refused(refusal),
    };
    // in place of a test that only we refuse stands one that the Rust refuses as well
    let ours: Vec<_> = sheet.primitives.iter().map(|p| without_macs(p, sheet.link)).collect();
    for (p, _) in sheet.primitives.iter_mut().zip(&ours).filter(|(_, refused)| refused.is_some()) {
        *p = Primitive::Inbound;
    }
    let jumps = sheet.tokens.iter().filter(|&&t| t > 1).count();
    let length = 6 + jumps + sheet.primitives.iter().map(|p| count(p, sheet.link, messages)).sum::<usize>();
    if output < 8 * length {
        return Answer::Refused((7, 0));
    }
    if work < length + 8 * sheet.tokens.len() {
        return Answer::Refused((8, 0));
    }
    match compile(&tree(&sheet), sheet.link) {
        Ok(program) => {
            assert_eq!(program.len(), length, "the Rust's program is not L long");
            Answer::Program(if sheet.mended { program.into_iter().map(mend).collect() } else { program })
        }
        Err(message) if messages.too_long(&message) => Answer::Told((10, 0), message),
        Err(message) => {
            // Primitives are emitted in their order, and whether one is refused hangs on nothing but itself and the link.
            let fails = |p: &Primitive| alone(p, sheet.link).err().filter(|m| !messages.too_long(m));
            let (place, text) = sheet.primitives.iter().map(fails).enumerate().find_map(|(i, m)| Some((i, m?))).unwrap();
            assert_eq!(text, message, "another primitive was refused");
            match ours[place] {
                Some(number) => Answer::Told((number, place), messages.text(number)),
                None => Answer::Told((messages.number(&message, &sheet.primitives[place]), place), message),
            }
        }
    }
}

/// The listing program's lines.
fn lines(answer: &Answer) -> String {
    let mut out = String::new();
    match answer {
        Answer::Refused((number, place)) => writeln!(out, "{number} {place}").unwrap(),
        Answer::Told((12, place), _) => writeln!(out, "12 {place}").unwrap(),
        Answer::Told((number, place), message) => writeln!(out, "{number} {place}\n{message}").unwrap(),
        Answer::Program(program) => {
            writeln!(out, "0 {}", program.len()).unwrap();
            for i in program {
                writeln!(out, "{:016x}", u64::from_be_bytes(i.to_le_bytes())).unwrap();
            }
        }
    }
    out
}

/// The listing program: link, mode, sheet; sheet, output and work of 64 KiB each.
fn listing(input: &[u8], messages: &Messages) -> Answer {
    const ROOM: usize = 65536;
    match input {
        [link, mode, bytes @ ..] => {
            // a longer sheet is refused 2, as one whose length is wrong
            let bytes = if bytes.len() > ROOM { &[] } else { bytes };
            answer(*link, *mode, ROOM, ROOM / 4, bytes, messages)
        }
        _ => Answer::Refused((1, 0)),
    }
}

/// A case of tag C: link, mode, output bytes (4), work numbers (4), sheet length (4), sheet. None if it is cut.
fn case(input: &mut &[u8], messages: &Messages) -> Option<Answer> {
    let (head, rest) = input.split_at_checked(15)?;
    let number = |at: usize| u32::from_be_bytes(head[at..at + 4].try_into().unwrap()) as usize;
    let (sheet, rest) = rest.split_at_checked(number(11))?;
    *input = rest;
    (head[0] == b'C').then(|| answer(head[1], head[2], number(3), number(7), sheet, messages))
}

fn told() -> io::Result<()> {
    let mut input = Vec::new();
    let mut out = BufWriter::new(io::stdout().lock());
    let messages = Messages::ask();
    let args: Vec<String> = std::env::args().skip(1).collect();
    match args.iter().map(String::as_str).collect::<Vec<_>>()[..] {
        ["cases"] => {
            io::stdin().read_to_end(&mut input)?;
            let mut rest = &input[..];
            let mut done = 0;
            while !rest.is_empty() {
                let Some(answer) = case(&mut rest, &messages) else {
                    out.flush()?;
                    eprintln!("case {done} is cut or has another tag than C");
                    exit(1);
                };
                out.write_all(lines(&answer).as_bytes())?;
                done += 1;
            }
        }
        ["listing"] => {
            io::stdin().read_to_end(&mut input)?;
            out.write_all(lines(&listing(&input, &messages)).as_bytes())?;
        }
        _ => {
            eprintln!("usage: oracle cases < STREAM   (cases of tag C)\n       oracle listing < FILE   (link, mode, sheet)");
            exit(2);
        }
    }
    out.flush()
}

fn main() {
    match told() {
        // The reader went away: there is nobody to tell.
        Err(problem) if problem.kind() == io::ErrorKind::BrokenPipe => exit(3),
        Err(problem) => {
            eprintln!("oracle: {problem}");
            exit(3);
        }
        Ok(()) => {}
    }
}
