//! Calls each function of the wrapper on good, bad and empty input and compares with what document 01 says.

use bromaveluth::{compile, evaluate, measure, program, run, version, Link, Mode, Outcome, Refusal, Refused, Size, Stop};

/// The sheet of one primitive of these first bytes.
fn sheet(front: &[u8], tokens: &[u8]) -> Vec<u8> {
    let mut record = [0; 24];
    record[..front.len()].copy_from_slice(front);
    let count = (tokens.len() as u16).to_be_bytes();
    [&[0, 0, 0, 1], &record[..], &count, tokens].concat()
}

fn ip() -> Vec<u8> {
    sheet(&[7, 0, 1], &[0])
}

/// K2 of document 01, plain: a number for each instruction, its bytes in order.
const LISTING: [u64; 12] = [
    0x6112000000000000,
    0x6113040000000000,
    0xbf25000000000000,
    0x070500000e000000,
    0x2d35050000000000,
    0x69240c0000000000,
    0xdc04000010000000,
    0x5504020000080000,
    0xb700000002000000,
    0x9500000000000000,
    0xb700000001000000,
    0x9500000000000000,
];

fn listing() -> Vec<u8> {
    LISTING.iter().flat_map(|i| i.to_be_bytes()).collect()
}

fn frame(ethertype: [u8; 2]) -> [u8; 60] {
    let mut f = [0; 60];
    f[12..14].copy_from_slice(&ethertype);
    f
}

fn refused(refusal: Refusal, place: usize) -> Refused {
    Refused { refusal, place }
}

#[test]
fn compile_writes_the_program_and_nothing_else() {
    let (mut output, mut work) = ([0xaa; 128], [7; 64]);
    assert_eq!(compile(&ip(), Link::Ethernet, Mode::Plain, &mut output, &mut work), Ok(12));
    assert_eq!(output[..96], listing());
    assert_eq!(output[96..], [0xaa; 32]);
    assert_eq!(work[..20], [0; 20]);
    assert_eq!(work[20..], [7; 44]);
}

#[test]
fn compile_refuses_with_a_place() {
    let (mut output, mut work) = ([0xaa; 128], [7; 64]);
    let mut wrong = ip();
    wrong[27] = 1;
    let mut answer = |s: &[u8], link| compile(s, link, Mode::Mended, &mut output, &mut work);
    assert_eq!(answer(&wrong, Link::Ethernet), Err(refused(Refusal::WrongByte, 27)));
    assert_eq!(answer(&ip()[..30], Link::Ethernet), Err(refused(Refusal::Length, 0)));
    assert_eq!(answer(&[], Link::Ethernet), Err(refused(Refusal::Length, 0)));
    assert_eq!(answer(&[0; 6], Link::Ethernet), Err(refused(Refusal::NotOneTree, 0)));
    assert_eq!((output, work), ([0xaa; 128], [7; 64]));
    assert_eq!(compile(&ip(), Link::Ethernet, Mode::Plain, &mut [], &mut []), Err(refused(Refusal::Output, 0)));
    assert_eq!(compile(&ip(), Link::Ethernet, Mode::Plain, &mut output, &mut []), Err(refused(Refusal::Work, 0)));
}

#[test]
fn a_late_refusal_clears() {
    let (mut output, mut work) = ([0xaa; 64], [7; 32]);
    // ARP cannot be matched on RawIp; the primitive counts no instruction, so L is 6
    let arp = sheet(&[7, 0, 3], &[0]);
    assert_eq!(compile(&arp, Link::RawIp, Mode::Plain, &mut output, &mut work), Err(refused(Refusal::Ethertype, 0)));
    assert_eq!((output[..48].to_vec(), output[48..].to_vec()), (vec![0; 48], vec![0xaa; 16]));
    assert_eq!((work[..14].to_vec(), work[14..].to_vec()), (vec![0; 14], vec![7; 18]));
}

#[test]
fn measure_gives_the_least_room() {
    let deep = sheet(&[7, 0, 1], &[vec![3; 100], vec![0]].concat());
    let size = measure(&deep, Link::Ethernet, Mode::Mended).unwrap();
    assert_eq!(size, Size { length: 112, tokens: 101, output: 896, work: 920 });
    let room = |output, work| compile(&deep, Link::Ethernet, Mode::Mended, &mut vec![0; output], &mut vec![0; work]);
    assert_eq!(room(size.output, size.work), Ok(112));
    assert_eq!(room(size.output - 1, size.work), Err(refused(Refusal::Output, 0)));
    assert_eq!(room(size.output, size.work - 1), Err(refused(Refusal::Work, 0)));
    assert_eq!(measure(&[], Link::Ethernet, Mode::Mended), Err(refused(Refusal::Length, 0)));
    let mut wrong = ip();
    wrong[27] = 1;
    assert_eq!(measure(&wrong, Link::RawIp, Mode::Plain), Err(refused(Refusal::WrongByte, 27)));
}

#[test]
fn program_finds_its_own_room() {
    assert_eq!(program(&ip(), Link::Ethernet, Mode::Plain), Ok(listing()));
    // 10,000 Nots need 10,012 instructions and 90,020 numbers
    let deep = sheet(&[7, 0, 1], &[vec![3; 10_000], vec![0]].concat());
    let code = program(&deep, Link::Ethernet, Mode::Plain).unwrap();
    assert_eq!(code.len(), 8 * 10_012);
    assert_eq!(run(&code, &frame([8, 0]), 0, 10_012).verdict(), Some(true));
    assert_eq!(run(&code, &frame([8, 6]), 0, 10_012).verdict(), Some(false));
    assert_eq!(program(&[], Link::Ethernet, Mode::Plain), Err(refused(Refusal::Length, 0)));
}

#[test]
fn the_wrappers_example_holds() {
    let code = program(&ip(), Link::Ethernet, Mode::Mended).unwrap();
    assert_eq!(run(&code, &[0; 60], 0, code.len() as u64 / 8).verdict(), Some(false));
}

#[test]
fn evaluate_judges_or_refuses() {
    assert_eq!(evaluate(&ip(), Link::Ethernet, &frame([8, 0])), Ok(true));
    assert_eq!(evaluate(&ip(), Link::Ethernet, &frame([8, 6])), Ok(false));
    assert_eq!(evaluate(&ip(), Link::Ethernet, &[]), Ok(false));
    assert_eq!(evaluate(&ip(), Link::RawIp, &[]), Ok(true));
    assert_eq!(evaluate(&[], Link::Ethernet, &[]), Err(refused(Refusal::Length, 0)));
    let deep = sheet(&[7, 0, 1], &[vec![3; 256], vec![0]].concat());
    assert_eq!(evaluate(&deep, Link::Ethernet, &[]), Err(refused(Refusal::TooDeep, 0)));
    assert_eq!(evaluate(&sheet(&[22], &[0]), Link::Ethernet, &[]), Err(refused(Refusal::Direction, 0)));
}

#[test]
fn run_stops_as_document_01_says() {
    let code = listing();
    let end = |stop, r0, steps| Outcome { stop, r0, steps };
    assert_eq!(run(&code, &frame([8, 0]), 0, 12), end(Stop::Exit, 2, 10));
    assert_eq!(run(&code, &frame([8, 6]), 0, 12), end(Stop::Exit, 1, 10));
    assert_eq!(run(&code, &[], 0, 12), end(Stop::Exit, 1, 7));
    assert_eq!(run(&code, &[], 0, 0), end(Stop::Budget, 0, 0));
    assert_eq!(run(&[], &[], 0, 12), end(Stop::Input, 0, 0));
    assert_eq!(run(&code[..64], &frame([8, 0]), 0, 12), end(Stop::NoInstruction, 0, 8));
    assert_eq!(run(&[0xff; 8], &[], 0, 1), end(Stop::Form, 0, 0));
    assert_eq!(run(&code[88..], &[], 0, 1), end(Stop::NotWritten, 0, 0));
    let outside = [0x61, 0x12, 8, 0, 0, 0, 0, 0];
    assert_eq!(run(&outside, &[], 0, 1), end(Stop::Outside, 0, 0));
    assert_eq!(run(&outside, &[], 0, 1).verdict(), None);
}

#[test]
fn numbers_and_texts_are_document_01s() {
    assert_eq!((Refusal::from_number(0), Refusal::from_number(20)), (None, None));
    for n in 1..=19 {
        assert_eq!(Refusal::from_number(n).unwrap().number(), n);
    }
    assert_eq!(Refusal::Jump.to_string(), "jump distance above 32767");
    assert_eq!(refused(Refusal::WrongByte, 27).to_string(), "refusal 3: a code or unused byte is wrong (byte 27)");
    assert_eq!(refused(Refusal::Modulo, 4).to_string(), "refusal 19: first bad step: Mod (primitive 4)");
    assert_eq!(refused(Refusal::Work, 0).to_string(), "refusal 8: work below L + 8 x tokens numbers of 32 bits");
    assert_eq!(Stop::Budget.to_string(), "budget spent");
}

/// The header of C, which has the same words.
const HEADER: &str = include_str!("../../bindings/c/bromaveluth.h");

/// What the header returns for each number that has words of its own there: lines `case NAME: return "WORDS";` of a function, the
/// names' numbers in an enum.
fn header_words(function: &str) -> Vec<(u8, &'static str)> {
    let number = |name: &str| {
        let (_, after) = HEADER.split_once(&format!(" {name} = "))?;
        after.split(|c: char| !c.is_ascii_digit()).next()?.parse().ok()
    };
    let (_, body) = HEADER.split_once(&format!("{function}(uint8_t")).unwrap();
    let (body, _) = body.split_once("default:").unwrap();
    let cases = body.lines().filter_map(|line| line.trim().strip_prefix("case ")?.split_once(": return \""));
    cases.filter_map(|(name, words)| Some((number(name)?, words.strip_suffix("\";")?))).collect()
}

#[test]
fn the_header_has_the_same_words_and_version() {
    let refusals: Vec<_> = (1..=255).filter_map(Refusal::from_number).map(|r| (r.number(), r.text())).collect();
    assert_eq!(header_words("bromaveluth_refusal_text"), refusals);
    let stops = [Stop::Exit, Stop::Form, Stop::Outside, Stop::NotWritten, Stop::NoInstruction, Stop::Budget, Stop::Input];
    assert_eq!(header_words("bromaveluth_stop_text"), stops.map(|s| (s.number(), s.text())));
    let part = |i| env!("CARGO_PKG_VERSION").split('.').nth(i).unwrap().parse::<u32>().unwrap();
    assert_eq!(version(), 1_000_000 * part(0) + 1_000 * part(1) + part(2));
    assert!(HEADER.contains(concat!("#define BROMAVELUTH_VERSION \"", env!("CARGO_PKG_VERSION"), "\"")));
}
