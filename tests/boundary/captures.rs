//! Calls the wrapper's functions over captures on good, bad and empty files and compares with what document 02 says.

use bromaveluth::capture::{capture, capture_in, capture_part, link_type, open, records, Counts, Part, Parts, Record, HEADER};
use bromaveluth::{program, run, Link, Mode, Refusal, Refused};

const MICRO: u32 = 0xa1b2c3d4;
const NANO: u32 = 0xa1b23c4d;

/// A file in one of the byte orders.
struct File {
    bytes: Vec<u8>,
    order: fn(u32) -> [u8; 4],
}

impl File {
    fn new(order: fn(u32) -> [u8; 4], magic: u32, link_type: u32) -> File {
        let mut file = File { bytes: Vec::new(), order };
        file.number(magic);
        file.bytes.extend([0xe7; 16]);
        file.number(link_type);
        file
    }

    fn number(&mut self, n: u32) {
        self.bytes.extend((self.order)(n));
    }

    fn header(mut self, captured: u32, original: u32) -> File {
        [1, 2, captured, original].into_iter().for_each(|n| self.number(n));
        self
    }

    fn record(self, frame: &[u8], original: u32) -> File {
        let mut file = self.header(frame.len() as u32, original);
        file.bytes.extend(frame);
        file
    }
}

fn frame(ethertype: [u8; 2]) -> [u8; 60] {
    let mut f = [0; 60];
    f[12..14].copy_from_slice(&ethertype);
    f
}

const STARTS: [usize; 5] = [24, 100, 176, 222, 258];
const FOUR: Counts = Counts { passed: 2, dropped: 1, cut: 1 };

/// Passes `ip`, is dropped, is cut, and one with more captured than the original, which passes.
fn four(order: fn(u32) -> [u8; 4], magic: u32, link_type: u32) -> File {
    let (ip, arp) = (frame([8, 0]), frame([8, 6]));
    File::new(order, magic, link_type).record(&ip, 60).record(&arp, 60).record(&ip[..30], 60).record(&ip[..20], 10)
}

/// `four` in both byte orders and with both magics.
fn all_fours(link_type: u32) -> Vec<File> {
    let orders: [fn(u32) -> [u8; 4]; 2] = [u32::to_be_bytes, u32::to_le_bytes];
    orders.into_iter().flat_map(|order| [MICRO, NANO].map(|magic| four(order, magic, link_type))).collect()
}

/// The sheet of one primitive of this kind and p, under so many Nots.
fn sheet(kind: u8, p: u8, nots: usize) -> Vec<u8> {
    let mut record = [0; 24];
    (record[0], record[2]) = (kind, p);
    let tokens = [vec![3; nots], vec![0]].concat();
    [&[0, 0, 0, 1], &record[..], &(tokens.len() as u16).to_be_bytes(), &tokens].concat()
}

fn ip() -> Vec<u8> {
    sheet(7, 1, 0)
}

fn refused<T>(refusal: Refusal, place: usize) -> Result<T, Refused> {
    Err(Refused { refusal, place })
}

/// The sum of parts, or their refusal; each part but the last has `most` records.
fn in_parts(file: &[u8], sheet: &[u8], mode: Mode, most: u64) -> Result<Counts, Refused> {
    let mut sum = Counts::default();
    for part in Parts::new(file, sheet, mode, most) {
        let part = part?;
        assert!(part.counts.records() == most.max(1) || part.next == file.len() as u64);
        sum += part.counts;
    }
    Ok(sum)
}

#[test]
fn a_file_picks_its_link_and_is_counted() {
    for file in all_fours(1) {
        assert_eq!(open(&file.bytes), Ok(Link::Ethernet));
        assert_eq!(link_type(&file.bytes), Some(1));
        assert_eq!(capture(&file.bytes, &ip(), Mode::Mended), Ok(FOUR));
        assert_eq!(capture(&file.bytes, &sheet(7, 1, 1), Mode::Plain), Ok(Counts { passed: 1, dropped: 2, cut: 1 }));
    }
    for file in all_fours(101) {
        assert_eq!(open(&file.bytes), Ok(Link::RawIp));
        assert_eq!(capture(&file.bytes, &ip(), Mode::Plain), Ok(Counts { passed: 3, dropped: 0, cut: 1 }));
        assert_eq!(capture(&file.bytes, &sheet(7, 3, 0), Mode::Plain), refused(Refusal::Ethertype, 0));
    }
    for file in all_fours(113) {
        assert_eq!(open(&file.bytes), Ok(Link::LinuxSll));
        assert_eq!(capture(&file.bytes, &sheet(10, 0, 0), Mode::Plain), refused(Refusal::EtherMulticast, 0));
    }
    assert_eq!(FOUR.records(), 4);
    // an original length of all 32 bits
    let huge = File::new(u32::to_le_bytes, MICRO, 1).record(&frame([8, 0]), 0x8000_0000).record(&[], u32::MAX);
    assert_eq!(capture(&huge.bytes, &ip(), Mode::Plain), Ok(Counts { passed: 0, dropped: 0, cut: 2 }));
}

#[test]
fn a_file_is_refused_before_the_sheet() {
    let file = four(u32::to_le_bytes, MICRO, 1);
    let faults = [
        (Vec::new(), Refusal::FileEnds, 0),
        (b"xyz".to_vec(), Refusal::FileEnds, 0),
        (file.bytes[..23].to_vec(), Refusal::FileEnds, 0),
        (vec![0; 23], Refusal::Magic, 0),
        (four(u32::to_be_bytes, NANO, 114).bytes, Refusal::LinkType, 20),
        (four(u32::to_le_bytes, NANO, 0x1_0001).bytes, Refusal::LinkType, 20),
        (four(u32::to_be_bytes, NANO, 0x1000_0065).bytes, Refusal::LinkType, 20),
        (file.bytes[..257].to_vec(), Refusal::FileEnds, 222),
        (four(u32::to_be_bytes, NANO, 1).header(16_385, 0).bytes, Refusal::CapturedLength, 258),
        (four(u32::to_be_bytes, NANO, 1).header(16_384, 0).bytes, Refusal::FileEnds, 258),
        (four(u32::to_be_bytes, NANO, 1).header(0x8000_0000, 0).bytes, Refusal::CapturedLength, 258),
        // a header that is cut behind its captured length
        (four(u32::to_be_bytes, NANO, 1).header(16_385, 0).bytes[..258 + 12].to_vec(), Refusal::FileEnds, 258),
    ];
    for (bytes, refusal, place) in faults {
        let (mut output, mut work) = ([0xaa; 128], [7; 64]);
        assert_eq!(open(&bytes), refused(refusal, place));
        // good, refused with a place, and none at all
        for sheet in [ip(), sheet(21, 0, 0), Vec::new()] {
            assert_eq!(capture_in(&bytes, &sheet, Mode::Plain, &mut output, &mut work), refused(refusal, place));
            assert_eq!(capture(&bytes, &sheet, Mode::Plain), refused(refusal, place));
            for most in [1, 2, 3, u64::MAX] {
                assert_eq!(in_parts(&bytes, &sheet, Mode::Plain, most), refused(refusal, place));
            }
        }
        assert_eq!((output, work), ([0xaa; 128], [7; 64]));
    }
}

#[test]
fn the_sheet_is_refused_after_the_file() {
    let (file, (mut output, mut work)) = (four(u32::to_le_bytes, NANO, 1).bytes, ([0xaa; 128], [7; 64]));
    let mut answer = |sheet: &[u8], bytes: usize| capture_in(&file, sheet, Mode::Plain, &mut output[..bytes], &mut work);
    assert_eq!(answer(&[], 128), refused(Refusal::Length, 0));
    assert_eq!(answer(&ip(), 95), refused(Refusal::Output, 0));
    assert_eq!((output, work), ([0xaa; 128], [7; 64]));
    assert_eq!(capture_in(&file, &ip(), Mode::Plain, &mut output, &mut work[..19]), refused(Refusal::Work, 0));
    assert_eq!((output, work), ([0xaa; 128], [7; 64]));
    assert_eq!(capture_in(&file, &sheet(21, 0, 0), Mode::Plain, &mut output, &mut work), refused(Refusal::Direction, 0));
    assert_eq!((&output[..48], &output[48..]), (&[0; 48][..], &[0xaa; 80][..]));
    assert_eq!(capture_in(&file, &ip(), Mode::Plain, &mut output, &mut work), Ok(FOUR));
    assert_eq!(output[..96], program(&ip(), Link::Ethernet, Mode::Plain).unwrap());
    assert_eq!((&work[..20], &work[20..]), (&[0; 20][..], &[7; 44][..]));
    assert_eq!(output[96..], [0xaa; 32]);
}

#[test]
fn room_grows_with_the_filter() {
    let (file, deep) = (four(u32::to_be_bytes, MICRO, 1).bytes, sheet(7, 1, 10_000));
    assert_eq!(capture(&file, &deep, Mode::Mended), Ok(FOUR));
    assert_eq!(in_parts(&file, &deep, Mode::Mended, 3), Ok(FOUR));
}

#[test]
fn parts_add_up() {
    for file in all_fours(1) {
        for most in [0, 1, 2, 3, 4, 5, u64::MAX] {
            assert_eq!(in_parts(&file.bytes, &ip(), Mode::Mended, most), Ok(FOUR));
        }
        let parts: Vec<_> = Parts::new(&file.bytes, &ip(), Mode::Mended, 3).map(Result::unwrap).collect();
        let counts = |passed, dropped, cut| Counts { passed, dropped, cut };
        assert_eq!(parts, [Part { counts: counts(1, 1, 1), next: 222 }, Part { counts: counts(1, 0, 0), next: 258 }]);
    }
    let empty = File::new(u32::to_le_bytes, MICRO, 1).bytes;
    let none = Part { counts: Counts::default(), next: 24 };
    assert_eq!(Parts::new(&empty, &ip(), Mode::Mended, 9).collect::<Vec<_>>(), [Ok(none)]);
    assert_eq!(Parts::new(&empty[1..], &ip(), Mode::Mended, 9).collect::<Vec<_>>(), [refused(Refusal::Magic, 0)]);
}

#[test]
fn a_part_is_counted_in_lent_room() {
    let (file, (mut output, mut work)) = (four(u32::to_le_bytes, NANO, 1).bytes, ([0xaa; 128], [7; 64]));
    let mut part = |at, most| capture_part(&file, &ip(), Mode::Plain, &mut output, &mut work, at, most);
    assert_eq!(part(100, 2), Ok(Part { counts: Counts { passed: 0, dropped: 1, cut: 1 }, next: 222 }));
    assert_eq!(part(100, 0), Ok(Part { counts: Counts::default(), next: 100 }));
    assert_eq!(part(258, 9), Ok(Part { counts: Counts::default(), next: 258 }));
    assert_eq!((&output[96..], &work[20..]), (&[0xaa; 32][..], &[7; 44][..]));
    // the sheet is compiled before the fault of a later record is met, which comes first for the whole file
    let cut = &file[..257];
    let part = capture_part(cut, &sheet(22, 0, 0), Mode::Plain, &mut output, &mut work, 24, 9);
    assert_eq!(part, refused(Refusal::Direction, 0));
    assert_eq!(in_parts(cut, &sheet(22, 0, 0), Mode::Plain, 9), refused(Refusal::FileEnds, 222));
}

#[test]
fn a_file_cut_at_every_byte_ends_or_is_counted() {
    for file in all_fours(1) {
        for n in 0..=file.bytes.len() {
            let (cut, begun) = (&file.bytes[..n], STARTS.iter().rposition(|&start| start <= n));
            let whole = begun.is_some_and(|i| STARTS[i] == n);
            let answer = capture(cut, &ip(), Mode::Mended);
            match (whole, begun) {
                (true, Some(i)) => assert_eq!(answer.unwrap().records(), i as u64),
                (_, begun) => assert_eq!(answer, refused(Refusal::FileEnds, begun.map_or(0, |i| STARTS[i]))),
            }
            assert_eq!(in_parts(cut, &ip(), Mode::Mended, 1), answer);
            assert_eq!(open(cut).err(), answer.err());
            assert_eq!(records(cut).count(), begun.unwrap_or(0));
        }
    }
}

#[test]
fn records_stand_where_they_are_counted() {
    for file in all_fours(1) {
        let all: Vec<Record> = records(&file.bytes).collect();
        let told: Vec<_> = all.iter().map(|r| (r.at, r.captured, r.original, r.frame.len(), r.is_cut())).collect();
        let wanted = [(24, 60, 60, 60, false), (100, 60, 60, 60, false), (176, 30, 60, 30, true), (222, 20, 10, 20, false)];
        assert_eq!(told, wanted);
        assert_eq!(all.iter().flat_map(|r| r.whole).copied().collect::<Vec<_>>(), file.bytes[HEADER..]);
        assert_eq!(all[1].frame, frame([8, 6]));
        let code = program(&ip(), Link::Ethernet, Mode::Mended).unwrap();
        let passed = all.iter().filter(|r| !r.is_cut() && run(&code, r.frame, 0, 12).verdict() == Some(true)).count();
        assert_eq!(passed as u64, FOUR.passed);
    }
    assert_eq!(records(&[]).next(), None);
    assert_eq!(records(&[0; 400]).next(), None);
    assert_eq!(link_type(&[0; 24]), None);
    let long = four(u32::to_be_bytes, MICRO, 1).header(16_385, 0).record(&frame([8, 0]), 60);
    assert_eq!(records(&long.bytes).count(), 4);
    let most = File::new(u32::to_be_bytes, MICRO, 1).record(&[0; 16_384], 16_384);
    assert_eq!(records(&most.bytes).count(), 1);
}

#[test]
fn numbers_and_texts_are_document_02s() {
    for (number, place, text) in [
        (40, 0, "refusal 40: unknown magic (byte 0 of the file)"),
        (41, 20, "refusal 41: other link type (byte 20 of the file)"),
        (42, 24, "refusal 42: file ends inside a header or record (byte 24 of the file)"),
        (43, 100, "refusal 43: captured length above 16,384 (byte 100 of the file)"),
    ] {
        let refusal = Refusal::from_number(number).unwrap();
        assert_eq!((refusal.number(), refusal.is_of_file()), (number, true));
        assert_eq!(Refused { refusal, place }.to_string(), text);
    }
    assert_eq!((Refusal::from_number(39), Refusal::from_number(44)), (None, None));
    assert!((1..=19).all(|n| Refusal::from_number(n).is_some_and(|r| !r.is_of_file() && !r.text().is_empty())));
}
