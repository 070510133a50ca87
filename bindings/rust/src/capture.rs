//! Captures from the field: a libpcap savefile in memory, and how many of its frames a filter passes.
//!
//! A file's records are judged by the filter compiled for the link that the file picks; a record whose captured length is below its
//! original one is cut and not judged. [`capture`] counts a whole file, [`Parts`] counts it part by part, for files that take a while,
//! [`records`] gives the frames one by one.
//!
//! ```no_run
//! use bromaveluth::{capture, Mode};
//!
//! let ip = [0, 0, 0, 1, 7, 0, 1, 0, 0, 0, 0, 0, 0, 0, 0, 0, 0, 0, 0, 0, 0, 0, 0, 0, 0, 0, 0, 0, 0, 1, 0];
//! let file = std::fs::read("site.pcap").unwrap();
//! let counts = capture::capture(&file, &ip, Mode::Mended).unwrap();
//! println!("{} of {} frames pass", counts.passed, counts.records());
//! ```

use crate::{Link, Mode, Refusal, Refused};
use std::iter::FusedIterator;
use std::ops::AddAssign;

#[link(name = "bromaveluth", kind = "static")]
extern "C" {
    fn bromaveluth_capture_open(file: *const u8, file_bytes: usize, answer: *mut u64) -> u8;
    fn bromaveluth_capture(
        file: *const u8,
        file_bytes: usize,
        sheet: *const u8,
        sheet_bytes: usize,
        mode: u8,
        output: *mut u8,
        output_bytes: usize,
        work: *mut u32,
        work_numbers: usize,
        passed: *mut u64,
        dropped: *mut u64,
        cut: *mut u64,
        answer: *mut u64,
    ) -> u8;
    fn bromaveluth_capture_part(
        file: *const u8,
        file_bytes: usize,
        sheet: *const u8,
        sheet_bytes: usize,
        mode: u8,
        output: *mut u8,
        output_bytes: usize,
        work: *mut u32,
        work_numbers: usize,
        at: u64,
        most: u64,
        passed: *mut u64,
        dropped: *mut u64,
        cut: *mut u64,
        answer: *mut u64,
    ) -> u8;
}

/// Bytes of a savefile's header; its first record begins behind them.
pub const HEADER: usize = 24;

/// Bytes of a record's header.
const RECORD: usize = 16;

/// The most that a record may have captured; more is refused (43).
const MOST_CAPTURED: u32 = 16_384;

/// How many records fell into each class. Each record falls into one.
#[derive(Clone, Copy, Debug, Default, PartialEq, Eq, Hash)]
pub struct Counts {
    /// Judged, and the filter holds.
    pub passed: u64,
    /// Judged, and the filter does not hold.
    pub dropped: u64,
    /// Cut by the capturing machine and not judged.
    pub cut: u64,
}

impl Counts {
    /// All records walked.
    pub fn records(self) -> u64 {
        self.passed + self.dropped + self.cut
    }
}

impl AddAssign for Counts {
    fn add_assign(&mut self, more: Counts) {
        self.passed += more.passed;
        self.dropped += more.dropped;
        self.cut += more.cut;
    }
}

/// Looks through a whole file and gives the link that it picks, or the first of refusals 40 to 43.
pub fn open(file: &[u8]) -> Result<Link, Refused> {
    let mut answer = 0;
    // SAFETY: the pointer and its count come from a slice that is borrowed for the call, the number is our own.
    let status = unsafe { bromaveluth_capture_open(file.as_ptr(), file.len(), &mut answer) };
    match (status, answer) {
        (0, 0) => Ok(Link::Ethernet),
        (0, 1) => Ok(Link::RawIp),
        (0, 2) => Ok(Link::LinuxSll),
        (0, link) => unreachable!("there is no link {link}"),
        (number, place) => Err(Refused::told(number, place)),
    }
}

/// Counts a whole file, in buffers of its own: never refused 7 or 8.
pub fn capture(file: &[u8], sheet: &[u8], mode: Mode) -> Result<Counts, Refused> {
    Room::new().until_enough(|output, work| capture_in(file, sheet, mode, output, work))
}

/// Output and work of our own, for callers who lend none; the file picks the link, so the sheet is not measured first.
struct Room {
    output: Vec<u8>,
    work: Vec<u32>,
}

impl Room {
    fn new() -> Room {
        Room { output: vec![0; 8 << 10], work: vec![0; 8 << 10] }
    }

    /// What a call answers once the room is enough for it. L and the tokens of a sheet are bounded by its 16-bit counts, so this ends.
    fn until_enough<T>(&mut self, mut call: impl FnMut(&mut [u8], &mut [u32]) -> Result<T, Refused>) -> Result<T, Refused> {
        loop {
            match call(&mut self.output, &mut self.work) {
                Err(Refused { refusal: Refusal::Output | Refusal::Work, .. }) => {
                    self.output = vec![0; 4 * self.output.len()];
                    self.work = vec![0; 4 * self.work.len()];
                }
                answer => return answer,
            }
        }
    }
}

/// Counts a whole file, in lent buffers: 40 to 43 come first and leave them as they were, the sheet's refusals and the counts leave
/// them as [`compile`](crate::compile) does.
pub fn capture_in(file: &[u8], sheet: &[u8], mode: Mode, output: &mut [u8], work: &mut [u32]) -> Result<Counts, Refused> {
    let (mut counts, mut answer) = (Counts::default(), 0);
    // SAFETY: each pointer and count come from a slice or a number that is borrowed for the call; two mutable borrows never overlap.
    let status = unsafe {
        bromaveluth_capture(
            file.as_ptr(),
            file.len(),
            sheet.as_ptr(),
            sheet.len(),
            mode as u8,
            output.as_mut_ptr(),
            output.len(),
            work.as_mut_ptr(),
            work.len(),
            &mut counts.passed,
            &mut counts.dropped,
            &mut counts.cut,
            &mut answer,
        )
    };
    match status {
        0 => Ok(counts),
        number => Err(Refused::told(number, answer)),
    }
}

/// The answer for a part of a file.
#[derive(Clone, Copy, Debug, PartialEq, Eq, Hash)]
pub struct Part {
    /// The counts of this part's records.
    pub counts: Counts,
    /// The byte of the file where the next part begins; the file's length when it is through.
    pub next: u64,
}

/// Counts at most `most` records from the byte `at` on, in lent buffers; the first record begins at [`HEADER`].
///
/// The file's header is looked at first (40, 42, 41), then the sheet is compiled, then records are walked; their 42 and 43 are given
/// when they are met. From a byte where no record begins, what stands there is taken for one; at or past the end there is none, and
/// [`Part::next`] is `at`. A sheet can be refused before a fault of a later record is met, which comes first for the whole file; [`Parts`]
/// puts that right.
pub fn capture_part(
    file: &[u8],
    sheet: &[u8],
    mode: Mode,
    output: &mut [u8],
    work: &mut [u32],
    at: u64,
    most: u64,
) -> Result<Part, Refused> {
    let (mut counts, mut answer) = (Counts::default(), 0);
    // SAFETY: as in `capture_in`.
    let status = unsafe {
        bromaveluth_capture_part(
            file.as_ptr(),
            file.len(),
            sheet.as_ptr(),
            sheet.len(),
            mode as u8,
            output.as_mut_ptr(),
            output.len(),
            work.as_mut_ptr(),
            work.len(),
            at,
            most,
            &mut counts.passed,
            &mut counts.dropped,
            &mut counts.cut,
            &mut answer,
        )
    };
    match status {
        0 => Ok(Part { counts, next: answer }),
        number => Err(Refused::told(number, answer)),
    }
}

/// A file counted part by part: the counts add up to those of [`capture`], or the last answer is its refusal, and then the counts before
/// it are void. There is at least one part; a refusal ends them.
pub struct Parts<'a> {
    file: &'a [u8],
    sheet: &'a [u8],
    mode: Mode,
    most: u64,
    at: Option<u64>,
    room: Room,
}

impl<'a> Parts<'a> {
    /// Parts of `most` records each (at least one), in buffers of their own.
    pub fn new(file: &'a [u8], sheet: &'a [u8], mode: Mode, most: u64) -> Parts<'a> {
        Parts { file, sheet, mode, most: most.max(1), at: Some(HEADER as u64), room: Room::new() }
    }
}

impl Iterator for Parts<'_> {
    type Item = Result<Part, Refused>;

    fn next(&mut self) -> Option<Result<Part, Refused>> {
        let at = self.at.take()?;
        let (file, sheet, mode, most) = (self.file, self.sheet, self.mode, self.most);
        let answer = self.room.until_enough(|output, work| capture_part(file, sheet, mode, output, work, at, most));
        if let Ok(part) = answer {
            self.at = (part.next != file.len() as u64).then_some(part.next);
        }
        // A fault of the file comes before one of the sheet, wherever in the file it is.
        Some(answer.map_err(|refused| if refused.refusal.is_of_file() { refused } else { open(file).err().unwrap_or(refused) }))
    }
}

impl FusedIterator for Parts<'_> {}

/// A record of a file.
#[derive(Clone, Copy, Debug, PartialEq, Eq)]
pub struct Record<'a> {
    /// The byte of the file where its header begins.
    pub at: usize,
    /// The bytes captured: `frame.len()`.
    pub captured: u32,
    /// The bytes that the frame had on the wire.
    pub original: u32,
    /// The bytes captured.
    pub frame: &'a [u8],
    /// Header and frame, as they stand in the file.
    pub whole: &'a [u8],
}

impl Record<'_> {
    /// Cut by the capturing machine: a filter does not judge it.
    pub fn is_cut(&self) -> bool {
        self.captured < self.original
    }
}

/// How the numbers of a file are read; none if its magic is unknown.
fn order(file: &[u8]) -> Option<fn([u8; 4]) -> u32> {
    match file.first_chunk()? {
        [0xa1, 0xb2, 0xc3, 0xd4] | [0xa1, 0xb2, 0x3c, 0x4d] => Some(u32::from_be_bytes),
        [0xd4, 0xc3, 0xb2, 0xa1] | [0x4d, 0x3c, 0xb2, 0xa1] => Some(u32::from_le_bytes),
        _ => None,
    }
}

/// The link type that a file's header names, also one that is refused (41); none if the magic is unknown or the header cut.
pub fn link_type(file: &[u8]) -> Option<u32> {
    let header = file.first_chunk::<HEADER>()?;
    order(file).map(|number| number([header[20], header[21], header[22], header[23]]))
}

/// The records of a file, in file order. Of a file that [`open`] refuses for a record, those before it; for its magic or for the end of its
/// header, none.
pub fn records(file: &[u8]) -> Records<'_> {
    match order(file) {
        Some(number) => Records { file, at: HEADER, number },
        None => Records { file: &[], at: HEADER, number: u32::from_be_bytes },
    }
}

/// See [`records`].
#[derive(Clone, Debug)]
pub struct Records<'a> {
    file: &'a [u8],
    at: usize,
    number: fn([u8; 4]) -> u32,
}

impl<'a> Iterator for Records<'a> {
    type Item = Record<'a>;

    fn next(&mut self) -> Option<Record<'a>> {
        let rest = self.file.get(self.at..)?;
        let header = rest.first_chunk::<RECORD>()?;
        let number = |i: usize| (self.number)([header[i], header[i + 1], header[i + 2], header[i + 3]]);
        let (captured, original) = (number(8), number(12));
        if captured > MOST_CAPTURED {
            return None;
        }
        let whole = rest.get(..RECORD + captured as usize)?;
        let record = Record { at: self.at, captured, original, frame: &whole[RECORD..], whole };
        self.at += whole.len();
        Some(record)
    }
}

impl FusedIterator for Records<'_> {}
