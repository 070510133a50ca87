//! The refusals, by number and in words; bindings/c/bromaveluth.h has the same.

use std::fmt;

/// Why a sheet or a capture was refused: a sheet's in the order in which they are looked for; a capture's, 40 to 43, come
/// before them; 50 is of [`crate::nots`] alone, between 9 and 7.
#[derive(Clone, Copy, Debug, PartialEq, Eq, Hash)]
#[repr(u8)]
pub enum Refusal {
    /// 1: link above 2 or mode above 1. The enums of this crate have no such number.
    LinkOrMode = 1,
    /// 2: sheet length differs from what its counts ask, or a count is cut.
    Length = 2,
    /// 3: a code or unused byte is wrong. The place is the lowest wrong byte.
    WrongByte = 3,
    /// 4: tokens are not one whole tree, or primitives or steps are left over or lacking.
    NotOneTree = 4,
    /// 5: a byte access's left offset is negative as given, or above 32767 (Net: plus the header offset). The place is the first such
    /// primitive.
    Offset = 5,
    /// 6: a shift by 32 or more. The place is the first such primitive.
    Shift = 6,
    /// 7: output below 8 x L bytes; of [`crate::nots`], shorter than the new sheet.
    Output = 7,
    /// 8: work below L + 8 x tokens numbers of 32 bits.
    Work = 8,
    /// 9: evaluator and [`crate::nots`] only: tree deeper than 256, the root counted.
    TooDeep = 9,
    /// 10: jump distance above 32767.
    Jump = 10,
    /// 11: ethertype on RawIp other than 0x0800. The place, here and below, is the primitive.
    Ethertype = 11,
    /// 12: ports with p not 0, 5, 6 or 10.
    PortProtocol = 12,
    /// 13: EtherHost on RawIp or Linux cooked.
    EtherHost = 13,
    /// 14: EtherMulticast on RawIp or Linux cooked.
    EtherMulticast = 14,
    /// 15: Mpls on RawIp.
    Mpls = 15,
    /// 16: Inbound, Outbound.
    Direction = 16,
    /// 17: comparison with a load.
    Load = 17,
    /// 18: first bad step: division by 0.
    Division = 18,
    /// 19: first bad step: Mod.
    Modulo = 19,
    /// 40: unknown magic. The place, here and below, is the byte of the file where what is refused begins: 0.
    Magic = 40,
    /// 41: other link type than 1 (Ethernet), 101 (raw IP) and 113 (Linux cooked). The place is 20.
    LinkType = 41,
    /// 42: file ends inside a header or record, a file below four bytes too. The place is 0 for the file's header, else the record's
    /// first byte.
    FileEnds = 42,
    /// 43: captured length above 16,384, before the record's body. The place is the record's first byte.
    CapturedLength = 43,
    /// 50: the new tree needs more than 65,535 tokens.
    Tokens = 50,
}

/// Every refusal with its words.
const TEXTS: [(Refusal, &str); 24] = [
    (Refusal::LinkOrMode, "link above 2 or mode above 1"),
    (Refusal::Length, "sheet length differs from what its counts ask, or a count is cut"),
    (Refusal::WrongByte, "a code or unused byte is wrong"),
    (Refusal::NotOneTree, "tokens are not one whole tree, or primitives or steps are left over or lacking"),
    (Refusal::Offset, "a byte access's left offset is negative as given, or above 32767 (Net: plus the header offset)"),
    (Refusal::Shift, "a shift by 32 or more"),
    (Refusal::Output, "output below 8 x L bytes, or shorter than the new sheet"),
    (Refusal::Work, "work below L + 8 x tokens numbers of 32 bits"),
    (Refusal::TooDeep, "tree deeper than 256, the root counted"),
    (Refusal::Jump, "jump distance above 32767"),
    (Refusal::Ethertype, "ethertype on RawIp other than 0x0800"),
    (Refusal::PortProtocol, "ports with p not 0, 5, 6 or 10"),
    (Refusal::EtherHost, "EtherHost on RawIp or Linux cooked"),
    (Refusal::EtherMulticast, "EtherMulticast on RawIp or Linux cooked"),
    (Refusal::Mpls, "Mpls on RawIp"),
    (Refusal::Direction, "Inbound, Outbound"),
    (Refusal::Load, "comparison with a load"),
    (Refusal::Division, "first bad step: division by 0"),
    (Refusal::Modulo, "first bad step: Mod"),
    (Refusal::Magic, "unknown magic"),
    (Refusal::LinkType, "other link type"),
    (Refusal::FileEnds, "file ends inside a header or record"),
    (Refusal::CapturedLength, "captured length above 16,384"),
    (Refusal::Tokens, "the new tree needs more than 65,535 tokens"),
];

impl Refusal {
    /// Its number: 1 to 19, 40 to 43 or 50.
    pub fn number(self) -> u8 {
        self as u8
    }

    /// The refusal with this number; none for numbers that no function answers.
    pub fn from_number(number: u8) -> Option<Refusal> {
        TEXTS.iter().map(|&(refusal, _)| refusal).find(|refusal| refusal.number() == number)
    }

    /// Its words.
    pub fn text(self) -> &'static str {
        TEXTS.iter().find(|&&(refusal, _)| refusal == self).map_or("", |&(_, text)| text)
    }

    /// Whether the capture itself is refused (40 to 43), not the sheet.
    pub fn is_of_file(self) -> bool {
        matches!(self.number(), 40..=43)
    }
}

impl fmt::Display for Refusal {
    fn fmt(&self, f: &mut fmt::Formatter<'_>) -> fmt::Result {
        f.write_str(self.text())
    }
}

/// A refusal and its place: a byte of the sheet (3), a primitive counted from 0 (5, 6, 11 to 19), a byte of the file (40 to 43), or 0.
#[derive(Clone, Copy, Debug, PartialEq, Eq, Hash)]
pub struct Refused {
    /// Why.
    pub refusal: Refusal,
    /// Where.
    pub place: usize,
}

impl Refused {
    /// The refusal that a function told by its status and the number beside it.
    pub(crate) fn told(number: u8, place: u64) -> Refused {
        match Refusal::from_number(number) {
            Some(refusal) => Refused { refusal, place: place as usize },
            None => unreachable!("there is no refusal {number}"),
        }
    }
}

impl fmt::Display for Refused {
    fn fmt(&self, f: &mut fmt::Formatter<'_>) -> fmt::Result {
        let Refused { refusal, place } = self;
        match refusal.number() {
            3 => write!(f, "refusal 3: {refusal} (byte {place})"),
            n @ (5 | 6 | 11..=19) => write!(f, "refusal {n}: {refusal} (primitive {place})"),
            n @ 40..=43 => write!(f, "refusal {n}: {refusal} (byte {place} of the file)"),
            n => write!(f, "refusal {n}: {refusal}"),
        }
    }
}

impl std::error::Error for Refused {}
