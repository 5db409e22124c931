//! Why a market was not cleared: `docs/RULES.md`, "Refusals".

use crate::Member;
use core::error::Error;
use core::fmt;

/// Why a market was not cleared. Records count from 0.
///
/// | number | refusal | given when | place |
/// |---|---|---|---|
/// | 1 | [`TooLong`](Refusal::TooLong) | the file has more than 33,016 bytes | 0 |
/// | 2 | [`CutShort`](Refusal::CutShort) | its number of bytes is not a multiple of 8 | 0 |
/// | 3 | [`UnknownKind`](Refusal::UnknownKind) | a record has a kind other than 1, 2, 6 and 7 | the record |
/// | 4 | [`WrongField`](Refusal::WrongField) | a record has a field outside its range, another value where zero must stand, or an a that is not below its b | the record |
/// | 5 | [`NoOffer`](Refusal::NoOffer) | there is no offer, neither point nor span | 0 |
/// | 6 | [`EmptyTable`](Refusal::EmptyTable) | a member from 1 to the highest has no offer | the lowest such member |
/// | 7 | [`LongTable`](Refusal::LongTable) | a member has more than 64 offers | the lowest such member |
/// | 8 | | never | |
/// | 9 | [`Ring`](Refusal::Ring) | a link joins two members that earlier links have joined | the first such record |
/// | 10 | [`Apart`](Refusal::Apart) | a member is not joined to member 1 | the lowest such member |
/// | 11 | [`ShortArea`](Refusal::ShortArea) | the answer area has fewer than 16 bytes for each member | the bytes it must have |
/// | 12 | [`Impossible`](Refusal::Impossible) | no allocation is possible | 0 |
/// | 13 | [`HalfSpan`](Refusal::HalfSpan) | a lower end of a span has no upper end of the same member directly after it, or an upper end no lower end of the same member directly before it | the record |
/// | 14 | [`WrongSpan`](Refusal::WrongSpan) | a span's lower end is above its upper end, or its price at an end is out of range | the record of the upper end |
///
/// The checks are made in the order of the numbers, but for 3, 4, 13 and 14. These are looked for
/// together, where 3 has its turn: the first record at fault decides, and in one record the lowest
/// number. A refusal is one of these and nothing else, so a `match` needs no `_`; a request that adds
/// a refusal adds a case, and changes this package's version.
///
/// ```
/// use clearing::{clear_file, Refusal};
///
/// let refusal = clear_file(&[2, 1, 5, 0, 132, 3, 0, 0]).unwrap_err();
/// assert_eq!(refusal, Refusal::Impossible);
/// assert_eq!((refusal.number(), refusal.place()), (12, 0));
/// assert_eq!(refusal.to_string(), "no possible allocation (refusal 12)");
/// ```
#[derive(Clone, Copy, Debug, PartialEq, Eq, Hash)]
pub enum Refusal {
    TooLong,
    CutShort,
    UnknownKind { record: usize },
    WrongField { record: usize },
    NoOffer,
    EmptyTable { member: Member },
    LongTable { member: Member },
    Ring { record: usize },
    Apart { member: Member },
    ShortArea { needed: usize },
    Impossible,
    HalfSpan { record: usize },
    WrongSpan { record: usize },
}

impl Refusal {
    /// The refusal's number in the table.
    pub fn number(&self) -> u64 {
        match self {
            Refusal::TooLong => 1,
            Refusal::CutShort => 2,
            Refusal::UnknownKind { .. } => 3,
            Refusal::WrongField { .. } => 4,
            Refusal::NoOffer => 5,
            Refusal::EmptyTable { .. } => 6,
            Refusal::LongTable { .. } => 7,
            Refusal::Ring { .. } => 9,
            Refusal::Apart { .. } => 10,
            Refusal::ShortArea { .. } => 11,
            Refusal::Impossible => 12,
            Refusal::HalfSpan { .. } => 13,
            Refusal::WrongSpan { .. } => 14,
        }
    }

    /// The refusal's place: a record, a member, the bytes that are asked for, or 0.
    pub fn place(&self) -> u64 {
        match *self {
            Refusal::UnknownKind { record }
            | Refusal::WrongField { record }
            | Refusal::Ring { record }
            | Refusal::HalfSpan { record }
            | Refusal::WrongSpan { record } => record as u64,
            Refusal::EmptyTable { member }
            | Refusal::LongTable { member }
            | Refusal::Apart { member } => member.0.into(),
            Refusal::ShortArea { needed } => needed as u64,
            Refusal::TooLong | Refusal::CutShort | Refusal::NoOffer | Refusal::Impossible => 0,
        }
    }

    /// The refusal in the entry's result; none where the result is a number of bytes written.
    ///
    /// The library gives no number but those of the table. Another one would mean that an archive
    /// of other rules is linked, and nothing that it answers could be trusted.
    pub(crate) fn of(code: u64) -> Option<Refusal> {
        let (number, place) = (code / 65_536, (code % 65_536) as usize);
        let record = place;
        let member = Member(place as u8);
        let needed = place;
        Some(match number {
            0 => return None,
            1 => Refusal::TooLong,
            2 => Refusal::CutShort,
            3 => Refusal::UnknownKind { record },
            4 => Refusal::WrongField { record },
            5 => Refusal::NoOffer,
            6 => Refusal::EmptyTable { member },
            7 => Refusal::LongTable { member },
            9 => Refusal::Ring { record },
            10 => Refusal::Apart { member },
            11 => Refusal::ShortArea { needed },
            12 => Refusal::Impossible,
            13 => Refusal::HalfSpan { record },
            14 => Refusal::WrongSpan { record },
            _ => panic!("the archive linked is not of this version: it gave refusal {number}"),
        })
    }
}

impl fmt::Display for Refusal {
    fn fmt(&self, f: &mut fmt::Formatter) -> fmt::Result {
        match self {
            Refusal::TooLong => write!(f, "more than 33,016 bytes"),
            Refusal::CutShort => write!(f, "length not a multiple of 8"),
            Refusal::UnknownKind { record } => {
                write!(f, "kind is none of 1, 2, 6 and 7, in record {record}")
            }
            Refusal::WrongField { record } => write!(
                f,
                "a field out of range, a zero byte not zero, or a not below b, in record {record}"
            ),
            Refusal::NoOffer => write!(f, "no offer"),
            Refusal::EmptyTable { member } => write!(f, "member {member} has no offer"),
            Refusal::LongTable { member } => write!(f, "member {member} has more than 64 offers"),
            Refusal::Ring { record } => write!(
                f,
                "a link joins members already joined by earlier links, in record {record}"
            ),
            Refusal::Apart { member } => write!(f, "member {member} is not joined to member 1"),
            Refusal::ShortArea { needed } => write!(f, "answer area shorter than {needed} bytes"),
            Refusal::Impossible => write!(f, "no possible allocation"),
            Refusal::HalfSpan { record } => write!(
                f,
                "one end of a span without the other end beside it, in record {record}"
            ),
            Refusal::WrongSpan { record } => write!(
                f,
                "lower end above upper end, or price out of range at an end, in record {record}"
            ),
        }?;
        write!(f, " (refusal {})", self.number())
    }
}

impl Error for Refusal {}
