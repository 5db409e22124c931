//! The records of a file, read back as typed values: `docs/RULES.md`, "Records in". No rule is
//! checked here; the library refuses.

use crate::{Member, Price, Slope, Units};

/// A record of a file.
#[derive(Clone, Copy, Debug, PartialEq, Eq, Hash)]
pub enum Record<'a> {
    Link(Link),
    Point(Point),
    Lower(Lower),
    Upper(Upper),
    /// The bytes of what is none of these: another kind, a byte that should be zero, a capacity above
    /// 32,767, or fewer than 8 bytes at a file's end.
    Other(&'a [u8]),
}

/// A link between two members.
#[derive(Clone, Copy, Debug, PartialEq, Eq, Hash)]
pub struct Link {
    /// The lower member.
    pub a: Member,
    /// The higher member.
    pub b: Member,
    pub capacity: Units,
}

/// An offer of one number of units.
#[derive(Clone, Copy, Debug, PartialEq, Eq, Hash)]
pub struct Point {
    pub member: Member,
    /// The units to buy, negative to sell.
    pub units: Units,
    pub price: Price,
}

/// The lower end of a span, whose upper end is the next record.
#[derive(Clone, Copy, Debug, PartialEq, Eq, Hash)]
pub struct Lower {
    pub member: Member,
    /// The least number of units; below 0 they are sold.
    pub low: Units,
    /// What the span's line has at 0 units.
    pub base: Price,
}

/// The upper end of a span.
#[derive(Clone, Copy, Debug, PartialEq, Eq, Hash)]
pub struct Upper {
    pub member: Member,
    /// The greatest number of units; below 0 they are sold.
    pub high: Units,
    pub slope: Slope,
}

impl Link {
    /// The link's record.
    pub fn bytes(&self) -> [u8; 8] {
        let [low, high] = self.capacity.0.to_le_bytes();
        [1, self.a.0, self.b.0, 0, low, high, 0, 0]
    }
}

impl Point {
    /// The point's record.
    pub fn bytes(&self) -> [u8; 8] {
        offer_bytes(2, self.member, self.units, self.price.0)
    }
}

impl Lower {
    /// The lower end's record.
    pub fn bytes(&self) -> [u8; 8] {
        offer_bytes(6, self.member, self.low, self.base.0)
    }
}

impl Upper {
    /// The upper end's record.
    pub fn bytes(&self) -> [u8; 8] {
        offer_bytes(7, self.member, self.high, self.slope.0)
    }
}

/// The layout that the records of offers share.
fn offer_bytes(kind: u8, member: Member, units: Units, number: i32) -> [u8; 8] {
    let [u0, u1] = units.0.to_le_bytes();
    let [n0, n1, n2, n3] = number.to_le_bytes();
    [kind, member.0, u0, u1, n0, n1, n2, n3]
}

/// The records of a file, in order, whatever its bytes are. Their bytes together are the file.
///
/// ```
/// use clearing::{records, Link, Member, Record, Units};
///
/// let link = Link { a: Member(1), b: Member(2), capacity: Units(2) };
/// let file = [1, 1, 2, 0, 2, 0, 0, 0, 9, 9];
/// assert!(records(&file).eq([Record::Link(link), Record::Other(&[9, 9])]));
/// ```
pub fn records(file: &[u8]) -> impl Iterator<Item = Record<'_>> {
    file.chunks(8).map(record)
}

/// The links among a file's records, in order.
#[cfg(feature = "alloc")]
pub(crate) fn links(file: &[u8]) -> impl Iterator<Item = Link> + '_ {
    records(file).filter_map(|record| match record {
        Record::Link(link) => Some(link),
        _ => None,
    })
}

fn record(bytes: &[u8]) -> Record<'_> {
    match *bytes {
        [1, a, b, 0, low, high @ ..0x80, 0, 0] => Record::Link(Link {
            a: Member(a),
            b: Member(b),
            capacity: Units(i16::from_le_bytes([low, high])),
        }),
        [2, member, u0, u1, p0, p1, p2, p3] => Record::Point(Point {
            member: Member(member),
            units: Units(i16::from_le_bytes([u0, u1])),
            price: Price(i32::from_le_bytes([p0, p1, p2, p3])),
        }),
        [6, member, l0, l1, b0, b1, b2, b3] => Record::Lower(Lower {
            member: Member(member),
            low: Units(i16::from_le_bytes([l0, l1])),
            base: Price(i32::from_le_bytes([b0, b1, b2, b3])),
        }),
        [7, member, h0, h1, s0, s1, s2, s3] => Record::Upper(Upper {
            member: Member(member),
            high: Units(i16::from_le_bytes([h0, h1])),
            slope: Slope(i32::from_le_bytes([s0, s1, s2, s3])),
        }),
        _ => Record::Other(bytes),
    }
}
