//! Whether stored bytes are an answer to a market: `docs/RULES.md`, "Records out". The bytes are
//! read as records; what they say is not compared with the market's offers.

use crate::record::links;
use crate::{records, Link, Lower, Member, Point, Record, Upper, ANSWER_LIMIT};
use core::error::Error;
use core::fmt;

/// The most members that a market has.
const MEMBERS: usize = ANSWER_LIMIT / 16;

/// Why bytes are not an answer to a market. Records count from 0.
#[derive(Clone, Copy, Debug, PartialEq, Eq, Hash)]
pub enum NoAnswer {
    /// The market has no member, or one above 32.
    NoMarket,
    /// An answer has 16 bytes for each member of the market.
    Length { bytes: usize, needed: usize },
    /// A record is not that of this member.
    Member { record: usize, member: Member },
    /// A record is not that of a link of the market, the next one by its members.
    Link { record: usize },
    /// The last record is not that of the total.
    Total { record: usize },
}

/// Finds the first fault of bytes that should be an answer to the market in a file.
pub(crate) fn check(file: &[u8], answer: &[u8]) -> Result<(), NoAnswer> {
    let count = highest_member(file);
    if !(1..=MEMBERS).contains(&count) {
        return Err(NoAnswer::NoMarket);
    }
    let (bytes, needed) = (answer.len(), 16 * count);
    if bytes != needed {
        return Err(NoAnswer::Length { bytes, needed });
    }
    let (records, _) = answer.as_chunks();
    let (members, others) = records.split_at(count);
    let (links, total) = others.split_at(count - 1);
    check_members(members)?;
    check_links(file, count, links)?;
    check_total(2 * count - 1, total)
}

fn check_members(members: &[[u8; 8]]) -> Result<(), NoAnswer> {
    for (record, bytes) in members.iter().enumerate() {
        let member = Member(record as u8 + 1);
        if bytes[..2] != [3, member.0] {
            return Err(NoAnswer::Member { record, member });
        }
    }
    Ok(())
}

/// Of links whose first record has this number.
fn check_links(file: &[u8], first: usize, links: &[[u8; 8]]) -> Result<(), NoAnswer> {
    let mut earlier = (0, 0);
    for (record, &[kind, a, b, zero, ..]) in (first..).zip(links) {
        if (kind, zero) != (4, 0) || (a, b) <= earlier || !joins(file, a, b) {
            return Err(NoAnswer::Link { record });
        }
        earlier = (a, b);
    }
    Ok(())
}

fn check_total(record: usize, total: &[[u8; 8]]) -> Result<(), NoAnswer> {
    match total {
        [[5, 0, 0, 0, ..]] => Ok(()),
        _ => Err(NoAnswer::Total { record }),
    }
}

/// The number of a file's members: the highest that a record names.
fn highest_member(file: &[u8]) -> usize {
    let named = records(file).map(|record| match record {
        Record::Link(Link { a, b, .. }) => a.0.max(b.0),
        Record::Point(Point { member, .. })
        | Record::Lower(Lower { member, .. })
        | Record::Upper(Upper { member, .. }) => member.0,
        Record::Other(_) => 0,
    });
    named.max().unwrap_or(0).into()
}

/// Whether a file has a link of the given members.
fn joins(file: &[u8], a: u8, b: u8) -> bool {
    links(file).any(|link| (link.a.0, link.b.0) == (a, b))
}

impl fmt::Display for NoAnswer {
    fn fmt(&self, f: &mut fmt::Formatter) -> fmt::Result {
        match self {
            NoAnswer::NoMarket => write!(f, "the market has no member, or one above 32"),
            NoAnswer::Length { bytes, needed } => {
                write!(
                    f,
                    "an answer to this market has {needed} bytes, not {bytes}"
                )
            }
            NoAnswer::Member { record, member } => {
                write!(f, "record {record} is not that of member {member}")
            }
            NoAnswer::Link { record } => {
                write!(f, "record {record} is not that of the market's next link")
            }
            NoAnswer::Total { record } => write!(f, "record {record} is not that of the total"),
        }
    }
}

impl Error for NoAnswer {}
