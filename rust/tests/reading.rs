//! A reading of `docs/RULES.md`, "Refusals", written for the tests alone.

use crate::common::{Link, Offer, Sheet, Span, FILE_LIMIT};
use std::collections::HashSet;

/// A refusal's number and place.
pub type Refusal = (u64, u64);

/// A file without faults, or the first of refusals 1 to 4, 13 and 14.
pub fn read_file(file: &[u8]) -> Result<Records, Refusal> {
    if file.len() > FILE_LIMIT {
        return Err((1, 0));
    }
    if !file.len().is_multiple_of(8) {
        return Err((2, 0));
    }
    let records: Vec<&[u8]> = file.chunks(8).collect();
    for place in 0..records.len() {
        if let Some(number) = faults(&records, place).first() {
            return Err((*number, place as u64));
        }
    }
    Ok(Records::of(&records))
}

/// Each of refusals 3, 4, 13 and 14 that has a case in a record, whether or not a lower one has; 14
/// only where the record ends a span.
pub fn faults(records: &[&[u8]], place: usize) -> Vec<u64> {
    let record = records[place];
    let before = place.checked_sub(1).map(|place| records[place]);
    let after = records.get(place + 1).copied();
    let kind = record[0];
    let wrong_field = match kind {
        1 => !is_link(record),
        2 => !is_offer(record) || !is_price(number(record)),
        6 | 7 => !is_offer(record),
        _ => false,
    };
    let broken = match kind {
        6 => !are_a_span(Some(record), after),
        7 => !are_a_span(before, Some(record)),
        _ => false,
    };
    let is_bad_line = |lower: &[u8]| !is_line(&span(lower, record));
    let bad_line = kind == 7 && !broken && before.is_some_and(is_bad_line);
    let cases = [
        (3, ![1, 2, 6, 7].contains(&kind)),
        (4, wrong_field),
        (13, broken),
        (14, bad_line),
    ];
    let found = cases.into_iter().filter(|(_, found)| *found);
    found.map(|(number, _)| number).collect()
}

fn is_member(byte: u8) -> bool {
    (1..=32).contains(&byte)
}

pub fn is_price(price: i64) -> bool {
    (-1_000_000..=1_000_000).contains(&price)
}

fn is_link(record: &[u8]) -> bool {
    let (a, b) = (record[1], record[2]);
    let zeros = [record[3], record[6], record[7]] == [0, 0, 0];
    is_member(a) && is_member(b) && a < b && zeros && capacity(record) <= 40
}

/// Whether a record in the layout of an offer has a member and units.
fn is_offer(record: &[u8]) -> bool {
    is_member(record[1]) && (-2000..=2000).contains(&units(record))
}

/// Whether two records are the two of a span, in their order.
fn are_a_span(lower: Option<&[u8]>, upper: Option<&[u8]>) -> bool {
    match (lower, upper) {
        (Some([6, member, ..]), Some([7, other, ..])) => member == other,
        _ => false,
    }
}

/// Whether a span does not end before it begins, and its prices are in range.
pub fn is_line(span: &Span) -> bool {
    span.low <= span.high && is_price(span.price(span.low)) && is_price(span.price(span.high))
}

fn capacity(record: &[u8]) -> i64 {
    i64::from(record[4]) + 256 * i64::from(record[5])
}

fn units(record: &[u8]) -> i64 {
    i16::from_le_bytes([record[2], record[3]]).into()
}

fn number(record: &[u8]) -> i64 {
    i32::from_le_bytes([record[4], record[5], record[6], record[7]]).into()
}

/// The span of two records, whatever their kinds.
pub fn span(lower: &[u8], upper: &[u8]) -> Span {
    Span {
        member: upper[1].into(),
        low: units(lower),
        high: units(upper),
        slope: number(upper),
        base: number(lower),
    }
}

/// The links of a file without faults, each with its record's place, and its points and spans.
pub struct Records {
    links: Vec<(u64, Link)>,
    pub offers: Vec<Offer>,
    pub spans: Vec<Span>,
}

impl Records {
    fn of(records: &[&[u8]]) -> Records {
        let mut links = Vec::new();
        let mut offers = Vec::new();
        let mut spans = Vec::new();
        for (place, record) in records.iter().enumerate() {
            match record[0] {
                1 => {
                    let (a, b) = (record[1].into(), record[2].into());
                    links.push((place as u64, Link::between(a, b, capacity(record))));
                }
                2 => offers.push(Offer {
                    member: record[1].into(),
                    units: units(record),
                    price: number(record),
                }),
                7 => spans.push(span(records[place - 1], record)),
                _ => {}
            }
        }
        Records {
            links,
            offers,
            spans,
        }
    }

    /// The member of each offer.
    fn offering(&self) -> impl Iterator<Item = usize> + '_ {
        let points = self.offers.iter().map(|offer| offer.member);
        points.chain(self.spans.iter().map(|span| span.member))
    }

    /// The highest member number in any record.
    pub fn n(&self) -> usize {
        let in_links = self.links.iter().map(|(_, link)| link.b);
        in_links.chain(self.offering()).max().unwrap_or(0)
    }

    pub fn sheet(&self) -> Sheet {
        let links = self.links.iter().map(|(_, link)| *link).collect();
        Sheet {
            spans: self.spans.clone(),
            ..Sheet::new(self.n(), links, self.offers.clone())
        }
    }

    /// Each of refusals 5 to 11 that has a case here, whether or not a lower one has.
    pub fn refusals(&self, room: usize) -> Vec<Refusal> {
        let n = self.n();
        let count = |member: usize| self.offering().filter(|&other| other == member).count();
        let lowest =
            |wrong: &dyn Fn(usize) -> bool| (1..=n).find(|&member| wrong(member)).map(|m| m as u64);
        let closing = (0..self.links.len()).find(|&i| {
            let (_, link) = self.links[i];
            joined_to(link.a, &self.links[..i]).contains(&link.b)
        });
        let joined = joined_to(1, &self.links);
        let cases = [
            (5, self.offering().next().is_none().then_some(0)),
            (6, lowest(&|member| count(member) == 0)),
            (7, lowest(&|member| count(member) > 64)),
            (9, closing.map(|i| self.links[i].0)),
            (10, lowest(&|member| !joined.contains(&member))),
            (11, (room < 16 * n).then_some(16 * n as u64)),
        ];
        let given = cases.into_iter();
        given
            .filter_map(|(number, place)| Some((number, place?)))
            .collect()
    }
}

/// The members that links join to the given one, itself among them.
fn joined_to(member: usize, links: &[(u64, Link)]) -> HashSet<usize> {
    let mut joined = HashSet::from([member]);
    loop {
        let before = joined.len();
        for (_, link) in links {
            if joined.contains(&link.a) || joined.contains(&link.b) {
                joined.extend([link.a, link.b]);
            }
        }
        if joined.len() == before {
            return joined;
        }
    }
}
