//! The offers among a file's records: `docs/RULES.md`, "Records in". No rule is checked here; the
//! library refuses.

use crate::{records, Lower, Member, Point, Price, Record, Slope, Units, Upper};

/// An entry of a member's table.
#[derive(Clone, Copy, Debug, PartialEq, Eq, Hash)]
pub struct Offer {
    pub member: Member,
    pub terms: Terms,
}

/// What a member offers: to buy units, or to sell where they are negative.
#[derive(Clone, Copy, Debug, PartialEq, Eq, Hash)]
pub enum Terms {
    /// So many units and no other number of them.
    Point { units: Units, price: Price },
    /// Any whole number of units from `low` to `high`, at `slope` times the units plus `base`.
    Span {
        low: Units,
        high: Units,
        slope: Slope,
        base: Price,
    },
}

/// The offers, in order: a point at its record, a span at the later of its two.
pub(crate) fn offers(file: &[u8]) -> impl Iterator<Item = Offer> + '_ {
    let mut before = None;
    records(file).filter_map(move |record| match (before.replace(record), record) {
        (_, Record::Point(point)) => Some(Offer::point(point)),
        (Some(Record::Lower(lower)), Record::Upper(upper)) => Offer::span(lower, upper),
        _ => None,
    })
}

impl Offer {
    fn point(point: Point) -> Offer {
        let Point {
            member,
            units,
            price,
        } = point;
        Offer {
            member,
            terms: Terms::Point { units, price },
        }
    }

    /// The span of two ends; none where they are not of one member.
    fn span(lower: Lower, upper: Upper) -> Option<Offer> {
        let Lower { member, low, base } = lower;
        let Upper { high, slope, .. } = upper;
        let terms = Terms::Span {
            low,
            high,
            slope,
            base,
        };
        (member == upper.member).then_some(Offer { member, terms })
    }
}
