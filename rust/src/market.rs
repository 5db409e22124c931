//! A market as the records of its file: `docs/RULES.md`, "Records in". No rule is checked here; the
//! library refuses.

use crate::offer::offers;
use crate::record::links;
use crate::{records, Link, Lower, Member, Offer, Point, Price, Record, Slope, Units, Upper};
use alloc::vec::Vec;

/// A market's records, in the order in which they were added.
///
/// ```
/// use clearing::{Link, Market, Member, Price, Terms, Units};
///
/// let mut market = Market::new();
/// market
///     .link(Member(1), Member(2), Units(2))
///     .offer(Member(1), Units(-2), Price(-100));
/// assert_eq!(market.file()[..8], [1, 1, 2, 0, 2, 0, 0, 0]);
/// assert_eq!(market.file()[8..], [2, 1, 0xFE, 0xFF, 0x9C, 0xFF, 0xFF, 0xFF]);
///
/// // Read back, from these or from any file's bytes.
/// let link = Link { a: Member(1), b: Member(2), capacity: Units(2) };
/// assert!(market.links().eq([link]));
/// let stored = Market::from(market.file().to_vec());
/// let terms = Terms::Point { units: Units(-2), price: Price(-100) };
/// assert_eq!(stored.offers().next().unwrap().terms, terms);
/// ```
#[derive(Clone, Debug, Default, PartialEq, Eq)]
pub struct Market {
    file: Vec<u8>,
}

impl Market {
    /// A market without records.
    pub fn new() -> Market {
        Market::default()
    }

    /// Adds a link between `a`, the lower member, and `b`.
    pub fn link(&mut self, a: Member, b: Member, capacity: Units) -> &mut Market {
        self.add(&Link { a, b, capacity }.bytes())
    }

    /// Adds a point to `member`'s table: to buy `units`, or to sell where they are negative. Of
    /// several offers of the same units the one with the highest price counts.
    pub fn offer(&mut self, member: Member, units: Units, price: Price) -> &mut Market {
        let point = Point {
            member,
            units,
            price,
        };
        self.add(&point.bytes())
    }

    /// Adds a span to `member`'s table: to buy any whole number of units from `low` to `high`, both
    /// included, or to sell where they are negative, at `slope` times the units plus `base`. It is one
    /// offer, in two records. Where other offers have some of its units too, the highest price counts.
    ///
    /// A battery that sells any amount from 2 to 7 units, at 20 each, and a neighbour with two wishes:
    ///
    /// ```
    /// use clearing::{clear_market, Market, Member, Price, Slope, Units};
    ///
    /// let (battery, neighbour) = (Member(1), Member(2));
    /// let mut market = Market::new();
    /// market
    ///     .link(battery, neighbour, Units(7))
    ///     .span(battery, Units(-7), Units(-2), Slope(20), Price(0))
    ///     .offer(neighbour, Units(3), Price(180))
    ///     .offer(neighbour, Units(6), Price(230));
    /// let answer = clear_market(&market)?;
    /// assert_eq!(answer.member(battery).unwrap().net, Units(-3));
    /// assert_eq!(answer.member(battery).unwrap().value, Price(-60));
    /// # Ok::<(), clearing::Refusal>(())
    /// ```
    pub fn span(
        &mut self,
        member: Member,
        low: Units,
        high: Units,
        slope: Slope,
        base: Price,
    ) -> &mut Market {
        let lower = Lower { member, low, base };
        let upper = Upper {
            member,
            high,
            slope,
        };
        self.add(&lower.bytes()).add(&upper.bytes())
    }

    /// Adds bytes as they are.
    pub(crate) fn add(&mut self, bytes: &[u8]) -> &mut Market {
        self.file.extend(bytes);
        self
    }

    /// The file's bytes.
    pub fn file(&self) -> &[u8] {
        &self.file
    }

    /// Every record, in order.
    pub fn records(&self) -> impl Iterator<Item = Record<'_>> {
        records(&self.file)
    }

    /// The links, in order.
    pub fn links(&self) -> impl Iterator<Item = Link> + '_ {
        links(&self.file)
    }

    /// The offers, in order: a point at its record, a span at the later of its two. One end of a span
    /// without the other beside it is no offer.
    pub fn offers(&self) -> impl Iterator<Item = Offer> + '_ {
        offers(&self.file)
    }
}

/// The market in a file, whatever its bytes are.
impl From<Vec<u8>> for Market {
    fn from(file: Vec<u8>) -> Market {
        Market { file }
    }
}
