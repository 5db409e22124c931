//! A member's number, a count of energy units, a price and a price for each unit: four types, so that
//! none is taken for another. None of them is checked here; the library refuses what is out of range.

use core::fmt;

/// A member's number, from 1 to 32.
#[derive(Clone, Copy, Debug, PartialEq, Eq, PartialOrd, Ord, Hash)]
pub struct Member(pub u8);

/// Whole units of energy. An offer has -2,000 to 2,000, positive to buy and negative to sell; a
/// capacity is 0 to 40.
#[derive(Clone, Copy, Debug, PartialEq, Eq, PartialOrd, Ord, Hash)]
pub struct Units(pub i16);

/// Whole hundredths of a cent. An offer has -1,000,000 to 1,000,000 for each number of its units; the
/// base of a span is a step on the way to such a price, and may be any number.
#[derive(Clone, Copy, Debug, PartialEq, Eq, PartialOrd, Ord, Hash)]
pub struct Price(pub i32);

/// Whole hundredths of a cent for each unit: what a span's price rises by from one unit to the next.
/// Any number, as long as the prices at the span's ends are in their range.
#[derive(Clone, Copy, Debug, PartialEq, Eq, PartialOrd, Ord, Hash)]
pub struct Slope(pub i32);

impl fmt::Display for Member {
    fn fmt(&self, f: &mut fmt::Formatter) -> fmt::Result {
        self.0.fmt(f)
    }
}

impl fmt::Display for Units {
    fn fmt(&self, f: &mut fmt::Formatter) -> fmt::Result {
        self.0.fmt(f)
    }
}

impl fmt::Display for Price {
    fn fmt(&self, f: &mut fmt::Formatter) -> fmt::Result {
        self.0.fmt(f)
    }
}

impl fmt::Display for Slope {
    fn fmt(&self, f: &mut fmt::Formatter) -> fmt::Result {
        self.0.fmt(f)
    }
}
