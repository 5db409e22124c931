//! The highest total of a market on a tree, and whether an answer keeps the tie rule: along the walk
//! from its end, each member's table with all that is reached from it is joined to the table of the
//! member that it was reached from. The library's method joins tables along the walk as well; small
//! markets are held to the search of `small`, which joins none.

use crate::common::{upward, Sheet};
use std::ops::RangeInclusive;

/// The highest total of a market; none where no allocation is possible.
pub fn best_total(sheet: &Sheet) -> Option<i64> {
    best_within(sheet, &every_flow(sheet))
}

/// The first place in walk order where an allocation of the same total has a smaller upward flow
/// than the given flows have, and the same ones before it.
pub fn beaten_at(sheet: &Sheet, flows: &[i64], total: i64) -> Option<usize> {
    let list = upward(&sheet.walk(), flows);
    let mut ranges = every_flow(sheet);
    (0..list.len()).find(|&place| {
        let smaller = *ranges[place].start()..=list[place] - 1;
        ranges[place] = smaller;
        let beaten = best_within(sheet, &ranges) == Some(total);
        ranges[place] = list[place]..=list[place];
        beaten
    })
}

/// The upward flows that the capacities allow, in walk order.
fn every_flow(sheet: &Sheet) -> Vec<RangeInclusive<i64>> {
    let walk = sheet.walk().into_iter();
    walk.map(|step| sheet.links[step.link].capacity)
        .map(|capacity| -capacity..=capacity)
        .collect()
}

/// The highest total of the allocations whose upward flows lie in `ranges`, in walk order.
fn best_within(sheet: &Sheet, ranges: &[RangeInclusive<i64>]) -> Option<i64> {
    let mut rows = tables(sheet);
    for (step, range) in sheet.walk().iter().zip(ranges).rev() {
        rows[step.from] = rows[step.from].joined(&rows[step.member], range.clone());
    }
    rows[1].at(0)
}

/// The highest totals of a member and of the branches joined to it, by the units that its other
/// links bring it, from `-reach` to `reach`.
#[derive(Clone)]
struct Row {
    reach: i64,
    totals: Vec<Option<i64>>,
}

impl Row {
    fn empty(reach: i64) -> Row {
        let totals = vec![None; 2 * reach as usize + 1];
        Row { reach, totals }
    }

    fn at(&self, brought: i64) -> Option<i64> {
        self.totals[(brought + self.reach) as usize]
    }

    fn raise(&mut self, brought: i64, total: i64) {
        if brought.abs() <= self.reach {
            let highest = &mut self.totals[(brought + self.reach) as usize];
            *highest = Some(total).max(*highest);
        }
    }

    /// The row with a branch joined to it, whose upward flow lies in `range`.
    fn joined(&self, branch: &Row, range: RangeInclusive<i64>) -> Row {
        let mut joined = Row::empty(self.reach);
        for up in range {
            let Some(below) = branch.at(-up) else {
                continue;
            };
            for (brought, total) in (-self.reach..).zip(&self.totals) {
                if let Some(total) = total {
                    joined.raise(brought - up, below + total);
                }
            }
        }
        joined
    }
}

/// For each member, the highest price of each number of units that its links can bring.
fn tables(sheet: &Sheet) -> Vec<Row> {
    let mut reach = vec![0; sheet.n + 1];
    for link in &sheet.links {
        reach[link.a] += link.capacity;
        reach[link.b] += link.capacity;
    }
    let mut tables: Vec<Row> = reach.into_iter().map(Row::empty).collect();
    for offer in &sheet.offers {
        tables[offer.member].raise(offer.units, offer.price);
    }
    for span in &sheet.spans {
        let table = &mut tables[span.member];
        for units in span.low.max(-table.reach)..=span.high.min(table.reach) {
            table.raise(units, span.price(units));
        }
    }
    tables
}

/// Fails unless the answer's bytes are those of a possible allocation with the given total. Gives
/// its flows.
pub fn possible_with(sheet: &Sheet, total: i64, answer: &[u8]) -> Vec<i64> {
    let n = sheet.n;
    assert_eq!(answer.len(), 16 * n);
    let records = answer[8 * n..16 * n - 8].chunks_exact(8);
    let flows: Vec<i64> = records
        .map(|record| i16::from_le_bytes([record[4], record[5]]).into())
        .collect();
    assert_eq!(sheet.answer(&flows).as_deref(), Some(answer));
    assert_eq!(answer[16 * n - 4..], (total as i32).to_le_bytes());
    flows
}
