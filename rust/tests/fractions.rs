//! Would fractions have paid more? Markets in halves and thirds of a unit: the best of them must pay
//! what the library's whole-unit answer pays, no more and no less. In small markets every flow in
//! parts is tried; the largest are held to the joined tables of `dynamic`.

use crate::common::{cases, cleared, Link, Offer, Random, Sheet, Span};
use crate::dynamic::best_total;
use crate::large::{self, Shape, Tables};
use crate::small::{each_possible, random_sheet_for_parts};

/// The parts of a unit that are tried: halves and thirds.
const PARTS: [i64; 2] = [2, 3];

/// The total of the library's answer; none where it gives refusal 12.
fn cleared_total(sheet: &Sheet, random: &mut Random) -> Option<i64> {
    let file = sheet.file(random);
    match cleared(&file, 16 * sheet.n, random) {
        Ok(answer) => {
            let total = answer.last_chunk().expect("a total");
            Some(i32::from_le_bytes(*total).into())
        }
        Err(refusal) => {
            assert_eq!(refusal, (12, 0), "{sheet:?}");
            None
        }
    }
}

/// The highest totals of a market in `d`-ths: of all allocations that are possible, and of those with
/// a flow that is not a whole number of units.
struct Highest {
    of_all: Option<i64>,
    in_parts: Option<i64>,
}

/// Tries every flow of a market in `d`-ths.
fn highest(parts: &Sheet, d: i64) -> Highest {
    let mut of_all = None;
    let mut in_parts = None;
    each_possible(parts, |flows, total| {
        of_all = of_all.max(Some(total));
        if flows.iter().any(|flow| flow % d != 0) {
            in_parts = in_parts.max(Some(total));
        }
    });
    Highest { of_all, in_parts }
}

#[test]
fn fractions_of_small_markets_pay_no_more() {
    for d in PARTS {
        let mut impossible = 0;
        let mut in_parts = 0;
        let mut as_good = 0;
        let count = cases("CLEARING_SMALL", 8000, |random| {
            let sheet = random_sheet_for_parts(d, random);
            let whole = cleared_total(&sheet, random).map(|total| d * total);
            let found = highest(&sheet.in_parts(d), d);
            assert_eq!(found.of_all, whole, "in parts of 1/{d}: {sheet:?}");
            impossible += u64::from(whole.is_none());
            in_parts += u64::from(found.in_parts.is_some());
            as_good += u64::from(found.in_parts.is_some() && found.in_parts == whole);
        });
        for (seen, what) in [
            (impossible, "without an allocation"),
            (in_parts, "with an allocation in parts of a unit"),
            (as_good, "with one that pays as much as the answer"),
        ] {
            assert!(seen >= count / 50, "{seen} of {count} markets {what}");
        }
    }
}

#[test]
fn fractions_of_the_largest_markets_pay_no_more() {
    let mut possible = 0;
    let count = cases("CLEARING_LARGE", 4, |random| {
        for shape in [Shape::Star, Shape::Chain, Shape::Tree] {
            let sheet = large::random_sheet(Tables::Both, shape, random);
            let whole = cleared_total(&sheet, random);
            possible += u64::from(whole.is_some());
            for d in PARTS {
                let best = best_total(&sheet.in_parts(d));
                assert_eq!(best, whole.map(|total| d * total), "in parts of 1/{d}");
            }
        }
    });
    assert!(possible >= 2 * count, "{possible} of 3 times {count}");
}

/// Member 1 sells and member 2 buys, by spans, over a link of such a capacity.
fn sale(capacity: i64, spans: [Span; 2]) -> Sheet {
    let links = vec![Link::between(1, 2, capacity)];
    Sheet {
        spans: spans.to_vec(),
        ..Sheet::new(2, links, Vec::new())
    }
}

/// A span of such a member from `low` to `high`, at `slope` for each unit and `base` besides.
fn span(member: usize, low: i64, high: i64, slope: i64, base: i64) -> Span {
    Span {
        member,
        low,
        high,
        slope,
        base,
    }
}

/// Fails unless the best in parts of a unit pays what the answer pays, and more once they are misread.
fn check_misread(sheet: &Sheet, misread: impl Fn(i64, &mut Sheet)) {
    let whole = cleared_total(sheet, &mut Random::new(1)).expect("an answer");
    for d in PARTS {
        let mut parts = sheet.in_parts(d);
        let best = |parts: &Sheet| highest(parts, d).of_all.expect("an allocation");
        assert_eq!(best(&parts), d * whole, "in parts of 1/{d}");
        misread(d, &mut parts);
        assert!(best(&parts) > d * whole, "in parts of 1/{d}: {parts:?}");
    }
}

#[test]
fn points_that_hold_between_points_would_pay_more() {
    let offer = |member, units, price| Offer {
        member,
        units,
        price,
    };
    let sells = [offer(1, 0, 0), offer(1, -2, 0)];
    let buys = [offer(2, 0, 0), offer(2, 1, 10)];
    let sheet = Sheet::new(2, vec![Link::between(1, 2, 3)], [sells, buys].concat());
    check_misread(&sheet, |d, parts| {
        let held = |point: Offer| {
            let last = point.units + d - 1;
            span(point.member, point.units, last, 0, point.price)
        };
        parts.spans = parts.offers.drain(..).map(held).collect();
    });
}

#[test]
fn a_capacity_of_one_part_more_would_pay_more() {
    let sheet = sale(1, [span(1, -3, 0, 0, 0), span(2, 0, 3, 10, 0)]);
    check_misread(&sheet, |_, parts| parts.links[0].capacity += 1);
}

#[test]
fn ends_rounded_outward_would_pay_more() {
    let sheet = sale(3, [span(1, -1, 0, 0, 0), span(2, 0, 1, 10, 0)]);
    check_misread(&sheet, |d, parts| {
        for span in &mut parts.spans {
            span.low -= d - 1;
            span.high += d - 1;
        }
    });
}

#[test]
fn a_base_that_is_kept_would_pay_more() {
    let sheet = sale(1, [span(1, -1, 0, 0, 0), span(2, 0, 1, 10, -4)]);
    check_misread(&sheet, |d, parts| {
        for span in &mut parts.spans {
            span.base /= d;
        }
    });
}
