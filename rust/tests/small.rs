//! Random small markets against a search that tries every flow on every link.

use crate::common::{cases, cleared, upward, Link, Offer, Random, Sheet, Span};
use crate::reading::is_line;

/// The most combinations of flows that the search tries.
const MOST_TRIED: i64 = 3000;

/// A market of at most six members on a tree, with few units and few prices, so that many
/// allocations have the same total. A table may have several entries for the same units.
pub fn random_sheet(random: &mut Random) -> Sheet {
    random_market(1, 0, random)
}

/// Such a market with spans, beside the points of a member or in their place.
pub fn random_sheet_with_spans(random: &mut Random) -> Sheet {
    let most_spans = random.pick(&[1, 2, 6]);
    random_market(1, most_spans, random)
}

/// Such a market, with spans or without, of which the search can try every flow in `d`-ths of a unit.
pub fn random_sheet_for_parts(d: i64, random: &mut Random) -> Sheet {
    let most_spans = random.pick(&[0, 1, 2, 6]);
    random_market(d, most_spans, random)
}

/// A market of points alone, or one with spans.
pub fn any_sheet(random: &mut Random) -> Sheet {
    match random.one_in(2) {
        true => random_sheet(random),
        false => random_sheet_with_spans(random),
    }
}

/// A market with few enough flows in `d`-ths of a unit to try them all.
fn random_market(d: i64, most_spans: usize, random: &mut Random) -> Sheet {
    let n = 1 + random.below(6);
    let mut members: Vec<usize> = (1..=n).collect();
    random.shuffle(&mut members);
    let mut links = Vec::new();
    let mut tried = 1;
    for i in 1..n {
        let most = (MOST_TRIED / tried - 1) / (2 * d);
        let capacity = random.between(0, most.min(3));
        tried *= 2 * d * capacity + 1;
        let earlier = members[random.below(i)];
        links.push(Link::between(members[i], earlier, capacity));
    }
    let price_step = random.pick(&[0, 1, 10, 333_333]);
    let most_units = random.pick(&[1, 2, 4, 6]);
    let most_offers = random.pick(&[1, 3, 8, 40]);
    let idle_missing = random.pick(&[1, 3, 100]);
    let most_repeats = random.pick(&[0, 0, 2, 9]);
    let mut offers = Vec::new();
    let mut spans = Vec::new();
    for member in 1..=n {
        let count = random.below(most_spans + 1);
        spans.extend((0..count).map(|_| random_span(member, most_units, price_step, random)));
        if count > 0 && random.one_in(3) {
            continue;
        }
        let mut table: Vec<i64> = (-most_units..=most_units).collect();
        table.extend([-2000, 2000]);
        random.shuffle(&mut table);
        table.truncate(1 + random.below(most_offers));
        if !random.one_in(idle_missing) && !table.contains(&0) {
            table.push(0);
        }
        for _ in 0..random.below(most_repeats + 1) {
            table.push(random.pick(&table));
        }
        offers.extend(table.into_iter().map(|units| Offer {
            member,
            units,
            price: price_step * random.between(-3, 3),
        }));
    }
    Sheet {
        spans,
        ..Sheet::new(n, links, offers)
    }
}

/// A span over one number of units, a few, all of them, or none in reach. Over one its line may be as
/// steep as 32 bits can say.
fn random_span(member: usize, most_units: i64, price_step: i64, random: &mut Random) -> Span {
    loop {
        let near = random.between(-most_units, most_units);
        let other = random.between(-most_units, most_units);
        let (low, high) = random.pick(&[
            (near, near),
            (near.min(other), near.max(other)),
            (-most_units, most_units),
            (-2000, 2000),
            (-2000, -1000),
            (20, 2000),
        ]);
        let steep = random.pick(&[i64::from(i32::MIN), i64::from(i32::MAX), 1 << 30]);
        let slope = match low == high && random.one_in(2) {
            true => steep,
            false => price_step * random.between(-6, 6),
        };
        let price = price_step * random.between(-3, 3);
        let span = Span {
            member,
            low,
            high,
            slope,
            base: price - slope * near.clamp(low, high),
        };
        if is_line(&span) && i32::try_from(span.base).is_ok() {
            return span;
        }
    }
}

/// What the search finds: the highest total, how many allocations have it, and of those the flows
/// whose list of upward flows comes first.
struct Found {
    total: i64,
    equals: u64,
    list: Vec<i64>,
    flows: Vec<i64>,
}

fn search(sheet: &Sheet) -> Option<Found> {
    let walk = sheet.walk();
    let mut found: Option<Found> = None;
    each_possible(sheet, |flows, total| {
        let list = upward(&walk, flows);
        match &mut found {
            Some(best) if total < best.total => {}
            Some(best) if total == best.total => {
                best.equals += 1;
                if list < best.list {
                    best.list = list;
                    best.flows = flows.to_vec();
                }
            }
            _ => {
                found = Some(Found {
                    total,
                    equals: 1,
                    list,
                    flows: flows.to_vec(),
                });
            }
        }
    });
    found
}

/// Tries every flow on every link, and hands over each possible allocation with its total.
pub fn each_possible(sheet: &Sheet, mut take: impl FnMut(&[i64], i64)) {
    let mut flows: Vec<i64> = sheet.links.iter().map(|link| -link.capacity).collect();
    loop {
        if let Some(total) = total(sheet, &flows) {
            take(&flows, total);
        }
        let Some(next) = (0..flows.len()).find(|&i| flows[i] < sheet.links[i].capacity) else {
            return;
        };
        flows[next] += 1;
        for (flow, link) in flows.iter_mut().zip(&sheet.links).take(next) {
            *flow = -link.capacity;
        }
    }
}

/// The total of the given flows; none where a net is not in its member's table.
fn total(sheet: &Sheet, flows: &[i64]) -> Option<i64> {
    let mut total = 0;
    for member in 1..=sheet.n {
        total += sheet.value(member, sheet.net(member, flows))?;
    }
    Some(total)
}

/// Whether a point gives the value of a net, and a span holds the net at a lower price.
fn has_point_above_a_line(sheet: &Sheet, flows: &[i64]) -> bool {
    sheet.has_net(flows, |member, net| {
        let line = sheet
            .spans_at(member, net)
            .map(|span| span.price(net))
            .max();
        line.is_some() && sheet.points_at(member, net).max() > line
    })
}

/// Whether spans of different prices hold a net, and the higher one gives its value.
fn has_different_lines(sheet: &Sheet, flows: &[i64]) -> bool {
    sheet.has_net(flows, |member, net| {
        let prices = || sheet.spans_at(member, net).map(|span| span.price(net));
        prices().min() < prices().max() && prices().max() == sheet.value(member, net)
    })
}

/// Whether a span of one unit, at least so steep, gives the value of a net.
fn has_span_of_one_unit(sheet: &Sheet, flows: &[i64], least_slope: i64) -> bool {
    sheet.has_net(flows, |member, net| {
        sheet.spans_at(member, net).any(|span| {
            span.low == span.high
                && span.slope.abs() >= least_slope
                && sheet.value(member, net) == Some(span.price(net))
        })
    })
}

#[test]
fn small_markets_clear_as_the_search_says() {
    let mut impossible = 0;
    let mut tied = 0;
    let mut many_tied = 0;
    let mut negative = 0;
    let mut closed = 0;
    let mut idle_missing = 0;
    let mut in_part = 0;
    let mut several = 0;
    let mut inside = 0;
    let mut above = 0;
    let mut lines = 0;
    let mut one_unit = 0;
    let mut steep = 0;
    let count = cases("CLEARING_SMALL", 40_000, |random| {
        let sheet = match random.one_in(3) {
            true => random_sheet(random),
            false => random_sheet_with_spans(random),
        };
        let file = sheet.file(random);
        let room = 16 * sheet.n + random.pick(&[0, 1, 16, 100]);
        let found = search(&sheet);
        let expected = match &found {
            None => Err((12, 0)),
            Some(best) => Ok(sheet.answer(&best.flows).expect("a possible allocation")),
        };
        let result = cleared(&file, room, random);
        assert_eq!(result, expected, "{sheet:?}");
        let Some(best) = found else {
            impossible += 1;
            return;
        };
        let part = |(flow, link): (&i64, &Link)| *flow != 0 && flow.abs() < link.capacity;
        tied += u64::from(best.equals > 1);
        many_tied += u64::from(best.equals > 10);
        negative += u64::from(best.total < 0);
        closed += u64::from(sheet.links.iter().any(|link| link.capacity == 0));
        idle_missing += u64::from((1..=sheet.n).any(|m| sheet.value(m, 0).is_none()));
        in_part += u64::from(best.flows.iter().zip(&sheet.links).any(part));
        several += u64::from(sheet.has_several_prices(&best.flows));
        inside += u64::from(sheet.has_net_inside_a_span(&best.flows));
        above += u64::from(has_point_above_a_line(&sheet, &best.flows));
        lines += u64::from(has_different_lines(&sheet, &best.flows));
        one_unit += u64::from(has_span_of_one_unit(&sheet, &best.flows, 0));
        steep += u64::from(has_span_of_one_unit(&sheet, &best.flows, 1 << 30));
    });
    for (seen, what) in [
        (impossible, "without an allocation"),
        (tied, "with a tie"),
        (many_tied, "with more than ten equals"),
        (negative, "with a negative total"),
        (closed, "with a closed link"),
        (idle_missing, "with a member that does not offer 0 units"),
        (in_part, "with a link used in part"),
        (several, "with several prices for a net of the answer"),
        (inside, "with a net inside a span alone"),
        (above, "with a point above a span's line for a net"),
        (lines, "with two spans of different prices for a net"),
        (one_unit, "with a net that a span of one unit gives"),
        (steep, "with a net that such a span gives by a steep line"),
    ] {
        assert!(seen >= count / 50, "{seen} of {count} markets {what}");
    }
}
