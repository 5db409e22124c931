//! Markets of the largest size, 32 members with 64 offers each and capacities of 40, of points, of
//! spans, and of both, often with several prices for the same units, against the tables that `dynamic`
//! joins: the total, that the answer is possible, and the tie rule.

use crate::common::{cases, cleared, Link, Offer, Random, Sheet, Span, FILE_LIMIT};
use crate::dynamic::{beaten_at, best_total, possible_with};

const MEMBERS: usize = 32;
const OFFERS: usize = 64;

#[derive(Clone, Copy)]
pub enum Shape {
    Star,
    Chain,
    Tree,
}

/// The links of a tree on all members, with member 1 anywhere in it.
fn random_links(shape: Shape, random: &mut Random) -> Vec<Link> {
    let mut members: Vec<usize> = (1..=MEMBERS).collect();
    if random.one_in(2) {
        random.shuffle(&mut members);
    }
    let mut links = Vec::new();
    for i in 1..MEMBERS {
        let earlier = match shape {
            Shape::Star => 0,
            Shape::Chain => i - 1,
            Shape::Tree => random.below(i),
        };
        links.push(Link::between(members[i], members[earlier], 40));
    }
    links
}

fn random_offers(random: &mut Random) -> Vec<Offer> {
    let step = random.pick(&[1, 2, 3]);
    let first = match random.below(8) {
        0 => step,
        _ => -step * OFFERS as i64 / 2,
    };
    let far = random.below(4);
    let repeated = far + random.pick(&[0, 0, 4, 30]);
    let (rate, noise) = random.pick(&[(0, 0), (0, 2), (30, 10), (800, 900), (0, 1_000_000)]);
    let mut offers = Vec::new();
    for member in 1..=MEMBERS {
        for i in 0..OFFERS {
            let place = match i < repeated {
                true => repeated + random.below(OFFERS - repeated),
                false => i,
            };
            let units = match i < far {
                true => random.pick(&[-1, 1]) * (400 + 400 * i as i64),
                false => first + step * place as i64,
            };
            let price = -rate * units + random.between(-noise, noise);
            offers.push(Offer {
                member,
                units,
                price,
            });
        }
    }
    offers
}

fn random_spans(random: &mut Random) -> Vec<Span> {
    let (reach, width) = random.pick(&[(40, 0), (60, 3), (130, 30), (2000, 400), (2000, 4000)]);
    let lowest = match random.below(12) {
        0 => 1,
        _ => -reach,
    };
    let (rate, bend, noise) = random.pick(&[
        (0, 0, 0),
        (0, 1, 2),
        (30, 10, 10),
        (300, 199, 900),
        (0, 0, 1_000_000),
    ]);
    let mut spans = Vec::new();
    for member in 1..=MEMBERS {
        for _ in 0..OFFERS {
            let low = random.between(lowest, reach);
            spans.push(Span {
                member,
                low,
                high: random.between(low, (low + width).min(2000)),
                slope: random.between(-bend, bend) - rate,
                base: random.between(-noise, noise),
            });
        }
    }
    spans
}

/// What a market's tables are made of.
#[derive(Clone, Copy)]
pub enum Tables {
    Points,
    Spans,
    Both,
}

pub fn random_sheet(tables: Tables, shape: Shape, random: &mut Random) -> Sheet {
    let mut sheet = Sheet::new(MEMBERS, random_links(shape, random), Vec::new());
    let points = random_offers(random);
    for (point, span) in points.into_iter().zip(random_spans(random)) {
        let is_point = match tables {
            Tables::Points => true,
            Tables::Spans => false,
            Tables::Both => random.one_in(2),
        };
        match is_point {
            true => sheet.offers.push(point),
            false => sheet.spans.push(span),
        }
    }
    sheet
}

#[test]
fn large_markets_clear_as_the_joined_tables_say() {
    let mut shapes = [0; 3];
    let mut made_of = [0; 3];
    let mut impossible = 0;
    let mut several = 0;
    let mut inside = 0;
    let mut longest = 0;
    let count = cases("CLEARING_LARGE", 150, |random| {
        let shape = random.pick(&[Shape::Star, Shape::Chain, Shape::Tree]);
        let tables = random.pick(&[Tables::Points, Tables::Spans, Tables::Both]);
        let sheet = random_sheet(tables, shape, random);
        let file = sheet.file(random);
        longest += u64::from(file.len() == FILE_LIMIT);
        let result = cleared(&file, 512 + random.below(2), random);
        let Some(total) = best_total(&sheet) else {
            impossible += 1;
            assert_eq!(result, Err((12, 0)));
            return;
        };
        let answer = result.expect("an answer, since an allocation is possible");
        let flows = possible_with(&sheet, total, &answer);
        shapes[shape as usize] += 1;
        made_of[tables as usize] += 1;
        several += u64::from(sheet.has_several_prices(&flows));
        inside += u64::from(sheet.has_net_inside_a_span(&flows));
        assert_eq!(beaten_at(&sheet, &flows, total), None, "the tie rule");
    });
    let [stars, chains, trees] = shapes;
    let [points, spans, both] = made_of;
    for (seen, least, what) in [
        (stars, 20, "a star with an answer"),
        (chains, 20, "a chain with an answer"),
        (trees, 20, "another tree with an answer"),
        (points, 20, "of points, with an answer"),
        (spans, 20, "of spans, with an answer"),
        (both, 20, "of points and spans, with an answer"),
        (impossible, 90, "without an allocation"),
        (longest, 20, "of the most records that a file has"),
        (several, 10, "with several prices for a net of the answer"),
        (inside, 10, "with a net inside a span alone"),
    ] {
        assert!(
            seen >= count / least,
            "{seen} of {count} markets are {what}"
        );
    }
}
