//! Random files for the tests: sound, damaged, with spans that are broken or at the edges of what is
//! sound, and of every size up to past the limit.

use crate::common::{Link, Offer, Random, Sheet, Span, FILE_LIMIT};
use crate::large::{self, Shape, Tables};
use crate::small::{random_sheet, random_sheet_with_spans};

/// Records that stand together in a file: one, or the two of a span.
type Piece = Vec<[u8; 8]>;

/// A file of any kind: noise, a sound market, or one with too few, too many, repeated or missing
/// records; often damaged in a byte, a field, its order or its length.
pub fn random_file(random: &mut Random) -> Vec<u8> {
    let mut pieces = match random.below(300) {
        0 => largest(random),
        1 => too_long(random),
        2..=20 => noise(random),
        21..=50 => random_sheet(random).pieces(),
        51..=80 => random_sheet_with_spans(random).pieces(),
        81..=150 => loose(random),
        _ => rough(random),
    };
    if random.one_in(2) {
        random.shuffle(&mut pieces);
    }
    let mut records = pieces.concat();
    if random.one_in(6) && !records.is_empty() {
        for _ in 0..1 + random.below(2) {
            let at = random.below(records.len());
            records[at] = damaged(records[at], random);
        }
    }
    if random.one_in(8) && !records.is_empty() {
        misplace(&mut records, random);
    }
    let mut file = records.concat();
    if random.one_in(40) {
        file.truncate(random.below(file.len() + 1));
    }
    if random.one_in(40) {
        let more = 1 + random.below(8);
        file.extend(random.bytes(more));
    }
    file
}

/// About as many records as a file can hold: a sound market, perhaps with a repeated offer or with a
/// point in a span's place, or one with a link too many, links in place of most offers, or its end
/// cut off.
fn largest(random: &mut Random) -> Vec<Piece> {
    let tables = random.pick(&[Tables::Points, Tables::Spans, Tables::Spans, Tables::Both]);
    let mut pieces = large::random_sheet(tables, Shape::Tree, random).pieces();
    let count = pieces.len();
    match random.below(7) {
        0 => pieces.push(pieces[random.below(31)].clone()),
        1 => pieces[count - 1] = pieces[count - 1 - random.below(60)].clone(),
        2 => pieces[count - 1] = vec![[2, 32, 0, 0, 0, 0, 0, 0]],
        3 => {
            let offers: Vec<Piece> = pieces[31..].iter().step_by(64).cloned().collect();
            pieces.truncate(31);
            while pieces.len() < FILE_LIMIT / 8 - 2 * offers.len() {
                pieces.push(pieces[random.below(31)].clone());
            }
            pieces.extend(offers);
        }
        4 => pieces.truncate(random.below(count)),
        _ => {}
    }
    pieces
}

/// One sound record more often than a file can hold it.
fn too_long(random: &mut Random) -> Vec<Piece> {
    let count = FILE_LIMIT / 8 + 1 + random.below(2000);
    vec![vec![[2, 1, 0, 0, 0, 0, 0, 0]]; count]
}

fn noise(random: &mut Random) -> Vec<Piece> {
    let count = random.below(9);
    (0..count)
        .map(|_| vec![random.next().to_le_bytes()])
        .collect()
}

/// A market that may break any of the rules behind refusals 5 to 10, or none, or several. Its offers
/// may repeat one another.
fn rough(random: &mut Random) -> Vec<Piece> {
    let n = random.pick(&[1, 2, 2, 3, 3, 4, 5, 32]);
    let mut links = Vec::new();
    for i in 2..=n {
        let earlier = 1 + random.below(i - 1);
        if !random.one_in(4 * n) {
            links.push(Link::between(i, earlier, random.between(0, 4)));
        }
    }
    while random.one_in(4) {
        let (x, y) = (1 + random.below(n + 1), 1 + random.below(n + 1));
        if x != y {
            links.push(Link::between(x, y, random.between(0, 4)));
        }
    }
    let mut sheet = Sheet {
        n,
        links,
        offers: Vec::new(),
        spans: Vec::new(),
    };
    if random.one_in(20) {
        return sheet.pieces();
    }
    let spans_in_6 = random.pick(&[0, 1, 3, 6]);
    for member in 1..=n {
        let count = match random.below(5 * n + 10) {
            0 => 0,
            1 => random.between(62, 67),
            _ => random.between(1, 3),
        };
        let first = random.between(-2, 0) - count / 2;
        for units in first..first + count {
            match random.below(6) < spans_in_6 {
                true => sheet.spans.push(Span {
                    member,
                    low: units,
                    high: units + random.between(0, 2),
                    slope: random.between(-3, 3),
                    base: random.between(-9, 9),
                }),
                false => sheet.offers.push(Offer {
                    member,
                    units,
                    price: random.between(-9, 9),
                }),
            }
        }
    }
    while random.one_in(4) && !sheet.offers.is_empty() {
        let offer = random.pick(&sheet.offers);
        let price = random.pick(&[offer.price, 7]);
        sheet.offers.push(Offer { price, ..offer });
    }
    sheet.pieces()
}

/// A few spans at the edge of what is sound, some with one of their records alone, and a few other
/// records.
fn loose(random: &mut Random) -> Vec<Piece> {
    let count = 1 + random.below(6);
    (0..count).map(|_| loose_piece(random)).collect()
}

fn loose_piece(random: &mut Random) -> Piece {
    let [lower, upper] = edge_span(random).records();
    match random.below(14) {
        0 => vec![lower],
        1 => vec![upper],
        2 => vec![damaged(lower, random)],
        3 => vec![damaged(upper, random)],
        4 => vec![damaged(lower, random), upper],
        5 => vec![lower, damaged(upper, random)],
        6 => vec![other_record(random)],
        _ => vec![lower, upper],
    }
}

/// A record of no span: a link, a point, or of another kind.
fn other_record(random: &mut Random) -> [u8; 8] {
    let kind = random.pick(&[1, 2, 2, 3, 5, 8, 255]);
    let record = [kind, 1, 2, 0, 0, 0, 0, 0];
    match random.one_in(3) {
        true => damaged(record, random),
        false => record,
    }
}

/// A span of member 1 or 2, a price of which is at an end of its range or just past it, if it is
/// reckoned in 32 bits; the line may be too steep for them. Its low end may be above the high one.
fn edge_span(random: &mut Random) -> Span {
    let in_32_bits = |number: i64| i64::from(number as i32);
    let units: [i64; 11] = [-2000, -1999, -2, -1, 0, 0, 0, 1, 2, 1000, 2000];
    let low = random.pick(&units);
    let high = match random.below(6) {
        0 => low - 1,
        1 | 2 => low,
        _ => random.pick(&units).max(low),
    };
    let end = random.pick(&[low, high]);
    let slope = match random.below(5) {
        0 => random.next() as i64,
        1 => random.pick(&[0, 1 << 30, (1 << 31) - 1, 1 << 31]),
        2 => (1 << 31) / end.abs().max(1) + random.between(-1, 1),
        _ => 2_000_000 / (high - low).max(1) + random.between(-1, 1),
    };
    let slope = in_32_bits(random.pick(&[-1, 1]) * in_32_bits(slope));
    let price = random.pick(&[-1, 1]) * random.pick(&[0, 999_999, 1_000_000, 1_000_001]);
    Span {
        member: random.pick(&[1, 1, 1, 1, 2]),
        low,
        high,
        slope,
        base: in_32_bits(price - slope * end),
    }
}

/// Takes a record away, repeats one, exchanges two neighbours, gives one to another member, or puts
/// another record between.
fn misplace(records: &mut Vec<[u8; 8]>, random: &mut Random) {
    let last = records.len() - 1;
    let at = random.below(last + 1);
    match random.below(5) {
        0 => {
            records.remove(at);
        }
        1 => records.insert(at, records[at]),
        2 => records.swap(at, last.min(at + 1)),
        3 => records[at][1] = random.pick(&[1, 2, 3, 32]),
        _ => records.insert(at, other_record(random)),
    }
}

/// The record with one of its fields changed, often to a value at the edge of its range.
fn damaged(record: [u8; 8], random: &mut Random) -> [u8; 8] {
    let mut changed = record;
    match random.below(8) {
        0 => changed[0] = random.pick(&[0, 1, 2, 3, 4, 5, 6, 7, 8, 255]),
        1 | 2 => changed[random.below(8)] = random.next() as u8,
        3 => changed[1] = random.pick(&[0, 1, 31, 32, 33, 255]),
        4 => changed[2] = random.pick(&[0, 1, 31, 32, 33, record[1]]),
        5 => {
            let units = random.pick(&[-2001, -2000, 2000, 2001, i16::MIN, i16::MAX]);
            changed[2..4].copy_from_slice(&units.to_le_bytes());
        }
        6 => {
            let price = random.pick(&[1_000_000, 1_000_001, i32::MAX]) * random.pick(&[-1, 1]);
            changed[4..].copy_from_slice(&price.to_le_bytes());
        }
        _ => {
            let capacity: u16 = random.pick(&[0, 40, 41, 256, 296, u16::MAX]);
            changed[4..6].copy_from_slice(&capacity.to_le_bytes());
        }
    }
    changed
}
