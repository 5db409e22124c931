//! Random and damaged files against the reading of `reading`, with a count of the cases met.

use crate::common::{cases, cleared, Span};
use crate::dynamic::{best_total, possible_with};
use crate::files::random_file;
use crate::reading::{faults, is_line, is_price, read_file, span, Records, Refusal};
use std::collections::{BTreeMap, HashSet};

/// The number of files, if the environment says none.
const FILES: u64 = 250_000;

/// What a file can be a case of.
#[derive(Clone, Copy, Debug, PartialEq, Eq, PartialOrd, Ord)]
enum Case {
    /// The refusal is given; 0 is none.
    Given(u64),
    /// Both have their case, and the first is given.
    Both(u64, u64),
    /// Both have their case in one record, and the first is given there. No record has 13 and 14;
    /// these two are met where 14 would be given if the record before were a kind 6.
    InOneRecord(u64, u64),
    /// The first is given at a record, and the second has its case in the next one.
    InNeighbours(u64, u64),
    /// Refusal 4 is given at a record of this kind.
    WrongField(u8),
    /// Refusal 13 is given at a record of the first kind, 6 or 7. Where its span's other record
    /// should be there is one of the second kind, 0 for every kind unknown, or none.
    Alone(u8, Option<u8>),
    /// Refusal 14 is given, and this is so of its span.
    BadSpan(Fault),
    /// The file has so many records.
    Records(usize),
    /// No record is at fault, and a span's price is at an end of the range.
    PriceAtTheEnd,
    /// No record is at fault, and a span's slope times an end is past 32 bits.
    ProductPast32Bits,
    /// The market is cleared, and a point repeats another's member and units.
    ClearedRepeat,
    /// The market is cleared, and has a span.
    ClearedSpan,
}

/// What can be wrong with a span.
#[derive(Clone, Copy, Debug, PartialEq, Eq, PartialOrd, Ord)]
enum Fault {
    /// The low end is above the high one, and both prices are in range.
    Turned,
    LowPriceAlone,
    HighPriceAlone,
    /// One price is just past the range, and the other one is no farther out.
    PriceJustPast,
    /// Prices out of range that would be in range if they were reckoned in 32 bits.
    PricePast32Bits,
}

/// The cases that stand in the reading of a file's records.
fn cases_of_records(file: &[u8], read: &Result<Records, Refusal>) -> Vec<Case> {
    let mut cases = match read {
        Ok(records) => sound_cases(&records.spans),
        Err((3 | 4 | 13 | 14, place)) => {
            let records: Vec<&[u8]> = file.chunks(8).collect();
            faulty_cases(&records, *place as usize)
        }
        Err(_) => Vec::new(),
    };
    if file.len().is_multiple_of(8) {
        cases.push(Case::Records(file.len() / 8));
    }
    cases
}

fn sound_cases(spans: &[Span]) -> Vec<Case> {
    let any_end = |is_such: &dyn Fn(&Span, i64) -> bool| {
        let mut spans = spans.iter();
        spans.any(|span| is_such(span, span.low) || is_such(span, span.high))
    };
    let cases = [
        (
            Case::PriceAtTheEnd,
            any_end(&|span, end| span.price(end).abs() == 1_000_000),
        ),
        (
            Case::ProductPast32Bits,
            any_end(&|span, end| i32::try_from(span.slope * end).is_err()),
        ),
    ];
    of_these(cases)
}

/// The cases of a file whose first record at fault has this place.
fn faulty_cases(records: &[&[u8]], place: usize) -> Vec<Case> {
    let found = faults(records, place);
    let number = found[0];
    let mut cases = Vec::new();
    for other in &found[1..] {
        cases.push(Case::InOneRecord(number, *other));
    }
    if place + 1 < records.len() {
        let next = faults(records, place + 1).into_iter();
        cases.extend(next.map(|other| Case::InNeighbours(number, other)));
    }
    match number {
        4 => cases.push(Case::WrongField(records[place][0])),
        13 => {
            cases.push(alone(records, place));
            if would_be_a_bad_line(records, place) {
                cases.push(Case::InOneRecord(13, 14));
            }
        }
        14 => {
            let found = span_faults(&span(records[place - 1], records[place]));
            cases.extend(found.into_iter().map(Case::BadSpan));
        }
        _ => {}
    }
    cases
}

fn alone(records: &[&[u8]], place: usize) -> Case {
    let kind = records[place][0];
    let beside = match kind {
        6 => records.get(place + 1),
        _ => place.checked_sub(1).map(|place| &records[place]),
    };
    let kinds = [1, 2, 6, 7];
    let known = |record: &&[u8]| kinds.into_iter().find(|kind| record[0] == *kind);
    Case::Alone(kind, beside.map(|record| known(record).unwrap_or(0)))
}

/// Whether a record is a kind 7 that would end a bad span if the record before were a kind 6.
fn would_be_a_bad_line(records: &[&[u8]], place: usize) -> bool {
    records[place][0] == 7 && place > 0 && !is_line(&span(records[place - 1], records[place]))
}

fn span_faults(span: &Span) -> Vec<Fault> {
    let turned = span.low > span.high;
    let (low, high) = (span.price(span.low), span.price(span.high));
    let in_32_bits = |price: i64| is_price(i64::from(price as i32));
    let cases = [
        (Fault::Turned, turned && is_price(low) && is_price(high)),
        (
            Fault::LowPriceAlone,
            !turned && !is_price(low) && is_price(high),
        ),
        (
            Fault::HighPriceAlone,
            !turned && is_price(low) && !is_price(high),
        ),
        (
            Fault::PriceJustPast,
            !turned && low.abs().max(high.abs()) == 1_000_001,
        ),
        (
            Fault::PricePast32Bits,
            !turned && in_32_bits(low) && in_32_bits(high),
        ),
    ];
    of_these(cases)
}

fn of_these<C, const N: usize>(cases: [(C, bool); N]) -> Vec<C> {
    let found = cases.into_iter().filter(|(_, found)| *found);
    found.map(|(case, _)| case).collect()
}

fn repeat_a_point(records: &Records) -> bool {
    let mut seen = HashSet::new();
    let mut points = records.offers.iter();
    points.any(|offer| !seen.insert((offer.member, offer.units)))
}

/// Each case that must be met, and in how many files one of them.
fn to_be_met() -> Vec<(Case, u64)> {
    let numbers = (0..=14).filter(|&number| number != 8);
    let mut cases: Vec<(Case, u64)> = numbers.map(|number| (Case::Given(number), 1000)).collect();
    for (first, others) in [
        (5, &[6, 9, 10, 11][..]),
        (6, &[7, 9, 10, 11]),
        (7, &[9, 10, 11]),
        (9, &[10, 11]),
        (10, &[11]),
        (11, &[12]),
    ] {
        cases.extend(
            others
                .iter()
                .map(|&other| (Case::Both(first, other), 10_000)),
        );
    }
    for (first, other) in [(4, 13), (4, 14), (13, 14)] {
        cases.push((Case::InOneRecord(first, other), 10_000));
    }
    for first in [3, 4, 13, 14] {
        for other in [3, 4, 13] {
            cases.push((Case::InNeighbours(first, other), 10_000));
        }
    }
    // Before a kind 7 at fault by 14 is a kind 6 that has its other half: only 4 is left for it.
    cases.push((Case::InNeighbours(4, 14), 10_000));
    cases.extend([1, 2, 6, 7].map(|kind| (Case::WrongField(kind), 1000)));
    for beside in [None, Some(0), Some(1), Some(2), Some(6), Some(7)] {
        cases.push((Case::Alone(6, beside), 10_000));
    }
    for beside in [None, Some(1), Some(2), Some(7)] {
        cases.push((Case::Alone(7, beside), 10_000));
    }
    for fault in [
        Fault::Turned,
        Fault::LowPriceAlone,
        Fault::HighPriceAlone,
        Fault::PriceJustPast,
        Fault::PricePast32Bits,
    ] {
        cases.push((Case::BadSpan(fault), 2000));
    }
    cases.extend([4126, 4127, 4128].map(|count| (Case::Records(count), 20_000)));
    cases.extend([
        (Case::PriceAtTheEnd, 1000),
        (Case::ProductPast32Bits, 2000),
        (Case::ClearedRepeat, 100),
        (Case::ClearedSpan, 20),
    ]);
    cases
}

#[test]
fn every_file_is_refused_as_the_table_says() {
    let mut met = BTreeMap::new();
    let count = cases("CLEARING_FILES", FILES, |random| {
        let file = random_file(random);
        let read = read_file(&file);
        let n = read.as_ref().map_or(0, Records::n);
        let room = match random.below(4) {
            0 => (16 * n).saturating_sub(1 + random.below(2)),
            1 => 16 * n,
            2 => 16 * n + random.below(40),
            _ => random.below(600),
        };
        let mut refusals = match &read {
            Ok(records) => records.refusals(room),
            Err(refusal) => vec![*refusal],
        };
        let mut total = None;
        if let (Ok(records), None | Some((11, _))) = (&read, refusals.first()) {
            total = best_total(&records.sheet());
            if total.is_none() {
                refusals.push((12, 0));
            }
        }
        let mut found = cases_of_records(&file, &read);
        let result = cleared(&file, room, random);
        match (refusals.first(), &read, total) {
            (None, Ok(records), Some(total)) => {
                let answer = result.expect("an answer, since no refusal has its case");
                possible_with(&records.sheet(), total, &answer);
                found.extend(of_these([
                    (Case::ClearedRepeat, repeat_a_point(records)),
                    (Case::ClearedSpan, !records.spans.is_empty()),
                ]));
            }
            (refusal, ..) => assert_eq!(result.err().as_ref(), refusal),
        }
        let first = refusals.first().map_or(0, |(number, _)| *number);
        found.push(Case::Given(first));
        let others = refusals.iter().skip(1);
        found.extend(others.map(|(number, _)| Case::Both(first, *number)));
        for case in found {
            *met.entry(case).or_insert(0) += 1;
        }
    });
    for (case, one_in) in to_be_met() {
        let seen = met.get(&case).copied().unwrap_or(0);
        let least = (count / one_in).max(u64::from(count >= FILES));
        assert!(seen >= least, "{case:?} in {seen} of {count} files");
    }
}
