//! Spans that are refused and spans that are not: at the edges of each rule, at several places, and
//! beside every other refusal, each file made by hand. The reading of `reading` must agree with the
//! library on every one.

use crate::common::{cleared, offer_record, Link, Random};
use crate::dynamic::best_total;
use crate::reading::{read_file, Refusal};

type Record = [u8; 8];

const MIN: i64 = i32::MIN as i64;
const MAX: i64 = i32::MAX as i64;

/// Kind 6: where a span begins, and its base.
fn lower(member: usize, units: i64, base: i64) -> Record {
    offer_record(6, member, units, base)
}

/// Kind 7: where a span ends, and its slope.
fn upper(member: usize, units: i64, slope: i64) -> Record {
    offer_record(7, member, units, slope)
}

fn point(member: usize, units: i64, price: i64) -> Record {
    offer_record(2, member, units, price)
}

fn idle(member: usize) -> Record {
    point(member, 0, 0)
}

fn link(a: usize, b: usize) -> Record {
    Link::between(a, b, 2).record()
}

fn unknown(kind: u8) -> Record {
    [kind, 1, 0, 0, 0, 0, 0, 0]
}

fn turned(member: usize) -> [Record; 2] {
    [lower(member, 2, 0), upper(member, 1, 0)]
}

/// Sound spans of a member, each from 0 to 2 units at 3 a unit.
fn spans(member: usize, count: usize) -> Vec<Record> {
    [lower(member, 0, 0), upper(member, 2, 3)].repeat(count)
}

/// 31 links and 64 spans for each of 32 members.
fn longest() -> Vec<Record> {
    let links = (2..=32).map(|member| link(1, member));
    links
        .chain((1..=32).flat_map(|member| spans(member, 64)))
        .collect()
}

/// The refusal that the reading gives.
fn read(file: &[u8], room: usize) -> Option<Refusal> {
    let records = match read_file(file) {
        Ok(records) => records,
        Err(refusal) => return Some(refusal),
    };
    let impossible = || best_total(&records.sheet()).is_none().then_some((12, 0));
    let refusals = records.refusals(room);
    refusals.first().copied().or_else(impossible)
}

/// Fails unless the library and the reading refuse the file so, or clear it, with an answer area of
/// `room` bytes.
fn check_bytes(file: &[u8], room: usize, expected: Option<Refusal>) {
    let given = cleared(file, room, &mut Random::new(4)).err();
    let bytes = file.len();
    let start: Vec<&[u8]> = file.chunks(8).take(8).collect();
    assert_eq!(given, expected, "{bytes} bytes: {start:02X?}");
    assert_eq!(read(file, room), expected, "{bytes} bytes: {start:02X?}");
}

/// As above with an answer area of no byte, so that a market without another fault gets refusal 11.
fn check(records: &[Record], expected: Refusal) {
    check_bytes(&records.concat(), 0, Some(expected));
}

fn check_all(rows: &[(&[Record], Refusal)]) {
    for (records, expected) in rows {
        check(records, *expected);
    }
}

#[test]
fn the_bytes_of_a_span() {
    let below_zero = [
        [6, 1, 0xF9, 0xFF, 0x9C, 0xFF, 0xFF, 0xFF],
        [7, 1, 0xFE, 0xFF, 20, 0, 0, 0],
    ];
    assert_eq!(below_zero, [lower(1, -7, -100), upper(1, -2, 20)]);
    check(&below_zero, (11, 16));
}

#[test]
fn a_record_at_fault_is_named_wherever_it_is() {
    let [low, high] = turned(1);
    for (fault, number, at) in [
        (&[unknown(3)][..], 3, 0),
        (&[point(0, 0, 0)], 4, 0),
        (&[lower(1, 2001, 0), upper(1, 2, 3)], 4, 0),
        (&[lower(1, 0, 0), upper(1, 2001, 3)], 4, 1),
        (&[lower(1, 0, 0)], 13, 0),
        (&[upper(1, 2, 3)], 13, 0),
        (&[low, high], 14, 1),
    ] {
        for (before, after) in [(0, 0), (0, 1), (0, 2), (1, 0), (1, 1), (2, 0), (2, 2)] {
            let points = [vec![idle(1); before], fault.to_vec(), vec![idle(1); after]].concat();
            check(&points, (number, (before + at) as u64));
            let spans = [spans(1, before), fault.to_vec(), spans(1, after)].concat();
            check(&spans, (number, (2 * before + at) as u64));
        }
    }
}

#[test]
fn a_record_without_its_other_half_is_refused_by_13() {
    check_all(&[
        (&[lower(1, 0, 0)], (13, 0)),
        (&[upper(1, 2, 3)], (13, 0)),
        (&[upper(1, 2, 3), lower(1, 0, 0)], (13, 0)),
        (&[lower(1, 0, 0), upper(2, 2, 3)], (13, 0)),
        (&[lower(2, 0, 0), upper(1, 2, 3)], (13, 0)),
        (&[lower(1, 0, 0), lower(1, 0, 0), upper(1, 2, 3)], (13, 0)),
        (&[lower(1, 0, 0), lower(2, 0, 0), upper(1, 2, 3)], (13, 0)),
        (&[lower(1, 0, 0), upper(1, 2, 3), upper(1, 2, 3)], (13, 2)),
        (&[lower(1, 0, 0), upper(1, 2, 3), upper(2, 2, 3)], (13, 2)),
        (&[lower(1, 0, 0), upper(1, 2, 3), lower(1, 0, 0)], (13, 2)),
        (&[lower(1, 0, 0), link(1, 2), upper(1, 2, 3)], (13, 0)),
        (&[lower(1, 0, 0), idle(1), upper(1, 2, 3)], (13, 0)),
        (&[lower(1, 0, 0), unknown(5), upper(1, 2, 3)], (13, 0)),
        (&[link(1, 2), upper(1, 2, 3)], (13, 1)),
        (&[point(1, 0, 0), upper(1, 2, 3)], (13, 1)),
    ]);
}

#[test]
fn in_one_record_4_comes_before_13_and_13_before_14() {
    check_all(&[
        // 4 and 13.
        (&[lower(0, 0, 0)], (4, 0)),
        (&[lower(33, 0, 0), idle(1)], (4, 0)),
        (&[lower(1, 2001, 0)], (4, 0)),
        (&[lower(1, -2001, 0), lower(1, 0, 0)], (4, 0)),
        (&[lower(1, 2001, 0), upper(2, 2, 3)], (4, 0)),
        (&[upper(0, 2, 3)], (4, 0)),
        (&[upper(33, 2, 3)], (4, 0)),
        (&[upper(1, 2001, 3)], (4, 0)),
        (&[idle(1), upper(1, -2001, 3)], (4, 1)),
        (&[lower(1, 0, 0), upper(1, 2, 3), upper(1, 2001, 3)], (4, 2)),
        // 13 and 14, if the record before is taken for a kind 6.
        (&[point(1, 2, 0), upper(1, 1, 0)], (13, 1)),
        (&[point(1, 0, 1_000_000), upper(1, 2, 3)], (13, 1)),
        (&[link(1, 2), upper(1, -9, 0)], (13, 1)),
        (&[lower(1, 0, 0), upper(1, 2, 3), upper(1, 1, 0)], (13, 2)),
        (&[lower(1, 0, 0), upper(1, 2, 3), upper(1, 2, MAX)], (13, 2)),
        // 4 and 14.
        (&[lower(1, 2000, 0), upper(1, -2001, 0)], (4, 1)),
        (&[lower(1, 0, 0), upper(1, 2001, 1_000_000)], (4, 1)),
        (&[lower(1, 0, 1_000_001), upper(1, 2001, 0)], (4, 1)),
        // 3 and what would be 4.
        (&[[0; 8]], (3, 0)),
        (&[[255; 8]], (3, 0)),
    ]);
    for kind in (0..=255).filter(|kind| ![1, 2, 6, 7].contains(kind)) {
        check(&[unknown(kind)], (3, 0));
        check(&[lower(1, 0, 0), unknown(kind)], (13, 0));
    }
}

#[test]
fn of_neighbours_the_first_at_fault_decides() {
    let [low, high] = turned(1);
    check_all(&[
        // 13 and 3.
        (&[lower(1, 0, 0), unknown(8)], (13, 0)),
        (&[upper(1, 2, 3), unknown(8)], (13, 0)),
        (&[unknown(8), lower(1, 0, 0)], (3, 0)),
        (&[unknown(8), upper(1, 2, 3)], (3, 0)),
        // 13 and 4.
        (&[lower(1, 0, 0), point(0, 0, 0)], (13, 0)),
        (&[lower(1, 0, 0), lower(0, 0, 0)], (13, 0)),
        (&[lower(1, 0, 0), upper(2, 2001, 3)], (13, 0)),
        (&[lower(1, 0, 0), upper(0, 2, 3)], (13, 0)),
        (&[upper(1, 2, 3), point(1, 2001, 0)], (13, 0)),
        (&[point(0, 0, 0), lower(1, 0, 0)], (4, 0)),
        (&[point(0, 0, 0), upper(1, 2, 3)], (4, 0)),
        (&[lower(0, 0, 0), upper(1, 2, 3)], (4, 0)),
        (&[lower(1, 0, 0), upper(1, 2001, 3), upper(1, 2, 3)], (4, 1)),
        // 13 and 14.
        (&[lower(1, 2, 0), upper(2, 1, 0)], (13, 0)),
        (&[lower(1, 0, 0), low, high], (13, 0)),
        (&[upper(1, 2, 3), low, high], (13, 0)),
        (&[low, high, lower(1, 0, 0)], (14, 1)),
        (&[low, high, upper(1, 2, 3)], (14, 1)),
        // 14 and 3.
        (&[low, high, unknown(8)], (14, 1)),
        (&[unknown(8), low, high], (3, 0)),
        // 14 and 4.
        (&[low, high, point(0, 0, 0)], (14, 1)),
        (&[point(0, 0, 0), low, high], (4, 0)),
        (&[lower(1, 2001, 0), upper(1, 2000, 0)], (4, 0)),
        (&[lower(0, 2, 0), upper(0, 1, 0)], (4, 0)),
        (&[lower(1, 0, 0), upper(1, 2001, 3), low, high], (4, 1)),
        // Each beside itself.
        (&[unknown(8), unknown(9)], (3, 0)),
        (&[lower(0, 0, 0), upper(0, 2, 3)], (4, 0)),
        (&[lower(1, 0, 0), lower(1, 0, 0)], (13, 0)),
        (&[upper(1, 2, 3), upper(1, 2, 3)], (13, 0)),
        (&[low, high, low, high], (14, 1)),
    ]);
}

#[test]
fn members_and_units_keep_to_their_ranges_in_both_records() {
    for (low, high) in [(-2000, 2000), (-2000, -2000), (2000, 2000), (-1, 1)] {
        check(&[lower(1, low, 0), upper(1, high, 0)], (11, 16));
    }
    for units in [-2001, 2001, i16::MIN.into(), i16::MAX.into()] {
        check(&[lower(1, units, 0), upper(1, 2000, 0)], (4, 0));
        check(&[lower(1, -2000, 0), upper(1, units, 0)], (4, 1));
    }
    for member in [0, 33, 128, 255] {
        check(&spans(member, 1), (4, 0));
        check(&[lower(1, 0, 0), upper(member, 2, 3)], (13, 0));
        check(&[idle(1), upper(member, 2, 3)], (4, 1));
    }
    check(&spans(32, 1), (6, 1));
}

/// Whether a span alone in a file is sound, its prices being reckoned here by hand.
fn check_line(low: i64, high: i64, slope: i64, base: i64, sound: bool) {
    let expected = match sound {
        true => (11, 16),
        false => (14, 1),
    };
    check(&[lower(1, low, base), upper(1, high, slope)], expected);
}

#[test]
fn a_span_does_not_end_before_it_begins() {
    for (low, high) in [(1, 0), (0, -1), (-1, -2), (1, -1), (2000, -2000), (256, 1)] {
        check_line(low, high, 0, 0, false);
        check_line(high, low, 0, 0, true);
    }
}

#[test]
fn the_price_at_each_end_is_in_range() {
    let million = 1_000_000;
    for (low, high, slope, base, sound) in [
        (0, 0, 0, million, true),
        (0, 0, 0, million + 1, false),
        (0, 0, 0, -million, true),
        (0, 0, 0, -million - 1, false),
        (-2000, 2000, 500, 0, true),
        (-2000, 2000, 500, 1, false),
        (-2000, 2000, 500, -1, false),
        (-2000, 2000, 501, 0, false),
        (-2000, 2000, -500, 0, true),
        (-2000, 2000, -500, 1, false),
        (-2000, 2000, -500, -1, false),
        (-2000, 0, 500, 0, true),
        (-2000, 0, 500, -1, false),
        (0, 2000, 500, 0, true),
        (0, 2000, 500, 1, false),
        (0, 2000, -500, -1, false),
        (-2000, 0, -500, 1, false),
        (0, 1, 2 * million, -million, true),
        (0, 1, 2 * million + 1, -million, false),
        (1000, 1001, 2_000_000, -2_001_000_000, true),
        (1000, 1001, 2_000_000, -2_001_000_001, false),
    ] {
        check_line(low, high, slope, base, sound);
    }
}

#[test]
fn slopes_and_bases_may_be_any_number_of_32_bits() {
    let million = 1_000_000;
    for (units, slope, base, sound) in [
        (0, MIN, 0, true),
        (0, MAX, 0, true),
        (0, 0, MIN, false),
        (0, 0, MAX, false),
        (1, MAX, million - MAX, true),
        (1, MAX, million - MAX + 1, false),
        (1, MAX, MIN, true),
        (1, MIN, MAX, true),
        (1, MIN, MAX - million + 1, true),
        (1, MIN, MAX - million, false),
        (-1, MAX, MAX, true),
        (-1, MAX, MIN, false),
        // The product alone is past 32 bits.
        (-1, MIN, MIN, true),
        (-1, MIN, MIN + million, true),
        (-1, MIN, MIN + million + 1, false),
        (2, 1 << 30, MIN, true),
        (2000, 1_073_742, MIN, true),
        // In 32 bits the price would be 0.
        (2, MIN, 0, false),
        (4, 1 << 30, 0, false),
        (-4, 1 << 30, 0, false),
        (1024, 1 << 22, 0, false),
        (2000, MIN, 0, false),
        (2000, MAX, 2000, false),
        (-2000, MIN, 0, false),
        (-2000, MAX, -2000, false),
    ] {
        check_line(units, units, slope, base, sound);
    }
    check_line(0, 16, 1 << 28, 0, false);
    check_line(-16, 0, 1 << 28, 0, false);
    check_line(-16, 16, 1 << 28, 0, false);
    check_line(1999, 2000, 2 * million, 295_967_296, false);
    check_line(0, 2000, 33, 0, true);
}

#[test]
fn a_span_is_an_offer_where_there_would_be_none() {
    check_all(&[
        (&[link(1, 2)], (5, 0)),
        (&[link(1, 2), lower(1, 0, 0)], (13, 1)),
        (&[link(1, 2), upper(1, 2, 3)], (13, 1)),
        (&[link(1, 2), lower(1, 2, 0), upper(1, 1, 0)], (14, 2)),
        (&[lower(1, 0, 0), upper(1, 2, 3)], (11, 16)),
        (&[link(1, 2), lower(1, 0, 0), upper(1, 2, 3)], (6, 2)),
        (&[link(1, 2), lower(2, 0, 0), upper(2, 2, 3)], (6, 1)),
        (&[lower(2, 0, 0), upper(2, 2, 3)], (6, 1)),
        (&[lower(1, 0, 0), upper(1, 2, 3), idle(3)], (6, 2)),
        (&[idle(1), lower(3, 0, 0), upper(3, 2, 3)], (6, 2)),
        (
            &[idle(1), lower(2, 0, 0), upper(2, 2, 3), link(1, 2)],
            (11, 32),
        ),
    ]);
}

#[test]
fn a_span_counts_once_toward_the_64() {
    let points = |count: usize| vec![idle(1); count];
    for (offers, expected) in [
        (spans(1, 64), (11, 16)),
        (spans(1, 65), (7, 1)),
        ([spans(1, 63), points(1)].concat(), (11, 16)),
        ([spans(1, 64), points(1)].concat(), (7, 1)),
        ([points(1), spans(1, 64)].concat(), (7, 1)),
        ([points(63), spans(1, 1)].concat(), (11, 16)),
        ([points(64), spans(1, 1)].concat(), (7, 1)),
        ([spans(1, 32), points(32)].concat(), (11, 16)),
        ([spans(1, 64), spans(2, 65)].concat(), (7, 2)),
        ([spans(1, 65), spans(3, 65)].concat(), (6, 2)),
        ([spans(1, 64), vec![lower(1, 0, 0)]].concat(), (13, 128)),
        ([spans(1, 65), turned(1).to_vec()].concat(), (14, 131)),
        ([spans(1, 65), vec![link(2, 3); 2]].concat(), (6, 2)),
        (
            [vec![link(1, 2); 2], spans(1, 65), spans(2, 1)].concat(),
            (7, 1),
        ),
    ] {
        check(&offers, expected);
    }
}

#[test]
fn both_records_of_a_span_count_for_places() {
    let (one, two, three) = (spans(1, 1), spans(2, 1), spans(3, 1));
    let links = |a: usize, b: usize| vec![link(a, b)];
    for (records, expected) in [
        ([links(1, 2), one.clone(), two.clone(), links(1, 2)], (9, 5)),
        ([one.clone(), links(1, 2), two.clone(), links(1, 2)], (9, 5)),
        ([links(1, 2), links(1, 2), one.clone(), two.clone()], (9, 1)),
        (
            [links(1, 2), links(1, 2), one.clone(), turned(2).to_vec()],
            (14, 5),
        ),
        (
            [links(2, 3), one.clone(), two.clone(), three.clone()],
            (10, 2),
        ),
        ([links(1, 3), one.clone(), two.clone(), three], (10, 2)),
        ([one.clone(), two.clone(), vec![], vec![]], (10, 2)),
        ([one, two, vec![], turned(2).to_vec()], (14, 5)),
    ] {
        check(&records.concat(), expected);
    }
}

#[test]
fn a_short_area_comes_before_spans_that_no_flow_meets() {
    let span = |member, low, high| vec![lower(member, low, 0), upper(member, high, 0)];
    let alone = |offers: &[Vec<Record>]| offers.concat();
    let linked = |offers: &[Vec<Record>]| [vec![link(1, 2)], offers.concat()].concat();
    for (records, n, possible) in [
        (alone(&[span(1, 0, 2)]), 1, true),
        (alone(&[span(1, -2000, 2000)]), 1, true),
        (alone(&[span(1, 1, 2000)]), 1, false),
        (alone(&[span(1, -2000, -1)]), 1, false),
        (alone(&[span(1, -5, -1), span(1, 1, 5)]), 1, false),
        (
            alone(&[span(1, -5, -1), span(1, 1, 5), vec![idle(1)]]),
            1,
            true,
        ),
        (linked(&[span(1, -9, -2), span(2, 2, 9)]), 2, true),
        (linked(&[span(1, -9, -3), span(2, 2, 9)]), 2, false),
        (linked(&[span(1, -9, 9), span(2, 3, 9)]), 2, false),
        (linked(&[span(1, -1, -1), span(2, 2, 2)]), 2, false),
        (linked(&[span(1, -2, -2), span(2, 2, 2)]), 2, true),
        (linked(&[span(1, -2, -1), span(2, -2, -1)]), 2, false),
    ] {
        let file = records.concat();
        let last = match possible {
            true => None,
            false => Some((12, 0)),
        };
        check_bytes(&file, 16 * n - 1, Some((11, 16 * n as u64)));
        check_bytes(&file, 16 * n, last);
    }
}

#[test]
fn the_longest_file_has_4127_records() {
    let longest = longest();
    assert_eq!(longest.len(), 4127);
    check(&longest, (11, 512));
    check_bytes(&longest.concat(), 512, None);
    for more in [idle(1), link(1, 2), lower(1, 0, 0), unknown(3)] {
        check(&[&longest[..], &[more]].concat(), (1, 0));
        check(&[&[more], &longest[..]].concat(), (1, 0));
    }
    let last = |record: Record| [&longest[..4126], &[record]].concat();
    for (record, expected) in [
        (upper(32, -1, 3), (14, 4126)),
        (upper(32, 2001, 3), (4, 4126)),
        (upper(31, 2, 3), (13, 4125)),
        (lower(32, 0, 0), (13, 4125)),
        (unknown(3), (13, 4125)),
    ] {
        check(&last(record), expected);
    }
    check(&longest[..4126], (13, 4125));
    check(&longest[..4125], (11, 512));
    check(&longest[1..], (10, 2));
}

#[test]
fn the_length_comes_before_a_broken_span() {
    check(&[lower(1, 0, 0); 4127], (13, 0));
    check(&[lower(1, 0, 0); 4128], (1, 0));
    let bytes = spans(1, 1).concat();
    for cut in 9..16 {
        check_bytes(&bytes[..cut], 16, Some((2, 0)));
    }
    check_bytes(&bytes[..8], 16, Some((13, 0)));
    let more = [&bytes[..], &[7]].concat();
    check_bytes(&more, 16, Some((2, 0)));
    check_bytes(&[6; 33_015], 0, Some((2, 0)));
    check_bytes(&[6; 33_017], 0, Some((1, 0)));
}
