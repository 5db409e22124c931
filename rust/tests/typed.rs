//! The typed side: a market's records, its text, its answer and the words of a refusal.

use crate::common::{cases, Random, Sheet};
use crate::examples::committed;
use crate::files::random_file;
use crate::small::any_sheet;
use crate::text::any_file;
use clearing::{
    clear, clear_file, clear_market, Answer, Lower, Market, Member, NoAnswer, Offer, Price, Record,
    Refusal, Slope, Terms, Units, Upper, ANSWER_LIMIT, FILE_LIMIT,
};

fn market(sheet: &Sheet) -> Market {
    let mut market = Market::new();
    for link in &sheet.links {
        let capacity = Units(link.capacity as i16);
        market.link(Member(link.a as u8), Member(link.b as u8), capacity);
    }
    for offer in &sheet.offers {
        let (units, price) = (Units(offer.units as i16), Price(offer.price as i32));
        market.offer(Member(offer.member as u8), units, price);
    }
    for span in &sheet.spans {
        let (low, high) = (Units(span.low as i16), Units(span.high as i16));
        let (slope, base) = (Slope(span.slope as i32), Price(span.base as i32));
        market.span(Member(span.member as u8), low, high, slope, base);
    }
    market
}

/// The bytes of a typed answer: `docs/RULES.md`, "Records out".
fn bytes(answer: &Answer) -> Vec<u8> {
    let mut bytes = Vec::new();
    for member in answer.members() {
        bytes.extend([3, member.member.0]);
        bytes.extend(member.net.0.to_le_bytes());
        bytes.extend(member.value.0.to_le_bytes());
    }
    for link in answer.links() {
        bytes.extend([4, link.a.0, link.b.0, 0]);
        bytes.extend(link.flow.0.to_le_bytes());
        bytes.extend(link.load.to_le_bytes());
    }
    bytes.extend([5, 0, 0, 0]);
    bytes.extend(answer.total().0.to_le_bytes());
    bytes
}

#[test]
fn a_typed_market_is_its_records_and_its_answer_the_bytes() {
    cases("CLEARING_SMALL", 10_000, |random| {
        let sheet = any_sheet(random);
        let market = market(&sheet);
        assert_eq!(market.file(), sheet.records().concat());
        let mut area = [0; ANSWER_LIMIT];
        let written = clear(market.file(), &mut area);
        let typed = clear_market(&market);
        assert_eq!(typed.as_ref().err(), written.as_ref().err());
        if let (Ok(answer), Ok(written)) = (typed, written) {
            assert_eq!(bytes(&answer), area[..written]);
            assert_eq!(Answer::decode(market.file(), &area[..written]), Ok(answer));
        }
    });
}

#[test]
fn an_answer_has_the_capacities_of_its_market_and_finds_members_and_links() {
    cases("CLEARING_SMALL", 10_000, |random| {
        let sheet = any_sheet(random);
        let Ok(answer) = clear_file(&sheet.file(random)) else {
            return;
        };
        for (link, listed) in sheet.links.iter().zip(answer.links()) {
            let (a, b) = (Member(link.a as u8), Member(link.b as u8));
            assert_eq!((listed.a, listed.b), (a, b));
            assert_eq!(i64::from(listed.capacity.0), link.capacity);
            assert_eq!(answer.link(a, b), Some(listed));
            assert_eq!(answer.link(b, a), Some(listed));
        }
        for (member, listed) in (1..).zip(answer.members()) {
            assert_eq!(answer.member(Member(member)), Some(listed));
        }
        assert_eq!(answer.members().len(), sheet.n);
        assert_eq!(answer.links().len(), sheet.n - 1);
        assert_eq!(answer.member(Member(0)), None);
        assert_eq!(answer.member(Member(sheet.n as u8 + 1)), None);
        assert_eq!(answer.link(Member(1), Member(1)), None);
    });
}

#[test]
fn any_bytes_have_a_typed_result() {
    cases("CLEARING_FILES", 10_000, |random| {
        let file = random_file(random);
        let market = Market::from(file.clone());
        assert_eq!(market.file(), file);
        let written = clear(&file, &mut [0; ANSWER_LIMIT]);
        assert_eq!(clear_file(&file).err(), written.err());
        assert_eq!(clear_market(&market), clear_file(&file));
    });
}

#[test]
fn a_market_is_read_back_as_it_was_made() {
    cases("CLEARING_SMALL", 10_000, |random| {
        let sheet = any_sheet(random);
        let market = market(&sheet);
        let mut again = Market::new();
        for link in market.links() {
            again.link(link.a, link.b, link.capacity);
        }
        for offer in market.offers() {
            add(&mut again, offer);
        }
        assert_eq!(again, market);
    });
}

fn add(market: &mut Market, Offer { member, terms }: Offer) {
    match terms {
        Terms::Point { units, price } => market.offer(member, units, price),
        Terms::Span {
            low,
            high,
            slope,
            base,
        } => market.span(member, low, high, slope, base),
    };
}

/// Any numbers that the records of an offer can hold.
fn random_offer(random: &mut Random) -> Offer {
    let member = Member(random.next() as u8);
    let (units, high) = (Units(random.next() as i16), Units(random.next() as i16));
    let (price, slope) = (Price(random.next() as i32), Slope(random.next() as i32));
    let terms = match random.one_in(2) {
        true => Terms::Point { units, price },
        false => Terms::Span {
            low: units,
            high,
            slope,
            base: price,
        },
    };
    Offer { member, terms }
}

#[test]
fn offers_are_read_back_as_they_were_made_whatever_their_numbers() {
    cases("CLEARING_SMALL", 10_000, |random| {
        let mut offers = Vec::new();
        let mut market = Market::new();
        for _ in 0..random.below(6) {
            if random.one_in(3) {
                market.link(Member(random.next() as u8), Member(2), Units(0));
            }
            let offer = random_offer(random);
            add(&mut market, offer);
            offers.push(offer);
        }
        assert!(market.offers().eq(offers), "{}", market.text());
    });
}

#[test]
fn a_span_is_two_records() {
    let (member, low, high) = (Member(3), Units(-7), Units(-2));
    let (slope, base) = (Slope(20), Price(-1));
    let mut market = Market::new();
    market.span(member, low, high, slope, base);
    let lower = [6, 3, 0xF9, 0xFF, 0xFF, 0xFF, 0xFF, 0xFF];
    let upper = [7, 3, 0xFE, 0xFF, 20, 0, 0, 0];
    assert_eq!(market.file(), [lower, upper].concat());
    let upper = Upper {
        member,
        high,
        slope,
    };
    let lower = Lower { member, low, base };
    let records = [Record::Lower(lower), Record::Upper(upper)];
    assert!(market.records().eq(records));
}

#[test]
fn one_end_of_a_span_is_no_offer() {
    for (lines, offers) in [
        ("lower 1 0 0", 0),
        ("upper 1 0 0", 0),
        ("upper 1 0 0\nlower 1 0 0", 0),
        ("lower 1 0 0\nupper 2 0 0", 0),
        ("lower 1 0 0\nlink 1 2 0\nupper 1 0 0", 0),
        ("lower 1 0 0\nbytes 07 01 00 00 00 00 00", 0),
        ("lower 1 0 0\noffer 1 0 0\nupper 1 0 0", 1),
        ("lower 1 0 0\nlower 1 0 0\nupper 1 0 0", 1),
        ("lower 1 0 0\nupper 1 0 0\nupper 1 0 0", 1),
        ("lower 1 9 0\nupper 1 0 0\nlower 1 0 0\nupper 1 0 0", 2),
    ] {
        let market = Market::from_text(lines.as_bytes()).expect("a market");
        assert_eq!(market.offers().count(), offers, "{lines}");
    }
}

/// Member 1 offers a span of one number of units, and member 2 the other side of the trade at 0.
fn one_unit_span(units: i16, slope: i32, base: i32) -> Market {
    let mut market = Market::new();
    let (units, other_side) = (Units(units), Units(-units));
    market
        .link(Member(1), Member(2), Units(40))
        .span(Member(1), units, units, Slope(slope), Price(base))
        .offer(Member(2), other_side, Price(0));
    market
}

#[test]
fn slopes_and_bases_may_be_any_numbers_whose_price_is_in_range() {
    const MIN: i32 = i32::MIN;
    const MAX: i32 = i32::MAX;
    for (units, slope, base, price) in [
        (0, MIN, -1_000_000, -1_000_000),
        (0, MAX, 1_000_000, 1_000_000),
        (1, MIN, MAX, -1),
        (1, MAX, MIN, -1),
        (-1, MIN, MIN, 0),
        (-1, MAX, MAX, 0),
        (-1, MAX, MAX - 1_000_000, -1_000_000),
        (1, MIN + 1_000_001, MAX, 1_000_000),
        (40, 53_687_091, -2_147_483_640, 0),
        (-40, 53_687_091, MAX, 7),
    ] {
        let answer = clear_market(&one_unit_span(units, slope, base)).expect("an answer");
        let entry = answer.members()[0];
        assert_eq!((entry.net, entry.value), (Units(units), Price(price)));
    }
    for (units, slope, base) in [
        (0, 0, 1_000_001),
        (0, MAX, MIN),
        (1, MIN, MIN),
        (1, MAX, 1),
        (-1, MIN, 0),
        (-1, MIN, MAX),
        (1, MIN + 1_000_002, MAX),
        (-1, MAX, MAX - 1_000_001),
        (40, MAX, MIN),
        (-2000, MIN, 0),
    ] {
        let refused = Err(Refusal::WrongSpan { record: 2 });
        assert_eq!(clear_market(&one_unit_span(units, slope, base)), refused);
    }
}

#[test]
fn a_span_that_breaks_a_rule_is_refused_at_its_record() {
    let battery = Market::from(committed("battery"));
    for (lines, refusal) in [
        ("lower 1 0 0", Refusal::HalfSpan { record: 6 }),
        ("upper 1 0 0", Refusal::HalfSpan { record: 6 }),
        (
            "offer 1 0 0\nlower 1 0 0\nupper 2 0 0",
            Refusal::HalfSpan { record: 7 },
        ),
        (
            "lower 1 0 0\nupper 1 0 0\nupper 1 0 0",
            Refusal::HalfSpan { record: 8 },
        ),
        ("lower 1 5 0\nupper 1 4 0", Refusal::WrongSpan { record: 7 }),
        (
            "lower 1 -2000 0\nupper 1 0 501",
            Refusal::WrongSpan { record: 7 },
        ),
        (
            "lower 1 0 0\nupper 1 2000 501",
            Refusal::WrongSpan { record: 7 },
        ),
        (
            "lower 1 -2001 0\nupper 1 0 0",
            Refusal::WrongField { record: 6 },
        ),
        (
            "lower 1 0 0\nupper 1 2001 0",
            Refusal::WrongField { record: 7 },
        ),
    ] {
        let lines = battery.text() + lines;
        let market = Market::from_text(lines.as_bytes()).expect("a market");
        assert_eq!(clear_market(&market), Err(refusal), "{lines}");
    }
}

#[test]
fn a_span_has_a_price_for_each_of_its_units_and_the_highest_counts() {
    for (name, net, value, total) in [("battery", 3, 180, 120), ("battery_peak", 4, 160, 80)] {
        let answer = clear_file(&committed(name)).expect("an answer");
        let [battery, other] = answer.members() else {
            panic!("{name} has two members");
        };
        assert_eq!((battery.net, other.net), (Units(-net), Units(net)));
        assert_eq!(battery.value, Price(-20 * i32::from(net)));
        assert_eq!((other.value, answer.total()), (Price(value), Price(total)));
    }
}

#[test]
fn a_file_of_4127_records_is_not_too_long_and_one_of_4128_is() {
    for name in ["star_spans", "chain_spans"] {
        let mut file = committed(name);
        assert_eq!((file.len(), FILE_LIMIT), (8 * 4127, 8 * 4127));
        assert_eq!(Market::from(file.clone()).offers().count(), 32 * 64);
        clear_file(&file).expect("an answer");
        file.push(2);
        assert_eq!(clear_file(&file), Err(Refusal::TooLong));
        file.extend([1, 0, 0, 0, 0, 0, 0]);
        assert_eq!(clear_file(&file), Err(Refusal::TooLong));
    }
}

#[test]
fn the_records_of_any_file_are_the_file() {
    cases("CLEARING_FILES", 10_000, |random| {
        let market = Market::from(any_file(random));
        let mut bytes = Vec::new();
        for record in market.records() {
            match record {
                Record::Link(link) => bytes.extend(link.bytes()),
                Record::Point(point) => bytes.extend(point.bytes()),
                Record::Lower(lower) => bytes.extend(lower.bytes()),
                Record::Upper(upper) => bytes.extend(upper.bytes()),
                Record::Other(other) => bytes.extend(other),
            }
        }
        assert!(bytes == market.file());
    });
}

/// Markets A and C of `docs/RULES.md`, and A's answer.
fn answered() -> (Vec<u8>, Vec<u8>, Vec<u8>) {
    let (a, c) = (committed("A"), committed("C"));
    let mut area = [0; ANSWER_LIMIT];
    let written = clear(&a, &mut area).expect("an answer");
    (a, c, area[..written].to_vec())
}

#[test]
fn bytes_that_are_no_answer_are_refused_with_their_first_fault() {
    let (a, c, answer) = answered();
    let length = |bytes, needed| Err(NoAnswer::Length { bytes, needed });
    assert_eq!(Answer::decode(&[], &answer), Err(NoAnswer::NoMarket));
    assert_eq!(Answer::decode(&[], &[]), Err(NoAnswer::NoMarket));
    for above_32 in [[2, 33, 0, 0, 0, 0, 0, 0], [1, 33, 1, 0, 0, 0, 0, 0]] {
        let decoded = Answer::decode(&above_32, &[0; 528]);
        assert_eq!(decoded, Err(NoAnswer::NoMarket));
    }
    for kind in [2, 6, 7] {
        let three_members = [kind, 3, 0, 0, 0, 0, 0, 0];
        assert_eq!(Answer::decode(&three_members, &[]), length(0, 48));
    }
    assert_eq!(Answer::decode(&a, &[]), length(0, 48));
    assert_eq!(Answer::decode(&a, &answer[..47]), length(47, 48));
    assert_eq!(Answer::decode(&c, &answer), length(48, 16));
    let member = |record: usize| NoAnswer::Member {
        record,
        member: Member(record as u8 + 1),
    };
    let link = |record| NoAnswer::Link { record };
    let total = NoAnswer::Total { record: 5 };
    for (place, byte, fault) in [
        (0, 4, member(0)),
        (1, 2, member(0)),
        (17, 4, member(2)),
        (24, 5, link(3)),
        (25, 2, link(3)),
        (26, 3, link(3)),
        (27, 1, link(3)),
        (33, 1, link(4)),
        (40, 4, total),
        (41, 1, total),
        (43, 255, total),
    ] {
        let mut bytes = answer.clone();
        bytes[place] = byte;
        assert_eq!(Answer::decode(&a, &bytes), Err(fault), "byte {place}");
    }
    let mut twice = answer.clone();
    twice.copy_within(24..32, 32);
    assert_eq!(Answer::decode(&a, &twice), Err(link(4)));
}

#[test]
fn no_bytes_make_decoding_panic() {
    cases("CLEARING_FILES", 10_000, |random| {
        let file = random_file(random);
        let room = random.pick(&[0, 8, 16, 32, 48, 64, 512]);
        let mut area = random.bytes(room);
        let _ = clear(&file, &mut area);
        if random.one_in(2) && room > 0 {
            area[random.below(room)] = random.next() as u8;
        }
        if let Ok(answer) = Answer::decode(&file, &area) {
            assert_eq!(bytes(&answer), area);
        }
    });
}

#[test]
fn a_refusal_says_what_is_wrong_and_where() {
    let member = Member(3);
    for (refusal, number, place, words) in [
        (Refusal::TooLong, 1, 0, "more than 33,016 bytes"),
        (Refusal::CutShort, 2, 0, "length not a multiple of 8"),
        (
            Refusal::UnknownKind { record: 5 },
            3,
            5,
            "kind is none of 1, 2, 6 and 7, in record 5",
        ),
        (
            Refusal::WrongField { record: 5 },
            4,
            5,
            "a field out of range, a zero byte not zero, or a not below b, in record 5",
        ),
        (Refusal::NoOffer, 5, 0, "no offer"),
        (
            Refusal::EmptyTable { member },
            6,
            3,
            "member 3 has no offer",
        ),
        (
            Refusal::LongTable { member },
            7,
            3,
            "member 3 has more than 64 offers",
        ),
        (
            Refusal::Ring { record: 2 },
            9,
            2,
            "a link joins members already joined by earlier links, in record 2",
        ),
        (
            Refusal::Apart { member },
            10,
            3,
            "member 3 is not joined to member 1",
        ),
        (
            Refusal::ShortArea { needed: 48 },
            11,
            48,
            "answer area shorter than 48 bytes",
        ),
        (Refusal::Impossible, 12, 0, "no possible allocation"),
        (
            Refusal::HalfSpan { record: 4 },
            13,
            4,
            "one end of a span without the other end beside it, in record 4",
        ),
        (
            Refusal::WrongSpan { record: 4 },
            14,
            4,
            "lower end above upper end, or price out of range at an end, in record 4",
        ),
    ] {
        assert_eq!((refusal.number(), refusal.place()), (number, place));
        let text = refusal.to_string();
        assert_eq!(text, format!("{words} (refusal {number})"));
    }
}
