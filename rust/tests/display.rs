//! The display of a feeder: what its text and its page show is read back and held against the
//! market's answer, and what they say of full and closed links against clearings made here.

mod holds;
mod shown;

use crate::common::{cases, Link, Offer, Random, Sheet};
use crate::examples::committed;
use crate::files::random_file;
use crate::large::{random_sheet, Shape, Tables};
use crate::small::any_sheet;
use clearing::{clear_file, clear_market, Answer, Market, Member, Units};
use clearing_tools::drawing::{coloured, text};
use clearing_tools::page::page;
use clearing_tools::report::Report;
use shown::{of_page, of_text, Shown, ShownLink};
use std::collections::BTreeSet;
use std::ffi::OsStr;

const CLEARED: [&str; 18] = [
    "A",
    "B",
    "C",
    "E",
    "F",
    "G",
    "H",
    "J",
    "K",
    "capacity_40",
    "offers_64",
    "battery",
    "battery_peak",
    "street",
    "star",
    "chain",
    "star_spans",
    "chain_spans",
];

const REFUSED: [&str; 10] = [
    "D",
    "I",
    "ring",
    "capacity_41",
    "offers_65",
    "repeats_65",
    "seven_bytes",
    "lone_lower",
    "lone_upper",
    "turned_span",
];

/// A market's text without colour, and its page.
fn forms(file: &[u8]) -> (String, String) {
    let result = Report::of(&Market::from(file.to_vec()));
    (text(&result, false), page("NAME", &result))
}

fn drawn(name: &str) -> String {
    forms(&committed(name)).0
}

#[test]
fn a_full_link_reads_100_percent_of_its_own_lease() {
    let expected = "\
total 80; 3 members, 2 links; prices are in hundredths of a cent
link 1-2 is full: member 1 sells 2, would sell 3; member 3 buys 2, would buy 3;
    the total would be 120

Each member with the link that leads to it from member 1. A load is in percent of the lease.
member  trade    value  link  carries      load
1       sells 2   -100
2       idle         0  1-2   2 of 2 to 2  [####################]  100.0 % full
`- 3    buys 2     180  2-3   2 of 3 to 3  [#############.......]   66.6 %
";
    assert_eq!(drawn("A"), expected);
}

#[test]
fn branches_stand_beside_their_member() {
    let expected = "\
total 40; 3 members, 2 links; prices are in hundredths of a cent
link 1-3 is full, but alone it holds nobody back

Each member with the link that leads to it from member 1. A load is in percent of the lease.
member  trade    value  link  carries      load
1       buys 1      50
+- 2    idle         0  1-2   0 of 1       [....................]    0.0 %
`- 3    sells 1    -10  1-3   1 of 1 to 1  [####################]  100.0 % full
";
    assert_eq!(drawn("G"), expected);
}

#[test]
fn a_closed_link_has_no_percent() {
    let expected = "\
total 0; 2 members, 1 link; prices are in hundredths of a cent
link 1-2 is closed, but alone it holds nobody back

Each member with the link that leads to it from member 1. A load is in percent of the lease.
member  trade  value  link  carries  load
1       idle       0
`- 2    idle       0  1-2   0 of 0   [--------------------]  closed
";
    assert_eq!(drawn("F"), expected);
}

#[test]
fn a_feeder_without_full_links_says_so() {
    let expected = "\
total -40; 1 member, 0 links; prices are in hundredths of a cent
no link is full

Each member with the link that leads to it from member 1. A load is in percent of the lease.
member  trade  value  link  carries  load
1       idle     -40
";
    assert_eq!(drawn("E"), expected);
    assert!(drawn("capacity_40")
        .contains("\nlink 1-2 is full at 40 units, the most that a link can have\n"));
}

/// The links that lead from member 1 to each other member, by that member.
fn reached(answer: &Answer) -> Vec<Option<usize>> {
    let mut over = vec![None; answer.members().len() + 1];
    let mut inside = BTreeSet::from([Member(1)]);
    while inside.len() < answer.members().len() {
        for (place, link) in answer.links().iter().enumerate() {
            let outer = match (inside.contains(&link.a), inside.contains(&link.b)) {
                (true, false) => link.b,
                (false, true) => link.a,
                _ => continue,
            };
            inside.insert(outer);
            over[usize::from(outer.0)] = Some(place);
        }
    }
    over
}

/// What must be shown of each member, by its number.
fn expected(answer: &Answer) -> Vec<Shown> {
    let over = reached(answer);
    let shown = answer.members().iter().map(|entry| Shown {
        member: entry.member.0,
        net: entry.net.0.into(),
        value: entry.value.0.into(),
        link: over[usize::from(entry.member.0)].map(|place| {
            let link = &answer.links()[place];
            ShownLink {
                ends: (link.a.0, link.b.0),
                flow: link.flow.0.into(),
                capacity: link.capacity.0.into(),
                thousandths: (link.capacity > Units(0)).then_some(link.load.into()),
                full: link.capacity > Units(0) && link.flow.0.abs() == link.capacity.0,
            }
        }),
    });
    shown.collect()
}

/// Holds both forms of a cleared market to its answer; gives the answer.
fn compare(file: &[u8]) -> Answer {
    let answer = clear_file(file).expect("an answer");
    let (text, page) = forms(file);
    let in_text = of_text(&text);
    assert_eq!(of_page(&page), in_text, "the page and the text");
    assert_eq!(shown::total(&text), i64::from(answer.total().0));
    assert_eq!(shown::summary_of_page(&page), text.lines().next());
    let mut by_number = in_text;
    by_number.sort_by_key(|shown| shown.member);
    assert_eq!(by_number, expected(&answer));
    answer
}

#[test]
fn both_forms_show_the_numbers_of_the_answer() {
    for name in CLEARED {
        compare(&committed(name));
    }
    let (mut small, mut large) = (0, 0);
    let count = cases("CLEARING_SMALL", 3000, |random| {
        small += compare_cleared(&any_sheet(random).file(random));
    });
    assert!(small >= count / 2, "{small} of {count} cleared");
    let count = cases("CLEARING_LARGE", 30, |random| {
        large += compare_cleared(&large_sheet(random).file(random));
    });
    assert!(large >= count / 2, "{large} of {count} cleared");
}

/// Gives 1 where a market is cleared, and compares its forms.
fn compare_cleared(file: &[u8]) -> u64 {
    let cleared = clear_file(file).is_ok();
    if cleared {
        compare(file);
    }
    u64::from(cleared)
}

/// A market of 32 members with leases of every size, of points, of spans, or of both.
fn large_sheet(random: &mut Random) -> Sheet {
    let shape = random.pick(&[Shape::Star, Shape::Chain, Shape::Tree]);
    let tables = random.pick(&[Tables::Points, Tables::Spans, Tables::Both]);
    let mut sheet = random_sheet(tables, shape, random);
    for link in &mut sheet.links {
        link.capacity = random.pick(&[0, 1, 2, 5, 7, 9, 30, 40]);
    }
    sheet
}

/// The links of a tree, each member joined to an earlier one in an order that may be any.
fn tree(random: &mut Random, n: usize, earlier: impl Fn(usize, &mut Random) -> usize) -> Vec<Link> {
    let mut members: Vec<usize> = (1..=n).collect();
    if random.one_in(2) {
        random.shuffle(&mut members);
    }
    let mut links = Vec::new();
    for i in 1..n {
        let joined = members[earlier(i, random)];
        let capacity = random.pick(&[0, 1, 39, 40, 40, 40]);
        links.push(Link::between(members[i], joined, capacity));
    }
    links
}

/// A tree of 1 to 32 members, of every shape.
fn any_tree(random: &mut Random) -> (usize, Vec<Link>) {
    let n = random.pick(&[1, 2, 3, 7, 15, 31, 32, 32, 32, 32]);
    let links = match random.below(7) {
        0 => tree(random, n, |_, _| 0),
        1 => tree(random, n, |i, _| i - 1),
        2 => tree(random, n, |i, _| (i - 1) / 2),
        3 => tree(random, n, |i, _| (i - 1) / 3),
        4 => tree(random, n, |i, _| if i % 2 == 1 { i - 1 } else { i - 2 }),
        5 => tree(random, n, |i, random| i - 1 - random.below(i.min(3))),
        _ => tree(random, n, |i, random| random.below(i)),
    };
    (n, links)
}

/// A market on a tree of every shape that has an allocation, with numbers at the ends of their
/// ranges: each member offers its net under flows that are chosen first, and a few other nets.
fn extreme_sheet(random: &mut Random) -> Sheet {
    let (n, links) = any_tree(random);
    let mut sheet = Sheet::new(n, links, Vec::new());
    let mut flows = Vec::new();
    for link in &sheet.links {
        flows.push(link.capacity * random.between(-1, 1));
    }
    if random.one_in(3) {
        let toward = random.pick(&[-1, 1]);
        flows = sheet
            .links
            .iter()
            .map(|link| toward * link.capacity)
            .collect();
    }
    for member in 1..=n {
        let mut nets = vec![sheet.net(member, &flows)];
        for _ in 0..random.below(4) {
            nets.push(random.pick(&[0, -40, 40, 80, -80, 1240, -1240, 1, -1]));
        }
        for units in nets {
            let price = random.pick(&[-1_000_000, 1_000_000, 999_999, -999, 0]);
            sheet.offers.push(Offer {
                member,
                units,
                price,
            });
        }
    }
    sheet
}

#[test]
fn any_feeder_fits_in_100_columns_of_plain_characters() {
    let mut widest = 0;
    let count = cases("CLEARING_LARGE", 300, |random| {
        let file = extreme_sheet(random).file(random);
        compare(&file);
        let (text, _) = forms(&file);
        for line in text.lines() {
            assert!(line.bytes().all(|byte| (b' '..=b'~').contains(&byte)));
            assert!(line.len() <= 100, "{} columns: {line}", line.len());
            assert_eq!(line, line.trim_end());
            widest = widest.max(line.len());
        }
    });
    assert!(widest >= 96 || count < 100, "{widest} columns at most");
}

#[test]
fn the_widest_row_has_100_columns() {
    // Four steps, two digits, a large trade and a full link of the most, as no tree has them at once.
    let mut report = Report::of(&Market::from(committed("capacity_40"))).expect("a report");
    let row = report.rows.last_mut().expect("a row");
    row.lines = vec![true; 4];
    row.member.member = Member(32);
    row.member.net = Units(-1240);
    row.member.value.0 = -1_000_000;
    let link = row.link.as_mut().expect("a link");
    (link.a, link.b) = (Member(31), Member(32));
    let text = text(&Ok(report), false);
    assert_eq!(text.lines().map(str::len).max(), Some(100));
}

/// The members in the order of the drawing, each with its steps to the right, as the display
/// promises them.
fn drawing_order(answer: &Answer) -> Vec<(u8, usize)> {
    let over = reached(answer);
    let mut under = vec![Vec::new(); over.len()];
    for (member, link) in (0u8..).zip(&over) {
        if let Some(place) = link {
            let link = &answer.links()[*place];
            under[usize::from(link.a.0 + link.b.0 - member)].push(member);
        }
    }
    let mut order = Vec::new();
    visit(&under, 1, 0, &mut order);
    order
}

fn size(under: &[Vec<u8>], member: u8) -> usize {
    let below = under[usize::from(member)].iter();
    1 + below.map(|&member| size(under, member)).sum::<usize>()
}

fn visit(under: &[Vec<u8>], member: u8, step: usize, order: &mut Vec<(u8, usize)>) {
    order.push((member, step));
    let mut straight = 0;
    for &branch in &under[usize::from(member)] {
        let larger = straight == 0 || size(under, branch) > size(under, straight);
        if size(under, branch) > 1 && larger {
            straight = branch;
        }
    }
    for &branch in &under[usize::from(member)] {
        if branch != straight {
            visit(under, branch, step + 1, order);
        }
    }
    if straight != 0 {
        visit(under, straight, step, order);
    }
}

#[test]
fn the_largest_branch_goes_straight_down_and_few_steps_are_taken() {
    let mut deepest = 0;
    let count = cases("CLEARING_LARGE", 300, |random| {
        let file = extreme_sheet(random).file(random);
        let answer = clear_file(&file).expect("an answer");
        let (text, page) = forms(&file);
        let order = drawing_order(&answer);
        assert_eq!(shown::steps_of_text(&text), order);
        assert_eq!(shown::steps_of_page(&page), order);
        let steps = order.iter().map(|(_, step)| *step).max().unwrap_or(0);
        assert!(steps <= 4, "{steps} steps");
        deepest = deepest.max(steps);
    });
    assert!(deepest == 4 || count < 100, "{deepest} steps at most");
}

#[test]
fn the_lines_of_the_tree_join_each_member_to_the_one_it_was_reached_from() {
    cases("CLEARING_LARGE", 300, |random| {
        let file = extreme_sheet(random).file(random);
        let (text, page) = forms(&file);
        let rows: Vec<&str> = shown::rows_of_text(&text).collect();
        shown::check_lines(&rows);
        assert_eq!(shown::lines_of_page(&page), shown::lines_of_text(&rows));
    });
}

#[test]
fn both_forms_say_who_is_held_back() {
    let mut seen = holds::Seen::default();
    for name in CLEARED {
        check_holds(committed(name), &mut seen);
    }
    let count = cases("CLEARING_SMALL", 3000, |random| {
        check_holds(any_sheet(random).file(random), &mut seen);
    });
    cases("CLEARING_LARGE", 12, |random| {
        check_holds(large_sheet(random).file(random), &mut seen);
    });
    cases("CLEARING_LARGE", 200, |random| {
        check_holds(extreme_sheet(random).file(random), &mut seen);
    });
    seen.enough(count / 500);
}

fn check_holds(file: Vec<u8>, seen: &mut holds::Seen) {
    let market = Market::from(file);
    let Ok(answer) = clear_market(&market) else {
        return;
    };
    let expected = holds::sentences(&market, &answer, seen);
    let (text, page) = forms(market.file());
    assert_eq!(holds::of_text(&text), expected, "{}", market.text());
    assert_eq!(holds::of_page(&page), expected, "{}", market.text());
}

#[test]
fn a_member_is_held_back_from_units_inside_its_span() {
    let lines = b"
        link 1 2 2
        lower 1 -7 0
        upper 1 -2 20
        offer 2 2 100
        lower 2 3 0
        upper 2 7 30";
    let market = Market::from_text(lines).expect("a market");
    let (text, _) = forms(market.file());
    let expected = [
        "total 60; 2 members, 1 link; prices are in hundredths of a cent",
        "link 1-2 is full: member 1 sells 2, would sell 7; member 2 buys 2, would buy 7;",
        "    the total would be 70",
    ];
    assert!(text.lines().take(3).eq(expected), "{text}");
}

#[test]
fn a_total_may_rise_with_nobody_trading_more() {
    let lines = b"
        link 1 2 1
        link 2 3 40
        link 1 4 40
        offer 1 -3 0
        offer 2 3 0
        offer 3 -2 0
        offer 3 0 50
        offer 4 2 0
        offer 4 0 50";
    let market = Market::from_text(lines).expect("a market");
    let (text, _) = forms(market.file());
    let expected = "link 1-2 is full: nobody would trade more, but the total would be 100";
    assert_eq!(text.lines().nth(1), Some(expected));
}

#[test]
fn the_street_has_its_links_in_order_of_what_they_hold() {
    let text = drawn("street");
    let expected = "\
total 34,020; 12 members, 11 links; prices are in hundredths of a cent
link 5-6 is full: member 4 buys 5, would buy 8; member 6 sells 4, would sell 10;
    the total would be 48,090
link 2-7 is full: member 1 sells 3, would sell 5; member 7 buys 4, would buy 6;
    the total would be 35,620
link 3-9 is closed: member 4 buys 5, would buy 7; member 9 stands idle, would sell 5;
    the total would be 48,230

";
    assert!(text.starts_with(expected), "{text}");
}

#[test]
fn colour_changes_no_other_character_and_never_stands_without_a_word() {
    let result = Report::of(&Market::from(committed("street")));
    let plain = text(&result, false);
    let in_colour = text(&result, true);
    assert!(!plain.contains('\x1b'));
    let mut without = in_colour.clone();
    for code in ["\x1b[31m", "\x1b[2m", "\x1b[0m"] {
        without = without.replace(code, "");
    }
    assert_eq!(without, plain);
    for (code, word, count) in [("\x1b[31m", " full", 2), ("\x1b[2m", " closed", 1)] {
        let pieces: Vec<&str> = in_colour.split(code).skip(1).collect();
        assert_eq!(pieces.len(), count, "{word}");
        for piece in pieces {
            let (piece, _) = piece.split_once("\x1b[0m").expect("an end");
            assert!(piece.starts_with('[') && piece.ends_with(word), "{piece}");
        }
    }
}

#[test]
fn colour_is_for_a_terminal_without_no_color() {
    for (terminal, no_color, expected) in [
        (true, None, true),
        (true, Some(""), true),
        (true, Some("1"), false),
        (true, Some("0"), false),
        (false, None, false),
        (false, Some(""), false),
        (false, Some("1"), false),
    ] {
        let colour = coloured(terminal, no_color.map(OsStr::new));
        assert_eq!(colour, expected, "{terminal}, {no_color:?}");
    }
}

#[test]
fn a_refused_market_is_shown_as_its_refusal() {
    for name in REFUSED {
        check_refused(&committed(name));
    }
    let refused = check_refused(&committed("D"));
    assert_eq!(refused, "refused: no possible allocation (refusal 12)\n");
    cases("CLEARING_FILES", 3000, |random| {
        let file = random_file(random);
        if clear_file(&file).is_err() {
            check_refused(&file);
        }
    });
}

fn check_refused(file: &[u8]) -> String {
    let refusal = clear_file(file).expect_err("a refusal");
    let (text, page) = forms(file);
    assert_eq!(text, format!("refused: {refusal}\n"));
    assert!(text.trim_end().len() <= 100, "{text}");
    assert!(page.contains(&format!("\n<p>refused: {refusal}</p>\n")));
    assert!(!page.contains("<table") && !page.contains("<li"));
    shown::check_page(&page);
    text
}

#[test]
fn a_name_from_outside_is_only_text() {
    let name = "<script>alert(\"a\")</script> & 'b'\u{1b}\n-->";
    let safe =
        "&lt;script&gt;alert(&quot;a&quot;)&lt;/script&gt; &amp; &#39;b&#39;\u{FFFD}\u{FFFD}--&gt;";
    for file in ["A", "D"] {
        let result = Report::of(&Market::from(committed(file)));
        let plain = page("NAME", &result);
        assert_eq!(plain.matches("NAME").count(), 2);
        assert!(plain.contains("<title>Feeder: NAME</title>"));
        assert_eq!(page(name, &result), plain.replace("NAME", safe));
    }
}

#[test]
fn a_page_is_whole_and_needs_nothing_else() {
    for name in CLEARED {
        let (_, page) = forms(&committed(name));
        shown::check_page(&page);
        assert!(page.len() < 24_000, "{name}: {} bytes", page.len());
    }
}
