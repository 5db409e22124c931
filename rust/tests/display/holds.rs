//! What must be said of full and closed links, from two clearings of a market, the second of its
//! text with another capacity.

use super::shown::words;
use clearing::{clear_market, Answer, Link, Market, Units};

/// How often each case was met.
#[derive(Debug, Default)]
pub struct Seen {
    most: u64,
    alone: u64,
    nobody: u64,
    closed: u64,
    more: u64,
    from_idle: u64,
    turned: u64,
    less: u64,
    wrapped: u64,
}

impl Seen {
    /// Fails where a case was not met this often, or a rare one not at all.
    pub fn enough(&self, each: u64) {
        let Seen {
            most,
            alone,
            nobody,
            closed,
            more,
            from_idle,
            turned,
            less,
            wrapped,
        } = *self;
        let rare = [nobody, turned];
        let often = [most, alone, closed, more, from_idle, less, wrapped];
        assert!(rare.iter().all(|&seen| seen >= each.min(1)), "{self:?}");
        assert!(often.iter().all(|&seen| seen >= each), "{self:?}");
    }
}

/// The sentences about a market's full and closed links, in order.
pub fn sentences(market: &Market, now: &Answer, seen: &mut Seen) -> Vec<String> {
    let mut sentences = Vec::new();
    for (link, flow) in sorted_links(market).iter().zip(now.links()) {
        if flow.flow.0.abs() < link.capacity.0 {
            continue;
        }
        let then = clear_market(&widened(market, link)).expect("an answer");
        let gain = then.total().0 - now.total().0;
        let sentence = sentence(link, now, &then, seen);
        sentences.push((link.capacity.0 == 0, -gain, link.a, link.b, sentence));
    }
    sentences.sort();
    match sentences.is_empty() {
        true => vec!["no link is full".to_string()],
        false => sentences
            .into_iter()
            .map(|(.., sentence)| sentence)
            .collect(),
    }
}

/// A market's links in the order of its answer.
fn sorted_links(market: &Market) -> Vec<Link> {
    let mut links: Vec<Link> = market.links().collect();
    links.sort_by_key(|link| (link.a, link.b));
    links
}

/// The market whose text has 40 in the line of a link, and is the same in all else.
fn widened(market: &Market, link: &Link) -> Market {
    let line = |capacity| format!("link {} {} {capacity}\n", link.a, link.b);
    let text = market
        .text()
        .replace(&line(link.capacity), &line(Units(40)));
    Market::from_text(text.as_bytes()).expect("a market")
}

fn sentence(link: &Link, now: &Answer, then: &Answer, seen: &mut Seen) -> String {
    let state = match link.capacity.0 {
        0 => "closed",
        _ => "full",
    };
    seen.closed += u64::from(link.capacity.0 == 0);
    let head = format!("link {}-{} is {state}", link.a, link.b);
    if link.capacity.0 == 40 {
        seen.most += 1;
        return format!("{head} at 40 units, the most that a link can have");
    }
    if then.total() == now.total() {
        seen.alone += 1;
        return format!("{head}, but alone it holds nobody back");
    }
    assert!(then.total() > now.total());
    let total = format!("the total would be {}", with_commas(then.total().0));
    let mut clauses = Vec::new();
    for (now, then) in now.members().iter().zip(then.members()) {
        if is_held_back(now.net.0, then.net.0, seen) {
            let (now, then, member) = (now.net.0, then.net.0, now.member);
            let now = trades(now, ["sells", "stands idle", "buys"]);
            let then = trades(then, ["sell", "stand idle", "buy"]);
            clauses.push(format!("member {member} {now}, would {then}"));
        }
    }
    if clauses.is_empty() {
        seen.nobody += 1;
        return format!("{head}: nobody would trade more, but {total}");
    }
    let said = format!("{head}: {}; {total}", clauses.join("; "));
    seen.wrapped += u64::from(said.len() > 100);
    said
}

fn is_held_back(now: i16, then: i16, seen: &mut Seen) -> bool {
    let count = match (now.signum() * then.signum(), now.abs(), then.abs()) {
        _ if now == then => return false,
        (-1, ..) => &mut seen.turned,
        (_, 0, _) => &mut seen.from_idle,
        (_, now, then) if then > now => &mut seen.more,
        _ => {
            seen.less += 1;
            return false;
        }
    };
    *count += 1;
    true
}

fn trades(net: i16, [sell, idle, buy]: [&str; 3]) -> String {
    match net {
        0 => idle.to_string(),
        1.. => format!("{buy} {}", with_commas(net.into())),
        _ => format!("{sell} {}", with_commas(-i32::from(net))),
    }
}

fn with_commas(number: i32) -> String {
    let (size, sign) = (number.abs(), if number < 0 { "-" } else { "" });
    match size {
        ..1000 => format!("{sign}{size}"),
        1000..1_000_000 => format!("{sign}{},{:03}", size / 1000, size % 1000),
        _ => format!(
            "{sign}{},{:03},{:03}",
            size / 1_000_000,
            size / 1000 % 1000,
            size % 1000
        ),
    }
}

/// The sentences of a text, each put together from its lines.
pub fn of_text(text: &str) -> Vec<String> {
    let (said, _) = text.split_once("\n\n").expect("a table");
    let mut sentences: Vec<String> = Vec::new();
    for line in said.lines().skip(1) {
        match (line.strip_prefix("    "), sentences.last_mut()) {
            (Some(more), Some(sentence)) => {
                assert!(sentence.ends_with(';'), "{sentence}");
                *sentence += " ";
                *sentence += more;
            }
            _ => sentences.push(line.to_string()),
        }
    }
    sentences
}

/// The sentences of a page's list.
pub fn of_page(page: &str) -> Vec<String> {
    let (_, list) = page.split_once("<ul>\n").expect("a list");
    let (list, _) = list.split_once("</ul>").expect("an end");
    list.lines().map(words).collect()
}
