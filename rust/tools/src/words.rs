//! The words and numbers of a report, the same in each form.

use crate::report::{HeldBack, Hold, Report, Wider};
use clearing::{LinkFlow, Units, CLOSED, FULL};

/// What the table of members shows.
pub const CAPTION: &str =
    "Each member with the link that leads to it from member 1. A load is in percent of the lease.";

/// The total and the size of a feeder.
pub fn summary(report: &Report) -> String {
    let (total, members) = (grouped(report.total.0), report.rows.len());
    let links = report.rows.iter().filter_map(|row| row.link).count();
    format!(
        "total {total}; {}, {}; prices are in hundredths of a cent",
        counted(members, "member"),
        counted(links, "link")
    )
}

fn counted(count: usize, what: &str) -> String {
    match count {
        1 => format!("1 {what}"),
        _ => format!("{count} {what}s"),
    }
}

/// A number with a comma at the thousands.
pub fn grouped(number: i32) -> String {
    let digits = number.unsigned_abs().to_string();
    let mut said = String::from(if number < 0 { "-" } else { "" });
    for (place, digit) in digits.char_indices() {
        if place > 0 && (digits.len() - place).is_multiple_of(3) {
            said.push(',');
        }
        said.push(digit);
    }
    said
}

/// A member's trade, as in a column.
pub fn trade(net: Units) -> String {
    match net.0 {
        0 => "idle".to_string(),
        _ => trading(net, "sells", "buys", ""),
    }
}

fn trading(net: Units, sell: &str, buy: &str, idle: &str) -> String {
    let size = grouped(i32::from(net.0).abs());
    match net.0 {
        ..0 => format!("{sell} {size}"),
        0 => idle.to_string(),
        1.. => format!("{buy} {size}"),
    }
}

/// A link's members.
pub fn ends(link: &LinkFlow) -> String {
    format!("{}-{}", link.a, link.b)
}

/// What a link carries, of how much, and to which of its members.
pub fn carried(link: &LinkFlow) -> String {
    let LinkFlow { flow, capacity, .. } = link;
    let size = flow.0.unsigned_abs();
    match flow.0 {
        ..0 => format!("{size} of {capacity} to {}", link.a),
        0 => format!("0 of {capacity}"),
        1.. => format!("{size} of {capacity} to {}", link.b),
    }
}

/// A link's load in percent of its lease; none where it is closed.
pub fn percent(link: &LinkFlow) -> Option<String> {
    match link.load {
        CLOSED => None,
        load => Some(format!("{}.{} %", load / 10, load % 10)),
    }
}

/// The word for a link that can carry no more; any other has none.
pub fn state(link: &LinkFlow) -> &'static str {
    match link.load {
        FULL => "full",
        CLOSED => "closed",
        _ => "",
    }
}

/// What each full or closed link holds, each in clauses, between which a line may end.
pub fn holds(report: &Report) -> Vec<Vec<String>> {
    match report.holds.as_slice() {
        [] => vec![vec!["no link is full".to_string()]],
        holds => holds.iter().map(clauses).collect(),
    }
}

fn clauses(hold: &Hold) -> Vec<String> {
    let subject = format!("link {} is {}", ends(&hold.link), state(&hold.link));
    match &hold.wider {
        Wider::Most => vec![format!(
            "{subject} at {} units, the most that a link can have",
            hold.link.capacity
        )],
        Wider::Same => vec![format!("{subject}, but alone it holds nobody back")],
        Wider::Higher { total, held_back } => {
            let total = format!("the total would be {}", grouped(total.0));
            let mut members = held_back.iter().map(change);
            match members.next() {
                None => vec![format!("{subject}: nobody would trade more, but {total}")],
                Some(first) => [format!("{subject}: {first}")]
                    .into_iter()
                    .chain(members)
                    .chain([total])
                    .collect(),
            }
        }
    }
}

fn change(held: &HeldBack) -> String {
    let now = trading(held.now, "sells", "buys", "stands idle");
    let then = trading(held.then, "sell", "buy", "stand idle");
    format!("member {} {now}, would {then}", held.member)
}
