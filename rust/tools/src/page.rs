//! A report as one HTML page that needs nothing else: for a telephone, a desk and paper. What it says
//! is what the text says; `page.css` is how it looks.

use crate::report::Report;
use crate::tree::Row;
use crate::words::{self, CAPTION};
use clearing::{LinkFlow, Refusal, CLOSED, FULL};

const STYLE: &str = include_str!("page.css");

/// The cells of member 1, which no link leads to.
const NO_LINK: &str = r#"<td class="link"></td><td class="carries"></td><td class="load"></td>"#;

/// What is shown of a market, cleared or refused, under its file's name.
pub fn page(name: &str, result: &Result<Report, Refusal>) -> String {
    let name = escaped(name);
    let content = match result {
        Ok(report) => cleared(report),
        Err(refusal) => format!("<p>refused: {}</p>\n", escaped(&refusal.to_string())),
    };
    format!(
        r#"<!DOCTYPE html>
<html lang="en">
<head>
<meta charset="utf-8">
<meta name="viewport" content="width=device-width, initial-scale=1">
<title>Feeder: {name}</title>
<style>
{STYLE}</style>
</head>
<body>
<main>
<h1>Feeder: <bdi>{name}</bdi></h1>
{content}</main>
</body>
</html>
"#
    )
}

/// Text from outside, as text and nothing else. What HTML has no place for becomes a mark.
fn escaped(text: &str) -> String {
    let mut safe = String::new();
    for letter in text.chars() {
        match letter {
            '&' => safe += "&amp;",
            '<' => safe += "&lt;",
            '>' => safe += "&gt;",
            '"' => safe += "&quot;",
            '\'' => safe += "&#39;",
            _ if letter.is_control() => safe.push(char::REPLACEMENT_CHARACTER),
            _ => safe.push(letter),
        }
    }
    safe
}

fn cleared(report: &Report) -> String {
    let summary = words::summary(report);
    let holds: String = words::holds(report).iter().map(|hold| item(hold)).collect();
    let rows: String = report.rows.iter().map(row).collect();
    format!(
        r#"<p>{summary}</p>
<h2>Full and closed links</h2>
<ul>
{holds}</ul>
<h2>Members and links</h2>
<table>
<caption>{CAPTION}</caption>
<thead>
<tr><th scope="col">member</th><th scope="col">trade</th><th scope="col" class="value">value</th><th scope="col">link</th><th scope="col">carries</th><th scope="col">load</th></tr>
</thead>
<tbody>
{rows}</tbody>
</table>
"#
    )
}

/// The clauses of one link, each on one line where it fits.
fn item(clauses: &[String]) -> String {
    format!(
        "<li><span>{}</span></li>\n",
        clauses.join(";</span> <span>")
    )
}

fn row(row: &Row) -> String {
    let entry = &row.member;
    let (trade, value) = (words::trade(entry.net), words::grouped(entry.value.0));
    let link = match &row.link {
        Some(link) => link_cells(link),
        None => NO_LINK.to_string(),
    };
    format!(
        "<tr>{}<td>{trade}</td><td class=\"value\">{value}</td>{link}</tr>\n",
        member(row)
    )
}

/// A member's number, with the lines of the tree.
fn member(row: &Row) -> String {
    let line = |(look, step)| format!(r#"<i class="{look}" style="--step:{step}"></i>"#);
    let lines: String = lines(row).into_iter().map(line).collect();
    let (step, number) = (row.lines.len(), row.member.member);
    format!(r#"<th scope="row" style="--step:{step}">{lines}{number}</th>"#)
}

/// The lines of the tree in a member's row, each with its look and its step.
fn lines(row: &Row) -> Vec<(&'static str, usize)> {
    let mut lines = Vec::new();
    for (step, _) in row.lines.iter().enumerate().filter(|line| *line.1) {
        lines.push(("past", step));
    }
    let own = row.lines.len();
    match row.lines.last() {
        Some(&goes_on) if !row.straight => {
            lines.extend((!goes_on).then_some(("last", own - 1)));
            lines.push(("arm", own - 1));
        }
        _ => lines.extend(row.link.map(|_| ("above", own))),
    }
    lines.extend(row.leads_on.then_some(("below", own)));
    lines
}

fn link_cells(link: &LinkFlow) -> String {
    let (ends, carried, load) = (words::ends(link), words::carried(link), load(link));
    format!(r#"<td class="link">{ends}</td><td class="carries">{carried}</td>{load}"#)
}

/// The cell of a load, whose colour has a word with it.
fn load(link: &LinkFlow) -> String {
    let (bar, state) = (bar(link), words::state(link));
    match words::percent(link) {
        None => format!(r#"<td class="load closed">{bar}<b>{state}</b></td>"#),
        Some(percent) if link.load == FULL => {
            format!(r#"<td class="load full">{bar}{percent} <b>{state}</b></td>"#)
        }
        Some(percent) => format!(r#"<td class="load">{bar}{percent}</td>"#),
    }
}

/// The bar of a load, as wide as the load of the lease.
fn bar(link: &LinkFlow) -> String {
    let inside = match link.load {
        CLOSED => String::new(),
        load => format!(r#"<rect class="used" width="{load}" height="100"/>"#),
    };
    format!(
        r#"<svg viewBox="0 0 {FULL} 100" preserveAspectRatio="none" aria-hidden="true"><rect class="lease" width="{FULL}" height="100"/>{inside}</svg>"#
    )
}
