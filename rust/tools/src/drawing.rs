//! A report as text: plain characters, in at most 100 columns.

use crate::report::Report;
use crate::tree::Row;
use crate::words;
use clearing::{LinkFlow, Refusal, CLOSED, FULL};
use std::ffi::OsStr;

/// The most columns of a line.
const WIDTH: usize = 100;

/// The columns of a bar.
const BAR: usize = 20;

const RED: &str = "\x1b[31m";
const DIM: &str = "\x1b[2m";
const RESET: &str = "\x1b[0m";

/// The columns before the loads.
type Cells = [String; 5];

/// What is shown of a market, cleared or refused.
pub fn text(result: &Result<Report, Refusal>, colour: bool) -> String {
    let lines = match result {
        Ok(report) => lines(report, colour),
        Err(refusal) => vec![format!("refused: {refusal}")],
    };
    lines.iter().map(|line| format!("{line}\n")).collect()
}

/// Whether colour is used, by where standard output goes and by the variable `NO_COLOR`.
pub fn coloured(terminal: bool, no_color: Option<&OsStr>) -> bool {
    terminal && no_color.is_none_or(OsStr::is_empty)
}

fn lines(report: &Report, colour: bool) -> Vec<String> {
    let mut lines = vec![words::summary(report)];
    for clauses in words::holds(report) {
        lines.extend(wrapped(&clauses));
    }
    lines.push(String::new());
    lines.push(words::CAPTION.to_string());
    lines.extend(tree(report, colour));
    lines
}

/// Clauses on as few lines as they take, each line but the first indented.
fn wrapped(clauses: &[String]) -> Vec<String> {
    let mut lines: Vec<String> = Vec::new();
    for (place, clause) in (1..).zip(clauses) {
        let end = if place < clauses.len() { ";" } else { "" };
        match lines.last_mut() {
            Some(line) if line.len() + 1 + clause.len() + end.len() <= WIDTH => {
                *line += &format!(" {clause}{end}");
            }
            Some(_) => lines.push(format!("    {clause}{end}")),
            None => lines.push(format!("{clause}{end}")),
        }
    }
    lines
}

/// The header, and a line for each member.
fn tree(report: &Report, colour: bool) -> Vec<String> {
    let header = ["member", "trade", "value", "link", "carries"].map(String::from);
    let mut cells = vec![header];
    let mut loads = vec!["load".to_string()];
    for row in &report.rows {
        cells.push(row_cells(row));
        loads.push(row.link.map_or(String::new(), |link| load(&link, colour)));
    }
    let widths = std::array::from_fn(|column| width(&cells, column));
    let lines = cells.iter().zip(loads);
    let lines = lines.map(|(cells, load)| aligned(cells, widths) + &load);
    lines.map(|line| line.trim_end().to_string()).collect()
}

/// The width of the widest cell of a column.
fn width(cells: &[Cells], column: usize) -> usize {
    let widths = cells.iter().map(|cells| cells[column].len());
    widths.max().unwrap_or(0)
}

fn row_cells(row: &Row) -> Cells {
    let link = row.link.as_ref();
    [
        branch(row) + &row.member.member.to_string(),
        words::trade(row.member.net),
        words::grouped(row.member.value.0),
        link.map(words::ends).unwrap_or_default(),
        link.map(words::carried).unwrap_or_default(),
    ]
}

/// Each cell as wide as its column, the values at the right.
fn aligned([member, trade, value, link, carries]: &Cells, widths: [usize; 5]) -> String {
    let [m, t, v, l, c] = widths;
    format!("{member:m$}  {trade:t$}  {value:>v$}  {link:l$}  {carries:c$}  ")
}

/// The lines of the tree on the left of a member.
fn branch(row: &Row) -> String {
    let (passed, own) = match row.lines.split_last() {
        Some((&goes_on, passed)) if !row.straight => (passed, if goes_on { "+- " } else { "`- " }),
        _ => (row.lines.as_slice(), ""),
    };
    let line = |&goes_on: &bool| if goes_on { "|  " } else { "   " };
    passed.iter().map(line).collect::<String>() + own
}

/// A link's bar, its load and the word for it.
fn load(link: &LinkFlow, colour: bool) -> String {
    let (bar, state) = (bar(link), words::state(link));
    let load = match words::percent(link) {
        Some(percent) => format!("{bar}  {percent:>7} {state}"),
        None => format!("{bar}  {state}"),
    };
    match link.load {
        FULL if colour => format!("{RED}{load}{RESET}"),
        CLOSED if colour => format!("{DIM}{load}{RESET}"),
        _ => load,
    }
}

/// A bar that is filled to its end only where the link is full.
fn bar(link: &LinkFlow) -> String {
    match link.load {
        CLOSED => format!("[{}]", "-".repeat(BAR)),
        load => {
            let filled = BAR * usize::from(load) / usize::from(FULL);
            format!("[{:.<BAR$}]", "#".repeat(filled))
        }
    }
}
