//! What a person reads in the text or on the page, as numbers again.

use std::collections::BTreeSet;

/// A member's row.
#[derive(Debug, PartialEq)]
pub struct Shown {
    pub member: u8,
    pub net: i64,
    pub value: i64,
    pub link: Option<ShownLink>,
}

#[derive(Debug, PartialEq)]
pub struct ShownLink {
    pub ends: (u8, u8),
    pub flow: i64,
    pub capacity: i64,
    /// The percent that are shown, times ten; none where the link is shown as closed.
    pub thousandths: Option<i64>,
    /// Whether the word for it is shown.
    pub full: bool,
}

/// A number whose thousands are set apart by commas.
fn number(text: &str) -> i64 {
    let digits = text.strip_prefix('-').unwrap_or(text);
    for (place, group) in digits.split(',').enumerate() {
        let right = if place == 0 { 1..=3 } else { 3..=3 };
        assert!(right.contains(&group.len()), "{text}");
        assert!(group.bytes().all(|byte| byte.is_ascii_digit()), "{text}");
    }
    text.replace(',', "").parse().expect("a number")
}

/// A trade as a net.
fn net(text: &str) -> i64 {
    match text.split_once(' ') {
        None => {
            assert_eq!(text, "idle");
            0
        }
        Some(("sells", size)) => -number(size),
        Some(("buys", size)) => number(size),
        Some(_) => panic!("no trade: {text}"),
    }
}

/// A link's cells.
fn link(ends: &str, carries: &str, load: &str) -> ShownLink {
    let (a, b) = ends.split_once('-').expect("two members");
    let ends: (u8, u8) = (a.parse().expect("a member"), b.parse().expect("a member"));
    let (carried, to) = match carries.split_once(" to ") {
        Some((carried, to)) => (carried, Some(to.parse::<u8>().expect("a member"))),
        None => (carries, None),
    };
    let (size, capacity) = carried.split_once(" of ").expect("a capacity");
    let flow = match to {
        None => 0,
        Some(to) if to == ends.1 => number(size),
        Some(to) => {
            assert_eq!(to, ends.0, "{carries}");
            -number(size)
        }
    };
    assert_eq!(flow.abs(), number(size), "{carries}");
    let (thousandths, word) = match load.split_once(" %") {
        None => (None, load),
        Some((percent, word)) => {
            let (whole, tenth) = percent.split_once('.').expect("a decimal");
            assert_eq!(tenth.len(), 1, "{load}");
            (Some(10 * number(whole) + number(tenth)), word.trim())
        }
    };
    match thousandths {
        None => assert_eq!(word, "closed"),
        Some(_) => assert!(["", "full"].contains(&word), "{load}"),
    }
    ShownLink {
        ends,
        flow,
        capacity: number(capacity),
        thousandths,
        full: word == "full",
    }
}

/// The total on the first line.
pub fn total(text: &str) -> i64 {
    let said = text.strip_prefix("total ").expect("a total");
    number(said.split(';').next().expect("a number"))
}

/// The lines of the members, below the caption and the header.
pub fn rows_of_text(text: &str) -> impl Iterator<Item = &str> {
    let (_, table) = text.split_once("\n\n").expect("a table");
    let mut lines = table.lines().skip(1);
    let header = lines.next().expect("a header");
    assert!(header.starts_with("member  "), "{table}");
    lines
}

fn without_tree(row: &str) -> &str {
    row.trim_start_matches([' ', '|', '+', '`', '-'])
}

/// The rows of a text, whose bars stand in one column.
pub fn of_text(text: &str) -> Vec<Shown> {
    let mut bars = BTreeSet::new();
    let row = |row| {
        let cells = without_tree(row).split("  ").map(str::trim);
        let cells: Vec<&str> = cells.filter(|cell| !cell.is_empty()).collect();
        let link = match cells[3..] {
            [] => None,
            [ends, carries, bar, load] => {
                bars.insert(row.find('['));
                let link = link(ends, carries, load);
                assert_eq!(bar, expected_bar(link.thousandths), "{row}");
                Some(link)
            }
            _ => panic!("cells: {row}"),
        };
        Shown {
            member: cells[0].parse().expect("a member"),
            net: net(cells[1]),
            value: number(cells[2]),
            link,
        }
    };
    let shown = rows_of_text(text).map(row).collect();
    assert!(bars.len() <= 1, "bars at {bars:?}");
    shown
}

fn expected_bar(thousandths: Option<i64>) -> String {
    let places = (1..=20).map(|place| match thousandths {
        None => '-',
        Some(load) if load >= 50 * place => '#',
        Some(_) => '.',
    });
    format!("[{}]", places.collect::<String>())
}

/// The first paragraph of a page.
pub fn summary_of_page(page: &str) -> Option<&str> {
    Some(page.split_once("<p>")?.1.split_once("</p>")?.0)
}

/// The lines of the page's rows, below its header.
fn rows_of_page(page: &str) -> impl Iterator<Item = &str> {
    let (_, table) = page.split_once("<tbody>\n").expect("a table");
    let (rows, _) = table.split_once("</tbody>").expect("an end");
    rows.lines().inspect(|row| {
        assert!(row.starts_with("<tr>") && row.ends_with("</tr>"), "{row}");
    })
}

/// What is left of HTML without its tags.
pub fn words(html: &str) -> String {
    let pieces = html.split('<').map(|piece| match piece.split_once('>') {
        Some((_, words)) => words,
        None => piece,
    });
    pieces.collect()
}

/// The rows of a page.
pub fn of_page(page: &str) -> Vec<Shown> {
    let row = |row: &str| {
        let cells: Vec<&str> = row
            .split("</td>")
            .flat_map(|cell| cell.split("</th>"))
            .collect();
        let said: Vec<String> = cells.iter().map(|cell| words(cell)).collect();
        assert_eq!(said.len(), 7, "{row}");
        let link = match (said[3].as_str(), said[4].as_str(), said[5].as_str()) {
            ("", "", "") => None,
            (ends, carries, load) => {
                let link = link(ends, carries, load);
                check_cell(cells[5], &link);
                Some(link)
            }
        };
        Shown {
            member: said[0].parse().expect("a member"),
            net: net(&said[1]),
            value: number(&said[2]),
            link,
        }
    };
    rows_of_page(page).map(row).collect()
}

/// The bar in the cell of a load, and the class that colours it.
fn check_cell(cell: &str, link: &ShownLink) {
    assert!(cell.contains(r#"viewBox="0 0 1000 100""#));
    assert!(cell.contains(r#"<rect class="lease" width="1000" height="100"/>"#));
    let (used, class) = match link.thousandths {
        None => (String::new(), "load closed"),
        Some(load) => (
            format!(r#"<rect class="used" width="{load}" height="100"/></svg>"#),
            if link.full { "load full" } else { "load" },
        ),
    };
    assert!(cell.contains(&used), "{cell}");
    assert_eq!(cell.contains(r#"class="used""#), !used.is_empty(), "{cell}");
    assert!(cell.contains(&format!(r#"class="{class}""#)), "{cell}");
}

/// How many characters of a row stand before its member's number.
fn place(row: &str) -> usize {
    row.len() - without_tree(row).len()
}

fn first_number(row: &str) -> u8 {
    let digits = row.split(|letter: char| !letter.is_ascii_digit());
    let first = digits.into_iter().find(|digits| !digits.is_empty());
    first
        .and_then(|digits| digits.parse().ok())
        .expect("a member")
}

/// Each member with its steps to the right.
pub fn steps_of_text(text: &str) -> Vec<(u8, usize)> {
    let steps = rows_of_text(text).map(|row| {
        assert_eq!(place(row) % 3, 0, "{row}");
        (first_number(row), place(row) / 3)
    });
    steps.collect()
}

pub fn steps_of_page(page: &str) -> Vec<(u8, usize)> {
    let steps = rows_of_page(page).map(|row| {
        let (head, _) = row.split_once("</th>").expect("a member");
        let step = head.strip_prefix(r#"<tr><th scope="row" style="--step:"#);
        let step = step.expect("its steps").split('"').next();
        let step = step.and_then(|step| step.parse().ok());
        (first_number(&words(head)), step.expect("a number"))
    });
    steps.collect()
}

fn at(row: &str, column: usize) -> char {
    row.as_bytes().get(column).copied().map_or(' ', char::from)
}

/// Whether a member stands beside the one that it was reached from, and not straight below it.
fn is_beside(row: &str) -> bool {
    row[..place(row)].ends_with("- ")
}

fn goes_on(row: &str, column: usize) -> bool {
    place(row) > column && ['|', '+'].contains(&at(row, column))
}

/// Fails where a line of the tree begins or ends in the air.
pub fn check_lines(rows: &[&str]) {
    for (above, below) in rows.iter().zip(&rows[1..]) {
        for column in (0..place(below)).step_by(3) {
            let begins = place(above) == column || goes_on(above, column);
            assert_eq!(at(below, column) != ' ', begins, "{above}\n{below}");
        }
        for column in (place(below)..place(above)).step_by(3) {
            let met = column == place(below) && !is_beside(below);
            assert_eq!(goes_on(above, column), met, "{above}\n{below}");
        }
    }
    let last = rows[rows.len() - 1];
    assert!(
        (0..place(last)).all(|column| !goes_on(last, column)),
        "{last}"
    );
}

/// The lines in each row by the names of the page, each with its step.
pub fn lines_of_text(rows: &[&str]) -> Vec<BTreeSet<(String, usize)>> {
    let mut all = Vec::new();
    for (i, row) in rows.iter().enumerate() {
        let own = place(row);
        let mut lines = BTreeSet::new();
        let mut add = |name: &str, column: usize| lines.insert((name.to_string(), column / 3));
        for column in (0..own).step_by(3) {
            match at(row, column) {
                '|' | '+' => add("past", column),
                '`' => add("last", column),
                _ => continue,
            };
        }
        if is_beside(row) {
            add("arm", own - 3);
        } else if i > 0 {
            add("above", own);
        }
        let next = rows.get(i + 1);
        if next.is_some_and(|next| place(next) > own || place(next) == own && !is_beside(next)) {
            add("below", own);
        }
        all.push(lines);
    }
    all
}

pub fn lines_of_page(page: &str) -> Vec<BTreeSet<(String, usize)>> {
    let line = |line: &str| {
        let (name, rest) = line.split_once(r#"" style="--step:"#).expect("its step");
        let (step, _) = rest.split_once('"').expect("an end");
        (name.to_string(), step.parse().expect("a number"))
    };
    let lines =
        rows_of_page(page).map(|row| row.split(r#"<i class=""#).skip(1).map(line).collect());
    lines.collect()
}

/// Fails where a page's elements do not close in order, or where it asks for something else.
pub fn check_page(page: &str) {
    assert!(
        page.starts_with("<!DOCTYPE html>\n<html lang=\"en\">\n<head>\n<meta charset=\"utf-8\">\n")
    );
    assert!(
        page.contains("<meta name=\"viewport\" content=\"width=device-width, initial-scale=1\">")
    );
    for outside in ["<script", "src=", "href=", "url(", "@import", "http", "//"] {
        assert!(!page.contains(outside), "{outside}");
    }
    let mut open = Vec::new();
    for tag in page.split('<').skip(2) {
        let (tag, _) = tag.split_once('>').expect("a tag's end");
        let name = tag.split(' ').next().expect("a name");
        match name.strip_prefix('/') {
            Some(name) => assert_eq!(open.pop(), Some(name), "{tag}"),
            None if name == "meta" || tag.ends_with('/') => {}
            None => open.push(name),
        }
    }
    assert!(open.is_empty(), "{open:?}");
}
