//! A market as lines that a person reads and writes: `docs/RULES.md`, "A market as text". A line
//! for each record, in order; what is no record is shown as its bytes, so that every file has a text
//! and every text of a file gives that file again.

use crate::{Link, Lower, Market, Member, Point, Price, Record, Slope, Units, Upper};
use alloc::format;
use alloc::string::{String, ToString};
use alloc::vec::Vec;
use core::error::Error;
use core::fmt;

/// A line that is no record.
#[derive(Clone, Debug, PartialEq, Eq)]
pub struct Unreadable {
    /// The line's number, counted from 1.
    pub line: usize,
    pub fault: Fault,
}

/// What is wrong with a line.
#[derive(Clone, Debug, PartialEq, Eq)]
pub enum Fault {
    /// Its first word is not the name of a record.
    Name(String),
    /// It has too many words or too few; this is what it must look like.
    Form(&'static str),
    /// A word is not a number that its field can hold.
    Number { field: Field, word: String },
    /// A word is not a byte in two hexadecimal digits.
    Byte(String),
}

/// A field of a line, and the numbers that its bytes can hold.
#[derive(Clone, Copy, Debug, PartialEq, Eq)]
pub struct Field {
    pub name: &'static str,
    pub least: i32,
    pub most: i32,
}

const MEMBER: Field = field("member", 0, 0xFF);
const CAPACITY: Field = field("capacity", 0, i16::MAX as i32);
const UNITS: Field = field("units", i16::MIN as i32, i16::MAX as i32);
const PRICE: Field = field("price", i32::MIN, i32::MAX);
const BASE: Field = field("base", i32::MIN, i32::MAX);
const SLOPE: Field = field("slope", i32::MIN, i32::MAX);

const fn field(name: &'static str, least: i32, most: i32) -> Field {
    Field { name, least, most }
}

const LINK: &str = "link A B CAPACITY";
const OFFER: &str = "offer MEMBER UNITS PRICE";
const LOWER: &str = "lower MEMBER UNITS BASE";
const UPPER: &str = "upper MEMBER UNITS SLOPE";
const BYTES: &str = "bytes XX XX ...";

impl Market {
    /// The market as lines, one for each record.
    ///
    /// ```
    /// use clearing::{Market, Member, Price, Slope, Units};
    ///
    /// let mut market = Market::new();
    /// market
    ///     .link(Member(1), Member(2), Units(2))
    ///     .offer(Member(1), Units(-2), Price(-100))
    ///     .span(Member(2), Units(0), Units(5), Slope(70), Price(9));
    /// assert_eq!(market.text(), "link 1 2 2\noffer 1 -2 -100\nlower 2 0 9\nupper 2 5 70\n");
    /// assert_eq!(Market::from(vec![3, 0]).text(), "bytes 03 00\n");
    /// ```
    pub fn text(&self) -> String {
        self.records().map(line).collect()
    }

    /// The market of such lines. Blank lines, and what follows a `#`, are passed over.
    ///
    /// ```
    /// use clearing::Market;
    ///
    /// let text = b"# Two members\nlink 1 2 2   # thin\n\noffer 1 -2 -100\nbytes 03 00\n";
    /// let market = Market::from_text(text)?;
    /// assert_eq!(market.text(), "link 1 2 2\noffer 1 -2 -100\nbytes 03 00\n");
    ///
    /// let wrong = Market::from_text(b"link 1 2 2\noffer 1 two 100\n").unwrap_err();
    /// assert_eq!(wrong.line, 2);
    /// # Ok::<(), clearing::Unreadable>(())
    /// ```
    pub fn from_text(text: &[u8]) -> Result<Market, Unreadable> {
        let mut market = Market::new();
        for (number, line) in (1..).zip(text.split(|&byte| byte == b'\n')) {
            let said = line.split(|&byte| byte == b'#').next().unwrap_or_default();
            let said = String::from_utf8_lossy(said);
            let words: Vec<&str> = said.split_whitespace().collect();
            let bytes = bytes(&words).map_err(|fault| Unreadable {
                line: number,
                fault,
            })?;
            market.add(&bytes);
        }
        Ok(market)
    }
}

/// The line of a record.
fn line(record: Record) -> String {
    match record {
        Record::Link(Link { a, b, capacity }) => format!("link {a} {b} {capacity}\n"),
        Record::Point(Point {
            member,
            units,
            price,
        }) => format!("offer {member} {units} {price}\n"),
        Record::Lower(Lower { member, low, base }) => format!("lower {member} {low} {base}\n"),
        Record::Upper(Upper {
            member,
            high,
            slope,
        }) => format!("upper {member} {high} {slope}\n"),
        Record::Other(bytes) => {
            let digits: String = bytes.iter().map(|byte| format!(" {byte:02X}")).collect();
            format!("bytes{digits}\n")
        }
    }
}

/// The bytes of a line's words.
fn bytes(words: &[&str]) -> Result<Vec<u8>, Fault> {
    let record = match words {
        [] => return Ok(Vec::new()),
        ["link", a, b, capacity] => link(a, b, capacity)?.bytes(),
        ["offer", member, units, price] => point(member, units, price)?.bytes(),
        ["lower", member, low, base] => lower(member, low, base)?.bytes(),
        ["upper", member, high, slope] => upper(member, high, slope)?.bytes(),
        ["bytes", _, ..] => return words[1..].iter().map(|word| byte(word)).collect(),
        ["link", ..] => return Err(Fault::Form(LINK)),
        ["offer", ..] => return Err(Fault::Form(OFFER)),
        ["lower", ..] => return Err(Fault::Form(LOWER)),
        ["upper", ..] => return Err(Fault::Form(UPPER)),
        ["bytes"] => return Err(Fault::Form(BYTES)),
        [name, ..] => return Err(Fault::Name(name.to_string())),
    };
    Ok(record.to_vec())
}

fn link(a: &str, b: &str, capacity: &str) -> Result<Link, Fault> {
    Ok(Link {
        a: member(a)?,
        b: member(b)?,
        capacity: units(CAPACITY, capacity)?,
    })
}

fn point(who: &str, traded: &str, price: &str) -> Result<Point, Fault> {
    Ok(Point {
        member: member(who)?,
        units: units(UNITS, traded)?,
        price: Price(number(PRICE, price)?),
    })
}

fn lower(who: &str, low: &str, base: &str) -> Result<Lower, Fault> {
    Ok(Lower {
        member: member(who)?,
        low: units(UNITS, low)?,
        base: Price(number(BASE, base)?),
    })
}

fn upper(who: &str, high: &str, slope: &str) -> Result<Upper, Fault> {
    Ok(Upper {
        member: member(who)?,
        high: units(UNITS, high)?,
        slope: Slope(number(SLOPE, slope)?),
    })
}

fn member(word: &str) -> Result<Member, Fault> {
    Ok(Member(number(MEMBER, word)? as u8))
}

fn units(field: Field, word: &str) -> Result<Units, Fault> {
    Ok(Units(number(field, word)? as i16))
}

fn number(field: Field, word: &str) -> Result<i32, Fault> {
    let read = word.parse().ok();
    let held = read.filter(|number| (field.least..=field.most).contains(number));
    held.ok_or_else(|| Fault::Number {
        field,
        word: word.to_string(),
    })
}

fn byte(word: &str) -> Result<u8, Fault> {
    let digits = word.len() == 2 && word.bytes().all(|digit| digit.is_ascii_hexdigit());
    let value = u8::from_str_radix(word, 16).ok().filter(|_| digits);
    value.ok_or_else(|| Fault::Byte(word.to_string()))
}

impl fmt::Display for Unreadable {
    fn fmt(&self, f: &mut fmt::Formatter) -> fmt::Result {
        write!(f, "line {}: {}", self.line, self.fault)
    }
}

impl fmt::Display for Fault {
    fn fmt(&self, f: &mut fmt::Formatter) -> fmt::Result {
        match self {
            Fault::Name(word) => write!(
                f,
                "a line begins with link, offer, lower, upper or bytes, not with {word:?}"
            ),
            Fault::Form(form) => write!(f, "it must be: {form}"),
            Fault::Number { field, word } => {
                let Field { name, least, most } = field;
                write!(
                    f,
                    "{name} must be a number from {least} to {most}, not {word:?}"
                )
            }
            Fault::Byte(word) => {
                write!(f, "a byte is two hexadecimal digits, not {word:?}")
            }
        }
    }
}

impl Error for Unreadable {}
