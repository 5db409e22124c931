//! What the display of a feeder shows, in whichever form: the cleared market, and who is held back
//! behind the links that carry no more.

use crate::tree::{rows, Row};
use clearing::{
    clear_market, Answer, Link, LinkFlow, Market, Member, Price, Refusal, Units, CLOSED, FULL,
};
use std::cmp::Reverse;

/// The most that a link can have.
const MOST: Units = Units(40);

/// A cleared market as it is shown.
#[derive(Clone, Debug, PartialEq, Eq)]
pub struct Report {
    pub total: Price,
    /// Every member with the link that it was reached over, in the order of the drawing.
    pub rows: Vec<Row>,
    /// Every full link and then every closed one; the largest gain first, and equal gains by the
    /// link's members.
    pub holds: Vec<Hold>,
}

/// A link that is full or closed, and what it holds.
#[derive(Clone, Debug, PartialEq, Eq)]
pub struct Hold {
    pub link: LinkFlow,
    pub wider: Wider,
}

/// What the market would be with the most that a link can have on this one link.
#[derive(Clone, Debug, PartialEq, Eq)]
pub enum Wider {
    /// The link has that already.
    Most,
    /// The total would stay: alone the link holds nobody back.
    Same,
    /// The total would be higher, by the trade of those that are held back.
    Higher {
        total: Price,
        held_back: Vec<HeldBack>,
    },
}

/// A member that is held back: what it trades, and what it would trade.
#[derive(Clone, Copy, Debug, PartialEq, Eq)]
pub struct HeldBack {
    pub member: Member,
    pub now: Units,
    pub then: Units,
}

impl Report {
    /// Clears a market, and clears it again for each link that is full or closed.
    pub fn of(market: &Market) -> Result<Report, Refusal> {
        let answer = clear_market(market)?;
        Ok(Report {
            total: answer.total(),
            rows: rows(&answer),
            holds: holds(market, &answer)?,
        })
    }
}

fn holds(market: &Market, answer: &Answer) -> Result<Vec<Hold>, Refusal> {
    let tight = |link: &&LinkFlow| matches!(link.load, FULL | CLOSED);
    let mut holds = Vec::new();
    for &link in answer.links().iter().filter(tight) {
        let wider = wider(market, answer, &link)?;
        holds.push(Hold { link, wider });
    }
    let gain = |hold: &Hold| match hold.wider {
        Wider::Higher { total, .. } => total.0 - answer.total().0,
        Wider::Most | Wider::Same => 0,
    };
    holds.sort_by_key(|hold| {
        let LinkFlow { a, b, load, .. } = hold.link;
        (load == CLOSED, Reverse(gain(hold)), a, b)
    });
    Ok(holds)
}

/// What would change with the most on one link. Every allocation of the market is one of the wider
/// market too, so the library refuses none of these; if it did, nothing that this display said could
/// be trusted, and the refusal would stand in its place.
fn wider(market: &Market, now: &Answer, link: &LinkFlow) -> Result<Wider, Refusal> {
    if link.capacity >= MOST {
        return Ok(Wider::Most);
    }
    let then = clear_market(&widened(market, link))?;
    if then.total() <= now.total() {
        return Ok(Wider::Same);
    }
    Ok(Wider::Higher {
        total: then.total(),
        held_back: held_back(now, &then),
    })
}

/// The market with the most on one link, and all else as it was.
fn widened(market: &Market, link: &LinkFlow) -> Market {
    let &LinkFlow { a, b, capacity, .. } = link;
    let record = |capacity| Link { a, b, capacity }.bytes();
    let mut file = market.file().to_vec();
    let (records, _) = file.as_chunks_mut();
    for found in records {
        if *found == record(capacity) {
            *found = record(MOST);
        }
    }
    Market::from(file)
}

fn held_back(now: &Answer, then: &Answer) -> Vec<HeldBack> {
    let both = now.members().iter().zip(then.members());
    let changes = both.map(|(now, then)| HeldBack {
        member: now.member,
        now: now.net,
        then: then.net,
    });
    changes.filter(HeldBack::is_so).collect()
}

impl HeldBack {
    /// Whether what the member would trade is neither what it trades nor less of it.
    fn is_so(&self) -> bool {
        let (least, most) = (self.now.min(Units(0)), self.now.max(Units(0)));
        !(least..=most).contains(&self.then)
    }
}
