//! A market's answer as typed values: `docs/RULES.md`, "Records out".

use crate::record::links;
use crate::stored::{check, NoAnswer};
use crate::{clear, Market, Member, Price, Refusal, Units, ANSWER_LIMIT};
use alloc::vec;
use alloc::vec::Vec;

/// The load of a link whose flow is its whole capacity.
pub const FULL: u16 = 1000;

/// The load of a link of capacity 0: a mark and not a measure.
pub const CLOSED: u16 = 9999;

/// The answer to a market.
#[derive(Clone, Debug, PartialEq, Eq)]
pub struct Answer {
    members: Vec<MemberNet>,
    links: Vec<LinkFlow>,
    total: Price,
}

/// What one member trades.
#[derive(Clone, Copy, Debug, PartialEq, Eq)]
pub struct MemberNet {
    pub member: Member,
    /// The units that the member buys, negative where it sells.
    pub net: Units,
    /// The highest price that the member's table gives for its net.
    pub value: Price,
}

/// What one link carries.
#[derive(Clone, Copy, Debug, PartialEq, Eq)]
pub struct LinkFlow {
    /// The lower member.
    pub a: Member,
    /// The higher member.
    pub b: Member,
    /// The units that `a` sells to `b`, negative where `a` buys.
    pub flow: Units,
    /// The link's own capacity in this market.
    pub capacity: Units,
    /// The flow's size in thousandths of the capacity, rounded down: at most [`FULL`], or
    /// [`CLOSED`].
    pub load: u16,
}

/// Clears the market in a file, whatever its bytes are.
///
/// The answer stands on the heap: [`STACK`](crate::STACK) bytes of stack are enough for this too.
///
/// ```
/// use clearing::{clear_file, Price, Refusal};
///
/// let answer = clear_file(&[2, 1, 0, 0, 0xD8, 0xFF, 0xFF, 0xFF])?;
/// assert_eq!(answer.total(), Price(-40));
/// assert_eq!(clear_file(b"not records"), Err(Refusal::CutShort));
/// # Ok::<(), Refusal>(())
/// ```
pub fn clear_file(file: &[u8]) -> Result<Answer, Refusal> {
    let mut area = vec![0; ANSWER_LIMIT];
    let written = clear(file, &mut area)?;
    Ok(Answer::read(file, &area[..written]))
}

/// Clears a market: [`clear_file`] of its file.
///
/// ```
/// use clearing::{clear_market, Market, Member, Price, Refusal, Units};
///
/// let mut market = Market::new();
/// market
///     .link(Member(1), Member(2), Units(1))
///     .offer(Member(1), Units(1), Price(5))
///     .offer(Member(2), Units(-1), Price(-9));
/// let answer = clear_market(&market)?;
/// assert_eq!(answer.member(Member(2)).unwrap().net, Units(-1));
/// let link = answer.link(Member(1), Member(2)).unwrap();
/// assert_eq!((link.flow, link.capacity, link.load), (Units(-1), Units(1), clearing::FULL));
/// assert_eq!(answer.total(), Price(-4));
///
/// // A better entry for the same units counts in place of the first.
/// market.offer(Member(1), Units(1), Price(6));
/// assert_eq!(clear_market(&market)?.total(), Price(-3));
///
/// // Member 3 has no link.
/// market.offer(Member(3), Units(0), Price(0));
/// assert_eq!(clear_market(&market), Err(Refusal::Apart { member: Member(3) }));
/// # Ok::<(), Refusal>(())
/// ```
pub fn clear_market(market: &Market) -> Result<Answer, Refusal> {
    clear_file(market.file())
}

impl Answer {
    /// The answer in bytes that [`clear`] wrote once, beside the file that it answers: the bytes of
    /// an answer do not say what a link can carry.
    ///
    /// This says that the bytes are records of the market's members and links. It does not say that
    /// they are its best allocation, or one at all.
    ///
    /// ```
    /// use clearing::{clear, Answer, NoAnswer, ANSWER_LIMIT};
    ///
    /// let file = [2, 1, 0, 0, 0, 0, 0, 0];
    /// let mut area = [0; ANSWER_LIMIT];
    /// let written = clear(&file, &mut area)?;
    /// let answer = Answer::decode(&file, &area[..written])?;
    /// assert_eq!(answer, clearing::clear_file(&file)?);
    ///
    /// let wrong = Answer::decode(&file, b"sixteen letters.").unwrap_err();
    /// assert_eq!(wrong.to_string(), "record 0 is not that of member 1");
    /// # Ok::<(), Box<dyn std::error::Error>>(())
    /// ```
    pub fn decode(file: &[u8], bytes: &[u8]) -> Result<Answer, NoAnswer> {
        check(file, bytes)?;
        Ok(Answer::read(file, bytes))
    }

    /// The answer in bytes that are one.
    fn read(file: &[u8], bytes: &[u8]) -> Answer {
        let (records, _) = bytes.as_chunks();
        let (members, others) = records.split_at(records.len() / 2);
        let (total, links) = others.split_last().unwrap_or((&[0; 8], &[]));
        let mut answer = Answer {
            members: members.iter().map(MemberNet::read).collect(),
            links: links.iter().map(LinkFlow::read).collect(),
            total: amount(total),
        };
        answer.set_capacities(file);
        answer
    }

    /// Takes each link's capacity from its record in the file.
    fn set_capacities(&mut self, file: &[u8]) {
        for link in links(file) {
            let mut entries = self.links.iter_mut();
            if let Some(entry) = entries.find(|entry| (entry.a, entry.b) == (link.a, link.b)) {
                entry.capacity = link.capacity;
            }
        }
    }

    /// Every member, by its number.
    pub fn members(&self) -> &[MemberNet] {
        &self.members
    }

    /// What a member trades; none where the market has no such member.
    pub fn member(&self, member: Member) -> Option<&MemberNet> {
        self.members.iter().find(|entry| entry.member == member)
    }

    /// Every link, by its lower member and then by its higher one.
    pub fn links(&self) -> &[LinkFlow] {
        &self.links
    }

    /// What the link between two members carries, in whichever order they are given; none where no
    /// link joins them directly.
    pub fn link(&self, x: Member, y: Member) -> Option<&LinkFlow> {
        let ends = (x.min(y), x.max(y));
        self.links.iter().find(|link| (link.a, link.b) == ends)
    }

    /// The sum of the members' values.
    pub fn total(&self) -> Price {
        self.total
    }
}

impl MemberNet {
    fn read(record: &[u8; 8]) -> MemberNet {
        let [_, member, n0, n1, ..] = *record;
        MemberNet {
            member: Member(member),
            net: Units(i16::from_le_bytes([n0, n1])),
            value: amount(record),
        }
    }
}

impl LinkFlow {
    /// All but the capacity, which the record does not have.
    fn read(record: &[u8; 8]) -> LinkFlow {
        let [_, a, b, _, f0, f1, l0, l1] = *record;
        LinkFlow {
            a: Member(a),
            b: Member(b),
            flow: Units(i16::from_le_bytes([f0, f1])),
            capacity: Units(0),
            load: u16::from_le_bytes([l0, l1]),
        }
    }
}

/// The amount of money in a record's last 4 bytes.
fn amount(record: &[u8; 8]) -> Price {
    let [_, _, _, _, p0, p1, p2, p3] = *record;
    Price(i32::from_le_bytes([p0, p1, p2, p3]))
}
