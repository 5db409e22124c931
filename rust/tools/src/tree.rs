//! A feeder as rows, one for each member, that draw its tree from member 1 on. Of the branches of a
//! member the largest with several members goes straight down in the member's own column, and the
//! others stand one step to the right. One of several members that stands there leaves another behind
//! that is no smaller, and so has less than half: 32 members take 4 steps at most, to branches of 15,
//! 7, 3 and 1.

use clearing::{Answer, LinkFlow, Member, MemberNet};
use std::cmp::Reverse;

/// A member's row.
#[derive(Clone, Debug, PartialEq, Eq)]
pub struct Row {
    pub member: MemberNet,
    /// The link that the member was reached over; none for member 1.
    pub link: Option<LinkFlow>,
    /// Whether the member stands in the column of the one that it was reached from. Member 1 stands
    /// in the first column.
    pub straight: bool,
    /// For each step that the member stands to the right, whether the line on its left goes on below
    /// this row.
    pub lines: Vec<bool>,
    /// Whether members are reached from this one.
    pub leads_on: bool,
}

/// The rows of an answer's tree, in the order in which they are drawn.
pub fn rows(answer: &Answer) -> Vec<Row> {
    let mut rows = Vec::new();
    if let Some(&first) = answer.member(Member(1)) {
        let feeder = Branch::reached(answer, first, None);
        feeder.add_rows(true, &[], &mut rows);
    }
    rows
}

/// A member, and the branches that lead on from it by the numbers of their first members.
struct Branch {
    member: MemberNet,
    link: Option<LinkFlow>,
    branches: Vec<Branch>,
}

impl Branch {
    /// All that is reached from a member, but over the link that it was reached over itself.
    fn reached(answer: &Answer, member: MemberNet, link: Option<LinkFlow>) -> Branch {
        let onward = |onward: &LinkFlow| {
            let far = far_end(onward, member.member).filter(|_| Some(*onward) != link)?;
            let far = answer.member(far)?;
            Some(Branch::reached(answer, *far, Some(*onward)))
        };
        let mut branches: Vec<Branch> = answer.links().iter().filter_map(onward).collect();
        branches.sort_by_key(|branch| branch.member.member);
        Branch {
            member,
            link,
            branches,
        }
    }

    /// The number of members.
    fn size(&self) -> usize {
        1 + self.branches.iter().map(Branch::size).sum::<usize>()
    }

    /// The branch that goes straight down: the largest of those with more than one member.
    fn below(&self) -> Option<&Branch> {
        let several = self.branches.iter().filter(|branch| branch.size() > 1);
        several.max_by_key(|branch| (branch.size(), Reverse(branch.member.member)))
    }

    fn add_rows(&self, straight: bool, lines: &[bool], rows: &mut Vec<Row>) {
        rows.push(Row {
            member: self.member,
            link: self.link,
            straight,
            lines: lines.to_vec(),
            leads_on: !self.branches.is_empty(),
        });
        let below = self.below();
        let is_beside = |branch: &&Branch| below.is_none_or(|below| below.link != branch.link);
        let beside: Vec<&Branch> = self.branches.iter().filter(is_beside).collect();
        for (after, branch) in (0..beside.len()).rev().zip(beside) {
            let goes_on = after > 0 || below.is_some();
            branch.add_rows(false, &[lines, &[goes_on]].concat(), rows);
        }
        if let Some(branch) = below {
            branch.add_rows(true, lines, rows);
        }
    }
}

/// The other member of a link that has the given one.
fn far_end(link: &LinkFlow, near: Member) -> Option<Member> {
    match near {
        _ if near == link.a => Some(link.b),
        _ if near == link.b => Some(link.a),
        _ => None,
    }
}
