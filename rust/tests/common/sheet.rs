//! A market as the tests see it, and the definitions of `docs/RULES.md` said of it: its file, the
//! walk, and the answer's bytes for given flows.

use super::Random;

/// The most bytes that a file has: 31 links and 32 times 64 spans of two records each.
pub const FILE_LIMIT: usize = 33_016;

#[derive(Clone, Copy, Debug)]
pub struct Link {
    pub a: usize,
    pub b: usize,
    pub capacity: i64,
}

/// An offer of one number of units: a point.
#[derive(Clone, Copy, Debug)]
pub struct Offer {
    pub member: usize,
    pub units: i64,
    pub price: i64,
}

/// An offer of every number of units from `low` to `high`, each at `slope` times it plus `base`.
#[derive(Clone, Copy, Debug)]
pub struct Span {
    pub member: usize,
    pub low: i64,
    pub high: i64,
    pub slope: i64,
    pub base: i64,
}

/// Members 1 to `n`, the links by a, then b, and the offers: points and spans.
#[derive(Clone, Debug)]
pub struct Sheet {
    pub n: usize,
    pub links: Vec<Link>,
    pub offers: Vec<Offer>,
    pub spans: Vec<Span>,
}

/// One step of the walk: to `member`, from `from`, over the link at place `link`.
#[derive(Clone, Copy, Debug)]
pub struct Step {
    pub member: usize,
    pub from: usize,
    pub link: usize,
}

impl Link {
    pub fn between(x: usize, y: usize, capacity: i64) -> Link {
        Link {
            a: x.min(y),
            b: x.max(y),
            capacity,
        }
    }

    pub fn record(&self) -> [u8; 8] {
        let [low, high] = (self.capacity as u16).to_le_bytes();
        [1, self.a as u8, self.b as u8, 0, low, high, 0, 0]
    }
}

/// A record in the layout of an offer: a kind, a member, units and a number of 32 bits.
pub fn offer_record(kind: u8, member: usize, units: i64, number: i64) -> [u8; 8] {
    let [u0, u1] = (units as i16).to_le_bytes();
    let [n0, n1, n2, n3] = (number as i32).to_le_bytes();
    [kind, member as u8, u0, u1, n0, n1, n2, n3]
}

impl Offer {
    pub fn record(&self) -> [u8; 8] {
        offer_record(2, self.member, self.units, self.price)
    }
}

impl Span {
    pub fn records(&self) -> [[u8; 8]; 2] {
        let lower = offer_record(6, self.member, self.low, self.base);
        let upper = offer_record(7, self.member, self.high, self.slope);
        [lower, upper]
    }

    pub fn price(&self, units: i64) -> i64 {
        self.slope * units + self.base
    }
}

impl Sheet {
    /// A market whose offers are points.
    pub fn new(n: usize, mut links: Vec<Link>, offers: Vec<Offer>) -> Sheet {
        links.sort_by_key(|link| (link.a, link.b));
        Sheet {
            n,
            links,
            offers,
            spans: Vec::new(),
        }
    }

    /// The market in `d`-ths of a unit: capacities, units, prices and bases times `d`, and slopes as
    /// they were.
    pub fn in_parts(&self, d: i64) -> Sheet {
        let mut parts = self.clone();
        for link in &mut parts.links {
            link.capacity *= d;
        }
        for offer in &mut parts.offers {
            offer.units *= d;
            offer.price *= d;
        }
        for span in &mut parts.spans {
            span.low *= d;
            span.high *= d;
            span.base *= d;
        }
        parts
    }

    /// The file's records, each span's two together: links, points, spans.
    pub fn pieces(&self) -> Vec<Vec<[u8; 8]>> {
        let links = self.links.iter().map(|link| vec![link.record()]);
        let points = self.offers.iter().map(|offer| vec![offer.record()]);
        let spans = self.spans.iter().map(|span| span.records().to_vec());
        links.chain(points).chain(spans).collect()
    }

    pub fn records(&self) -> Vec<[u8; 8]> {
        self.pieces().concat()
    }

    /// A file of the market, its links and offers in any order.
    pub fn file(&self, random: &mut Random) -> Vec<u8> {
        let mut pieces = self.pieces();
        random.shuffle(&mut pieces);
        pieces.concat().concat()
    }

    /// A member's net, given the flow on each link.
    pub fn net(&self, member: usize, flows: &[i64]) -> i64 {
        let mut net = 0;
        for (link, flow) in self.links.iter().zip(flows) {
            if link.b == member {
                net += flow;
            }
            if link.a == member {
                net -= flow;
            }
        }
        net
    }

    /// The prices of a member's points for its net.
    pub fn points_at(&self, member: usize, net: i64) -> impl Iterator<Item = i64> + '_ {
        let offers = self.offers.iter();
        let found = offers.filter(move |offer| offer.member == member && offer.units == net);
        found.map(|offer| offer.price)
    }

    /// A member's spans that hold its net.
    pub fn spans_at(&self, member: usize, net: i64) -> impl Iterator<Item = &Span> + '_ {
        let spans = self.spans.iter();
        spans.filter(move |span| span.member == member && span.low <= net && net <= span.high)
    }

    /// The prices that a member's table gives for its net.
    fn prices(&self, member: usize, net: i64) -> impl Iterator<Item = i64> + '_ {
        let lines = self.spans_at(member, net).map(move |span| span.price(net));
        self.points_at(member, net).chain(lines)
    }

    /// The highest of them.
    pub fn value(&self, member: usize, net: i64) -> Option<i64> {
        self.prices(member, net).max()
    }

    /// Whether a net under the given flows is such a one, given its member and itself.
    pub fn has_net(&self, flows: &[i64], is_such: impl Fn(usize, i64) -> bool) -> bool {
        (1..=self.n).any(|member| is_such(member, self.net(member, flows)))
    }

    /// Whether a member's table gives different prices for its net, given the flow on each link.
    pub fn has_several_prices(&self, flows: &[i64]) -> bool {
        self.has_net(flows, |member, net| {
            self.prices(member, net).min() < self.value(member, net)
        })
    }

    /// Whether a net, given the flow on each link, lies inside a span and at neither end, and no
    /// point and no end gives as high a price.
    pub fn has_net_inside_a_span(&self, flows: &[i64]) -> bool {
        self.has_net(flows, |member, net| {
            let spans = self.spans_at(member, net);
            let (inside, ends): (Vec<&Span>, Vec<&Span>) =
                spans.partition(|span| span.low < net && net < span.high);
            let highest = |spans: Vec<&Span>| spans.iter().map(|span| span.price(net)).max();
            highest(inside) > highest(ends).max(self.points_at(member, net).max())
        })
    }

    /// The walk from member 1: to the neighbours not yet visited, lowest number first, finishing
    /// each branch before the next.
    pub fn walk(&self) -> Vec<Step> {
        let mut steps = Vec::new();
        self.visit(1, &mut steps);
        steps
    }

    fn visit(&self, from: usize, steps: &mut Vec<Step>) {
        for member in 2..=self.n {
            let ends = (from.min(member), from.max(member));
            let link = self.links.iter().position(|link| (link.a, link.b) == ends);
            if let Some(link) = link {
                if steps.iter().all(|step| step.member != member) {
                    steps.push(Step { member, from, link });
                    self.visit(member, steps);
                }
            }
        }
    }

    /// The answer's bytes for the flow on each link; none where the allocation is not possible.
    pub fn answer(&self, flows: &[i64]) -> Option<Vec<u8>> {
        let mut nets = vec![0; self.n + 1];
        let mut links = Vec::new();
        for (link, &flow) in self.links.iter().zip(flows) {
            if flow.abs() > link.capacity {
                return None;
            }
            nets[link.a] -= flow;
            nets[link.b] += flow;
            let load = match link.capacity {
                0 => 9999,
                capacity => 1000 * flow.abs() / capacity,
            };
            links.extend([4, link.a as u8, link.b as u8, 0]);
            links.extend((flow as i16).to_le_bytes());
            links.extend((load as u16).to_le_bytes());
        }
        let mut bytes = Vec::new();
        let mut total = 0;
        for (member, &net) in nets.iter().enumerate().skip(1) {
            let value = self.value(member, net)?;
            total += value;
            bytes.extend([3, member as u8]);
            bytes.extend((net as i16).to_le_bytes());
            bytes.extend((value as i32).to_le_bytes());
        }
        bytes.extend(links);
        bytes.extend([5, 0, 0, 0]);
        bytes.extend((total as i32).to_le_bytes());
        Some(bytes)
    }
}

/// What each member of the walk sends toward the member that it was reached from, given the flow on
/// each link.
pub fn upward(walk: &[Step], flows: &[i64]) -> Vec<i64> {
    let sent = |step: &Step| match flows[step.link] {
        flow if step.member < step.from => flow,
        flow => -flow,
    };
    walk.iter().map(sent).collect()
}
