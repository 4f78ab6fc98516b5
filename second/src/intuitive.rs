//! Intuitive hours, request S-3: whether all exchanges of an hour can go from a lower or equal price to a higher
//! one, by annex 5.1 of document 001. S-13 asks the same with a smaller scratch.
//!
//! The scratch is for a host that has no other memory. It is not needed here; it is only tested for its size and
//! zeroed.

use crate::files::Hour;
use crate::judgement::{hour_in_order, judge, Judgement};
use crate::limits::*;
use crate::Papers;

/// What the entries answer; a refusal has neither a yes nor a total.
#[derive(Clone, Copy, Debug, PartialEq, Eq)]
pub struct CarriedAnswer {
    pub number: u32,
    pub index: u32,
    /// 1 for yes, 0 for no.
    pub intuitive: u32,
    /// Tenths.
    pub total: i64,
}

/// How many numbers of scratch are needed, and zero after an answer.
#[derive(Clone, Copy, Debug, PartialEq, Eq)]
pub enum ScratchSize {
    /// S-3.
    Wide,
    /// S-13.
    Small,
}

impl ScratchSize {
    pub fn numbers(self) -> usize {
        match self {
            ScratchSize::Wide => SCRATCH,
            ScratchSize::Small => SMALL_SCRATCH,
        }
    }
}

/// The arguments.
#[derive(Clone, Copy, Debug)]
pub struct Exchange<'a> {
    /// Tenths, export positive.
    pub net_exports: &'a [i64],
    /// Grains.
    pub prices: &'a [i64],
    /// Two bytes each.
    pub pairs: &'a [u8],
    pub size: ScratchSize,
    /// Numbers of the scratch.
    pub room: usize,
}

impl Exchange<'_> {
    pub fn zones(&self) -> usize {
        self.net_exports.len()
    }

    pub fn pair_count(&self) -> usize {
        self.pairs.len().div_ceil(2)
    }

    /// From and to. A last byte alone has no second zone, so that zone is unknown.
    pub fn pair(&self, n: usize) -> (usize, Option<usize>) {
        (self.pairs[2 * n].into(), self.pairs.get(2 * n + 1).map(|zone| usize::from(*zone)))
    }
}

/// The index of a cause where it holds.
pub type Cause<I> = fn(&I, &Exchange) -> Option<usize>;

/// The causes in the order in which they are asked.
pub fn causes<I: IntuitiveHours>() -> [(u32, Cause<I>); 6] {
    [
        (81, I::zones_are_wrong),
        (82, I::position_is_outside),
        (82, I::sum_is_not_zero),
        (83, I::price_is_outside),
        (84, I::pair_is_wrong),
        (85, I::scratch_is_short),
    ]
}

pub trait IntuitiveHours: Sized {
    fn causes(&self) -> [(u32, Cause<Self>); 6] {
        causes()
    }

    /// 81: 0 or over 16 zones, or lists of different lengths.
    fn zones_are_wrong(&self, given: &Exchange) -> Option<usize> {
        (!ZONES.contains(&given.zones()) || given.prices.len() != given.zones()).then_some(0)
    }

    /// 82: a position exceeds 51,200,000 either way. The first zone is named.
    fn position_is_outside(&self, given: &Exchange) -> Option<usize> {
        given.net_exports.iter().position(|net| !NET_EXPORT.contains(&i128::from(*net)))
    }

    /// 82, asked next: their sum is not zero.
    fn sum_is_not_zero(&self, given: &Exchange) -> Option<usize> {
        let sum: i128 = given.net_exports.iter().map(|net| i128::from(*net)).sum();
        (sum != 0).then_some(0)
    }

    /// 83: a price is out of 25's range. The first zone is named.
    fn price_is_outside(&self, given: &Exchange) -> Option<usize> {
        given.prices.iter().position(|price| !ZONE_PRICE.contains(&i128::from(*price)))
    }

    /// 84: a pair has an unknown zone or equal ones, repeats an earlier one or is past the 64th. The first is named.
    fn pair_is_wrong(&self, given: &Exchange) -> Option<usize> {
        (0..given.pair_count()).find(|&n| !self.pair_is_good(given, n) || n >= MOST_PAIRS)
    }

    fn pair_is_good(&self, given: &Exchange, n: usize) -> bool {
        let (from, to) = given.pair(n);
        let known = from < given.zones() && to.is_some_and(|to| to < given.zones());
        known && Some(from) != to && (0..n).all(|earlier| given.pair(earlier) != (from, to))
    }

    /// 85: the scratch is shorter.
    fn scratch_is_short(&self, given: &Exchange) -> Option<usize> {
        (given.room < given.size.numbers()).then_some(0)
    }

    fn refusal(&self, given: &Exchange) -> Option<(u32, usize)> {
        let mut causes = self.causes().into_iter();
        causes.find_map(|(number, cause)| cause(self, given).map(|index| (number, index)))
    }

    /// A pair counts if its first price is at most its second.
    fn counts(&self, first: i64, second: i64) -> bool {
        first <= second
    }

    /// The graph of annex 5.1: an edge without limit along each counted pair.
    fn graph(&self, given: &Exchange) -> Graph {
        let mut graph = Graph::new(given.net_exports);
        for pair in given.pairs.chunks_exact(2) {
            let (from, to) = (usize::from(pair[0]), usize::from(pair[1]));
            if self.counts(given.prices[from], given.prices[to]) {
                graph.leads[from] |= 1 << to;
            }
        }
        graph
    }

    /// The largest total that flows along counted pairs can carry from exports to imports.
    fn most_carried(&self, graph: &Graph) -> i128 {
        graph.carried_by(&graph.flows()).expect("flows along counted pairs")
    }

    /// Yes if every export can be carried, else no; and the largest total.
    fn answer(&self, graph: &Graph) -> (bool, i128) {
        let total = self.most_carried(graph);
        (total == graph.exports(), total)
    }

    /// The scratch's first numbers are zero after an answer.
    fn leave(&self, given: &Exchange, _graph: &Graph, scratch: &mut [i64]) {
        scratch[..given.size.numbers()].fill(0);
    }

    /// The entry over net positions, prices and pairs.
    fn intuitive(
        &self,
        size: ScratchSize,
        net_exports: &[i64],
        prices: &[i64],
        pairs: &[u8],
        scratch: &mut [i64],
    ) -> CarriedAnswer {
        let room = scratch.len();
        let given = Exchange { net_exports, prices, pairs, size, room };
        if let Some((number, index)) = self.refusal(&given) {
            return refused(number, index as u32);
        }
        let graph = self.graph(&given);
        let (yes, total) = self.answer(&graph);
        self.leave(&given, &graph, scratch);
        CarriedAnswer {
            number: 0,
            index: 0,
            intuitive: yes.into(),
            total: i64::try_from(total).expect("the total fits 64 bits"),
        }
    }

    /// Whether an hour with this number is answered: an accepted one.
    fn is_answered(&self, number: u32) -> bool {
        number == 0
    }

    /// Our net positions with their sign turned: export positive. They fit 64 bits, since 512 orders have at most
    /// 51,200,000.
    fn net_exports(&self, hour: &Hour) -> Vec<i64> {
        Papers.net_positions(hour)[..hour.case.zones].iter().map(|net| -net as i64).collect()
    }

    /// The entry over an hour. If it is not accepted, the answer is the judgement's number and index.
    fn hour_intuitive(
        &self,
        size: ScratchSize,
        case: &[u8],
        proposal: &[u8],
        pairs: &[u8],
        scratch: &mut [i64],
    ) -> CarriedAnswer {
        let mut report = [0; LEAST_BUFFER];
        let verdict = judge(case, proposal, &mut report);
        if !self.is_answered(verdict.number) {
            return refused(verdict.number, verdict.index);
        }
        let hour = hour_in_order(case, proposal).expect("the hour was judged");
        let prices: Vec<i64> = report[REPORT_HEADER..]
            .chunks_exact(REPORT_FIELD)
            .skip(REPORT_TOTALS)
            .take(hour.case.zones)
            .map(|field| i64::from_le_bytes(field.try_into().expect("eight bytes")))
            .collect();
        self.intuitive(size, &self.net_exports(&hour), &prices, pairs, scratch)
    }
}

impl IntuitiveHours for Papers {
    /// Computed in a second way that shares nothing with the first: all exports less the greatest excess of a set
    /// that no counted pair leaves. By duality the flows and the set prove each other optimal.
    fn most_carried(&self, graph: &Graph) -> i128 {
        let total = graph.carried_by(&graph.flows()).expect("flows along counted pairs");
        let (excess, _) = graph.greatest_excess();
        assert_eq!(total, graph.exports() - excess, "flows and sets agree");
        total
    }
}

fn refused(number: u32, index: u32) -> CarriedAnswer {
    CarriedAnswer { number, index, intuitive: 0, total: 0 }
}

/// Whether these net positions can be carried along counted pairs at these prices, and how much of them at most.
pub fn intuitive(net_exports: &[i64], prices: &[i64], pairs: &[u8], scratch: &mut [i64]) -> CarriedAnswer {
    Papers.intuitive(ScratchSize::Wide, net_exports, prices, pairs, scratch)
}

/// The same with the smaller scratch.
pub fn intuitive_small(net_exports: &[i64], prices: &[i64], pairs: &[u8], scratch: &mut [i64]) -> CarriedAnswer {
    Papers.intuitive(ScratchSize::Small, net_exports, prices, pairs, scratch)
}

/// The same for an hour.
pub fn hour_intuitive(case: &[u8], proposal: &[u8], pairs: &[u8], scratch: &mut [i64]) -> CarriedAnswer {
    Papers.hour_intuitive(ScratchSize::Wide, case, proposal, pairs, scratch)
}

/// The same for an hour, with the smaller scratch.
pub fn hour_intuitive_small(case: &[u8], proposal: &[u8], pairs: &[u8], scratch: &mut [i64]) -> CarriedAnswer {
    Papers.hour_intuitive(ScratchSize::Small, case, proposal, pairs, scratch)
}

/// Zones with their net positions, and the counted pairs between them.
#[derive(Clone, Debug)]
pub struct Graph {
    /// Export positive.
    pub net: Vec<i128>,
    /// For each zone, the set of zones to which a counted pair leads, one bit each.
    pub leads: Vec<u32>,
}

/// The flow from each zone to each other.
pub type Flows = Vec<Vec<i128>>;

impl Graph {
    pub fn new(net_exports: &[i64]) -> Graph {
        Graph { net: net_exports.iter().map(|net| i128::from(*net)).collect(), leads: vec![0; net_exports.len()] }
    }

    pub fn zones(&self) -> usize {
        self.net.len()
    }

    pub fn leads_to(&self, from: usize, to: usize) -> bool {
        self.leads[from] >> to & 1 == 1
    }

    pub fn exports(&self) -> i128 {
        self.net.iter().filter(|net| **net > 0).sum()
    }

    /// Flows that carry as much as possible, by push and relabel: the source lets out all exports, a zone's excess
    /// goes downhill, a zone that is stuck is lifted, and what the imports do not take flows back.
    pub fn flows(&self) -> Flows {
        let zones = self.zones();
        let (source, sink) = (zones, zones + 1);
        let nodes = zones + 2;
        // A pair has no limit of its own; no flow exceeds all exports.
        let all = self.exports();
        let mut capacity = vec![vec![0i128; nodes]; nodes];
        for (z, net) in self.net.iter().enumerate() {
            capacity[source][z] = (*net).max(0);
            capacity[z][sink] = (-net).max(0);
            for to in (0..zones).filter(|to| self.leads_to(z, *to)) {
                capacity[z][to] = all;
            }
        }
        let mut left = capacity.clone();
        let mut lies = vec![0i128; nodes];
        let mut height = vec![0usize; nodes];
        height[source] = nodes;
        for z in 0..zones {
            let amount = std::mem::take(&mut left[source][z]);
            left[z][source] += amount;
            lies[z] += amount;
        }
        while let Some(z) = (0..zones).find(|z| lies[*z] > 0) {
            let lowest = (0..nodes)
                .filter(|to| left[z][*to] > 0)
                .min_by_key(|to| height[*to])
                .expect("what lies in a zone came from somewhere");
            height[z] = height[z].max(height[lowest] + 1);
            let amount = lies[z].min(left[z][lowest]);
            left[z][lowest] -= amount;
            left[lowest][z] += amount;
            lies[z] -= amount;
            lies[lowest] += amount;
        }
        // The net flow where both directions are counted.
        let went = |from: usize, to: usize| (capacity[from][to] - left[from][to]).max(0);
        (0..zones).map(|from| (0..zones).map(|to| went(from, to)).collect()).collect()
    }

    /// The outflow of a zone less its inflow.
    pub fn net_of(&self, flows: &Flows, zone: usize) -> i128 {
        let out: i128 = flows[zone].iter().sum();
        let into: i128 = flows.iter().map(|row| row[zone]).sum();
        out - into
    }

    /// What flows carry, if they use counted pairs only and no zone lets out more than its export or takes in more
    /// than its import.
    pub fn carried_by(&self, flows: &Flows) -> Option<i128> {
        let mut total = 0;
        for z in 0..self.zones() {
            for (to, flow) in flows[z].iter().enumerate() {
                if *flow < 0 || *flow > 0 && !self.leads_to(z, to) {
                    return None;
                }
            }
            let net = self.net_of(flows, z);
            if net < self.net[z].min(0) || net > self.net[z].max(0) {
                return None;
            }
            total += net.max(0);
        }
        Some(total)
    }

    /// The greatest excess of exports over imports among the sets that no counted pair leaves, and such a set. The
    /// empty set gives zero.
    pub fn greatest_excess(&self) -> (i128, u32) {
        self.excess_from(0, 0, 0, 0)
    }

    /// The same among the sets with these zones before this one.
    fn excess_from(&self, zone: usize, set: u32, leads: u32, excess: i128) -> (i128, u32) {
        if leads & !set & ((1 << zone) - 1) != 0 {
            return (0, 0); // a counted pair leaves the set
        }
        if zone == self.zones() {
            return (excess, set);
        }
        let without = self.excess_from(zone + 1, set, leads, excess);
        let with = self.excess_from(zone + 1, set | 1 << zone, leads | self.leads[zone], excess + self.net[zone]);
        // A negative excess is worse than the empty set's.
        without.max(with).max((0, 0))
    }
}
