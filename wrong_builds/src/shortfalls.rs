//! Wrong builds of the shortfalls, S-14.

use second_judge::files::Hour;
use second_judge::judgement::{judge, readable, Judgement, PerZone};
use second_judge::limits::*;
use second_judge::{GapShortfalls, OutputAnswer, Papers, Shortfalls};

/// A build's entry.
pub type Value = fn(&[u8], &[u8], &mut [i64]) -> OutputAnswer;

/// Every wrong build, with its name.
pub static BUILDS: [(Value, &str); 23] = [
    // Links.
    (|c, p, o| SpreadNotCut.shortfalls(c, p, o), "spread not cut at zero"),
    (|c, p, o| SpreadCutOnTheFlow.shortfalls(c, p, o), "spread cut on the flow's side"),
    (|c, p, o| ContractedForCapacity.shortfalls(c, p, o), "contracted for capacity"),
    (|c, p, o| FlowWithoutShare.shortfalls(c, p, o), "capacity without the share"),
    (|c, p, o| SpreadTurned.shortfalls(c, p, o), "spread turned"),
    (|c, p, o| PartDropped.shortfalls(c, p, o), "part of a microcent dropped"),
    // The shares.
    (|c, p, o| SharesExchanged.shortfalls(c, p, o), "shares exchanged"),
    (|c, p, o| LinkByFlowBasedShare.shortfalls(c, p, o), "link by the flow-based share"),
    (|c, p, o| BranchByLtaShare.shortfalls(c, p, o), "branch by the LTA share"),
    (|c, p, o| MarginNotScaled.shortfalls(c, p, o), "margin not scaled"),
    // Branches.
    (|c, p, o| NetPositionLoads.shortfalls(c, p, o), "load of the net positions"),
    (|c, p, o| RamNeverNegative.shortfalls(c, p, o), "RAM never negative"),
    // Orders.
    (|c, p, o| QuantityEarns.shortfalls(c, p, o), "quantity for the volume"),
    (|c, p, o| LossNotCounted.shortfalls(c, p, o), "a loss earns nothing"),
    (|c, p, o| SidesExchanged.shortfalls(c, p, o), "buys as sells"),
    (|c, p, o| OrdersNotScaled.shortfalls(c, p, o), "orders without the 100,000"),
    // What is written, and when.
    (|c, p, o| OrderOfProposal.shortfalls(c, p, o), "links before branches"),
    (|c, p, o| HundredThousandthsFirst.shortfalls(c, p, o), "hundred-thousandths first"),
    (|c, p, o| AnswersTwentySix.shortfalls(c, p, o), "26 answered too"),
    (|c, p, o| RoomFirst.shortfalls(c, p, o), "86 asked first"),
    (|c, p, o| RoomInPairs.shortfalls(c, p, o), "room counted in pairs"),
    (|c, p, o| LengthInBytes.shortfalls(c, p, o), "length in bytes"),
    (|c, p, o| RefusalHasLength.shortfalls(c, p, o), "length of a refusal by 86"),
];

fn spread(hour: &Hour, l: usize, prices: &PerZone) -> i128 {
    let link = hour.case.link(l);
    prices[link.to] - prices[link.from]
}

/// A link's shortfall with these parts.
fn of_link(hour: &Hour, l: usize, capacity: i128, share: i128, of_capacity: i128, of_flow: i128) -> i128 {
    capacity * share * of_capacity - ONE * hour.proposal.flow(l) * of_flow
}

pub struct SpreadNotCut;
impl GapShortfalls for SpreadNotCut {
    fn link_shortfall(&self, hour: &Hour, l: usize, prices: &PerZone) -> i128 {
        let spread = spread(hour, l, prices);
        of_link(hour, l, hour.case.link(l).capacity, hour.proposal.share(), spread, spread)
    }
}

pub struct SpreadCutOnTheFlow;
impl GapShortfalls for SpreadCutOnTheFlow {
    fn link_shortfall(&self, hour: &Hour, l: usize, prices: &PerZone) -> i128 {
        let cut = spread(hour, l, prices).max(0);
        of_link(hour, l, hour.case.link(l).capacity, hour.proposal.share(), cut, cut)
    }
}

pub struct ContractedForCapacity;
impl GapShortfalls for ContractedForCapacity {
    fn link_shortfall(&self, hour: &Hour, l: usize, prices: &PerZone) -> i128 {
        let spread = spread(hour, l, prices);
        of_link(hour, l, hour.case.link(l).contracted, hour.proposal.share(), spread.max(0), spread)
    }
}

pub struct FlowWithoutShare;
impl GapShortfalls for FlowWithoutShare {
    fn link_shortfall(&self, hour: &Hour, l: usize, prices: &PerZone) -> i128 {
        let spread = spread(hour, l, prices);
        of_link(hour, l, hour.case.link(l).capacity, ONE, spread.max(0), spread)
    }
}

pub struct SpreadTurned;
impl GapShortfalls for SpreadTurned {
    fn link_shortfall(&self, hour: &Hour, l: usize, prices: &PerZone) -> i128 {
        Papers.link_shortfall(hour, l, &prices.map(|price| -price))
    }
}

pub struct PartDropped;
impl GapShortfalls for PartDropped {
    fn pair(&self, amount: i128) -> [i128; 2] {
        [amount.div_euclid(ONE), 0]
    }
}

/// A link's shortfall with the share of the branches.
fn link_by_flow_based_share(hour: &Hour, l: usize, prices: &PerZone) -> i128 {
    let spread = spread(hour, l, prices);
    of_link(hour, l, hour.case.link(l).capacity, ONE - hour.proposal.share(), spread.max(0), spread)
}

/// A branch's shortfall with this margin, scaled by this share.
fn of_branch(hour: &Hour, b: usize, parts: &PerZone, share: i128, margin: i128) -> i128 {
    let load: i128 = hour.case.ptdfs(b).zip(parts).map(|(ptdf, part)| ptdf * part).sum();
    ONE * hour.proposal.shadow_price(b) * (share * margin - load)
}

pub struct SharesExchanged;
impl GapShortfalls for SharesExchanged {
    fn link_shortfall(&self, hour: &Hour, l: usize, prices: &PerZone) -> i128 {
        link_by_flow_based_share(hour, l, prices)
    }
    fn branch_shortfall(&self, hour: &Hour, b: usize, parts: &PerZone) -> i128 {
        of_branch(hour, b, parts, hour.proposal.share(), hour.case.ram(b))
    }
}

pub struct LinkByFlowBasedShare;
impl GapShortfalls for LinkByFlowBasedShare {
    fn link_shortfall(&self, hour: &Hour, l: usize, prices: &PerZone) -> i128 {
        link_by_flow_based_share(hour, l, prices)
    }
}

pub struct BranchByLtaShare;
impl GapShortfalls for BranchByLtaShare {
    fn branch_shortfall(&self, hour: &Hour, b: usize, parts: &PerZone) -> i128 {
        of_branch(hour, b, parts, hour.proposal.share(), hour.case.ram(b))
    }
}

pub struct MarginNotScaled;
impl GapShortfalls for MarginNotScaled {
    fn branch_shortfall(&self, hour: &Hour, b: usize, parts: &PerZone) -> i128 {
        of_branch(hour, b, parts, ONE, hour.case.ram(b))
    }
}

pub struct NetPositionLoads;
impl GapShortfalls for NetPositionLoads {
    fn flow_based_parts(&self, hour: &Hour) -> PerZone {
        Papers.net_positions(hour)
    }
}

pub struct RamNeverNegative;
impl GapShortfalls for RamNeverNegative {
    fn branch_shortfall(&self, hour: &Hour, b: usize, parts: &PerZone) -> i128 {
        of_branch(hour, b, parts, ONE - hour.proposal.share(), hour.case.ram(b).max(0))
    }
}

pub struct QuantityEarns;
impl GapShortfalls for QuantityEarns {
    fn order_shortfall(&self, hour: &Hour, o: usize, prices: &PerZone) -> i128 {
        let order = hour.case.order(o);
        let price = prices[usize::from(order.zone)];
        ONE * (order.surplus(price) - order.quantity() * order.unit_gain(price))
    }
}

pub struct LossNotCounted;
impl GapShortfalls for LossNotCounted {
    fn order_shortfall(&self, hour: &Hour, o: usize, prices: &PerZone) -> i128 {
        let order = hour.case.order(o);
        let price = prices[usize::from(order.zone)];
        ONE * (order.surplus(price) - hour.proposal.volume(o) * order.unit_gain(price).max(0))
    }
}

pub struct SidesExchanged;
impl GapShortfalls for SidesExchanged {
    fn order_shortfall(&self, hour: &Hour, o: usize, prices: &PerZone) -> i128 {
        let order = hour.case.order(o);
        let gain = -order.unit_gain(prices[usize::from(order.zone)]);
        ONE * (order.quantity() * gain.max(0) - hour.proposal.volume(o) * gain)
    }
}

pub struct OrdersNotScaled;
impl GapShortfalls for OrdersNotScaled {
    fn order_shortfall(&self, hour: &Hour, o: usize, prices: &PerZone) -> i128 {
        Papers.order_shortfall(hour, o, prices) / ONE
    }
}

pub struct OrderOfProposal;
impl GapShortfalls for OrderOfProposal {
    fn in_order<'a>(&self, found: &'a Shortfalls) -> [&'a [i128]; 3] {
        [&found.orders, &found.links, &found.branches]
    }
}

pub struct HundredThousandthsFirst;
impl GapShortfalls for HundredThousandthsFirst {
    fn pair(&self, amount: i128) -> [i128; 2] {
        [amount.rem_euclid(ONE), amount.div_euclid(ONE)]
    }
}

pub struct AnswersTwentySix;
impl GapShortfalls for AnswersTwentySix {
    fn refusal(&self, case: &[u8], proposal: &[u8], room: usize) -> Option<(u32, usize)> {
        match judge(case, proposal, &mut [0; LEAST_BUFFER]).number {
            26 => (room < self.numbers(case)).then_some((86, 0)),
            _ => Papers.refusal(case, proposal, room),
        }
    }
}

/// The number of numbers is known only for a readable case.
pub struct RoomFirst;
impl GapShortfalls for RoomFirst {
    fn refusal(&self, case: &[u8], proposal: &[u8], room: usize) -> Option<(u32, usize)> {
        match readable(case).is_ok() && room < self.numbers(case) {
            true => Some((86, 0)),
            false => Papers.refusal(case, proposal, room),
        }
    }
}

pub struct RoomInPairs;
impl GapShortfalls for RoomInPairs {
    fn refusal(&self, case: &[u8], proposal: &[u8], room: usize) -> Option<(u32, usize)> {
        Papers.refusal(case, proposal, 2 * room)
    }
}

pub struct LengthInBytes;
impl GapShortfalls for LengthInBytes {
    fn answer(&self, written: usize) -> OutputAnswer {
        OutputAnswer::written(8 * written)
    }
}

pub struct RefusalHasLength;
impl GapShortfalls for RefusalHasLength {
    fn shortfalls(&self, case: &[u8], proposal: &[u8], out: &mut [i64]) -> OutputAnswer {
        match Papers.shortfalls(case, proposal, out) {
            short if short.number == 86 => OutputAnswer { length: self.numbers(case) as u64, ..short },
            answer => answer,
        }
    }
}
