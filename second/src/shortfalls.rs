//! Who may be off, and by how much, request S-14: the shortfalls of an accepted hour, in whole hundred-thousandths of
//! a microcent.

use crate::files::Hour;
use crate::judgement::{hour_in_order, judge, readable, Judgement, PerZone};
use crate::limits::*;
use crate::{OutputAnswer, Papers, Verdict};

/// The shortfalls of an hour, in file order.
#[derive(Clone, Debug, Default, PartialEq, Eq)]
pub struct Shortfalls {
    pub orders: Vec<i128>,
    pub branches: Vec<i128>,
    pub links: Vec<i128>,
}

impl Shortfalls {
    pub fn sum(&self) -> i128 {
        [&self.orders, &self.branches, &self.links].into_iter().flatten().sum()
    }
}

pub trait GapShortfalls: Sized {
    /// An order's rule 8 surplus less what its accepted volume earns at the zone price.
    fn order_shortfall(&self, hour: &Hour, o: usize, prices: &PerZone) -> i128 {
        let order = hour.case.order(o);
        let price = prices[usize::from(order.zone)];
        ONE * (order.surplus(price) - hour.proposal.volume(o) * order.unit_gain(price))
    }

    /// A branch's shadow price times what the flow-based part leaves free of the margin scaled by the flow-based
    /// share.
    fn branch_shortfall(&self, hour: &Hour, b: usize, flow_based_parts: &PerZone) -> i128 {
        let ptdfs = hour.case.ptdfs(b).zip(flow_based_parts);
        let load: i128 = ptdfs.map(|(ptdf, part)| ptdf * part).sum();
        let margin = (ONE - hour.proposal.share()) * hour.case.ram(b);
        ONE * hour.proposal.shadow_price(b) * (margin - load)
    }

    /// A link's capacity times the share as stored times the positive spread, less 100,000 times flow times the
    /// spread.
    fn link_shortfall(&self, hour: &Hour, l: usize, prices: &PerZone) -> i128 {
        let link = hour.case.link(l);
        let spread = prices[link.to] - prices[link.from];
        link.capacity * hour.proposal.share() * spread.max(0) - ONE * hour.proposal.flow(l) * spread
    }

    /// Rule 2, used for a branch's load.
    fn flow_based_parts(&self, hour: &Hour) -> PerZone {
        Judgement::flow_based_parts(&Papers, hour)
    }

    /// For any hour whose files are in order, accepted or not.
    fn hour_shortfalls(&self, hour: &Hour) -> Shortfalls {
        let prices = Papers.zone_prices(hour);
        let parts = self.flow_based_parts(hour);
        Shortfalls {
            orders: (0..hour.case.orders).map(|o| self.order_shortfall(hour, o, &prices)).collect(),
            branches: (0..hour.case.branches).map(|b| self.branch_shortfall(hour, b, &parts)).collect(),
            links: (0..hour.case.links).map(|l| self.link_shortfall(hour, l, &prices)).collect(),
        }
    }

    /// The judgement's number and index where the hour is not accepted; then 86 where the output is too short.
    fn refusal(&self, case: &[u8], proposal: &[u8], room: usize) -> Option<(u32, usize)> {
        let verdict = judge(case, proposal, &mut [0; LEAST_BUFFER]);
        if verdict.number != 0 {
            return Some((verdict.number, verdict.index as usize));
        }
        (room < self.numbers(case)).then_some((86, 0))
    }

    /// How many numbers are written for a readable case: two for each shortfall.
    fn numbers(&self, case: &[u8]) -> usize {
        let case = readable(case).expect("the case was read");
        2 * (case.orders + case.branches + case.links)
    }

    /// Orders, then branches, then links.
    fn in_order<'a>(&self, found: &'a Shortfalls) -> [&'a [i128]; 3] {
        [&found.orders, &found.branches, &found.links]
    }

    /// Whole microcents, and the hundred-thousandths of one besides.
    fn pair(&self, amount: i128) -> [i128; 2] {
        [amount.div_euclid(ONE), amount.rem_euclid(ONE)]
    }

    fn answer(&self, written: usize) -> OutputAnswer {
        OutputAnswer::written(written)
    }

    /// The shortfalls of an accepted hour, written to `out`.
    fn shortfalls(&self, case: &[u8], proposal: &[u8], out: &mut [i64]) -> OutputAnswer {
        if let Some((number, index)) = self.refusal(case, proposal, out.len()) {
            return OutputAnswer::refused(number, index);
        }
        let hour = hour_in_order(case, proposal).expect("the files were read");
        let found = self.hour_shortfalls(&hour);
        let amounts = self.in_order(&found).into_iter().flatten();
        let numbers = amounts.flat_map(|amount| self.pair(*amount));
        for (place, number) in out.iter_mut().zip(numbers) {
            // At most the gap, which fits 64 bits.
            *place = number as i64;
        }
        self.answer(self.numbers(case))
    }
}

/// The shortfalls of an accepted hour, written to `out`, two numbers for each.
pub fn shortfalls(case: &[u8], proposal: &[u8], out: &mut [i64]) -> OutputAnswer {
    Papers.shortfalls(case, proposal, out)
}

/// The shortfalls of any hour whose files are in order.
pub fn hour_shortfalls(case: &[u8], proposal: &[u8]) -> Result<Shortfalls, Verdict> {
    Ok(Papers.hour_shortfalls(&hour_in_order(case, proposal)?))
}
