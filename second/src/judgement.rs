//! The judgement of an hour: the sums, the verdict table, its causes and the report, in the order of document 01.

use crate::families::{well_formed, Parents};
use crate::files::{u16_at, Case, Hour, Proposal};
use crate::limits::*;
use crate::{Papers, Verdict};
use std::ops::RangeInclusive;

/// A number for each zone.
pub type PerZone = [i128; MOST_ZONES];

/// A field of a file: its offset, and whether its value is allowed.
pub type Field = (usize, bool);

/// The index of a cause of the verdict table where it holds: the smallest, if it holds at several places.
pub type Cause<J> = fn(&J, &Hour) -> Option<usize>;

/// One row per number, with its cause.
pub type Table<J> = [(u32, Cause<J>); 27];

/// The verdict table: each number with its cause, in the order in which they are asked. The first that holds is the
/// verdict; if none does, the hour is accepted.
pub fn verdict_table<J: Judgement>() -> Table<J> {
    [
        (30, J::report_buffer_is_short),
        (1, J::case_is_short),
        (2, J::case_has_another_mark),
        (3, J::case_has_another_version),
        (4, J::header_field_is_outside),
        (5, J::case_has_another_length),
        (6, J::branch_field_is_outside),
        (7, J::link_is_wrong),
        (8, J::order_field_is_outside),
        (9, J::proposal_is_short),
        (10, J::proposal_has_another_mark),
        (11, J::proposal_has_another_version),
        (12, J::proposal_has_another_length),
        (13, J::share_is_above_one),
        (14, J::shadow_price_is_above),
        (15, J::tolerance_is_wide),
        (16, J::family_list_is_wrong),
        (17, J::parent_does_not_exist),
        (18, J::order_leads_back),
        (21, J::volume_is_above_quantity),
        (28, J::child_is_ahead),
        (22, J::balance_fails),
        (27, J::share_without_link),
        (23, J::link_rule_fails),
        (24, J::branch_rule_fails),
        (25, J::zone_price_is_outside),
        (26, J::gap_is_above_tolerance),
    ]
}

pub trait Judgement: Sized {
    // The sums. Volumes are tenths, prices of orders cents, prices of zones grains, money microcents.

    /// Rule 1. Net position of a zone: accepted buys minus accepted sells. Import is positive.
    fn net_positions(&self, hour: &Hour) -> PerZone {
        let mut net = [0; MOST_ZONES];
        for o in 0..hour.case.orders {
            let order = hour.case.order(o);
            let volume = hour.proposal.volume(o);
            net[usize::from(order.zone)] += if order.side == BUYS { volume } else { -volume };
        }
        net
    }

    /// Rule 2. LTA part of a zone: flows in minus flows out over the links.
    fn lta_parts(&self, hour: &Hour) -> PerZone {
        let mut parts = [0; MOST_ZONES];
        for l in 0..hour.case.links {
            let link = hour.case.link(l);
            let flow = hour.proposal.flow(l);
            parts[link.to] += flow;
            parts[link.from] -= flow;
        }
        parts
    }

    /// Rule 2. Flow-based part: net position minus LTA part.
    fn flow_based_parts(&self, hour: &Hour) -> PerZone {
        let (net, lta) = (self.net_positions(hour), self.lta_parts(hour));
        std::array::from_fn(|zone| net[zone] - lta[zone])
    }

    /// Rule 3. Balance: net positions sum to zero.
    fn balance(&self, hour: &Hour) -> bool {
        self.net_positions(hour).iter().sum::<i128>() == 0
    }

    /// Rule 4. Link: flow times 100,000 is at most LTA share times capacity.
    fn link_rule(&self, hour: &Hour, l: usize) -> bool {
        ONE * hour.proposal.flow(l) <= hour.proposal.share() * hour.case.link(l).capacity
    }

    /// Rule 5. Branch: the sum over zones of PTDF times flow-based part is at most (100,000 minus LTA share) times
    /// RAM.
    fn branch_rule(&self, hour: &Hour, b: usize, flow_based_parts: &PerZone) -> bool {
        let ptdfs = hour.case.ptdfs(b).zip(flow_based_parts);
        let load: i128 = ptdfs.map(|(ptdf, part)| ptdf * part).sum();
        load <= (ONE - hour.proposal.share()) * hour.case.ram(b)
    }

    /// Rule 6. Zone price: 100,000 times system price plus the sum over branches of PTDF times shadow price.
    fn zone_prices(&self, hour: &Hour) -> PerZone {
        let mut prices = [ONE * hour.proposal.system_price(); MOST_ZONES];
        for b in 0..hour.case.branches {
            let shadow_price = hour.proposal.shadow_price(b);
            for (price, ptdf) in prices.iter_mut().zip(hour.case.ptdfs(b)) {
                *price += ptdf * shadow_price;
            }
        }
        prices
    }

    /// Rule 7. Welfare: 100,000 times the sum of volume times order price, buys positive and sells negative.
    fn welfare(&self, hour: &Hour) -> i128 {
        let worth = |o| {
            let order = hour.case.order(o);
            let worth = hour.proposal.volume(o) * order.price();
            if order.side == BUYS {
                worth
            } else {
                -worth
            }
        };
        ONE * (0..hour.case.orders).map(worth).sum::<i128>()
    }

    /// Rule 8. Order surplus at the zone prices, over all orders.
    fn order_surpluses(&self, hour: &Hour, prices: &PerZone) -> i128 {
        let orders = (0..hour.case.orders).map(|o| hour.case.order(o));
        orders.map(|order| order.surplus(prices[usize::from(order.zone)])).sum()
    }

    /// Rule 9. Branch total: 100,000 times the sum of RAM times shadow price. It may be negative.
    fn branch_total(&self, hour: &Hour) -> i128 {
        let branches = 0..hour.case.branches;
        ONE * branches.map(|b| hour.case.ram(b) * hour.proposal.shadow_price(b)).sum::<i128>()
    }

    /// Rule 9. Owed: the sum over links of volume times (price at "to" minus price at "from"), where positive. S-4:
    /// the volume is the contracted one.
    fn owed(&self, hour: &Hour, prices: &PerZone) -> i128 {
        let links = (0..hour.case.links).map(|l| hour.case.link(l));
        links.map(|link| link.contracted * (prices[link.to] - prices[link.from]).max(0)).sum()
    }

    /// S-4: the same with capacities, which the bound keeps using.
    fn link_total(&self, hour: &Hour, prices: &PerZone) -> i128 {
        let links = (0..hour.case.links).map(|l| hour.case.link(l));
        links.map(|link| link.capacity * (prices[link.to] - prices[link.from]).max(0)).sum()
    }

    /// Rule 10. Bound: all order surpluses plus the larger of branch total and link total. S-6: without links the
    /// branch total alone, even a negative one.
    fn bound(&self, hour: &Hour, prices: &PerZone) -> i128 {
        let branch_total = self.branch_total(hour);
        let larger = match hour.case.links {
            0 => branch_total,
            _ => branch_total.max(self.link_total(hour, prices)),
        };
        self.order_surpluses(hour, prices) + larger
    }

    /// Rule 11. Gap: bound minus welfare.
    fn gap(&self, bound: i128, welfare: i128) -> i128 {
        bound - welfare
    }

    /// Rule 11. Rent: the sum of net position times zone price.
    fn rent(&self, hour: &Hour, prices: &PerZone) -> i128 {
        let net = self.net_positions(hour);
        net.iter().zip(prices).map(|(position, price)| position * price).sum()
    }

    // The causes of the verdict table, in the order in which they are asked.

    fn table(&self) -> Table<Self> {
        verdict_table()
    }

    /// 30: Report buffer under 176 bytes.
    fn report_buffer_is_short(&self, hour: &Hour) -> Option<usize> {
        holds(hour.room < LEAST_BUFFER)
    }

    /// 1: Case shorter than 14 bytes.
    fn case_is_short(&self, hour: &Hour) -> Option<usize> {
        holds(hour.case.bytes.len() < CASE_HEADER)
    }

    /// 2: Mark is not LTC.
    fn case_has_another_mark(&self, hour: &Hour) -> Option<usize> {
        holds(!hour.case.bytes.starts_with(b"LTC"))
    }

    /// 3: Case version is neither 1 nor 2 (S-4).
    fn case_has_another_version(&self, hour: &Hour) -> Option<usize> {
        holds(hour.case.version != 1 && hour.case.version != 2)
    }

    /// 4: Header field outside its range. The index is its offset.
    fn header_field_is_outside(&self, hour: &Hour) -> Option<usize> {
        first_at_fault(&[
            (5, ZONES.contains(&hour.case.zones)),
            (6, BRANCHES.contains(&hour.case.branches)),
            (7, LINKS.contains(&hour.case.links)),
            (8, ORDERS.contains(&hour.case.orders)),
            (10, TOLERANCE.contains(&hour.case.tolerance)),
        ])
    }

    /// 5: Case length is not what the header demands.
    fn case_has_another_length(&self, hour: &Hour) -> Option<usize> {
        holds(hour.case.bytes.len() != hour.case.demanded())
    }

    /// 6: Branch field out of range. S-2: the index of 6, 7, 8 and 14 is the field's offset.
    fn branch_field_is_outside(&self, hour: &Hour) -> Option<usize> {
        (0..hour.case.branches).find_map(|b| self.named_field(&self.branch_fields(&hour.case, b)))
    }

    fn branch_fields(&self, case: &Case, b: usize) -> Vec<Field> {
        let at = case.branch_at(b);
        let margin = (at, RAM.contains(&case.ram(b)));
        let ptdfs = case.ptdfs(b).enumerate();
        let ptdfs = ptdfs.map(|(zone, ptdf)| (at + 4 + 4 * zone, PTDF.contains(&ptdf)));
        std::iter::once(margin).chain(ptdfs).collect()
    }

    /// 7: Link with an unknown zone, equal zones, a capacity out of range, a repeated pair, or more contracted than
    /// its capacity (S-4).
    fn link_is_wrong(&self, hour: &Hour) -> Option<usize> {
        (0..hour.case.links).find_map(|l| self.named_field(&self.link_fields(&hour.case, l)))
    }

    /// S-2: a repeated pair names the later link's first byte, equal zones the second of the two. S-4: a contracted
    /// volume above the capacity names itself; in version 1 the two are equal.
    fn link_fields(&self, case: &Case, l: usize) -> [Field; 4] {
        let (at, link) = (case.link_at(l), case.link(l));
        [
            (at, link.from < case.zones && case.same_pair_before(l).is_none()),
            (at + 1, link.to < case.zones && link.to != link.from),
            (at + 2, CAPACITY.contains(&link.capacity)),
            (at + 6, link.contracted <= link.capacity),
        ]
    }

    /// 8: Order field out of range.
    fn order_field_is_outside(&self, hour: &Hour) -> Option<usize> {
        (0..hour.case.orders).find_map(|o| self.named_field(&self.order_fields(&hour.case, o)))
    }

    fn order_fields(&self, case: &Case, o: usize) -> [Field; 4] {
        let at = case.order_at(o);
        let [zone, side, quantity, price] = case.order(o).fields_in_range(case.zones);
        [(at, zone), (at + 1, side), (at + 2, quantity), (at + 6, price)]
    }

    /// S-2: if several causes hold in one row, the first field in file order is named.
    fn named_field(&self, row: &[Field]) -> Option<usize> {
        first_at_fault(row)
    }

    /// 9: Proposal shorter than 13 bytes.
    fn proposal_is_short(&self, hour: &Hour) -> Option<usize> {
        holds(hour.proposal.bytes.len() < PROPOSAL_HEADER)
    }

    /// 10: Mark is not LTP.
    fn proposal_has_another_mark(&self, hour: &Hour) -> Option<usize> {
        holds(!hour.proposal.bytes.starts_with(b"LTP"))
    }

    /// 11: Proposal version is not 1.
    fn proposal_has_another_version(&self, hour: &Hour) -> Option<usize> {
        holds(u16_at(hour.proposal.bytes, 3) != 1)
    }

    /// 12: Proposal length wrong for this case.
    fn proposal_has_another_length(&self, hour: &Hour) -> Option<usize> {
        holds(hour.proposal.bytes.len() != hour.proposal.demanded())
    }

    /// 13: LTA share above 100,000.
    fn share_is_above_one(&self, hour: &Hour) -> Option<usize> {
        holds(!SHARE.contains(&hour.proposal.share()))
    }

    /// 14: Shadow price above 1,000,000.
    fn shadow_price_is_above(&self, hour: &Hour) -> Option<usize> {
        let mut branches = 0..hour.case.branches;
        let above = branches.find(|&b| !SHADOW_PRICE.contains(&hour.proposal.shadow_price(b)))?;
        Some(hour.proposal.shadow_price_at(above))
    }

    /// 15: Tolerance above 10,000 cents (S-12).
    fn tolerance_is_wide(&self, hour: &Hour) -> Option<usize> {
        holds(hour.case.tolerance > WIDEST_TOLERANCE)
    }

    /// 16: Mark, version or length of the family list is wrong (S-11). Not asked by the entry without a list.
    fn family_list_is_wrong(&self, hour: &Hour) -> Option<usize> {
        holds(!well_formed(hour.list?, hour.case.orders))
    }

    /// 17: A parent does not exist. The index of 17, 18 and 28 is the order.
    fn parent_does_not_exist(&self, hour: &Hour) -> Option<usize> {
        let parents = self.parents(hour)?;
        let unknown = |parent: usize| parent >= hour.case.orders;
        (0..hour.case.orders).find(|&order| parents.named(order).is_some_and(unknown))
    }

    /// 18: An order leads back to itself.
    fn order_leads_back(&self, hour: &Hour) -> Option<usize> {
        let parents = self.parents(hour)?;
        (0..hour.case.orders).find(|&order| parents.leads_back(order))
    }

    /// 21: Volume above the order's quantity.
    fn volume_is_above_quantity(&self, hour: &Hour) -> Option<usize> {
        (0..hour.case.orders).find(|&o| hour.proposal.volume(o) > hour.case.order(o).quantity())
    }

    /// 28: A child's fraction exceeds its parent's. The child is named.
    fn child_is_ahead(&self, hour: &Hour) -> Option<usize> {
        let parents = self.parents(hour)?;
        let ahead = |child: &usize| {
            let parent = parents.parent(*child);
            parent.is_some_and(|parent| self.fraction_exceeds(hour, *child, parent))
        };
        (0..hour.case.orders).find(ahead)
    }

    /// S-11: whether one order's accepted volume over its quantity is above another's.
    fn fraction_exceeds(&self, hour: &Hour, one: usize, other: usize) -> bool {
        let (volume, quantity) = (|o| hour.proposal.volume(o), |o| hour.case.order(o).quantity());
        volume(one) * quantity(other) > volume(other) * quantity(one)
    }

    /// The parents that a lent list names.
    fn parents(&self, hour: &Hour) -> Option<Parents> {
        hour.list.map(|list| Parents::of(list, hour.case.orders))
    }

    /// 22: Balance fails.
    fn balance_fails(&self, hour: &Hour) -> Option<usize> {
        holds(!self.balance(hour))
    }

    /// 27: There is no link and the share is above 0 (S-6).
    fn share_without_link(&self, hour: &Hour) -> Option<usize> {
        holds(hour.case.links == 0 && hour.proposal.share() > 0)
    }

    /// 23: Link rule fails.
    fn link_rule_fails(&self, hour: &Hour) -> Option<usize> {
        (0..hour.case.links).find(|&l| !self.link_rule(hour, l))
    }

    /// 24: Branch rule fails.
    fn branch_rule_fails(&self, hour: &Hour) -> Option<usize> {
        let parts = self.flow_based_parts(hour);
        (0..hour.case.branches).find(|&b| !self.branch_rule(hour, b, &parts))
    }

    /// 25: Zone price under -50,000 or over 400,000 cents.
    fn zone_price_is_outside(&self, hour: &Hour) -> Option<usize> {
        let prices = self.zone_prices(hour);
        (0..hour.case.zones).find(|&zone| !ZONE_PRICE.contains(&prices[zone]))
    }

    /// 26: Gap above tolerance, in microcents.
    fn gap_is_above_tolerance(&self, hour: &Hour) -> Option<usize> {
        let bound = self.bound(hour, &self.zone_prices(hour));
        holds(self.gap(bound, self.welfare(hour)) > MICROCENTS * hour.case.tolerance)
    }

    // The entries.

    /// Judges a proposal for a case.
    fn judge(&self, case: &[u8], proposal: &[u8], report: &mut [u8]) -> Verdict {
        self.judge_hour(case, proposal, None, report)
    }

    /// The same with a family list (S-11).
    fn judge_families(&self, case: &[u8], proposal: &[u8], list: &[u8], report: &mut [u8]) -> Verdict {
        self.judge_hour(case, proposal, Some(list), report)
    }

    /// The first cause of the table that holds, else 0. For 0 and 26 there is a report.
    fn judge_hour(&self, case: &[u8], proposal: &[u8], list: Option<&[u8]>, report: &mut [u8]) -> Verdict {
        let hour = self.hour(case, proposal, list, report.len());
        let verdict = self.first_cause(0..=30, &hour).unwrap_or(Verdict::new(0, 0));
        if verdict.number == 0 || verdict.number == 26 {
            self.write_report(&hour, verdict.number, report);
        }
        verdict
    }

    /// The first cause that holds among those of these numbers.
    fn first_cause(&self, numbers: RangeInclusive<u32>, hour: &Hour) -> Option<Verdict> {
        for (number, cause) in self.table() {
            if numbers.contains(&number) {
                if let Some(index) = cause(self, hour) {
                    return Some(Verdict::new(number, index));
                }
            }
        }
        None
    }

    fn hour<'a>(&self, case: &'a [u8], proposal: &'a [u8], list: Option<&'a [u8]>, room: usize) -> Hour<'a> {
        let case = Case::of(case, |version| self.link_bytes(version));
        let proposal = Proposal { bytes: proposal, orders: case.orders, links: case.links, branches: case.branches };
        Hour { case, proposal, list, room }
    }

    /// S-4: a link of version 2 has its contracted volume after its capacity.
    fn link_bytes(&self, version: u16) -> usize {
        match version {
            2 => 10,
            _ => 6,
        }
    }

    /// Welfare, bound, gap, rent and owed, in the order of the report.
    fn totals(&self, hour: &Hour, prices: &PerZone) -> [i128; REPORT_TOTALS] {
        let (welfare, bound) = (self.welfare(hour), self.bound(hour, prices));
        [welfare, bound, self.gap(bound, welfare), self.rent(hour, prices), self.owed(hour, prices)]
    }

    /// The report: LTR, version 1, number, zones and a zero byte, then the totals, then each zone price. The bytes
    /// past it are left alone.
    fn write_report(&self, hour: &Hour, number: u32, report: &mut [u8]) {
        let prices = self.zone_prices(hour);
        let zones = hour.case.zones;
        report[..REPORT_HEADER].copy_from_slice(&[b'L', b'T', b'R', 1, 0, number as u8, zones as u8, 0]);
        let values = self.totals(hour, &prices).into_iter().chain(prices).take(REPORT_TOTALS + zones);
        for (field, value) in report[REPORT_HEADER..].chunks_exact_mut(REPORT_FIELD).zip(values) {
            let value = i64::try_from(value).expect("every total and price fits 64 bits");
            field.copy_from_slice(&value.to_le_bytes());
        }
    }
}

/// The index of a cause without a place: 0.
pub fn holds(cause: bool) -> Option<usize> {
    cause.then_some(0)
}

fn first_at_fault(fields: &[Field]) -> Option<usize> {
    fields.iter().find(|(_, allowed)| !allowed).map(|(at, _)| *at)
}

/// Judges a proposal for a case; the report is written for 0 and 26 only.
pub fn judge(case: &[u8], proposal: &[u8], report: &mut [u8]) -> Verdict {
    Papers.judge(case, proposal, report)
}

/// The same with a family list (S-11).
pub fn judge_families(case: &[u8], proposal: &[u8], list: &[u8], report: &mut [u8]) -> Verdict {
    Papers.judge_families(case, proposal, list, report)
}

/// A case is readable when none of 1 to 8 holds.
pub fn readable(bytes: &[u8]) -> Result<Case<'_>, Verdict> {
    case_without(1..=8, bytes)
}

/// A header is good when none of 1 to 4 holds.
pub fn with_good_header(bytes: &[u8]) -> Result<Case<'_>, Verdict> {
    case_without(1..=4, bytes)
}

fn case_without(causes: RangeInclusive<u32>, bytes: &[u8]) -> Result<Case<'_>, Verdict> {
    let hour = Papers.hour(bytes, &[], None, 0);
    match Papers.first_cause(causes, &hour) {
        Some(verdict) => Err(verdict),
        None => Ok(hour.case),
    }
}

/// The hour of two files that none of 1 to 14 refuses.
pub fn hour_in_order<'a>(case: &'a [u8], proposal: &'a [u8]) -> Result<Hour<'a>, Verdict> {
    let hour = Papers.hour(case, proposal, None, 0);
    match Papers.first_cause(1..=14, &hour) {
        Some(verdict) => Err(verdict),
        None => Ok(hour),
    }
}
