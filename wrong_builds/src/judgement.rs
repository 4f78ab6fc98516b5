//! Wrong judgements: the paper's six builds that pass stored hours and its three shams, then those of the requests.

use second_judge::files::{u32_at, Case, Hour};
use second_judge::judgement::{holds, verdict_table, Cause, Field, PerZone, Table};
use second_judge::limits::*;
use second_judge::{Judgement, Papers, Verdict};

/// A build's entry without a family list.
pub type Judge = fn(&[u8], &[u8], &mut [u8]) -> Verdict;

/// Every wrong build, with its name.
pub static BUILDS: [(Judge, &str); 41] = [
    // The paper's.
    (|c, p, r| ExportPositive.judge(c, p, r), "export counted positive"),
    (|c, p, r| CapacityWithoutShare.judge(c, p, r), "capacity without the share"),
    (|c, p, r| BranchTotalAlone.judge(c, p, r), "branch total alone"),
    (|c, p, r| SmallerTotal.judge(c, p, r), "smaller of the two totals"),
    (|c, p, r| SpreadsNetted.judge(c, p, r), "negative spreads netted"),
    (|c, p, r| RamNeverNegative.judge(c, p, r), "RAM never negative"),
    (|c, p, r| AlwaysOverTolerance.judge(c, p, r), "sham: 26 to every hour"),
    (|c, p, r| AcceptsWithZeroTotals.judge(c, p, r), "sham: accepts, zero totals"),
    (|c, p, r| ReportUntouched.judge(c, p, r), "sham: report untouched"),
    // S-2's: the right number, and another place.
    (|c, p, r| RowForOffset.judge(c, p, r), "row's number for the offset"),
    (|c, p, r| OffsetInPart.judge(c, p, r), "offset counted from its part"),
    (|c, p, r| EqualZonesFirstByte.judge(c, p, r), "equal zones: first byte"),
    (|c, p, r| PairEarlierLink.judge(c, p, r), "repeated pair: earlier link"),
    (|c, p, r| PtdfBeforeMargin.judge(c, p, r), "PTDF before its margin"),
    (|c, p, r| LastFieldOfRow.judge(c, p, r), "last field at fault of a row"),
    (|c, p, r| ShadowPriceInCase.judge(c, p, r), "14: the branch in the case"),
    (|c, p, r| ShadowPriceJoined.judge(c, p, r), "14: offset in the joined file"),
    // S-4's: owed and bound, how the versions are read, which contracted volumes are refused.
    (|c, p, r| OwedByCapacity.judge(c, p, r), "owed by capacity"),
    (|c, p, r| BoundByContracted.judge(c, p, r), "bound by contracted volumes"),
    (|c, p, r| LinkRuleByContracted.judge(c, p, r), "link rule by contracted"),
    (|c, p, r| VersionOneWide.judge(c, p, r), "version 1: contracted read"),
    (|c, p, r| ContractedPastTheLink.judge(c, p, r), "version 1: the bytes behind"),
    (|c, p, r| VersionTwoNarrow.judge(c, p, r), "version 2: links of six bytes"),
    (|c, p, r| VersionThreeTaken.judge(c, p, r), "version 3 taken"),
    (|c, p, r| ContractedEqualRefused.judge(c, p, r), "contracted, equal: refused"),
    (|c, p, r| ContractedToItsOwnLimit.judge(c, p, r), "contracted up to 100,000"),
    (|c, p, r| ContractedNamesCapacity.judge(c, p, r), "contracted: capacity named"),
    (|c, p, r| ContractedBeforeCapacity.judge(c, p, r), "contracted before capacity"),
    // S-6's. No hour can show that 27 is asked before 23: without links 23 has no place.
    (|c, p, r| ShareNotAsked.judge(c, p, r), "27 not asked"),
    (|c, p, r| ShareBeforeBalance.judge(c, p, r), "27 before 22"),
    (|c, p, r| ShareAfterBranches.judge(c, p, r), "27 after 24"),
    (|c, p, r| ShareWithLink.judge(c, p, r), "27 also with a link"),
    (|c, p, r| LargerWithoutLinks.judge(c, p, r), "no link: the larger-of kept"),
    (|c, p, r| NegativeTotalAsZero.judge(c, p, r), "no link: zero for a negative"),
    // S-11's.
    (|c, p, r| FamiliesAsked.judge(c, p, r), "families without a list"),
    // S-12's.
    (|c, p, r| WideInHeader.judge(c, p, r), "15 asked in row 4"),
    (|c, p, r| WideAtTheLimit.judge(c, p, r), "15: 10,000 itself refused"),
    (|c, p, r| WideBeforeShadowPrices.judge(c, p, r), "15 before 14"),
    (|c, p, r| WideAfterVolumes.judge(c, p, r), "15 after 21"),
    (|c, p, r| WideInMicrocents.judge(c, p, r), "15 compared in microcents"),
    (|c, p, r| WideNotAsked.judge(c, p, r), "15 not asked"),
];

/// The verdict table with a row moved before or after another.
pub fn asked_before<J: Judgement>(number: u32, other: u32) -> Table<J> {
    moved(number, other, 0)
}

pub fn asked_after<J: Judgement>(number: u32, other: u32) -> Table<J> {
    moved(number, other, 1)
}

fn moved<J: Judgement>(number: u32, other: u32, behind: usize) -> Table<J> {
    let mut rows = verdict_table::<J>().to_vec();
    let place = |rows: &[(u32, Cause<J>)], number| rows.iter().position(|row| row.0 == number).expect("in the table");
    let row = rows.remove(place(&rows, number));
    rows.insert(place(&rows, other) + behind, row);
    rows.try_into().expect("as many rows")
}

// The paper's.

pub struct ExportPositive;
impl Judgement for ExportPositive {
    fn net_positions(&self, hour: &Hour) -> PerZone {
        Papers.net_positions(hour).map(|position| -position)
    }
}

pub struct CapacityWithoutShare;
impl Judgement for CapacityWithoutShare {
    fn link_rule(&self, hour: &Hour, l: usize) -> bool {
        hour.proposal.flow(l) <= hour.case.link(l).capacity
    }
}

pub struct BranchTotalAlone;
impl Judgement for BranchTotalAlone {
    fn bound(&self, hour: &Hour, prices: &PerZone) -> i128 {
        self.order_surpluses(hour, prices) + self.branch_total(hour)
    }
}

pub struct SmallerTotal;
impl Judgement for SmallerTotal {
    fn bound(&self, hour: &Hour, prices: &PerZone) -> i128 {
        let smaller = match hour.case.links {
            0 => self.branch_total(hour),
            _ => self.branch_total(hour).min(self.link_total(hour, prices)),
        };
        self.order_surpluses(hour, prices) + smaller
    }
}

/// The net sum is cut at zero, which is harder to find than a negative one.
pub struct SpreadsNetted;
impl SpreadsNetted {
    fn netted(hour: &Hour, prices: &PerZone, volume: impl Fn(usize) -> i128) -> i128 {
        let spread = |l| prices[hour.case.link(l).to] - prices[hour.case.link(l).from];
        (0..hour.case.links).map(|l| volume(l) * spread(l)).sum::<i128>().max(0)
    }
}
impl Judgement for SpreadsNetted {
    fn owed(&self, hour: &Hour, prices: &PerZone) -> i128 {
        SpreadsNetted::netted(hour, prices, |l| hour.case.link(l).contracted)
    }
    fn link_total(&self, hour: &Hour, prices: &PerZone) -> i128 {
        SpreadsNetted::netted(hour, prices, |l| hour.case.link(l).capacity)
    }
}

pub struct RamNeverNegative;
impl Judgement for RamNeverNegative {
    fn branch_rule(&self, hour: &Hour, b: usize, flow_based_parts: &PerZone) -> bool {
        let load: i128 = hour.case.ptdfs(b).zip(flow_based_parts).map(|(ptdf, part)| ptdf * part).sum();
        load <= (ONE - hour.proposal.share()) * hour.case.ram(b).max(0)
    }
    fn branch_total(&self, hour: &Hour) -> i128 {
        ONE * (0..hour.case.branches).map(|b| hour.case.ram(b).max(0) * hour.proposal.shadow_price(b)).sum::<i128>()
    }
}

// The shams refuse by 1 to 25 and 30 correctly, so only an hour that passes these can find them.

pub struct AlwaysOverTolerance;
impl Judgement for AlwaysOverTolerance {
    fn gap_is_above_tolerance(&self, _hour: &Hour) -> Option<usize> {
        Some(0)
    }
}

pub struct AcceptsWithZeroTotals;
impl Judgement for AcceptsWithZeroTotals {
    fn gap_is_above_tolerance(&self, _hour: &Hour) -> Option<usize> {
        None
    }
    fn totals(&self, _hour: &Hour, _prices: &PerZone) -> [i128; REPORT_TOTALS] {
        [0; REPORT_TOTALS]
    }
}

pub struct ReportUntouched;
impl Judgement for ReportUntouched {
    fn write_report(&self, _hour: &Hour, _number: u32, _report: &mut [u8]) {}
}

// S-2's.

/// Overrides the index of 6, 7, 8 and 14: part begin, bytes of a row, offset.
macro_rules! index_of_rows {
    ($build:ident, $index:expr) => {
        impl Judgement for $build {
            fn branch_field_is_outside(&self, hour: &Hour) -> Option<usize> {
                let (start, bytes) = (hour.case.branch_at(0), hour.case.branch_bytes());
                Papers.branch_field_is_outside(hour).map(|at| $index(at - start, bytes))
            }
            fn link_is_wrong(&self, hour: &Hour) -> Option<usize> {
                let (start, bytes) = (hour.case.link_at(0), hour.case.link_bytes);
                Papers.link_is_wrong(hour).map(|at| $index(at - start, bytes))
            }
            fn order_field_is_outside(&self, hour: &Hour) -> Option<usize> {
                let (start, bytes) = (hour.case.order_at(0), ORDER_BYTES);
                Papers.order_field_is_outside(hour).map(|at| $index(at - start, bytes))
            }
            fn shadow_price_is_above(&self, hour: &Hour) -> Option<usize> {
                let start = hour.proposal.shadow_price_at(0);
                Papers.shadow_price_is_above(hour).map(|at| $index(at - start, 4))
            }
        }
    };
}

pub struct RowForOffset;
index_of_rows!(RowForOffset, |in_part, row_bytes| in_part / row_bytes);

pub struct OffsetInPart;
index_of_rows!(OffsetInPart, |in_part, _row_bytes| in_part);

pub struct EqualZonesFirstByte;
impl Judgement for EqualZonesFirstByte {
    fn link_fields(&self, case: &Case, l: usize) -> [Field; 4] {
        let mut fields = Papers.link_fields(case, l);
        fields[0].1 &= case.link(l).from != case.link(l).to;
        fields
    }
}

pub struct PairEarlierLink;
impl Judgement for PairEarlierLink {
    fn link_fields(&self, case: &Case, l: usize) -> [Field; 4] {
        let mut fields = Papers.link_fields(case, l);
        if let Some(earlier) = case.same_pair_before(l) {
            fields[0].0 = case.link_at(earlier);
        }
        fields
    }
}

pub struct PtdfBeforeMargin;
impl Judgement for PtdfBeforeMargin {
    fn branch_fields(&self, case: &Case, b: usize) -> Vec<Field> {
        let mut fields = Papers.branch_fields(case, b);
        fields.rotate_left(1);
        fields
    }
}

pub struct LastFieldOfRow;
impl Judgement for LastFieldOfRow {
    fn named_field(&self, row: &[Field]) -> Option<usize> {
        row.iter().rfind(|(_, allowed)| !allowed).map(|(at, _)| *at)
    }
}

pub struct ShadowPriceInCase;
impl Judgement for ShadowPriceInCase {
    fn shadow_price_is_above(&self, hour: &Hour) -> Option<usize> {
        let at = Papers.shadow_price_is_above(hour)?;
        Some(hour.case.branch_at((at - hour.proposal.shadow_price_at(0)) / 4))
    }
}

pub struct ShadowPriceJoined;
impl Judgement for ShadowPriceJoined {
    fn shadow_price_is_above(&self, hour: &Hour) -> Option<usize> {
        Papers.shadow_price_is_above(hour).map(|at| hour.case.demanded() + at)
    }
}

// S-4's.

pub struct OwedByCapacity;
impl Judgement for OwedByCapacity {
    fn owed(&self, hour: &Hour, prices: &PerZone) -> i128 {
        Papers.link_total(hour, prices)
    }
}

pub struct BoundByContracted;
impl Judgement for BoundByContracted {
    fn link_total(&self, hour: &Hour, prices: &PerZone) -> i128 {
        Papers.owed(hour, prices)
    }
}

pub struct LinkRuleByContracted;
impl Judgement for LinkRuleByContracted {
    fn link_rule(&self, hour: &Hour, l: usize) -> bool {
        ONE * hour.proposal.flow(l) <= hour.proposal.share() * hour.case.link(l).contracted
    }
}

pub struct VersionOneWide;
impl Judgement for VersionOneWide {
    fn link_bytes(&self, _version: u16) -> usize {
        10
    }
}

/// Takes the four bytes after a link's capacity as contracted, whatever they are.
pub struct ContractedPastTheLink;
impl Judgement for ContractedPastTheLink {
    fn owed(&self, hour: &Hour, prices: &PerZone) -> i128 {
        let behind = |l| {
            let at = hour.case.link_at(l) + 6;
            hour.case.bytes.get(at..at + 4).map_or(0, |field| i128::from(u32_at(field, 0)).min(*CAPACITY.end()))
        };
        let spread = |l| prices[hour.case.link(l).to] - prices[hour.case.link(l).from];
        (0..hour.case.links).map(|l| behind(l) * spread(l).max(0)).sum()
    }
}

pub struct VersionTwoNarrow;
impl Judgement for VersionTwoNarrow {
    fn link_bytes(&self, _version: u16) -> usize {
        6
    }
}

pub struct VersionThreeTaken;
impl Judgement for VersionThreeTaken {
    fn case_has_another_version(&self, hour: &Hour) -> Option<usize> {
        holds(!(1..=3).contains(&hour.case.version))
    }
    fn link_bytes(&self, version: u16) -> usize {
        Papers.link_bytes(version.min(2))
    }
}

pub struct ContractedEqualRefused;
impl Judgement for ContractedEqualRefused {
    fn link_fields(&self, case: &Case, l: usize) -> [Field; 4] {
        let mut fields = Papers.link_fields(case, l);
        let link = case.link(l);
        fields[3].1 = case.link_bytes == 6 || link.contracted < link.capacity;
        fields
    }
}

pub struct ContractedToItsOwnLimit;
impl Judgement for ContractedToItsOwnLimit {
    fn link_fields(&self, case: &Case, l: usize) -> [Field; 4] {
        let mut fields = Papers.link_fields(case, l);
        fields[3].1 = CAPACITY.contains(&case.link(l).contracted);
        fields
    }
}

pub struct ContractedNamesCapacity;
impl Judgement for ContractedNamesCapacity {
    fn link_fields(&self, case: &Case, l: usize) -> [Field; 4] {
        let mut fields = Papers.link_fields(case, l);
        fields[3].0 = fields[2].0;
        fields
    }
}

pub struct ContractedBeforeCapacity;
impl Judgement for ContractedBeforeCapacity {
    fn link_fields(&self, case: &Case, l: usize) -> [Field; 4] {
        let mut fields = Papers.link_fields(case, l);
        fields.swap(2, 3);
        fields
    }
}

// S-6's.

pub struct ShareNotAsked;
impl Judgement for ShareNotAsked {
    fn share_without_link(&self, _hour: &Hour) -> Option<usize> {
        None
    }
}

pub struct ShareBeforeBalance;
impl Judgement for ShareBeforeBalance {
    fn table(&self) -> Table<Self> {
        asked_before(27, 22)
    }
}

pub struct ShareAfterBranches;
impl Judgement for ShareAfterBranches {
    fn table(&self) -> Table<Self> {
        asked_after(27, 24)
    }
}

pub struct ShareWithLink;
impl Judgement for ShareWithLink {
    fn share_without_link(&self, hour: &Hour) -> Option<usize> {
        holds(hour.proposal.share() > 0)
    }
}

pub struct LargerWithoutLinks;
impl Judgement for LargerWithoutLinks {
    fn bound(&self, hour: &Hour, prices: &PerZone) -> i128 {
        self.order_surpluses(hour, prices) + self.branch_total(hour).max(self.link_total(hour, prices))
    }
}

pub struct NegativeTotalAsZero;
impl Judgement for NegativeTotalAsZero {
    fn bound(&self, hour: &Hour, prices: &PerZone) -> i128 {
        match hour.case.links {
            0 => self.order_surpluses(hour, prices) + self.branch_total(hour).max(0),
            _ => Papers.bound(hour, prices),
        }
    }
}

// S-11's.

/// Asks for a list where none is lent, as if it were empty.
pub struct FamiliesAsked;
impl Judgement for FamiliesAsked {
    fn judge(&self, case: &[u8], proposal: &[u8], report: &mut [u8]) -> Verdict {
        self.judge_families(case, proposal, &[], report)
    }
}

// S-12's.

pub struct WideInHeader;
impl Judgement for WideInHeader {
    fn header_field_is_outside(&self, hour: &Hour) -> Option<usize> {
        let wide = (hour.case.tolerance > WIDEST_TOLERANCE).then_some(10);
        Papers.header_field_is_outside(hour).or(wide)
    }
}

pub struct WideAtTheLimit;
impl Judgement for WideAtTheLimit {
    fn tolerance_is_wide(&self, hour: &Hour) -> Option<usize> {
        holds(hour.case.tolerance >= WIDEST_TOLERANCE)
    }
}

pub struct WideBeforeShadowPrices;
impl Judgement for WideBeforeShadowPrices {
    fn table(&self) -> Table<Self> {
        asked_before(15, 14)
    }
}

pub struct WideAfterVolumes;
impl Judgement for WideAfterVolumes {
    fn table(&self) -> Table<Self> {
        asked_after(15, 21)
    }
}

pub struct WideInMicrocents;
impl Judgement for WideInMicrocents {
    fn tolerance_is_wide(&self, hour: &Hour) -> Option<usize> {
        holds(MICROCENTS * hour.case.tolerance > WIDEST_TOLERANCE)
    }
}

pub struct WideNotAsked;
impl Judgement for WideNotAsked {
    fn tolerance_is_wide(&self, _hour: &Hour) -> Option<usize> {
        None
    }
}
