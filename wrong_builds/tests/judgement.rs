//! The paper's wrong builds and shams, and those of the requests, on hours that distinguish them from the papers.

use paper_hours::{contracted_hour, forced_hour, stored, three_zone_hour, Hour, Link, Stored, EURO};
use second_judge::limits::{LEAST_BUFFER, REPORT_FIELD, REPORT_HEADER};
use second_judge::{judge, judge_families, list_of, Judgement, Papers, Verdict};
use wrong_builds::families::WideAfterList;
use wrong_builds::judgement::*;

// Offsets by hand: P1's branches begin at 14 and 30, its link at 46, its orders at 52, 62, 72, 82 and 92, its shadow
// prices at 37 and 41. P1 of version 2 has its link at 46, the link's contracted volume at 52, and its orders from 56
// on.

fn field(report: &[u8], n: usize) -> i64 {
    let at = REPORT_HEADER + REPORT_FIELD * n;
    i64::from_le_bytes(report[at..at + REPORT_FIELD].try_into().unwrap())
}

fn named(name: &str) -> Stored {
    stored().into_iter().find(|hour| hour.name == name).unwrap()
}

fn run(build: impl Judgement, hour: &Stored) -> (Verdict, [u8; 200]) {
    let mut report = [0xA5; 200];
    let verdict = build.judge(&hour.case, &hour.proposal, &mut report);
    (verdict, report)
}

/// The right verdict and that of a wrong build.
fn told_apart(build: impl Judgement, hour: &Hour, right: (u32, u32), wrong: (u32, u32)) {
    let (case, proposal) = (hour.case(), hour.proposal());
    let given = |verdict: Verdict| (verdict.number, verdict.index);
    assert_eq!(given(judge(&case, &proposal, &mut [0; LEAST_BUFFER])), right);
    assert_eq!(given(build.judge(&case, &proposal, &mut [0; LEAST_BUFFER])), wrong);
}

/// Number, index, bound and owed in euros.
type Outcome = (u32, u32, f64, f64);

/// The right number, index, bound and owed, the totals in whole euros, and those of a wrong build; a refusal has none.
fn told_apart_by_totals(build: impl Judgement, hour: &Hour, right: Outcome, wrong: Outcome) {
    assert_eq!(outcome(Papers, hour), right);
    assert_eq!(outcome(build, hour), wrong);
}

fn outcome(build: impl Judgement, hour: &Hour) -> Outcome {
    let mut report = [0; LEAST_BUFFER];
    let verdict = build.judge(&hour.case(), &hour.proposal(), &mut report);
    let totals = [1, 4].map(|n| field(&report, n) as f64 / EURO as f64);
    (verdict.number, verdict.index, totals[0], totals[1])
}

/// A link that is fully contracted.
fn link(from: u8, to: u8, capacity: u32) -> Link {
    Link { from, to, capacity, contracted: capacity }
}

/// P1 with these links, none of which has a flow.
fn with_links(links: &[(u8, u8, u32)]) -> Hour {
    let link = |&(from, to, capacity): &(u8, u8, u32)| link(from, to, capacity);
    Hour { links: links.iter().map(link).collect(), flows: vec![0; links.len()], ..three_zone_hour() }
}

#[test]
fn row_number_for_the_offset() {
    let mut hour = three_zone_hour();
    hour.shadow_prices[1] = 1_000_001;
    told_apart(RowForOffset, &hour, (14, 41), (14, 1));
    hour.orders[4].price = -50_001;
    told_apart(RowForOffset, &hour, (8, 98), (8, 4));
    hour.links[0].capacity = 100_001;
    told_apart(RowForOffset, &hour, (7, 48), (7, 0));
    hour.branches[1].ptdfs[2] = 200_001;
    told_apart(RowForOffset, &hour, (6, 42), (6, 1));
}

#[test]
fn offset_counted_from_its_part() {
    let mut hour = three_zone_hour();
    hour.shadow_prices[0] = 1_000_001;
    told_apart(OffsetInPart, &hour, (14, 37), (14, 0));
    hour.orders[1].quantity = 0;
    told_apart(OffsetInPart, &hour, (8, 64), (8, 12));
    hour.links[0].to = 3;
    told_apart(OffsetInPart, &hour, (7, 47), (7, 1));
    hour.branches[1].ram = -500_001;
    told_apart(OffsetInPart, &hour, (6, 30), (6, 16));
}

#[test]
fn equal_zones_name_the_first_byte() {
    let hour = with_links(&[(0, 1, 1), (2, 2, 100_001)]);
    told_apart(EqualZonesFirstByte, &hour, (7, 53), (7, 52));
    // Equal and unknown: the from zone alone is at fault.
    let hour = with_links(&[(0, 1, 1), (3, 3, 1)]);
    told_apart(EqualZonesFirstByte, &hour, (7, 52), (7, 52));
}

#[test]
fn repeated_pair_names_the_earlier_link() {
    let hour = with_links(&[(0, 1, 1), (1, 0, 1), (2, 1, 1), (1, 0, 1), (0, 1, 1)]);
    told_apart(PairEarlierLink, &hour, (7, 64), (7, 52));
}

#[test]
fn capacity_named_before_the_pair_that_repeats() {
    let hour = with_links(&[(0, 1, 1), (1, 0, 1), (0, 1, 100_001)]);
    told_apart(LastFieldOfRow, &hour, (7, 58), (7, 60));
    let hour = with_links(&[(0, 3, 100_001)]);
    told_apart(LastFieldOfRow, &hour, (7, 47), (7, 48));
}

#[test]
fn ptdf_named_before_its_margin() {
    let mut hour = three_zone_hour();
    hour.branches[1].ptdfs[1] = -200_001;
    told_apart(PtdfBeforeMargin, &hour, (6, 38), (6, 38));
    hour.branches[1].ram = 500_001;
    told_apart(PtdfBeforeMargin, &hour, (6, 30), (6, 38));
    // Row by row: a PTDF of an earlier branch comes before the margin.
    hour.branches[0].ptdfs[2] = 200_001;
    told_apart(PtdfBeforeMargin, &hour, (6, 26), (6, 26));
    hour.branches[0].ptdfs[0] = 200_001;
    told_apart(LastFieldOfRow, &hour, (6, 18), (6, 26));
}

#[test]
fn price_named_before_the_side() {
    let mut hour = three_zone_hour();
    hour.orders[3].price = 400_001;
    hour.orders[3].side = 2;
    told_apart(LastFieldOfRow, &hour, (8, 83), (8, 88));
    hour.orders[3].zone = 3;
    told_apart(LastFieldOfRow, &hour, (8, 82), (8, 88));
    hour.orders[2].quantity = 100_001;
    told_apart(LastFieldOfRow, &hour, (8, 74), (8, 74));
}

#[test]
fn shadow_price_counted_in_the_case() {
    let mut hour = three_zone_hour();
    hour.shadow_prices = vec![1_000_000, 1_000_001];
    told_apart(ShadowPriceInCase, &hour, (14, 41), (14, 30));
    told_apart(ShadowPriceJoined, &hour, (14, 41), (14, 143));
}

#[test]
fn owed_by_capacity() {
    let hour = contracted_hour();
    let right = (0, 0, 22_125.0, 10_937.5);
    let wrong = (0, 0, 22_125.0, 17_500.0);
    told_apart_by_totals(OwedByCapacity, &hour, right, wrong);
}

#[test]
fn bound_by_contracted_volumes() {
    // P3 with nothing contracted: the bound still has the 18,000 euros that the link's capacity would earn, so P3's
    // gap of 3,000 shows.
    let mut hour = contracted_hour();
    let p3 = named("P3").proposal;
    hour.share = 0;
    hour.system_price = 2_000;
    hour.volumes = vec![4_000, 500, 1_000, 0, 3_500];
    hour.flows = vec![0];
    hour.shadow_prices = vec![6_000, 0];
    assert_eq!(hour.proposal(), p3);
    hour.links[0].contracted = 0;
    let (right, wrong) = ((26, 0, 22_500.0, 0.0), (0, 0, 19_500.0, 0.0));
    told_apart_by_totals(BoundByContracted, &hour, right, wrong);
}

#[test]
fn flow_limited_to_what_is_contracted() {
    told_apart(LinkRuleByContracted, &contracted_hour(), (0, 0), (23, 0));
}

#[test]
fn contracted_read_in_version_1() {
    told_apart(VersionOneWide, &three_zone_hour(), (0, 0), (5, 0));
    // The first order's bytes 00 01 a0 0f as a volume: over 100,000 tenths.
    let right = (0, 0, 22_125.0, 17_500.0);
    let wrong = (0, 0, 22_125.0, 100_000.0 * 4.375);
    told_apart_by_totals(ContractedPastTheLink, &three_zone_hour(), right, wrong);
}

#[test]
fn version_2_read_with_links_of_six_bytes() {
    told_apart(VersionTwoNarrow, &contracted_hour(), (0, 0), (5, 0));
    // Without a link the two layouts are the same.
    let mut hour = contracted_hour();
    (hour.links, hour.flows, hour.share) = (vec![], vec![], 0);
    hour.volumes = vec![0; 5];
    told_apart(VersionTwoNarrow, &hour, (26, 0), (26, 0));
}

#[test]
fn another_version_taken() {
    let hour = contracted_hour();
    for version in [0u16, 3, 4, 256, 257, 258, 512, 513, 65_535] {
        let mut case = hour.case();
        case[3..5].copy_from_slice(&version.to_le_bytes());
        let proposal = hour.proposal();
        assert_eq!(judge(&case, &proposal, &mut [0; LEAST_BUFFER]).number, 3);
        let taken = VersionThreeTaken.judge(&case, &proposal, &mut [0; LEAST_BUFFER]).number;
        assert_eq!(taken, if version == 3 { 0 } else { 3 }, "version {version}");
    }
}

#[test]
fn contracted_equal_to_capacity_refused() {
    let mut hour = contracted_hour();
    hour.links[0].contracted = 4_000;
    told_apart(ContractedEqualRefused, &hour, (0, 0), (7, 52));
    // Nothing is offered and nothing bought.
    let mut hour = contracted_hour();
    hour.links.push(link(1, 0, 0));
    hour.flows.push(0);
    told_apart(ContractedEqualRefused, &hour, (0, 0), (7, 62));
}

#[test]
fn contracted_above_capacity_named_by_its_own_field() {
    let mut hour = contracted_hour();
    hour.links[0].contracted = 4_001;
    told_apart(ContractedToItsOwnLimit, &hour, (7, 52), (0, 0));
    told_apart(ContractedNamesCapacity, &hour, (7, 52), (7, 48));
    hour.links[0].contracted = u32::MAX;
    told_apart(ContractedNamesCapacity, &hour, (7, 52), (7, 48));
    // In the second link, behind a good first one.
    hour.links[0].contracted = 4_000;
    hour.links.push(Link { contracted: 1, ..link(1, 0, 0) });
    hour.flows.push(0);
    told_apart(RowForOffset, &hour, (7, 62), (7, 1));
    told_apart(OffsetInPart, &hour, (7, 62), (7, 16));
}

#[test]
fn contracted_named_before_the_capacity() {
    let mut hour = contracted_hour();
    (hour.links[0].capacity, hour.links[0].contracted) = (100_001, 100_002);
    told_apart(ContractedBeforeCapacity, &hour, (7, 48), (7, 52));
    told_apart(LastFieldOfRow, &hour, (7, 48), (7, 52));
    hour.links[0].to = 0;
    told_apart(LastFieldOfRow, &hour, (7, 47), (7, 52));
    // Within a capacity that is out of range: nothing else is at fault.
    hour.links[0].contracted = 100_001;
    told_apart(LastFieldOfRow, &hour, (7, 47), (7, 48));
}

#[test]
fn share_without_links_accepted() {
    let mut hour = forced_hour();
    hour.share = 100_000;
    hour.volumes = vec![0, 0];
    told_apart(ShareNotAsked, &hour, (27, 0), (0, 0));
}

#[test]
fn share_asked_before_the_balance() {
    let mut hour = forced_hour();
    hour.share = 1;
    hour.volumes[1] = 999;
    told_apart(ShareBeforeBalance, &hour, (22, 0), (27, 0));
}

#[test]
fn share_asked_after_the_branches() {
    let mut hour = forced_hour();
    hour.share = 1;
    hour.branches[0].ram = -1_001;
    told_apart(ShareAfterBranches, &hour, (27, 0), (24, 0));
    hour.share = 0;
    told_apart(ShareAfterBranches, &hour, (24, 0), (24, 0));
}

#[test]
fn share_refused_with_a_link() {
    told_apart(ShareWithLink, &three_zone_hour(), (0, 0), (27, 0));
}

#[test]
fn larger_of_the_totals_without_links() {
    let (right, wrong) = ((0, 0, -1_000.0, 0.0), (26, 0, 0.0, 0.0));
    told_apart_by_totals(LargerWithoutLinks, &forced_hour(), right, wrong);
    told_apart_by_totals(NegativeTotalAsZero, &forced_hour(), right, wrong);
}

#[test]
fn a_link_brings_back_the_zero_exchange() {
    // A link of no capacity: an LTA domain with only the zero exchange.
    let mut hour = forced_hour();
    hour.links = vec![link(0, 1, 0)];
    hour.flows = vec![0];
    let right = (26, 0, 0.0, 0.0);
    told_apart_by_totals(LargerWithoutLinks, &hour, right, right);
    hour.share = 100_000;
    hour.volumes = vec![0, 0];
    told_apart(ShareNotAsked, &hour, (0, 0), (0, 0));
}

/// Two zones with the spread of one link positive and of the other negative.
fn two_way_hour() -> Stored {
    let p1 = three_zone_hour();
    let hour =
        Hour { tolerance: 10_000, links: vec![link(0, 1, 4_000), link(1, 0, 1_000)], flows: vec![3_500, 0], ..p1 };
    let (case, proposal) = (hour.case(), hour.proposal());
    Stored { name: "two ways", case, proposal, ..named("P10") }
}

#[test]
fn wrong_builds_do_what_the_paper_says_of_them() {
    let (p1, p3, p8, p9) = (named("P1"), named("P3"), named("P8"), named("P9"));
    let (_, report) = run(ExportPositive, &p1);
    assert_eq!(field(&report, 3), -17_500 * EURO);
    assert_ne!(run(ExportPositive, &p9).0.number, 24);
    assert_eq!(run(CapacityWithoutShare, &p8).0.number, 0);
    assert_eq!(run(BranchTotalAlone, &p3).0.number, 0);
    assert_eq!(run(SmallerTotal, &p3).0.number, 0);
    assert_eq!(run(RamNeverNegative, &named("P12, share 0")).0.number, 0);

    let two = two_way_hour();
    assert_eq!(field(&run(Papers, &two).1, 4), 17_500 * EURO);
    assert_eq!(field(&run(SpreadsNetted, &two).1, 4), 13_125 * EURO);
}

#[test]
fn shams_are_found_where_the_paper_says() {
    let (p1, p3) = (named("P1"), named("P3"));
    assert_eq!(run(AlwaysOverTolerance, &p1).0.number, 26);
    assert_eq!(run(AcceptsWithZeroTotals, &p3).0.number, 0);
    assert_eq!(run(ReportUntouched, &p1), (Verdict { number: 0, index: 0 }, [0xA5; 200]));
}

/// As `told_apart`; and the report is written for 0 and 26 alone.
fn told(build: impl Judgement, hour: &Hour, right: (u32, u32), wrong: (u32, u32)) {
    let reported = |build: &dyn Fn(&mut [u8]) -> Verdict, due: (u32, u32)| {
        let mut report = [0xA5; 200];
        let verdict = build(&mut report);
        assert_eq!((verdict.number, verdict.index), due);
        assert_eq!(report != [0xA5; 200], due.0 == 0 || due.0 == 26);
    };
    let (case, proposal) = (hour.case(), hour.proposal());
    reported(&|report| judge(&case, &proposal, report), right);
    reported(&|report| build.judge(&case, &proposal, report), wrong);
}

#[test]
fn wide_tolerances_are_read_and_not_judged() {
    let p1 = three_zone_hour();
    let at = |tolerance| Hour { tolerance, ..p1.clone() };
    told(WideAtTheLimit, &at(10_000), (0, 0), (15, 0));
    told(WideNotAsked, &at(10_001), (15, 0), (0, 0));
    told(WideInHeader, &at(10_001), (15, 0), (4, 10));
    told(WideInHeader, &at(1_000_000_000), (15, 0), (4, 10));
    told(WideNotAsked, &at(1_000_000_001), (4, 10), (4, 10));
    told(WideInMicrocents, &at(1), (0, 0), (15, 0));
    told(WideInMicrocents, &at(0), (0, 0), (0, 0));
    let mut hour = at(10_001);
    hour.shadow_prices[1] = 1_000_001;
    told(WideBeforeShadowPrices, &hour, (14, 41), (15, 0));
    hour.share = 100_001;
    told(WideBeforeShadowPrices, &hour, (13, 0), (13, 0));
    let mut hour = at(10_001);
    hour.volumes[1] = 6_001;
    told(WideAfterVolumes, &hour, (15, 0), (21, 1));
    // With a list it is asked before 16.
    let (case, proposal) = (at(10_001).case(), p1.proposal());
    let report = &mut [0; LEAST_BUFFER];
    assert_eq!(judge_families(&case, &proposal, &[], report).number, 15);
    assert_eq!(WideAfterList.judge_families(&case, &proposal, &[], report).number, 16);
    assert_eq!(WideNotAsked.judge_families(&case, &proposal, &list_of(&[None; 5]), report).number, 0);
}

#[test]
fn the_papers_nine_come_first() {
    let names: Vec<&str> = BUILDS[..9].iter().map(|(_, name)| *name).collect();
    assert_eq!(names[..6].iter().filter(|name| name.starts_with("sham")).count(), 0);
    assert!(names[6..].iter().all(|name| name.starts_with("sham: ")));
}
