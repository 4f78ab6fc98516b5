//! The paper's stored hours value by value, refusals in their order, and the two case versions.

use paper_hours::{contracted_hour, stored, three_zone_hour, Branch, Hour, Link, Stored};
use second_judge::limits::{LEAST_BUFFER, REPORT_FIELD, REPORT_HEADER, REPORT_TOTALS};
use second_judge::*;

fn field(report: &[u8], n: usize) -> i64 {
    let at = REPORT_HEADER + REPORT_FIELD * n;
    i64::from_le_bytes(report[at..at + REPORT_FIELD].try_into().unwrap())
}

fn named(name: &str) -> Stored {
    stored().into_iter().find(|hour| hour.name == name).unwrap()
}

#[test]
fn stored_hours_have_their_verdicts_totals_and_prices() {
    for hour in stored() {
        let mut report = [0xA5; 200];
        let verdict = judge(&hour.case, &hour.proposal, &mut report);
        let name = hour.name;
        assert_eq!(verdict, Verdict { number: hour.number, index: hour.index }, "{name}");
        if hour.number != 0 && hour.number != 26 {
            assert_eq!(report, [0xA5; 200], "{name}");
            continue;
        }
        let zones = hour.case[5];
        assert_eq!(report[..REPORT_HEADER], [b'L', b'T', b'R', 1, 0, hour.number as u8, zones, 0], "{name}");
        for (n, total) in hour.totals.in_order().into_iter().enumerate() {
            if let Some(total) = total {
                assert_eq!(field(&report, n), total, "{name}, total {n}");
            }
        }
        for (z, price) in hour.prices.iter().enumerate() {
            assert_eq!(field(&report, REPORT_TOTALS + z), *price, "{name}, zone {z}");
        }
        assert!(
            report[REPORT_HEADER + REPORT_FIELD * (REPORT_TOTALS + usize::from(zones))..]
                .iter()
                .all(|byte| *byte == 0xA5),
            "{name}"
        );
    }
}

#[test]
fn three_zone_hour_is_the_bytes_by_hand() {
    let hour = three_zone_hour();
    let (case, proposal) = (hour.case(), hour.proposal());
    assert_eq!((case.len(), proposal.len()), (102, 45));
    assert_eq!(case[..14], [b'L', b'T', b'C', 1, 0, 3, 2, 1, 5, 0, 0, 0, 0, 0]);
    assert_eq!(case[14..18], 2_500i32.to_le_bytes());
    assert_eq!(case[46..52], [0, 1, 0xA0, 0x0F, 0, 0]);
    assert_eq!(case[52..62], [0, 1, 0xA0, 0x0F, 0, 0, 0xE8, 3, 0, 0]);
    assert_eq!(proposal[..13], [b'L', b'T', b'P', 1, 0, 0xCC, 0x55, 1, 0, 0xCA, 8, 0, 0]);
}

#[test]
fn buffer_is_asked_first() {
    let hour = named("P1");
    for length in [0, 1, 72, LEAST_BUFFER - 1] {
        let mut report = vec![7; length];
        for case in [&hour.case[..], &[]] {
            let verdict = judge(case, &hour.proposal, &mut report);
            assert_eq!(verdict, Verdict { number: 30, index: 0 });
        }
        assert!(report.iter().all(|byte| *byte == 7));
    }
    // The whole length counts, not the length of this report.
    assert_eq!(judge(&hour.case, &hour.proposal, &mut [7; LEAST_BUFFER]).number, 0);
}

#[test]
fn header_refusals_have_their_numbers_and_offsets() {
    let hour = named("P1");
    let with = |at: usize, value: u8| {
        let mut case = hour.case.clone();
        case[at] = value;
        judge(&case, &hour.proposal, &mut [0; LEAST_BUFFER])
    };
    for (at, value, number, index) in [
        (0, b'l', 2, 0),
        (2, 0, 2, 0),
        (3, 0, 3, 0),
        (3, 3, 3, 0),
        (4, 1, 3, 0),
        (5, 0, 4, 5),
        (5, 17, 4, 5),
        (6, 65, 4, 6),
        (7, 65, 4, 7),
        (9, 3, 4, 8),
        (13, 255, 4, 10),
        (5, 4, 5, 0),
        (17, 0x7F, 6, 14),
        (33, 0x7F, 6, 30),
        (46, 3, 7, 46),
        (46, 1, 7, 47),
        (51, 1, 7, 48),
        (52, 3, 8, 52),
        (53, 2, 8, 53),
        (97, 1, 8, 94),
    ] {
        assert_eq!(with(at, value), Verdict { number, index }, "byte {at} as {value}");
    }
}

#[test]
fn repeated_pair_is_sought_among_all_earlier_links() {
    let mut hour = three_zone_hour();
    let link = |from, to| Link { from, to, capacity: 1, contracted: 1 };
    hour.links = vec![link(0, 1), link(1, 0), link(2, 1), link(0, 1)];
    hour.flows = vec![0; 4];
    let verdict = judge(&hour.case(), &hour.proposal(), &mut [0; LEAST_BUFFER]);
    assert_eq!(verdict, Verdict { number: 7, index: 64 });
}

#[test]
fn smallest_number_goes_before_smallest_index() {
    let mut hour = three_zone_hour();
    hour.shadow_prices[1] = 1_000_001;
    hour.share = 100_001;
    hour.orders[4].quantity = 0;
    hour.orders[2].price = 400_001;
    let verdict = judge(&hour.case(), &hour.proposal(), &mut [0; LEAST_BUFFER]);
    assert_eq!(verdict, Verdict { number: 8, index: 78 });
}

/// A link that is fully contracted.
fn link(from: u8, to: u8, capacity: u32) -> Link {
    Link { from, to, capacity, contracted: capacity }
}

#[test]
fn offset_cut_to_eight_bits() {
    let mut hour = three_zone_hour();
    hour.orders = vec![hour.orders[0]; 512];
    hour.volumes = vec![0; 512];
    hour.shadow_prices[1] = 1_000_001;
    let verdict = judge(&hour.case(), &hour.proposal(), &mut [0; LEAST_BUFFER]);
    assert_eq!((verdict.number, verdict.index), (14, 2_069));
    hour.orders[511].price = 400_001;
    let verdict = judge(&hour.case(), &hour.proposal(), &mut [0; LEAST_BUFFER]);
    assert_eq!((verdict.number, verdict.index), (8, 5_168));
    let lines = desk_lines(&[hour.case(), hour.proposal()].concat());
    assert_eq!(lines, b"verdict 8 5168\n");
}

#[test]
fn version_1_is_version_2_with_all_contracted() {
    for stored in stored() {
        let Some(wide) = all_contracted(&stored.case) else {
            continue;
        };
        let reports = [&stored.case, &wide].map(|case| {
            let mut report = [0xA5; LEAST_BUFFER];
            let verdict = judge(case, &stored.proposal, &mut report);
            (verdict, report)
        });
        assert_eq!(reports[0], reports[1], "{}", stored.name);
    }
}

/// A case of version 1 as one of version 2 with each link fully contracted.
fn all_contracted(case: &[u8]) -> Option<Vec<u8>> {
    if case.len() < 14 || case[3] != 1 {
        return None;
    }
    let links_at = 14 + usize::from(case[6]) * (4 + 4 * usize::from(case[5]));
    let orders_at = links_at + 6 * usize::from(case[7]);
    let mut wide = case[..links_at].to_vec();
    wide[3] = 2;
    for link in case[links_at..orders_at].chunks_exact(6) {
        wide.extend(link);
        wide.extend(&link[2..]);
    }
    wide.extend(&case[orders_at..]);
    Some(wide)
}

#[test]
fn version_2_has_links_of_ten_bytes() {
    let case = contracted_hour().case();
    assert_eq!(case.len(), 106);
    assert_eq!(case[3..5], [2, 0]);
    assert_eq!(case[46..56], [0, 1, 0xA0, 0x0F, 0, 0, 0xC4, 9, 0, 0]);
    assert_eq!(case[56..62], [0, 1, 0xA0, 0x0F, 0, 0]);
}

#[test]
fn offsets_of_version_2_count_ten_bytes_to_a_link() {
    let mut hour = contracted_hour();
    hour.zones = 16;
    hour.branches = vec![Branch { ram: 500_000, ptdfs: vec![0; 16] }; 64];
    hour.links = (0..64).map(|l| link(l / 4, (l / 4 + l % 4 + 1) % 16, 100_000)).collect();
    hour.orders = vec![hour.orders[0]; 512];
    assert_eq!(hour.case().len(), 10_126);
    hour.links[63].contracted = 100_001;
    let verdict = judge(&hour.case(), &hour.proposal(), &mut [0; LEAST_BUFFER]);
    assert_eq!((verdict.number, verdict.index), (7, 5_002));
    hour.links[63].contracted = 0;
    hour.orders[511].price = 400_001;
    let verdict = judge(&hour.case(), &hour.proposal(), &mut [0; LEAST_BUFFER]);
    assert_eq!((verdict.number, verdict.index), (8, 10_122));
}

#[test]
fn files_of_wide_tolerances_are_read() {
    let hour = Hour { tolerance: 10_001, ..three_zone_hour() };
    let (case, proposal) = (hour.case(), hour.proposal());
    // Such files are columned, restored, and their dumps made proposals.
    let mut out = vec![0; case.len()];
    assert_eq!(case_columned(&case, &mut out).number, 0);
    let columned = out.clone();
    assert_eq!(case_restored(&columned, &mut out).number, 0);
    assert_eq!(out, case);
    let dump = include_bytes!("../../samples/three-zone.dump");
    assert_eq!(dump_proposal(&case, dump, &mut [0; 45]).number, 0);
    assert_eq!(desk_lines(&[case, proposal].concat()), b"verdict 15 0\n");
}
