//! Shortfalls by hand, on the paper's hours and on the three-zone hour scaled down.

use paper_hours::{contracted_hour, forced_hour, stored, three_zone_hour, Branch, Hour, Link, Version, EURO};
use second_judge::limits::{BUYS, LEAST_BUFFER, ONE, SELLS};
use second_judge::*;

/// A microcent in hundred-thousandths.
const MICROCENT: i128 = ONE;

/// P1 with every volume, margin, capacity, flow and quantity divided by 125: its amounts are too, and so is a gap.
/// The tolerance is 100 euros, which S-12 allows.
pub fn small_hour() -> Hour {
    let mut hour = three_zone_hour();
    hour.tolerance = 10_000;
    for branch in &mut hour.branches {
        branch.ram /= 125;
    }
    for link in &mut hour.links {
        link.capacity /= 125;
        link.contracted /= 125;
    }
    for order in &mut hour.orders {
        order.quantity /= 125;
    }
    for number in hour.volumes.iter_mut().chain(&mut hour.flows) {
        *number /= 125;
    }
    hour
}

/// P3 in the same way: nothing flows over its link, and the LTA share is 0.
fn small_unused_link_hour() -> Hour {
    Hour {
        share: 0,
        system_price: 2_000,
        volumes: vec![32, 4, 8, 0, 28],
        flows: vec![0],
        shadow_prices: vec![6_000, 0],
        ..small_hour()
    }
}

/// The reported gap of an hour that must be accepted, and its shortfalls, both in hundred-thousandths of a
/// microcent.
fn accepted(hour: &Hour) -> (i128, Shortfalls) {
    let (case, proposal) = (hour.case(), hour.proposal());
    let mut report = [0; LEAST_BUFFER];
    let verdict = judge(&case, &proposal, &mut report);
    assert_eq!((verdict.number, verdict.index), (0, 0));
    let gap = i64::from_le_bytes(report[24..32].try_into().unwrap());
    let found = hour_shortfalls(&case, &proposal).unwrap();

    // What the entry writes is the same.
    let count = 2 * (hour.orders.len() + hour.branches.len() + hour.links.len());
    let mut out = vec![-7; count + 3];
    let answer = shortfalls(&case, &proposal, &mut out);
    assert_eq!((answer.number, answer.index), (0, 0));
    assert_eq!(answer.length, count as u64);
    assert_eq!(out[count..], [-7; 3]);
    let written = out[..count].chunks(2).map(|pair| ONE * i128::from(pair[0]) + i128::from(pair[1]));
    let in_order = [&found.orders, &found.branches, &found.links];
    assert!(written.eq(in_order.into_iter().flatten().copied()));
    assert!(out[..count].chunks(2).all(|pair| pair[0] >= 0 && (0..100_000).contains(&pair[1])));
    (ONE * i128::from(gap), found)
}

fn euros(amount: i64) -> i128 {
    MICROCENT * i128::from(amount) * i128::from(EURO)
}

/// Cents on a tenth of a MWh: a tenth of a cent each.
fn cents_on_a_tenth(cents: i128) -> i128 {
    MICROCENT * 100_000 * cents
}

#[test]
fn p1_falls_short_nowhere() {
    // Prices 20, 63.75 and 50 euros. Order 0 sells 4,000 at 10, a surplus of 10 euros on
    // each, and all 4,000 are accepted. Order 1 sells at its price. Order 2 buys 1,000 of
    // 1,000 at 70. Order 3, at 60, has no surplus and no volume. Order 4 buys at its price.
    // Branch 0: 5,500 times (12,500 * 2,500 - 31,250,000), which is 0. Branch 1: 250
    // times (12,500 * 15,000 - 187,500,000). The link: 4,000 * 87,500 - 100,000 * 3,500.
    for hour in [three_zone_hour(), contracted_hour(), small_hour()] {
        let (gap, found) = accepted(&hour);
        assert_eq!(gap, 0);
        assert_eq!(found.orders, [0; 5]);
        assert_eq!(found.branches, [0; 2]);
        assert_eq!(found.links, [0]);
    }
}

#[test]
fn p3s_gap_is_the_larger_totals_lead_and_no_shortfall() {
    // Every order, branch and link is at its best for these prices: share 0 leaves the link nothing to fall short
    // of. The gap is what the LTA domain would have earned more than the margins, 18,000 less 15,000 euros, divided
    // by 125.
    let (gap, found) = accepted(&small_unused_link_hour());
    assert_eq!(gap, euros(24));
    assert_eq!(found.sum(), 0);
    assert_eq!(found.links, [0]);
}

#[test]
fn without_its_link_p3_is_p2_with_gap_zero() {
    let hour = Hour { links: vec![], flows: vec![], ..small_unused_link_hour() };
    let (gap, found) = accepted(&hour);
    assert_eq!((gap, found.sum()), (0, 0));
    assert_eq!(found.links.len(), 0);
}

#[test]
fn order_left_out_falls_short_by_its_surplus() {
    // Ten tenths of order 0 at 10 euros are left to order 1 at 20: a MWh at 10 euros.
    let hour = Hour { volumes: vec![22, 21, 8, 0, 35], ..small_hour() };
    let (gap, found) = accepted(&hour);
    assert_eq!(gap, euros(10));
    assert_eq!(found.orders, [euros(10), 0, 0, 0, 0]);
    assert_eq!(found.sum(), gap);
}

#[test]
fn order_accepted_at_a_loss_falls_short_by_the_loss() {
    // A tenth goes from order 2, which would have gained 6.25 euros per MWh, to order 3, which loses 3.75: its
    // volume earns a negative amount.
    let hour = Hour { volumes: vec![32, 11, 7, 1, 35], ..small_hour() };
    let (gap, found) = accepted(&hour);
    let (left_out, lost) = (cents_on_a_tenth(625), cents_on_a_tenth(375));
    assert_eq!(found.orders, [0, 0, left_out, lost, 0]);
    assert_eq!(gap, left_out + lost);
}

#[test]
fn margin_left_free_falls_short_by_its_shadow_price() {
    // P2's hour with five tenths more on the branch that has a price of 60 euros.
    let mut hour = Hour { links: vec![], flows: vec![], ..small_unused_link_hour() };
    hour.branches[0].ram += 5;
    let (gap, found) = accepted(&hour);
    assert_eq!(found.branches, [cents_on_a_tenth(5 * 6_000), 0]);
    assert_eq!(gap, euros(30));
    assert_eq!(found.sum(), gap);
}

#[test]
fn what_is_left_is_the_lead_weighed_by_the_shares() {
    // P1's hour with a tenth more margin: an eighth of it is flow-based and free. The
    // branch total leads the link total by a tenth at 55 euros, of which seven eighths
    // count, the LTA share.
    let mut hour = small_hour();
    hour.branches[0].ram += 1;
    let (gap, found) = accepted(&hour);
    assert_eq!(gap, cents_on_a_tenth(5_500));
    assert_eq!(found.branches, [gap / 8, 0]);
    assert_eq!(found.sum(), gap / 8);
    assert_eq!(gap - found.sum(), gap / 8 * 7);
}

#[test]
fn link_not_full_falls_short_by_its_spread() {
    // Two tenths more capacity: seven eighths of them could flow, at 43.75 euros. The
    // link total leads by the two tenths, of which an eighth counts.
    let mut hour = small_hour();
    hour.links[0].capacity += 2;
    let (gap, found) = accepted(&hour);
    assert_eq!(gap, cents_on_a_tenth(2 * 4_375));
    assert_eq!(found.links, [gap / 8 * 7]);
    assert_eq!(found.sum(), gap / 8 * 7);
}

/// Capacity 1, share 1, and the price of zone 1 a grain above that of zone 0.
fn grain_hour() -> Hour {
    Hour {
        zones: 2,
        tolerance: 1,
        branches: vec![Branch { ram: 0, ptdfs: vec![0, 1] }],
        links: vec![Link { from: 0, to: 1, capacity: 1, contracted: 1 }],
        share: 1,
        flows: vec![0],
        shadow_prices: vec![1],
        ..Hour::default()
    }
}

#[test]
fn part_of_a_microcent_is_not_lost() {
    // The link falls short by a hundred-thousandth of a microcent. The link total of a
    // microcent leads by 99,999 of them.
    let hour = grain_hour();
    let (gap, found) = accepted(&hour);
    assert_eq!(found.links, [1]);
    assert_eq!((gap, found.sum()), (MICROCENT, 1));
    let mut out = [-7; 5];
    shortfalls(&hour.case(), &hour.proposal(), &mut out);
    assert_eq!(out, [0, 0, 0, 1, -7]);
}

#[test]
fn flow_against_the_spread_falls_short() {
    // A tenth flows from zone 1 at 63.75 to zone 0 at 20 euros; a tenth less is bought
    // in zone 1 and sold in zone 0, so that the margins hold.
    let mut hour = small_hour();
    hour.links.push(Link { from: 1, to: 0, capacity: 8, contracted: 8 });
    hour.flows.push(1);
    hour.volumes = vec![32, 10, 7, 0, 35];
    let (gap, found) = accepted(&hour);
    assert_eq!(found.links, [0, cents_on_a_tenth(4_375)]);
    assert_eq!(found.orders[2], cents_on_a_tenth(625));
    assert_eq!(gap, euros(5));
    assert_eq!(found.sum(), gap);
}

#[test]
fn negative_margin_left_free_falls_short() {
    // S-6's hour a hundredth as large, made to import nine tenths; it imports ten.
    let mut hour = forced_hour();
    hour.tolerance = 100;
    hour.branches[0].ram = -9;
    for order in &mut hour.orders {
        order.quantity = 10;
    }
    hour.volumes = vec![10, 10];
    let (gap, found) = accepted(&hour);
    assert_eq!(found.branches, [euros(1)]);
    assert_eq!(gap, euros(1));
    assert_eq!(found.sum(), gap);
}

#[test]
fn contracted_volumes_do_not_enter() {
    let mut hour = small_hour();
    hour.links[0].capacity += 2;
    let first = accepted(&hour);
    hour.version = Version::Two;
    for contracted in [0, 17, 34] {
        hour.links[0].contracted = contracted;
        assert_eq!(accepted(&hour), first);
    }
}

#[test]
fn what_is_not_accepted_has_the_judgements_answer() {
    for stored in stored() {
        let mut out = [-7; 40];
        let answer = shortfalls(&stored.case, &stored.proposal, &mut out);
        let due = (stored.number, u64::from(stored.index));
        assert_eq!((answer.number, answer.index), due, "{}", stored.name);
        if stored.number != 0 {
            assert_eq!((answer.length, out), (0, [-7; 40]), "{}", stored.name);
        }
    }
}

#[test]
fn room_is_asked_last() {
    let mut hour = small_hour();
    let mut out = [-7; 16];
    for room in 0..16 {
        let answer = shortfalls(&hour.case(), &hour.proposal(), &mut out[..room]);
        assert_eq!((answer.number, answer.index, answer.length), (86, 0, 0));
    }
    let whole = shortfalls(&hour.case(), &hour.proposal(), &mut out.clone());
    assert_eq!((whole.number, whole.index, whole.length), (0, 0, 16));
    hour.branches[0].ram += 1;
    hour.tolerance = 54;
    let answer = shortfalls(&hour.case(), &hour.proposal(), &mut []);
    assert_eq!((answer.number, answer.index, answer.length), (26, 0, 0));
    hour.volumes[1] = 49;
    let answer = shortfalls(&hour.case(), &hour.proposal(), &mut []);
    assert_eq!((answer.number, answer.index, answer.length), (21, 1, 0));
    assert_eq!(out, [-7; 16]);
}

#[test]
fn a_links_terms_pass_64_bits() {
    // A link across all prices, full: 100,000 * 100,000 * 450,000 cents in grains, less as much. With nothing on
    // it, and nothing sold, all of it is a shortfall: the hour is far from accepted, and the shortfall exceeds 64
    // bits.
    let order = |zone, side, price| Row { zone, side, quantity: 100_000, price };
    let mut hour = Hour {
        zones: 2,
        branches: vec![Branch { ram: -500_000, ptdfs: vec![0, 45_000] }],
        links: vec![Link { from: 0, to: 1, capacity: 100_000, contracted: 0 }],
        orders: vec![order(0, SELLS, -50_000), order(1, BUYS, 400_000)],
        share: 100_000,
        system_price: -50_000,
        volumes: vec![100_000, 100_000],
        flows: vec![100_000],
        shadow_prices: vec![1_000_000],
        ..Hour::default()
    };
    let (gap, found) = accepted(&hour);
    assert_eq!((gap, found.sum(), found.links), (0, 0, vec![0]));
    hour.volumes = vec![0, 0];
    hour.flows = vec![0];
    let found = hour_shortfalls(&hour.case(), &hour.proposal()).unwrap();
    assert_eq!(found.links, [450_000_000_000_000_000_000]);
    assert!(found.links[0] > i128::from(i64::MAX));
    let answer = shortfalls(&hour.case(), &hour.proposal(), &mut [0; 8]);
    assert_eq!((answer.number, answer.length), (26, 0));
}
