//! Family lists: circles, parents, fractions, and their place among the causes.

use paper_hours::{three_zone_hour, Hour};
use second_judge::*;

/// The answer to a list for an hour of as many orders, none of them accepted.
fn answered(list: &[u8], orders: usize) -> (u32, u32) {
    let order = Row { zone: 0, side: 0, quantity: 1, price: 0 };
    let hour = Hour { zones: 1, orders: vec![order; orders], volumes: vec![0; orders], ..Hour::default() };
    let verdict = judge_families(&hour.case(), &hour.proposal(), list, &mut [0; 176]);
    (verdict.number, verdict.index)
}

fn refused(parents: &[Option<u16>]) -> (u32, u32) {
    answered(&list_of(parents), parents.len())
}

/// Found differently: take away orders that no order names until none is left to take. What remains are the circles
/// and nothing else.
fn on_circles(parents: &[Option<u16>]) -> Vec<bool> {
    let mut standing = vec![true; parents.len()];
    let leads_to = |standing: &[bool], order: usize| {
        (0..parents.len()).any(|child| standing[child] && parents[child] == Some(order as u16))
    };
    while let Some(order) = (0..parents.len()).find(|&order| standing[order] && !leads_to(&standing, order)) {
        standing[order] = false;
    }
    standing
}

#[test]
fn every_small_list_is_refused_by_its_first_cause() {
    for count in 0..=5usize {
        let choices = count + 2;
        for mut code in 0..choices.pow(count as u32) {
            let parents: Vec<Option<u16>> = (0..count)
                .map(|_| {
                    let choice = code % choices;
                    code /= choices;
                    (choice > 0).then(|| choice as u16 - 1)
                })
                .collect();
            let stray = (0..count).find(|&o| parents[o] == Some(count as u16));
            let due = match stray {
                Some(order) => (17, order as u32),
                None => match on_circles(&parents).iter().position(|on| *on) {
                    Some(order) => (18, order as u32),
                    None => (0, 0),
                },
            };
            assert_eq!(refused(&parents), due, "{parents:?}");
        }
    }
}

#[test]
fn order_that_only_leads_into_a_circle_is_not_named() {
    // Leading into a circle is not leading back.
    assert_eq!(refused(&[Some(1), Some(2), Some(1)]), (18, 1));
    assert_eq!(refused(&[Some(0)]), (18, 0));
    assert_eq!(refused(&[None, Some(0), Some(1)]), (0, 0));
    // Two circles: the first order on either.
    assert_eq!(refused(&[Some(3), Some(4), Some(2), Some(4), Some(1)]), (18, 1));
    let circle: Vec<Option<u16>> = (0..512).map(|o| Some((o + 1) % 512)).collect();
    assert_eq!(refused(&circle), (18, 0));
    let chain: Vec<Option<u16>> = (0..512).map(|o| (o < 511).then_some(o + 1)).collect();
    assert_eq!(refused(&chain), (0, 0));
}

#[test]
fn list_of_wrong_shape_is_refused_by_16() {
    let good = list_of(&[None, Some(0)]);
    let number = |list: &[u8], orders| answered(list, orders).0;
    assert_eq!(number(&good, 2), 0);
    assert_eq!(number(&good, 1), 16);
    assert_eq!(number(&good, 3), 16);
    assert_eq!(number(&good[..8], 2), 16);
    assert_eq!(number(&[], 0), 16);
    assert_eq!(number(&[], 2), 16);
    assert_eq!(number(b"LTF\x01\x00", 0), 0);
    assert_eq!(number(b"LTF\x01", 0), 16);
    assert_eq!(number(b"LTF\x02\x00", 0), 16);
    assert_eq!(number(b"LTF\x01\x01", 0), 16);
    assert_eq!(number(b"LTP\x01\x00", 0), 16);
    // 65,534 is a parent like any other, and there is no such order.
    assert_eq!(refused(&[None, Some(65_534)]), (17, 1));
}

#[test]
fn fractions_are_compared_as_ratios_not_volumes() {
    let exceeds = |one: (u32, u32), other: (u32, u32)| {
        let order = |quantity| Row { zone: 0, side: 0, quantity, price: 0 };
        let hour = Hour {
            zones: 1,
            orders: vec![order(one.1), order(other.1)],
            volumes: vec![one.0, other.0],
            ..Hour::default()
        };
        let (case, proposal) = (hour.case(), hour.proposal());
        Papers.fraction_exceeds(&Papers.hour(&case, &proposal, None, 0), 0, 1)
    };
    let most = 12;
    for (a, b) in (0..=most).flat_map(|a| (1..=most).map(move |b| (a, b))) {
        for (c, d) in (0..=most).flat_map(|c| (1..=most).map(move |d| (c, d))) {
            let due = f64::from(a) / f64::from(b) > f64::from(c) / f64::from(d);
            assert_eq!(exceeds((a, b), (c, d)), due, "{a}/{b}, {c}/{d}");
        }
    }
    assert!(!exceeds((99_999, 100_000), (99_999, 100_000)));
    assert!(exceeds((99_999, 100_000), (99_998, 99_999)));
    assert!(!exceeds((99_998, 99_999), (99_999, 100_000)));
    assert!(exceeds((1, 100_000), (0, 1)));
    assert!(!exceeds((0, 1), (0, 100_000)));
    assert!(!exceeds((50_000, 100_000), (1, 2)));
    assert!(exceeds((50_001, 100_000), (1, 2)));
}

/// P1 with a family list: the answer, and whether the report is P1's.
fn with_list(hour: &Hour, list: &[u8]) -> (u32, u32) {
    let (mut report, mut free) = ([0xA5; 200], [0xA5; 200]);
    let verdict = judge_families(&hour.case(), &hour.proposal(), list, &mut report);
    let without = judge(&hour.case(), &hour.proposal(), &mut free);
    match verdict.number {
        0 | 26 => assert_eq!((verdict, report), (without, free)),
        _ => assert_eq!(report, [0xA5; 200]),
    }
    (verdict.number, verdict.index)
}

#[test]
fn lists_of_the_three_zone_hour_are_answered_by_hand() {
    // Accepted are 4,000 of 4,000, 1,375 of 6,000, 1,000 of 1,000, 0 of 9,000 and 4,375 of 10,000.
    let hour = three_zone_hour();
    let none = [None; 5];
    assert_eq!(with_list(&hour, &list_of(&none)), (0, 0));
    let of = |pairs: &[(usize, u16)]| {
        let mut parents = none;
        pairs.iter().for_each(|&(o, parent)| parents[o] = Some(parent));
        list_of(&parents)
    };
    assert_eq!(with_list(&hour, &of(&[(1, 0), (4, 2), (3, 1)])), (0, 0));
    // Equal fractions of other quantities.
    assert_eq!(with_list(&hour, &of(&[(0, 2)])), (0, 0));
    assert_eq!(with_list(&hour, &of(&[(2, 0)])), (0, 0));
    // 43.75 % and 22.9 %: 4,375 is more than 1,375; and 1,000 of 1,000 is the larger fraction, though the smaller
    // volume.
    assert_eq!(with_list(&hour, &of(&[(4, 1)])), (28, 4));
    assert_eq!(with_list(&hour, &of(&[(2, 1), (4, 1)])), (28, 2));
    // 16 to 18.
    assert_eq!(with_list(&hour, &[]), (16, 0));
    assert_eq!(with_list(&hour, &list_of(&none[..4])), (16, 0));
    assert_eq!(with_list(&hour, &of(&[(1, 5)])), (17, 1));
    assert_eq!(with_list(&hour, &of(&[(0, 4), (4, 0), (3, 5)])), (17, 3));
    assert_eq!(with_list(&hour, &of(&[(0, 4), (4, 1), (1, 4)])), (18, 1));
    assert_eq!(with_list(&hour, &of(&[(4, 4)])), (18, 4));
}

#[test]
fn families_are_asked_out_of_their_turn() {
    let list = |o: usize, parent: u16| {
        let mut parents = [None; 5];
        parents[o] = Some(parent);
        list_of(&parents)
    };
    let p1 = three_zone_hour();
    // A volume above its quantity: 21, though the order exceeds its parent too.
    let mut hour = p1.clone();
    hour.volumes[1] = 6_001;
    assert_eq!(with_list(&hour, &list(1, 0)), (21, 1));
    assert_eq!(with_list(&hour, &list(2, 4)), (21, 1));
    assert_eq!(with_list(&hour, &list(1, 1)), (18, 1));
    // The balance fails: 28 is asked before it.
    hour = p1.clone();
    hour.volumes[4] += 1;
    assert_eq!(with_list(&hour, &list(4, 1)), (28, 4));
    assert_eq!(with_list(&hour, &list(1, 4)), (22, 0));
    // A shadow price too high: 14 is asked before all of them.
    hour = p1.clone();
    hour.shadow_prices[1] = 1_000_001;
    let at = 13 + 4 * (5 + 1 + 1);
    assert_eq!(with_list(&hour, &[]), (14, at));
    assert_eq!(with_list(&hour, &list(1, 1)), (14, at));
    // No room for a report is asked first.
    let (case, proposal) = (p1.case(), p1.proposal());
    assert_eq!(judge_families(&case, &proposal, &[], &mut [0; 175]).number, 30);
}
