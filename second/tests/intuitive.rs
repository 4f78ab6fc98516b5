//! Intuitive hours: 001's two price sets, limits, the scratch, flows and sets of zones.

use paper_hours::{three_zone_hour, Hour};
use second_judge::intuitive::Graph;
use second_judge::*;

const GRAINS: i64 = 100_000;

const FILL: i64 = 0x5A5A_5A5A_5A5A;
/// AB, AC, BE, CD and DE both ways.
const TOPOLOGY: [u8; 20] = [0, 1, 1, 0, 0, 2, 2, 0, 1, 4, 4, 1, 2, 3, 3, 2, 3, 4, 4, 3];
const EURO: i64 = 100 * GRAINS;
const FIVE: [i64; 5] = [1_000, 13_000, -7_000, -3_000, -4_000];

fn answer(number: u32, index: u32, intuitive: u32, total: i64) -> CarriedAnswer {
    CarriedAnswer { number, index, intuitive, total }
}

/// The answer; its scratch, of either size, is checked.
fn asked(net: &[i64], prices: &[i64], pairs: &[u8]) -> CarriedAnswer {
    let with = |size: ScratchSize| {
        let mut scratch = vec![FILL; size.numbers() + 3];
        let answer = Papers.intuitive(size, net, prices, pairs, &mut scratch);
        let (lent, past) = scratch.split_at(size.numbers());
        let due = if answer.number == 0 { 0 } else { FILL };
        assert!(lent.iter().all(|number| *number == due), "{answer:?}");
        assert_eq!(past, [FILL; 3]);
        answer
    };
    let answer = with(ScratchSize::Wide);
    assert_eq!(with(ScratchSize::Small), answer);
    answer
}

fn refuses(net: &[i64], prices: &[i64], pairs: &[u8], number: u32, index: u32) {
    assert_eq!(asked(net, prices, pairs), answer(number, index, 0, 0), "{net:?} {prices:?} {pairs:?}");
}

#[test]
fn five_zones_are_answered_as_001_says() {
    let first = [10, 20, 40, 50, 30].map(|euros| euros * EURO);
    let second = [20, 10, 40, 50, 30].map(|euros| euros * EURO);
    assert_eq!(asked(&FIVE, &first, &TOPOLOGY), answer(0, 0, 0, 8_000));
    assert_eq!(asked(&FIVE, &second, &TOPOLOGY), answer(0, 0, 1, 14_000));
}

#[test]
fn set_that_001_names_keeps_its_exports() {
    let mut graph = Graph::new(&FIVE);
    // A->B, A->C, B->E, C->D and E->D of the first example.
    graph.leads = vec![0b00110, 0b10000, 0b01000, 0, 0b01000];
    // B, D and E: 700 of 1,300 MW get out of B.
    assert_eq!(graph.greatest_excess(), (6_000, 0b11010));
    assert_eq!(graph.carried_by(&graph.flows()), Some(8_000));
}

#[test]
fn flows_that_are_none_are_not_taken() {
    let mut graph = Graph::new(&[5, 0, -5]);
    graph.leads = vec![0b010, 0b100, 0];
    let flows = |a, b, c| vec![vec![0, a, c], vec![0, 0, b], vec![0; 3]];
    assert_eq!(graph.carried_by(&flows(5, 5, 0)), Some(5));
    assert_eq!(graph.carried_by(&flows(3, 3, 0)), Some(3));
    assert_eq!(graph.carried_by(&flows(0, 0, 5)), None, "no such pair");
    assert_eq!(graph.carried_by(&flows(5, 4, 0)), None, "left in zone 1");
    assert_eq!(graph.carried_by(&flows(4, 5, 0)), None, "out of nothing");
    assert_eq!(graph.carried_by(&flows(6, 6, 0)), None, "over the export");
    assert_eq!(graph.carried_by(&flows(-1, -1, 0)), None, "negative");
}

#[test]
fn pair_counts_from_lower_or_equal_to_higher() {
    for (first, second, yes) in [(1, 2, 1), (1, 1, 1), (2, 1, 0), (-1, 0, 1), (0, -1, 0)] {
        let total = if yes == 1 { 7 } else { 0 };
        let due = answer(0, 0, yes, total);
        assert_eq!(asked(&[7, -7], &[first, second], &[0, 1]), due);
        // The opposite direction carries nothing.
        assert_eq!(asked(&[7, -7], &[first, second], &[1, 0]), answer(0, 0, 0, 0));
    }
}

#[test]
fn nothing_to_carry_is_a_yes() {
    assert_eq!(asked(&[0], &[0], &[]), answer(0, 0, 1, 0));
    assert_eq!(asked(&[0; 16], &[0; 16], &[]), answer(0, 0, 1, 0));
    assert_eq!(asked(&[1, -1], &[0, 0], &[]), answer(0, 0, 0, 0));
}

#[test]
fn exports_make_way_for_each_other() {
    // Zone 0 reaches both imports, zone 1 the first alone.
    let pairs = [0, 2, 0, 3, 1, 2];
    let net = [10, 10, -10, -10];
    assert_eq!(asked(&net, &[0; 4], &pairs), answer(0, 0, 1, 20));
}

#[test]
fn sixty_four_pairs_carry_the_widest_positions_and_the_next_is_refused() {
    let mut net = [51_200_000; 16];
    net[8..].fill(-51_200_000);
    let prices: Vec<i64> = (0..16).map(|z| if z < 8 { -5 } else { 5 }).collect();
    let pairs: Vec<u8> = (0..64).flat_map(|n| [n / 8, 8 + n % 8]).collect();
    assert_eq!(asked(&net, &prices, &pairs), answer(0, 0, 1, 8 * 51_200_000));
    let mut more = pairs.clone();
    more.extend([0, 1]);
    refuses(&net, &prices, &more, 84, 64);
}

#[test]
fn wrong_zone_counts_are_asked_first() {
    refuses(&[], &[], &[], 81, 0);
    refuses(&[0; 17], &[0; 17], &[], 81, 0);
    refuses(&[0; 2], &[0; 3], &[], 81, 0);
    refuses(&[0; 3], &[0; 2], &[], 81, 0);
    refuses(&[], &[0], &[], 81, 0);
    refuses(&[i64::MAX; 17], &[i64::MAX; 16], &[9, 9, 9], 81, 0);
    assert_eq!(asked(&[0; 16], &[0; 16], &[]).number, 0);
}

#[test]
fn position_out_of_range_is_asked_before_the_sum() {
    let most = 51_200_000;
    assert_eq!(asked(&[most, -most], &[0; 2], &[]).number, 0);
    refuses(&[0, most + 1, -most], &[0; 3], &[], 82, 1);
    refuses(&[0, most, -most - 1], &[0; 3], &[], 82, 2);
    refuses(&[i64::MIN, i64::MIN], &[0; 2], &[], 82, 0);
    refuses(&[i64::MAX, 1], &[0; 2], &[], 82, 0);
    // The sum is asked after every range, and names no zone.
    refuses(&[1, 0, most + 1], &[0; 3], &[], 82, 2);
    refuses(&[0, 1, 0], &[0; 3], &[], 82, 0);
    refuses(&[1, -2], &[i64::MAX; 2], &[], 82, 0);
}

#[test]
fn first_price_out_of_range_is_named() {
    let (least, greatest) = (-50_000 * GRAINS, 400_000 * GRAINS);
    assert_eq!(asked(&[0; 2], &[least, greatest], &[]).number, 0);
    refuses(&[0; 2], &[least, greatest + 1], &[], 83, 1);
    refuses(&[0; 2], &[least - 1, greatest + 1], &[], 83, 0);
    refuses(&[0; 2], &[0, i64::MIN], &[7], 83, 1);
}

#[test]
fn first_wrong_pair_is_named() {
    let of = |pairs: &[u8], index| refuses(&[0; 3], &[0; 3], pairs, 84, index);
    of(&[3, 0], 0);
    of(&[0, 3], 0);
    of(&[255, 255], 0);
    of(&[0, 1, 1, 1], 1);
    of(&[0, 1, 1, 0, 0, 1], 2);
    of(&[0], 0);
    of(&[0, 1, 2], 1);
    of(&[0, 1, 9], 1);
    of(&[0, 1, 0, 1, 3], 1);
    assert_eq!(asked(&[0; 3], &[0; 3], &[0, 1, 1, 0]).number, 0);
}

#[test]
fn short_scratch_is_asked_last_and_a_used_one_is_cleared() {
    for room in [0, 1, 323] {
        let mut scratch = vec![FILL; room];
        let short = intuitive(&[0], &[0], &[], &mut scratch);
        assert_eq!(short, answer(85, 0, 0, 0));
        assert!(scratch.iter().all(|number| *number == FILL));
        // The pairs are asked before it.
        let pair = intuitive(&[0], &[0], &[0, 0], &mut scratch);
        assert_eq!(pair, answer(84, 0, 0, 0));
    }
    let mut scratch = vec![FILL; 324];
    assert_eq!(intuitive(&[0], &[0], &[], &mut scratch).number, 0);
    assert_eq!(scratch, [0; 324]);
}

#[test]
fn small_scratch_needs_96_numbers_and_changes_no_more() {
    for room in [0, 1, 80, 95] {
        let mut scratch = vec![FILL; room];
        let short = intuitive_small(&[0], &[0], &[], &mut scratch);
        assert_eq!(short, answer(85, 0, 0, 0));
        assert!(scratch.iter().all(|number| *number == FILL));
        let pair = intuitive_small(&[0], &[0], &[0, 0], &mut scratch);
        assert_eq!(pair, answer(84, 0, 0, 0));
    }
    for room in [96, 97, 323, 324] {
        let mut scratch = vec![FILL; room];
        let yes = intuitive_small(&[9, -9], &[0, 0], &[0, 1], &mut scratch);
        assert_eq!(yes, answer(0, 0, 1, 9));
        assert_eq!(scratch[..96], [0; 96]);
        assert!(scratch[96..].iter().all(|number| *number == FILL));
    }
    let p1 = three_zone_hour();
    for (room, due) in [(95, answer(85, 0, 0, 0)), (96, answer(0, 0, 0, 1_000))] {
        let mut scratch = vec![FILL; room];
        let given = hour_intuitive_small(&p1.case(), &p1.proposal(), &[0, 1], &mut scratch);
        assert_eq!(given, due);
    }
}

#[test]
fn hour_is_judged_first_and_answered_by_its_positions_and_prices() {
    let asked = |hour: &Hour, pairs: &[u8], room| {
        let mut scratch = vec![FILL; room];
        let answer = hour_intuitive(&hour.case(), &hour.proposal(), pairs, &mut scratch);
        let due = if answer.number == 0 { 0 } else { FILL };
        assert!(scratch.iter().all(|number| *number == due), "{answer:?}");
        answer
    };
    // A sells 537.5 MW, at 20; B buys 100 at 63.75 and C 437.5 at 50.
    let p1 = three_zone_hour();
    assert_eq!(asked(&p1, &[0, 1], 324), answer(0, 0, 0, 1_000));
    assert_eq!(asked(&p1, &[0, 1, 0, 2], 324), answer(0, 0, 1, 5_375));
    assert_eq!(asked(&p1, &[0, 2, 2, 1], 324), answer(0, 0, 1, 5_375));
    assert_eq!(asked(&p1, &[0, 1, 1, 2], 324), answer(0, 0, 0, 1_000));
    assert_eq!(asked(&p1, &[], 324), answer(0, 0, 0, 0));
    assert_eq!(asked(&p1, &[0, 1, 0, 3], 324), answer(84, 1, 0, 0));
    assert_eq!(asked(&p1, &[0, 1], 323), answer(85, 0, 0, 0));
    let mut over = p1.clone();
    over.system_price += 1;
    assert_eq!(asked(&over, &[0, 0], 0), answer(26, 0, 0, 0));
    over.volumes[1] = 6_001;
    assert_eq!(asked(&over, &[0, 0], 0), answer(21, 1, 0, 0));
    let mut scratch = [FILL; 324];
    let empty = hour_intuitive(&[], &[], &[], &mut scratch);
    assert_eq!((empty, scratch), (answer(1, 0, 0, 0), [FILL; 324]));
}
