//! Wrong builds of S-3 and S-13 do what their names say.

use paper_hours::{three_zone_hour, Hour};
use second_judge::limits::SCRATCH;
use second_judge::{CarriedAnswer, IntuitiveHours, Papers, ScratchSize};
use wrong_builds::intuitive::*;

const FILL: i64 = 0x5A5A_5A5A_5A5A;

/// Number and scratch of the smaller entry on an exchange of two zones.
fn small(build: impl IntuitiveHours, room: usize) -> (u32, Vec<i64>) {
    let mut scratch = vec![FILL; room];
    let answer = build.intuitive(ScratchSize::Small, &[9, -9], &[1, 2], &[0, 1], &mut scratch);
    (answer.number, scratch)
}

fn zeros(build: impl IntuitiveHours, room: usize) -> usize {
    small(build, room).1.iter().filter(|n| **n == 0).count()
}

/// Number, index, yes, total and numbers cleared of the wide entry.
fn wrong(build: impl IntuitiveHours, net: &[i64], prices: &[i64], pairs: &[u8]) -> (u32, u32, u32, i64, usize) {
    let mut scratch = vec![FILL; SCRATCH + 1];
    let answer = build.intuitive(ScratchSize::Wide, net, prices, pairs, &mut scratch);
    let cleared = scratch.iter().filter(|number| **number == 0).count();
    (answer.number, answer.index, answer.intuitive, answer.total, cleared)
}

fn hour(build: impl IntuitiveHours, hour: &Hour, pairs: &[u8]) -> CarriedAnswer {
    build.hour_intuitive(ScratchSize::Wide, &hour.case(), &hour.proposal(), pairs, &mut [FILL; SCRATCH])
}

fn answer(number: u32, index: u32, intuitive: u32, total: i64) -> CarriedAnswer {
    CarriedAnswer { number, index, intuitive, total }
}

#[test]
fn wrong_builds_of_the_smaller_scratch_do_what_is_said_of_them() {
    assert_eq!(small(Papers, 95).0, 85);
    assert_eq!(small(NumberTooFew, 95).0, 0);
    assert_eq!(small(NumberTooFew, 94).0, 85);
    assert_eq!(zeros(Papers, 400), 96);
    assert_eq!(zeros(WideZeros, 400), 324);
    assert_eq!(zeros(WideZeros, 97), 97);
    assert_eq!(small(WideRoom, 323).0, 85);
    assert_eq!(small(WideRoom, 324), small(Papers, 324));
    // Zone 1 imports 9.
    assert_eq!(zeros(ImportUsedKept, 400), 95);
    assert_eq!(small(ImportUsedKept, 400).1[81], 9);
    assert_eq!(zeros(ScratchNotCleared, 400), 0);
    assert_eq!(zeros(ScratchClearedPast, 400), 97);
}

#[test]
fn wrong_builds_do_what_is_said_of_them() {
    let (up, one) = ([1, 2], [0, 1]);
    assert_eq!(wrong(Papers, &[9, -9], &up, &one), (0, 0, 1, 9, 324));
    assert_eq!(wrong(FirstPriceAbove, &[9, -9], &up, &one), (0, 0, 0, 0, 324));
    assert_eq!(wrong(FirstPriceAbove, &[9, -9], &[2, 1], &one), (0, 0, 1, 9, 324));
    assert_eq!(wrong(EqualPricesLeftOut, &[9, -9], &[1, 1], &one), (0, 0, 0, 0, 324));
    assert_eq!(wrong(EveryPair, &[9, -9], &[2, 1], &one).2, 1);
    assert_eq!(wrong(PairsBothWays, &[-9, 9], &up, &one).2, 1);
    assert_eq!(wrong(ImportsForANo, &[9, -9], &up, &[]), (0, 0, 0, 9, 324));
    assert_eq!(wrong(YesToAll, &[9, -9], &up, &[]), (0, 0, 1, 0, 324));
    assert_eq!(wrong(ScratchNotCleared, &[9, -9], &up, &one).4, 0);
    assert_eq!(wrong(ScratchClearedPast, &[9, -9], &up, &one).4, 325);
    assert_eq!(wrong(SumBeforeRanges, &[0, i64::MAX], &up, &one), (82, 0, 0, 0, 0));
    assert_eq!(wrong(ZoneByZone, &[0, i64::MAX], &[i64::MAX, 0], &one), (83, 0, 0, 0, 0));
    assert_eq!(wrong(LoneByteDropped, &[9, -9], &up, &[0, 1, 0]).3, 9);
    let every: Vec<u8> =
        (0..9u8).flat_map(|from| (0..9).map(move |to| [from, to])).filter(|[from, to]| from != to).flatten().collect();
    assert_eq!(wrong(PairTooMany, &[0; 9], &[0; 9], &every[..130]).0, 0);
    assert_eq!(wrong(PairTooMany, &[0; 9], &[0; 9], &every[..132]).1, 65);
    let greedy =
        NoWayBack.intuitive(ScratchSize::Wide, &[10, 10, -10, -10], &[0; 4], &[0, 2, 0, 3, 1, 2], &mut [0; 324]);
    assert_eq!(greedy, answer(0, 0, 0, 10));
    let p1 = three_zone_hour();
    assert_eq!(hour(NotTurned, &p1, &[0, 1, 0, 2]), answer(0, 0, 0, 0));
    let mut over = p1.clone();
    over.system_price += 1;
    assert_eq!(hour(GapAnswered, &over, &[0, 1, 0, 2]), answer(0, 0, 1, 5_375));
}
