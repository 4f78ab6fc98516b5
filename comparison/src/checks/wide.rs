//! Wide tolerances retired (S-12): hours with tolerances around 10,000 cents and far above, alone and with each
//! other cause, and gaps around 10,000 cents.

use super::inputs::hour_and_gap;
use super::offsets::at_least;
use crate::makers::fields::{one_outside, Field};
use crate::makers::hours::{enough, good, narrow, random, version, wide, Shape};
use crate::makers::limits::GAP;
use crate::rng::Rng;
use crate::run::Run;
use paper_hours::{Branch, Hour, Link};

const INPUTS: u64 = 50_000;
/// Cents.
const WIDEST: i64 = 10_000;
const MICROCENTS: i64 = 1_000_000;

/// What is counted.
const MET: [&str; 10] = [
    "10,000: accepted",
    "10,000: 26",
    "10,001: 15",
    "1,000,000,000: 15",
    "1,000,000,001: 4",
    "1 to 14, and wide: the smaller",
    "21 to 25 and 27, and wide: 15",
    "gap of 10,000 cents: accepted",
    "a microcent above: 26",
    "the same gap at 10,001: 15",
];

pub fn hours(run: &mut Run, rng: &mut Rng) {
    let mut met = [0; MET.len()];
    run.section("wide tolerances");
    run.begin("tolerances about 10,000 cents");
    while run.fed() < INPUTS / 2 {
        about_the_widest(run, rng, &mut met);
    }
    run.end();
    run.begin("wide, and another cause");
    while run.fed() < INPUTS / 2 {
        another_cause(run, rng, &mut met);
    }
    run.end();
    run.begin("gaps about 10,000 cents");
    for _ in 0..400 {
        gaps(run, rng, &mut met);
    }
    run.end();
    for (name, times) in MET.into_iter().zip(met) {
        at_least(run, name.into(), times);
    }
}

/// A good hour at tolerances on either side of the widest that is judged.
fn about_the_widest(run: &mut Run, rng: &mut Rng, met: &mut [u64; MET.len()]) {
    let Some((mut hour, gap)) = hour_and_gap(run, rng) else {
        return;
    };
    let any = [narrow(rng), wide(rng)];
    for tolerance in [9_999, 10_000, 10_001, 1_000_000_000, 1_000_000_001].into_iter().chain(any) {
        hour.tolerance = tolerance;
        run.feed(&hour.case(), &hour.proposal(), enough(rng));
        let cents = i64::from(tolerance);
        let (number, index) = match cents {
            1_000_000_001.. => (4, 10),
            _ if cents > WIDEST => (15, 0),
            _ if gap > cents * MICROCENTS => (26, 0),
            _ => (0, 0),
        };
        run.expect(number, index);
        met[0] += u64::from(cents == WIDEST && number == 0);
        met[1] += u64::from(cents == WIDEST && number == 26);
        met[2] += u64::from(cents == WIDEST + 1);
        met[3] += u64::from(cents == 1_000_000_000);
        met[4] += u64::from(cents > 1_000_000_000);
    }
}

/// A field out of range, or any rule broken, at a wide tolerance: 15 hides all causes asked after it and none
/// before.
fn another_cause(run: &mut Run, rng: &mut Rng, met: &mut [u64; MET.len()]) {
    let shape = Shape::any(rng);
    let mut hour = match rng.one_in(3) {
        true => random(rng, shape),
        false => good(rng, shape),
    };
    hour.tolerance = narrow(rng);
    let (mut case, mut proposal) = (hour.case(), hour.proposal());
    if rng.one_in(2) {
        let numbers = rng.pick(&[(2, 8), (6, 8), (10, 14), (14, 14), (21, 23)]);
        // The tolerance itself is set below.
        let such =
            |field: &Field| (numbers.0..=numbers.1).contains(&field.number) && (field.number, field.index) != (4, 10);
        if let Some((field, value)) = one_outside(rng, &hour, such) {
            field.put(&mut case, &mut proposal, value);
        }
    }
    let free = run.feed(&case, &proposal, enough(rng));
    case[10..14].copy_from_slice(&wide(rng).to_le_bytes());
    run.feed(&case, &proposal, enough(rng));
    match free.number {
        1..=14 => run.expect(free.number, free.index),
        _ => run.expect(15, 0),
    }
    met[5] += u64::from((1..=14).contains(&free.number));
    met[6] += u64::from((21..=25).contains(&free.number) || free.number == 27);
}

/// A link's spread left unused: the gap is its capacity times the spread.
fn gaps(run: &mut Run, rng: &mut Rng, met: &mut [u64; MET.len()]) {
    // 10^10 microcents, one less and one more, each a product of tenths and grains
    // in range; a spread is a PTDF times a shadow price.
    let products = [
        (WIDEST * MICROCENTS - 1, 99_999, 1, 100_001),
        (WIDEST * MICROCENTS, 100_000, 1, 100_000),
        (WIDEST * MICROCENTS + 1, 27_961, 101, 3_541),
    ];
    for (gap, capacity, shadow, ptdf) in products {
        assert_eq!(i64::from(capacity) * i64::from(shadow) * i64::from(ptdf), gap);
        let mut hour = Hour {
            version: version(rng),
            zones: 2,
            branches: vec![Branch { ram: 0, ptdfs: vec![ptdf, 0] }],
            links: vec![Link { from: 1, to: 0, capacity, contracted: rng.between_or_end(0, capacity.into()) as u32 }],
            flows: vec![0],
            shadow_prices: vec![shadow],
            system_price: rng.between(-50_000, 399_990) as i32,
            ..Hour::default()
        };
        for tolerance in [9_999, 10_000, 10_001] {
            hour.tolerance = tolerance;
            run.feed(&hour.case(), &hour.proposal(), enough(rng));
            let cents = i64::from(tolerance);
            let number = match cents > WIDEST {
                true => 15,
                false if gap > cents * MICROCENTS => 26,
                false => 0,
            };
            run.expect(number, 0);
            if number != 15 {
                run.expect_total(GAP, gap);
            }
            met[7] += u64::from(cents == WIDEST && gap == WIDEST * MICROCENTS);
            met[8] += u64::from(cents == WIDEST && gap == WIDEST * MICROCENTS + 1);
            met[9] += u64::from(cents > WIDEST && gap == WIDEST * MICROCENTS);
        }
    }
}
