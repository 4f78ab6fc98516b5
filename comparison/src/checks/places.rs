//! Verdicts 4, 21 and 23 to 25: each offset of 4, and the first and the last order, link, branch and zone that an hour
//! can have. For 6, 7, 8 and 14 that is in `offsets`.

use super::offsets::at_least;
use crate::makers::fields::{fields, outside};
use crate::makers::hours::{enough, flow_based_parts, good, least_ram, most_flow, used, version, Shape};
use crate::numbers::LEAST_TIMES;
use crate::rng::Rng;
use crate::run::Run;
use paper_hours::{Branch, Hour};

/// Number and index.
pub const PLACES: [(u32, u32); 13] = [
    (4, 5),
    (4, 6),
    (4, 7),
    (4, 8),
    (4, 10),
    (21, 0),
    (21, 511),
    (23, 0),
    (23, 63),
    (24, 0),
    (24, 63),
    (25, 0),
    (25, 15),
];

/// A fault at each place, and nothing before it.
pub fn made(run: &mut Run, rng: &mut Rng) {
    run.begin("first and last of each list");
    for (number, index) in PLACES {
        for _ in 0..LEAST_TIMES {
            let (case, proposal) = at_fault(rng, number, index);
            run.feed(&case, &proposal, enough(rng));
            run.expect(number, index);
        }
    }
    run.end();
}

/// How often each place was named, by all inputs of the run.
pub fn named(run: &mut Run) {
    run.section("index named, times");
    for ((number, index), times) in PLACES.into_iter().zip(run.places) {
        at_least(run, format!("{number} {index}"), times);
    }
}

/// The files of a largest hour with a fault at the place, and often the same fault further on.
fn at_fault(rng: &mut Rng, number: u32, index: u32) -> (Vec<u8>, Vec<u8>) {
    let mut hour = good(rng, Shape::LARGEST);
    let at = index as usize;
    let also = |rng: &mut Rng, n: usize| n == at || n > at && rng.one_in(8);
    match number {
        4 => {
            let (mut case, mut proposal) = (hour.case(), hour.proposal());
            for field in fields(&hour) {
                if field.number == 4 && field.index >= index && also(rng, field.index as usize) {
                    let value = outside(rng, &field).expect("a header field has a range");
                    field.put(&mut case, &mut proposal, value);
                }
            }
            return (case, proposal);
        }
        21 => {
            for (n, (row, volume)) in hour.orders.iter().zip(&mut hour.volumes).enumerate() {
                if also(rng, n) {
                    *volume = rng.between_or_end(i64::from(row.quantity) + 1, MOST) as u32;
                }
            }
        }
        23 => {
            for (n, (link, flow)) in hour.links.iter().zip(&mut hour.flows).enumerate() {
                if also(rng, n) {
                    let most = most_flow(hour.share, link.capacity);
                    *flow = rng.between_or_end(most + 1, MOST) as u32;
                }
            }
        }
        24 => {
            // At share 100,000 no margin is too small.
            let wide = |hour: &Hour| {
                let parts = flow_based_parts(hour);
                least_ram(used(&hour.branches[at], &parts), hour.share).is_some_and(|least| least > -500_000)
            };
            while !wide(&hour) {
                hour = good(rng, Shape::LARGEST);
            }
            let parts = flow_based_parts(&hour);
            for n in at..hour.branches.len() {
                let least = least_ram(used(&hour.branches[n], &parts), hour.share).expect("the share is not whole");
                if least > -500_000 && also(rng, n) {
                    hour.branches[n].ram = rng.between_or_end(-500_000, least - 1) as i32;
                }
            }
        }
        _ => {
            let (system_price, outwards) = rng.pick(&[(-50_000, -1), (400_000, 1)]);
            let version = version(rng);
            let mut ptdf = |n| if also(rng, n) { outwards } else { 0 };
            hour = Hour {
                version,
                zones: 16,
                branches: vec![Branch { ram: 0, ptdfs: (0..16).map(&mut ptdf).collect() }],
                shadow_prices: vec![1],
                system_price,
                ..Hour::default()
            };
        }
    }
    (hour.case(), hour.proposal())
}

/// The most that 32 bits hold.
const MOST: i64 = u32::MAX as i64;
