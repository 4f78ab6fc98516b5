//! The shortfalls' entry against the second judge's, and against the judgement alone, which it asks first: what is
//! above 1 there is the time of the shortfalls themselves.

use crate::{heading, heading_against, measure, print, sized, Times, CLASSES};
use comparison::library;
use paper_hours::{contracted_hour, three_zone_hour, Hour};
use second_judge::limits::LEAST_BUFFER;
use second_judge::shortfalls;
use std::hint::black_box;

const ROOM: usize = 2 * (512 + 64 + 64);

/// An hour of these counts that is accepted with a gap of at most 100 euros. Every order is at the system price. The
/// first branch has a shadow price of a cent, which moves the zone prices away from the system price.
fn near(counts: [usize; 4]) -> Hour {
    let [zones, branches, links, orders] = counts;
    let mut hour = sized(zones, branches, links, orders);
    hour.tolerance = 10_000;
    for order in &mut hour.orders {
        order.price = hour.system_price;
    }
    hour.shadow_prices.fill(0);
    if let Some(first) = hour.shadow_prices.first_mut() {
        *first = 1;
    }
    hour
}

/// Both against the second judge's entry, and against the library's judgement.
fn of(hour: &Hour) -> (Times, Times) {
    let (case, proposal) = (hour.case(), hour.proposal());
    let (mut one, mut two) = ([0; ROOM], [0; ROOM]);
    let answer = library::shortfalls(&case, &proposal, &mut one, false);
    assert_eq!(answer, shortfalls(&case, &proposal, &mut two), "both answer");
    assert_eq!((answer.number, one), (0, two), "both write");
    let mut again = [0; ROOM];
    let mut proved = || {
        black_box(library::shortfalls(black_box(&case), black_box(&proposal), black_box(&mut one), false));
    };
    let against_second = measure(&mut proved, || {
        black_box(shortfalls(black_box(&case), black_box(&proposal), black_box(&mut again)));
    });
    let mut report = [0; LEAST_BUFFER];
    let against_judgement = measure(&mut proved, || {
        black_box(library::judge(black_box(&case), black_box(&proposal), black_box(&mut report)));
    });
    (against_second, against_judgement)
}

pub fn hours() {
    let mut hours =
        vec![("P1".to_string(), three_zone_hour()), ("P1, 2,500 of 4,000 contracted".to_string(), contracted_hour())];
    for (name, counts) in CLASSES {
        let [zones, branches, links, orders] = counts;
        let name = format!("{name}: {zones}, {branches}, {links}, {orders}");
        hours.push((name, near(counts)));
    }
    let times: Vec<(String, (Times, Times))> = hours.into_iter().map(|(name, hour)| (name, of(&hour))).collect();
    heading("shortfalls");
    for (name, (against_second, _)) in &times {
        print(name, against_second);
    }
    heading_against("shortfalls, against lta_judge", "judge ns");
    for (name, (_, against_judgement)) in &times {
        print(name, against_judgement);
    }
}
