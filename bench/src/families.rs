//! Times the judgement with a family list against the judgement of the same hour without one, and against the second
//! judge's. S-11 asks for at most twice the time without a list. 512 orders in one chain, in one circle, in none.

use crate::{heading, heading_against, measure, print, sized, Times, CLASSES};
use comparison::library;
use paper_hours::Hour;
use second_judge::limits::LEAST_BUFFER;
use second_judge::{judge_families, list_of};
use std::hint::black_box;

const ORDERS: u16 = 512;
/// Their gap is above the tolerance, and the report is written.
const REPORTED: u64 = 26;

/// The parents of each shape: its name, the expected number, and the list.
fn shapes() -> Vec<(&'static str, u64, Vec<Option<u16>>)> {
    let last = ORDERS - 1;
    vec![
        ("no parents", REPORTED, vec![None; ORDERS.into()]),
        ("one chain, upwards", REPORTED, (0..ORDERS).map(|o| (o < last).then_some(o + 1)).collect()),
        ("one chain, downwards", REPORTED, (0..ORDERS).map(|o| o.checked_sub(1)).collect()),
        ("one parent of all", REPORTED, (0..ORDERS).map(|o| (o > 0).then_some(0)).collect()),
        ("one circle (18)", 18, (0..ORDERS).map(|o| Some((o + 1) % ORDERS)).collect()),
        ("all lead to the last, its own parent (18)", 18, (0..ORDERS).map(|o| Some((o + 1).min(last))).collect()),
    ]
}

/// The hour with every order accepted in one fraction, so that every family holds.
fn even(hour: &Hour) -> Hour {
    Hour { volumes: vec![50; hour.orders.len()], ..hour.clone() }
}

fn of(hour: &Hour, list: &[u8], number: u64, against: impl Fn(&mut [u8]) -> u64) -> Times {
    let (case, proposal) = (hour.case(), hour.proposal());
    let (mut one, mut two) = ([0; LEAST_BUFFER], [0; LEAST_BUFFER]);
    let answer = library::judge_families(&case, &proposal, list, &mut one, false);
    assert_eq!(u64::from(answer.number), number, "the library");
    against(&mut two);
    measure(
        || {
            black_box(library::judge_families(
                black_box(&case),
                black_box(&proposal),
                black_box(list),
                black_box(&mut one),
                false,
            ));
        },
        || {
            black_box(against(black_box(&mut two)));
        },
    )
}

pub fn lists() {
    let classes = [("512 orders alone", [16, 0, 0, ORDERS.into()]), ("largest", CLASSES[5].1)];
    let hours =
        classes.map(|(name, [zones, branches, links, orders])| (name, even(&sized(zones, branches, links, orders))));
    heading_against("families, against none", "lta_judge");
    for (name, hour) in &hours {
        let (case, proposal) = (hour.case(), hour.proposal());
        for (shape, number, parents) in shapes() {
            let times = of(hour, &list_of(&parents), number, |report| {
                library::judge(black_box(&case), black_box(&proposal), report).number.into()
            });
            print(&format!("{name}: {shape}"), &times);
        }
    }
    heading("families, against the second judge");
    for (name, hour) in &hours {
        let (case, proposal) = (hour.case(), hour.proposal());
        for (shape, number, parents) in shapes() {
            let list = list_of(&parents);
            let times = of(hour, &list, number, |report| {
                let verdict = judge_families(black_box(&case), black_box(&proposal), black_box(&list), report);
                u64::from(verdict.number)
            });
            print(&format!("{name}: {shape}"), &times);
        }
    }
}
