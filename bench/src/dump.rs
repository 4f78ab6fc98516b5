//! The dump's entry against plain C that does the same with doubles.

use crate::{heading_against, measure, print, sized, Times, CLASSES};
use comparison::library;
use paper_hours::{three_zone_hour, Hour, Version};
use second_judge::{dump_proposal, OutputAnswer};
use std::hint::black_box;

extern "C" {
    fn plain_dump_proposal(
        case_bytes: *const u8,
        case_len: usize,
        dump: *const u8,
        dump_len: usize,
        out: *mut u8,
        out_len: usize,
    ) -> lta_sys::Written;
}

const ROOM: usize = 13 + 4 * (512 + 64 + 64);

fn plain(case: &[u8], dump: &[u8], out: &mut [u8]) -> OutputAnswer {
    // Safe: each pointer comes with the length of its own slice.
    let written = unsafe {
        plain_dump_proposal(case.as_ptr(), case.len(), dump.as_ptr(), dump.len(), out.as_mut_ptr(), out.len())
    };
    OutputAnswer { number: written.number, index: written.index, length: written.length }
}

/// An hour's proposal as a solver has it, with every value a little above what is written.
fn solved(hour: &Hour) -> Vec<f64> {
    let little = 1.0 + 1e-9;
    let orders = hour.orders.iter().zip(&hour.volumes);
    [f64::from(hour.share) / 100_000.0 * little, f64::from(hour.system_price) / 100.0 * little]
        .into_iter()
        .chain(orders.map(|(order, &volume)| (f64::from(volume) / f64::from(order.quantity) * little).min(1.0)))
        .chain(hour.flows.iter().map(|&flow| f64::from(flow) / 10.0 * little))
        .chain(hour.shadow_prices.iter().map(|&price| f64::from(price) / 100.0 * little))
        .collect()
}

fn bytes(values: &[f64]) -> Vec<u8> {
    values.iter().flat_map(|value| value.to_le_bytes()).collect()
}

/// Measures a dump; all three must give the same answer.
fn of(case: &[u8], dump: &[u8], number: u32, index: u64) -> Times {
    let (mut one, mut other, mut due) = ([0; ROOM], [0; ROOM], [0; ROOM]);
    let answer = dump_proposal(case, dump, &mut due);
    assert_eq!((answer.number, answer.index), (number, index), "the second judge");
    let proved = library::dump_proposal(case, dump, &mut one, false);
    assert_eq!((proved, one), (answer, due), "the library");
    let in_c = plain(case, dump, &mut other);
    assert_eq!((in_c, other), (answer, due), "plain C");
    measure(
        || {
            let out = black_box(&mut one);
            black_box(library::dump_proposal(black_box(case), black_box(dump), out, false));
        },
        || {
            black_box(plain(black_box(case), black_box(dump), black_box(&mut other)));
        },
    )
}

pub fn dumps() {
    heading_against("solver's dump, against plain C", "C ns");
    let p1 = three_zone_hour();
    print("P1", &of(&p1.case(), &bytes(&solved(&p1)), 0, 0));
    for (name, [zones, branches, links, orders]) in CLASSES {
        let hour = sized(zones, branches, links, orders);
        let times = of(&hour.case(), &bytes(&solved(&hour)), 0, 0);
        print(&format!("{name}: {zones}, {branches}, {links}, {orders}"), &times);
    }
    let [zones, branches, links, orders] = CLASSES[5].1;
    let largest = Hour { version: Version::Two, ..sized(zones, branches, links, orders) };
    let (case, values) = (largest.case(), solved(&largest));
    print("the largest, case version 2", &of(&case, &bytes(&values), 0, 0));
    let last = values.len() - 1;
    for (value, number) in [(f64::NAN, 58), (-1.0, 59)] {
        let mut values = values.clone();
        values[last] = value;
        let times = of(&case, &bytes(&values), number, last as u64);
        print(&format!("the largest, refused at the last value ({number})"), &times);
    }
}
