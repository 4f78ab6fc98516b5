//! Measures the proved judge against the second one; the desk's lines, the margin sheet's and the dump's entry
//! against plain C; S-3's and S-8's against plain Rust; S-14's against the judgement too. All run on the same
//! inputs. Prints only.

mod columns;
mod desk;
mod dump;
mod families;
mod intuitive;
mod plain_flow;
mod queue;
mod sheet;
mod shortfalls;

use comparison::library;
use paper_hours::{contracted_hour, three_zone_hour, Branch, Hour, Link, Version};
use second_judge::limits::{BUYS, LEAST_BUFFER, SELLS};
use second_judge::{judge, Row};
use std::hint::black_box;
use std::time::{Duration, Instant};

/// Odd, so that the median is one of them.
const REPETITIONS: usize = 401;
/// A repetition lasts about this long. It is short, so that the two halves of a pair meet the same machine and the
/// median drops a disturbed one.
const LENGTH: Duration = Duration::from_micros(60);
/// In a case of sixteen zones and 64 branches: the bytes of a branch, and of all before the links.
const BRANCH_BYTES: u32 = 4 + 4 * 16;
const LINKS_AT: u32 = 14 + 64 * BRANCH_BYTES;

/// Six sizes of an hour: zones, branches, links and orders.
const CLASSES: [(&str, [usize; 4]); 6] = [
    ("tiny", [3, 2, 1, 6]),
    ("small", [4, 8, 4, 20]),
    ("middling", [8, 24, 12, 150]),
    ("many branches", [16, 64, 2, 20]),
    ("many links", [16, 4, 64, 20]),
    ("largest", [16, 64, 64, 512]),
];

/// Nanoseconds of one call and the ratio, each the median of the repetitions.
struct Times {
    proved: f64,
    other: f64,
    ratio: f64,
}

fn nanoseconds(calls: u32, call: &mut impl FnMut()) -> f64 {
    let start = Instant::now();
    for _ in 0..calls {
        call();
    }
    start.elapsed().as_nanos() as f64 / f64::from(calls)
}

fn median(mut list: Vec<f64>) -> f64 {
    list.sort_by(f64::total_cmp);
    list[list.len() / 2]
}

/// Both in turn, each of them first in every other pair.
fn measure(mut proved: impl FnMut(), mut other: impl FnMut()) -> Times {
    let calls_for = |one: f64| (LENGTH.as_nanos() as f64 / one).clamp(1.0, 1e5) as u32;
    let warm = |call: &mut dyn FnMut()| median((0..9).map(|_| nanoseconds(9, &mut || call())).collect());
    let proved_calls = calls_for(warm(&mut proved));
    let other_calls = calls_for(warm(&mut other));
    let (mut of_proved, mut of_other, mut ratios) = (Vec::new(), Vec::new(), Vec::new());
    for n in 0..REPETITIONS {
        let (one, two);
        if n % 2 == 0 {
            one = nanoseconds(proved_calls, &mut proved);
            two = nanoseconds(other_calls, &mut other);
        } else {
            two = nanoseconds(other_calls, &mut other);
            one = nanoseconds(proved_calls, &mut proved);
        }
        of_proved.push(one);
        of_other.push(two);
        ratios.push(one / two);
    }
    Times { proved: median(of_proved), other: median(of_other), ratio: median(ratios) }
}

/// Measures the judgement of two files, which must have this verdict.
fn measure_judges(case: &[u8], proposal: &[u8], number: u32, index: u32) -> Times {
    let (mut one, mut other) = ([0; LEAST_BUFFER], [0; LEAST_BUFFER]);
    let verdict = judge(case, proposal, &mut other);
    assert_eq!((verdict.number, verdict.index), (number, index), "the second judge");
    let answer = library::judge(case, proposal, &mut one);
    assert_eq!((answer.number, answer.index), (number, index), "the library");
    measure(
        || {
            black_box(library::judge(black_box(case), black_box(proposal), black_box(&mut one)));
        },
        || {
            black_box(judge(black_box(case), black_box(proposal), black_box(&mut other)));
        },
    )
}

/// The same for an hour that reaches its report, accepted or not.
fn measure_reported(hour: &Hour) -> Times {
    let (case, proposal) = (hour.case(), hour.proposal());
    let verdict = judge(&case, &proposal, &mut [0; LEAST_BUFFER]);
    assert!(matches!(verdict.number, 0 | 26), "there is a report");
    measure_judges(&case, &proposal, verdict.number, verdict.index)
}

/// An hour of these counts that reaches its report, with no field left at zero. Its gap is above the widest
/// tolerance that is judged (S-12).
fn sized(zones: usize, branches: usize, links: usize, orders: usize) -> Hour {
    Hour {
        version: Version::One,
        zones: zones as u8,
        tolerance: 10_000,
        branches: (0..branches)
            .map(|b| Branch {
                ram: 50_000,
                ptdfs: (0..zones).map(|z| ((b * 7 + z * 13) % 41) as i32 * 1_000 - 20_500).collect(),
            })
            .collect(),
        links: (0..links)
            .map(|l| (l % zones, (l % zones + 1 + l / zones) % zones))
            .map(|(from, to)| Link { from: from as u8, to: to as u8, capacity: 1_000, contracted: 600 })
            .collect(),
        orders: (0..orders)
            .map(|o| Row {
                zone: (o * 5 % zones) as u8,
                side: if o % 2 == 0 { BUYS } else { SELLS },
                quantity: 100,
                price: 17_500 + (o % 50) as i32 * 100,
            })
            .collect(),
        // without links there is no LTA domain (S-6)
        share: if links > 0 { 50_000 } else { 0 },
        system_price: 20_000,
        volumes: (0..orders).map(|o| if o == orders - orders % 2 { 0 } else { 50 }).collect(),
        flows: vec![100; links],
        shadow_prices: (0..branches).map(|b| (b % 4) as u32 * 100 + 1).collect(),
    }
}

/// The same with volumes and spreads so small that it is accepted.
fn accepted(zones: usize, branches: usize, links: usize, orders: usize) -> Hour {
    let mut hour = sized(zones, branches, links, orders);
    hour.branches.iter_mut().for_each(|branch| branch.ram = 200);
    for link in &mut hour.links {
        (link.capacity, link.contracted) = (10, 6);
    }
    for (o, order) in hour.orders.iter_mut().enumerate() {
        (order.quantity, order.price) = (2, 19_999 + (o % 3) as i32);
    }
    hour.volumes.iter_mut().for_each(|volume| *volume /= 50);
    hour.flows.fill(1);
    for (b, shadow) in hour.shadow_prices.iter_mut().enumerate() {
        *shadow = u32::from(b % 4 == 0);
    }
    hour
}

fn print(name: &str, times: &Times) {
    let Times { proved, other, ratio } = times;
    println!("  {name:<42} {proved:>10.0} {other:>10.0} {ratio:>8.2}");
}

fn heading(name: &str) {
    heading_against(name, "Rust ns");
}

fn heading_against(name: &str, other: &str) {
    println!("{name:<44} {:>10} {other:>10} {:>8}", "proved ns", "ratio");
}

fn main() {
    if cfg!(debug_assertions) {
        println!("built without --release: the times of the second judge say nothing");
    }
    println!("proved / Rust, median of {REPETITIONS} pairs of repetitions by turns");
    println!("the Rust judge is written to be read: it sums in 128 bits, and takes some sums more than once");
    println!("report buffers: cleared once before the first call, not between calls");

    heading("judgement");
    let of = |hour: &Hour, number, index| measure_judges(&hour.case(), &hour.proposal(), number, index);
    print("P1", &of(&three_zone_hour(), 0, 0));
    for (name, [zones, branches, links, orders]) in CLASSES {
        print(
            &format!("{name}: {zones}, {branches}, {links}, {orders}"),
            &measure_reported(&sized(zones, branches, links, orders)),
        );
    }

    heading("judgement, case version 2");
    let [zones, branches, links, orders] = CLASSES[5].1;
    let largest = sized(zones, branches, links, orders);
    let two = |hour: Hour| Hour { version: Version::Two, ..hour };
    print("P1, 2,500 of 4,000 contracted", &of(&contracted_hour(), 0, 0));
    print("the largest", &measure_reported(&two(largest.clone())));
    let mut contracted = two(largest.clone());
    contracted.links[63].contracted = 1_001;
    print("at the last link's contracted (7)", &of(&contracted, 7, LINKS_AT + 63 * 10 + 6));

    heading("refusals of the largest");
    let header = Hour { tolerance: 1_000_000_001, ..largest.clone() };
    print("at the header (4)", &of(&header, 4, 10));
    let mut field = largest.clone();
    field.branches[63].ram = 500_001;
    print("at the last branch (6)", &of(&field, 6, 14 + 63 * BRANCH_BYTES));
    let mut link = largest.clone();
    link.links[63].capacity = 100_001;
    print("at the last link (7)", &of(&link, 7, LINKS_AT + 63 * 6 + 2));
    let mut order = largest.clone();
    order.orders[511].price = 400_001;
    print("at the last order (8)", &of(&order, 8, LINKS_AT + 64 * 6 + 511 * 10 + 6));
    let mut shadow = largest.clone();
    shadow.shadow_prices[63] = 1_000_001;
    print("at the last price (14)", &of(&shadow, 14, 13 + 4 * (512 + 64 + 63)));
    let mut rule = largest.clone();
    rule.branches[63].ram = -500_000;
    print("at the last branch (24)", &of(&rule, 24, 63));
    let wide = Hour { tolerance: 10_001, ..largest.clone() };
    print("at the tolerance (15)", &of(&wide, 15, 0));

    heading("growth, sixteen zones");
    for count in [0, 64, 128, 256, 512] {
        print(&format!("{count} orders"), &measure_reported(&sized(16, 0, 0, count)));
    }
    for count in [0, 8, 16, 32, 64] {
        print(&format!("{count} branches"), &measure_reported(&sized(16, count, 0, 0)));
    }
    for count in [0, 8, 16, 32, 64] {
        print(&format!("{count} links"), &measure_reported(&sized(16, 0, count, 0)));
    }
    for count in [8, 16, 32, 64] {
        print(&format!("{count} links of version 2"), &measure_reported(&two(sized(16, 0, count, 0))));
    }
    desk::lines();
    sheet::sheets();
    intuitive::exchanges();
    dump::dumps();
    columns::files();
    families::lists();
    shortfalls::hours();
    queue::queues();
}
