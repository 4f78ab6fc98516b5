//! Makes hours at the limits: every field at one of its ends, and totals at their widest.

use super::hours::*;
use crate::rng::Rng;
use paper_hours::{Branch, Hour, Link, Version};
use second_judge::limits::{BUYS, SELLS};
use second_judge::Row;

/// An hour with every field at one of its limits.
pub fn at_limits(rng: &mut Rng, shape: Shape) -> Hour {
    let mut hour = random(rng, shape);
    let share = rng.pick(&[0, 100_000]);
    hour.share = share;
    hour.tolerance = rng.pick(&[0, 0, 10_000, 10_000, 10_001, 1_000_000_000]);
    hour.system_price = rng.pick(&[i32::MIN, -50_000, -50_000, 400_000, 400_000, i32::MAX]);
    for branch in &mut hour.branches {
        branch.ram = rng.pick(&[-500_000, 500_000]);
    }
    let ptdfs: &[i32] = if rng.one_in(2) { &[0] } else { &[-200_000, 0, 200_000] };
    for ptdf in hour.branches.iter_mut().flat_map(|branch| &mut branch.ptdfs) {
        *ptdf = rng.pick(ptdfs);
    }
    for (n, row) in hour.orders.iter_mut().enumerate() {
        row.price = rng.pick(&[-50_000, 400_000]);
        row.quantity = rng.pick(&[1, 100_000]);
        hour.volumes[n] = rng.pick(&[0, row.quantity]);
    }
    for (link, flow) in hour.links.iter_mut().zip(&mut hour.flows) {
        link.capacity = rng.pick(&[0, 100_000]);
        link.contracted = rng.pick(&[0, link.capacity]);
        *flow = rng.pick(&[0, most_flow(share, link.capacity) as u32]);
    }
    for shadow in &mut hour.shadow_prices {
        *shadow = rng.pick(&[0, 1_000_000]);
    }
    if rng.one_in(2) {
        balance(&mut hour);
    }
    if rng.one_in(4) {
        hour.flows.fill(0);
        hour.volumes.fill(0);
    }
    hour
}

/// An hour with a total at its widest: name, hour, place in the report, value.
pub struct Widest {
    pub name: &'static str,
    pub hour: Hour,
    pub total: usize,
    pub value: i64,
}

/// Places of the totals in the report.
pub const WELFARE: usize = 0;
pub const BOUND: usize = 1;
pub const GAP: usize = 2;
pub const RENT: usize = 3;
pub const OWED: usize = 4;

pub fn widest() -> Vec<Widest> {
    const LOWEST: i32 = -50_000;
    const HIGHEST: i32 = 400_000;
    const ALL: i64 = 100_000 * 450_000 * ONE; // a full order across all prices
    let order = |zone, side, price| Row { zone, side, quantity: 100_000, price };
    let halves = |first: Row, second: Row| [vec![first; 256], vec![second; 256]].concat();
    let flat = |ram, count| vec![Branch { ram, ptdfs: vec![0] }; count];
    // Zones in the second half have the highest price, the others the lowest.
    let split = |zones: usize, ram| -> Vec<Branch> {
        let row = |ptdf| (0..zones).map(|zone| if zone < zones / 2 { 0 } else { ptdf }).collect();
        (0..64).map(|b| Branch { ram, ptdfs: row(if b == 63 { 711 } else { 703 }) }).collect()
    };
    let across = |to_higher: bool| -> Vec<Link> {
        (0..64u8)
            .map(|n| (n / 8, 8 + n % 8))
            .map(|(low, high)| if to_higher { (low, high) } else { (high, low) })
            .map(|pair| link(pair, 100_000))
            .collect()
    };
    let one_zone = Hour { zones: 1, ..Hour::default() };
    let traded = |first, second, system_price| Hour {
        orders: halves(first, second),
        volumes: vec![100_000; 512],
        system_price,
        ..one_zone.clone()
    };
    let untraded =
        |row, system_price| Hour { orders: vec![row; 512], volumes: vec![0; 512], system_price, ..one_zone.clone() };
    let with_branches =
        |hour: &Hour, ram| Hour { branches: flat(ram, 64), shadow_prices: vec![1_000_000; 64], ..hour.clone() };
    // A second zone and a link of no capacity, for the whole share.
    let leaning = |hour: Hour| Hour {
        zones: 2,
        branches: hour.branches.iter().map(|branch| Branch { ptdfs: vec![0, 0], ..branch.clone() }).collect(),
        links: vec![link((0, 1), 0)],
        flows: vec![0],
        share: 100_000,
        ..hour
    };
    // S-6: margins that make the second zone buy for -500 euros what the first sells for 4,000, and so earn a
    // negative amount.
    let forced = Hour {
        zones: 2,
        branches: vec![Branch { ram: -500_000, ptdfs: vec![0, -2_000] }; 23],
        orders: [vec![order(0, SELLS, HIGHEST); 250], vec![order(1, BUYS, LOWEST); 250]].concat(),
        volumes: vec![100_000; 500],
        shadow_prices: [vec![1_000_000; 22], vec![500_000]].concat(),
        system_price: HIGHEST,
        ..Hour::default()
    };
    let carried = |buys_in, sells_in| Hour {
        zones: 2,
        branches: split(2, 500_000),
        orders: halves(order(buys_in, BUYS, 0), order(sells_in, SELLS, 0)),
        volumes: vec![100_000; 512],
        shadow_prices: vec![1_000_000; 64],
        system_price: LOWEST,
        ..Hour::default()
    };
    let linked = |to_higher, share, contracted: Option<u32>| Hour {
        version: contracted.map_or(Version::One, |_| Version::Two),
        zones: 16,
        branches: split(16, -500_000),
        links: across(to_higher).into_iter().map(|link| Link { contracted: contracted.unwrap_or(0), ..link }).collect(),
        flows: vec![0; 64],
        shadow_prices: vec![1_000_000; 64],
        system_price: LOWEST,
        share,
        ..Hour::default()
    };
    let buys = untraded(order(0, BUYS, HIGHEST), LOWEST);
    let sells = untraded(order(0, SELLS, LOWEST), HIGHEST);
    let branch_total = 64 * 500_000 * 1_000_000 * ONE;
    let high = traded(order(0, BUYS, HIGHEST), order(0, SELLS, LOWEST), 0);
    let low = traded(order(0, BUYS, LOWEST), order(0, SELLS, HIGHEST), 0);
    let widest = |name, hour: Hour, total, value| Widest { name, hour, total, value };
    vec![
        widest("welfare", high, WELFARE, 256 * ALL),
        widest("welfare, negative", low.clone(), WELFARE, -256 * ALL),
        widest("gap of welfare, negative", with_branches(&low, 500_000), GAP, 256 * ALL + branch_total),
        widest("surplus of buys", buys.clone(), BOUND, 512 * ALL),
        widest("surplus of sells", sells.clone(), BOUND, 512 * ALL),
        widest("branch total", with_branches(&one_zone, 500_000), BOUND, branch_total),
        widest("branch total, negative", leaning(with_branches(&buys, -500_000)), BOUND, 512 * ALL),
        widest("bound, negative", forced.clone(), BOUND, -250 * ALL),
        widest("bound, negative: the rent", forced.clone(), RENT, -250 * ALL),
        widest("bound, negative: the gap", forced, GAP, 0),
        widest("bound", with_branches(&buys, 500_000), BOUND, 512 * ALL + branch_total),
        widest("gap", with_branches(&sells, 500_000), GAP, 512 * ALL + branch_total),
        widest("rent", carried(1, 0), RENT, 256 * ALL),
        widest("rent, negative", carried(0, 1), RENT, -256 * ALL),
        widest("owed", linked(true, 100_000, None), OWED, 64 * ALL),
        widest("owed, every spread negative", linked(false, 100_000, None), OWED, 0),
        // S-4: all contracted, a tenth less in each link, nothing.
        widest("owed, all contracted", linked(true, 100_000, Some(100_000)), OWED, 64 * ALL),
        widest(
            "owed, a tenth of each not contracted",
            linked(true, 100_000, Some(99_999)),
            OWED,
            64 * ALL / 100_000 * 99_999,
        ),
        widest("bound, nothing contracted", linked(true, 100_000, Some(0)), BOUND, 64 * ALL),
        widest("owed, nothing contracted", linked(true, 100_000, Some(0)), OWED, 0),
    ]
}
