//! Makes hours near an optimal one, as a solver gives them, and hours with one known shortfall.

use super::hours::{flow_based_parts, least_ram, most_flow, optimal, pairs, used, version, zone_price, Shape};
use crate::rng::Rng;
use paper_hours::{Branch, Hour, Link, Version};
use second_judge::limits::{BUYS, ONE, SELLS, SHADOW_PRICE, ZONE_PRICE};
use second_judge::Row;

/// Cents: the widest tolerance that S-12 allows.
pub const TOLERANCE: u32 = 10_000;

/// How many numbers are written for an hour.
pub fn length(hour: &Hour) -> usize {
    2 * (hour.orders.len() + hour.branches.len() + hour.links.len())
}

/// The length, or some more.
pub fn enough_room(rng: &mut Rng, hour: &Hour) -> usize {
    length(hour) + rng.pick(&[0, 0, 1, 2, 40])
}

/// A tolerance that is accepted, often the widest.
pub fn tolerance(rng: &mut Rng) -> u32 {
    rng.between_or_end(0, TOLERANCE.into()) as u32
}

/// An hour to be refused, with such a tolerance; one in 20 keeps its own tolerance.
pub fn to_refuse(rng: &mut Rng, mut hour: Hour) -> Hour {
    if !rng.one_in(20) {
        hour.tolerance = tolerance(rng);
    }
    hour
}

/// A solver-like hour: an optimal one with a few numbers slightly off, and with its margins widened where they no
/// longer hold.
pub fn near(rng: &mut Rng, shape: Shape) -> Hour {
    loop {
        let mut hour = optimal(rng, shape);
        hour.tolerance = TOLERANCE;
        for _ in 0..1 + rng.below(4) {
            nudge(rng, &mut hour);
        }
        if fitted(&mut hour) {
            return hour;
        }
    }
}

/// A small step up or down.
pub fn step(rng: &mut Rng) -> i64 {
    let size = rng.pick(&[1, 1, 1, 2, 3, 10]);
    if rng.one_in(2) {
        size
    } else {
        -size
    }
}

pub fn moved(rng: &mut Rng, number: u32, most: i64) -> u32 {
    (i64::from(number) + step(rng)).clamp(0, most) as u32
}

pub fn nudge(rng: &mut Rng, hour: &mut Hour) {
    let (branches, links) = (hour.branches.len(), hour.links.len());
    match rng.below(9) {
        0 => hour.system_price += step(rng) as i32,
        1 if branches > 0 => {
            let b = rng.below(branches);
            hour.shadow_prices[b] = moved(rng, hour.shadow_prices[b], *SHADOW_PRICE.end() as i64);
        }
        2 if branches > 0 => {
            let b = rng.below(branches);
            let ptdf = &mut hour.branches[b].ptdfs[rng.below(hour.zones.into())];
            *ptdf = (i64::from(*ptdf) + step(rng)).clamp(-200_000, 200_000) as i32;
        }
        3 if branches > 0 => {
            let b = rng.below(branches);
            let margin = i64::from(hour.branches[b].ram) + step(rng).abs();
            hour.branches[b].ram = margin.min(500_000) as i32;
        }
        4 if links > 0 => {
            hour.share = moved(rng, hour.share, 100_000);
            for (link, flow) in hour.links.iter().zip(&mut hour.flows) {
                *flow = (*flow).min(most_flow(hour.share, link.capacity) as u32);
            }
        }
        5 if links > 0 => {
            let l = rng.below(links);
            let most = most_flow(hour.share, hour.links[l].capacity);
            hour.flows[l] = moved(rng, hour.flows[l], most);
        }
        6 if links > 0 => {
            let link = &mut hour.links[rng.below(links)];
            link.capacity = (i64::from(link.capacity) + step(rng).abs()).min(100_000) as u32;
        }
        _ => exchange(rng, hour),
    }
}

/// A little volume moved from one order to another, mostly of the same zone and side, or on both sides: the balance
/// stays.
pub fn exchange(rng: &mut Rng, hour: &mut Hour) {
    let count = hour.orders.len();
    if count < 2 {
        return;
    }
    for _ in 0..20 {
        let (a, b) = (rng.below(count), rng.below(count));
        let (one, other) = (hour.orders[a], hour.orders[b]);
        if a == b || one.zone != other.zone && !rng.one_in(8) {
            continue;
        }
        let room = |n: usize| hour.orders[n].quantity - hour.volumes[n];
        let most = step(rng).unsigned_abs() as u32;
        let (change, back) = match one.side == other.side {
            true => (most.min(room(a)).min(hour.volumes[b]), -1),
            false => (most.min(room(a)).min(room(b)), 1),
        };
        if change > 0 {
            hour.volumes[a] += change;
            hour.volumes[b] = (i64::from(hour.volumes[b]) + back * i64::from(change)) as u32;
            return;
        }
    }
}

/// A small hour with links and no round numbers, so that shares and spreads leave parts of a microcent, and flows
/// go either way.
pub fn odd(rng: &mut Rng) -> Hour {
    loop {
        let zones = 2 + rng.below(3);
        let branches = 1 + rng.below(3);
        let count = 1 + rng.below(zones * (zones - 1)).min(4);
        let share = rng.between_or_end(0, 100_000) as u32;
        let ptdf = |rng: &mut Rng| rng.between(-99_999, 99_999) as i32;
        let mut hour = Hour {
            version: version(rng),
            zones: zones as u8,
            tolerance: TOLERANCE,
            branches: (0..branches)
                .map(|_| Branch { ram: rng.between(-9, 9) as i32, ptdfs: (0..zones).map(|_| ptdf(rng)).collect() })
                .collect(),
            share,
            system_price: rng.between(1_000, 9_000) as i32,
            shadow_prices: (0..branches).map(|_| rng.between_or_end(0, 700) as u32).collect(),
            ..Hour::default()
        };
        for (from, to) in pairs(rng, zones, count) {
            let capacity = rng.between_or_end(0, 12) as u32;
            hour.links.push(Link { from, to, capacity, contracted: rng.between(0, capacity.into()) as u32 });
            let most = most_flow(share, capacity);
            hour.flows.push(rng.between_or_end(0, most) as u32);
        }
        // What one zone sells another buys, each near its own price.
        for _ in 0..1 + rng.below(4) {
            let volume = rng.between(1, 9) as u32;
            for side in [SELLS, BUYS] {
                let zone = rng.below(zones);
                let cents = zone_price(&hour, zone).div_euclid(100_000);
                let away = rng.between(-3, 40);
                let price = cents + if side == BUYS { away } else { -away };
                hour.orders.push(Row {
                    zone: zone as u8,
                    side,
                    quantity: volume + rng.pick(&[0, 0, 1, 5]),
                    price: price as i32,
                });
                hour.volumes.push(volume);
            }
        }
        if fitted(&mut hour) {
            return hour;
        }
    }
}

/// Widens the margins that are too small; false if that is not possible, or if a price is out of range.
pub fn fitted(hour: &mut Hour) -> bool {
    let parts = flow_based_parts(hour);
    let share = hour.share;
    let held = hour.branches.iter_mut().all(|branch| {
        let used = used(branch, &parts);
        let Some(least) = least_ram(used, share) else {
            return used <= 0;
        };
        branch.ram = i64::from(branch.ram).max(least).min(500_000) as i32;
        i64::from(branch.ram) >= least
    });
    held && (0..hour.zones.into()).all(|zone| ZONE_PRICE.contains(&zone_price(hour, zone).into()))
}

/// One order in the money, and nobody to trade with: its shortfall is all of its surplus, up to 100 euros.
pub fn lone_order(rng: &mut Rng) -> (Hour, usize, i64, i64) {
    let quantity = rng.between_or_end(1, 1_000);
    let gain = rng.between_or_end(0, 100_000 / quantity);
    let side = rng.pick(&[BUYS, SELLS]);
    let price = if side == BUYS { gain } else { -gain };
    let hour = Hour {
        zones: 1,
        tolerance: TOLERANCE,
        orders: vec![Row { zone: 0, side, quantity: quantity as u32, price: price.clamp(-50_000, 400_000) as i32 }],
        volumes: vec![0],
        ..Hour::default()
    };
    let gain = i64::from(hour.orders[0].price).abs();
    (hour, 0, 100_000 * quantity * gain, 0)
}

/// One branch with a shadow price and some margin, and no load; without links the whole margin is free.
pub fn lone_branch(rng: &mut Rng) -> (Hour, usize, i64, i64) {
    let margin = rng.between_or_end(0, 10_000);
    let shadow = rng.between_or_end(0, 100_000 / margin.max(1)).min(1_000_000);
    let hour = Hour {
        zones: 1,
        tolerance: TOLERANCE,
        branches: vec![Branch { ram: margin as i32, ptdfs: vec![rng.between(-1_000, 1_000) as i32] }],
        shadow_prices: vec![shadow as u32],
        system_price: 10_000,
        ..Hour::default()
    };
    (hour, 0, 100_000 * margin * shadow, 0)
}

/// Two zones, a spread of some grains and a link with nothing on it.
pub fn lone_link(rng: &mut Rng) -> (Hour, usize, i64, i64) {
    let (ptdf, shadow) = (rng.between(1, 999), rng.between(1, 99));
    let capacity = rng.between_or_end(0, 100_000);
    let share = rng.between_or_end(0, 100_000);
    let spread = ptdf * shadow;
    let hour = Hour {
        version: rng.pick(&[Version::One, Version::Two]),
        zones: 2,
        tolerance: TOLERANCE,
        branches: vec![Branch { ram: 0, ptdfs: vec![0, ptdf as i32] }],
        links: vec![Link { from: 0, to: 1, capacity: capacity as u32, contracted: rng.between(0, capacity) as u32 }],
        flows: vec![0],
        share: share as u32,
        shadow_prices: vec![shadow as u32],
        ..Hour::default()
    };
    let amount = i128::from(capacity) * i128::from(share) * i128::from(spread);
    (hour, 1, (amount / ONE) as i64, (amount % ONE) as i64)
}

/// The same with the spread reversed and a flow against it; an order in each zone balances it at its own price.
pub fn link_against(rng: &mut Rng) -> (Hour, usize, i64, i64) {
    let flow = rng.between_or_end(0, 100);
    let cents = rng.between(0, 100_000 / flow.max(1)).min(40_000);
    let capacity = 2 * flow + rng.below(10) as i64;
    let order = |zone, side, price| Row { zone, side, quantity: 100, price };
    let hour = Hour {
        zones: 2,
        tolerance: TOLERANCE,
        branches: vec![Branch { ram: 0, ptdfs: vec![100_000, 0] }],
        links: vec![Link { from: 0, to: 1, capacity: capacity as u32, contracted: capacity as u32 }],
        orders: vec![order(0, SELLS, cents as i32), order(1, BUYS, 0)],
        volumes: vec![flow as u32; 2],
        flows: vec![flow as u32],
        share: 50_000,
        shadow_prices: vec![cents as u32],
        ..Hour::default()
    };
    (hour, 3, 100_000 * flow * cents, 0)
}
