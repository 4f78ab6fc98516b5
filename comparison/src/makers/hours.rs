//! Makes hours: optimal ones, feasible ones and random ones, half of them of either case version.
//!
//! An optimal hour is made from its prices:
//!
//! - Shadow prices and a system price give the zone prices.
//! - Every link with a positive spread is full. The capacities of these links, in and out of a zone, sum to its net
//!   position.
//! - Each branch's RAM is exactly what these net positions use.
//!
//! Then branch total, owed and rent are equal for any share. If only orders in the money are accepted, the gap is
//! zero. Without links (S-6) the share is 0 and the net positions are random; branch total and rent are equal, and
//! often negative.

use crate::rng::Rng;
use paper_hours::{Branch, Hour, Link, Version};
use second_judge::limits::{BUYS, LEAST_BUFFER, SELLS};
use second_judge::Row;

pub const ONE: i64 = 100_000;
const MOST_ORDERS: usize = 512;
const LOW: i64 = -50_000;
const HIGH: i64 = 400_000;

/// Counts of an hour's rows.
#[derive(Clone, Copy)]
pub struct Shape {
    pub zones: usize,
    pub branches: usize,
    pub links: usize,
    pub orders: usize,
}

impl Shape {
    pub const LARGEST: Shape = Shape { zones: 16, branches: 64, links: 64, orders: 512 };

    pub fn small(rng: &mut Rng) -> Shape {
        Shape::within(rng, [4, 4, 6, 12])
    }

    /// Any size; mostly small, to keep a run short.
    pub fn any(rng: &mut Rng) -> Shape {
        match rng.below(100) {
            0..=59 => Shape::small(rng),
            60..=91 => Shape::within(rng, [10, 16, 16, 64]),
            92..=98 => Shape::within(rng, [16, 64, 64, 512]),
            _ => Shape::LARGEST,
        }
    }

    /// A small shape, except for one out of this many.
    pub fn mostly_small(rng: &mut Rng, every: usize) -> Shape {
        match rng.one_in(every) {
            true => Shape::any(rng),
            false => Shape::small(rng),
        }
    }

    fn within(rng: &mut Rng, most: [usize; 4]) -> Shape {
        let zones = 1 + rng.below(most[0]);
        Shape {
            zones,
            branches: rng.below(most[1] + 1),
            links: rng.below(most[2] + 1).min(zones * (zones - 1)),
            orders: rng.below(most[3] + 1),
        }
    }
}

/// S-12, in cents: a tolerance that is judged, often one of the two ends.
pub fn narrow(rng: &mut Rng) -> u32 {
    match rng.below(4) {
        0 | 1 => 0,
        2 => rng.pick(&[1, 9_999, 10_000]),
        _ => rng.between(0, 10_000) as u32,
    }
}

/// A tolerance that is read and not judged.
pub fn wide(rng: &mut Rng) -> u32 {
    match rng.below(4) {
        0 | 1 => 10_001,
        _ => rng.between_or_end(10_001, 1_000_000_000) as u32,
    }
}

/// Either; wide ones are rare, since nothing after 15 is asked of them.
pub fn tolerance(rng: &mut Rng) -> u32 {
    match rng.one_in(10) {
        true => wide(rng),
        false => narrow(rng),
    }
}

/// S-4: either version.
pub fn version(rng: &mut Rng) -> Version {
    rng.pick(&[Version::One, Version::Two])
}

/// A link with nothing contracted yet.
pub fn link((from, to): (u8, u8), capacity: u32) -> Link {
    Link { from, to, capacity, contracted: 0 }
}

/// Contracts a part of each link's capacity, often all of it or none.
fn contract(rng: &mut Rng, links: &mut [Link]) {
    for link in links {
        link.contracted = rng.between_or_end(0, link.capacity.into()) as u32;
    }
}

/// This many different ordered pairs of zones.
pub fn pairs(rng: &mut Rng, zones: usize, count: usize) -> Vec<(u8, u8)> {
    let zones = zones as u8;
    let mut all: Vec<(u8, u8)> =
        (0..zones).flat_map(|from| (0..zones).map(move |to| (from, to))).filter(|(from, to)| from != to).collect();
    for n in 0..count {
        let other = n + rng.below(all.len() - n);
        all.swap(n, other);
    }
    all.truncate(count);
    all
}

/// Rule 1.
pub fn net_positions(hour: &Hour) -> [i64; 16] {
    let mut net = [0; 16];
    for (order, &volume) in hour.orders.iter().zip(&hour.volumes) {
        let volume = i64::from(volume);
        net[usize::from(order.zone)] += if order.side == BUYS { volume } else { -volume };
    }
    net
}

/// Rule 2, the flow-based parts.
pub fn flow_based_parts(hour: &Hour) -> [i64; 16] {
    let mut parts = net_positions(hour);
    for (link, &flow) in hour.links.iter().zip(&hour.flows) {
        parts[usize::from(link.to)] -= i64::from(flow);
        parts[usize::from(link.from)] += i64::from(flow);
    }
    parts
}

/// Rule 5, the left side of a branch.
pub fn used(branch: &Branch, parts: &[i64; 16]) -> i64 {
    branch.ptdfs.iter().zip(parts).map(|(&ptdf, part)| i64::from(ptdf) * part).sum()
}

/// Rule 5: the least RAM for this use; none at share 100,000.
pub fn least_ram(used: i64, share: u32) -> Option<i64> {
    let left = ONE - i64::from(share);
    // Division that rounds up, for either sign.
    (left > 0).then(|| -(-used).div_euclid(left))
}

/// Rule 6, in grains.
pub fn zone_price(hour: &Hour, zone: usize) -> i64 {
    let branches = hour.branches.iter().zip(&hour.shadow_prices);
    ONE * i64::from(hour.system_price)
        + branches.map(|(row, &shadow)| i64::from(row.ptdfs[zone]) * i64::from(shadow)).sum::<i64>()
}

fn prices_in_range(hour: &Hour) -> bool {
    (0..usize::from(hour.zones)).all(|zone| (ONE * LOW..=ONE * HIGH).contains(&zone_price(hour, zone)))
}

/// Rule 4: the most flow a link takes.
pub fn most_flow(share: u32, capacity: u32) -> i64 {
    i64::from(share) * i64::from(capacity) / ONE
}

/// An hour with gap zero, made as told above.
pub fn optimal(rng: &mut Rng, shape: Shape) -> Hour {
    // If a volume does not fit its orders, all volumes are halved.
    (0..).find_map(|halvings| try_optimal(rng, shape, halvings)).expect("volumes end at zero")
}

fn try_optimal(rng: &mut Rng, shape: Shape, halvings: u32) -> Option<Hour> {
    // PTDFs in thousands and shadow prices in hundreds, so that zone prices are whole cents and orders can be
    // exactly at them.
    let widest = rng.pick(&[20, 100, 200]);
    let ptdfs: Vec<Vec<i64>> =
        (0..shape.branches).map(|_| (0..shape.zones).map(|_| 1_000 * rng.between(-widest, widest)).collect()).collect();
    let dearest = rng.pick(&[1, 10, 60, 500, 10_000]);
    let mut shadows: Vec<i64> = (0..shape.branches)
        .map(|_| match shape.orders > 0 && rng.one_in(3) {
            true => 100 * rng.between_or_end(0, dearest),
            false => 0, // no order: no trade, so no spread to fill a link
        })
        .collect();
    let mut prices = vec![0; shape.zones];
    let system_price = loop {
        for (zone, price) in prices.iter_mut().enumerate() {
            *price = ptdfs.iter().zip(&shadows).map(|(row, shadow)| row[zone] * shadow / ONE).sum();
        }
        let (least, greatest) = (prices.iter().min()?, prices.iter().max()?);
        if greatest - least <= HIGH - LOW {
            break rng.between_or_end(LOW - least, HIGH - greatest);
        }
        shadows.iter_mut().for_each(|shadow| *shadow = *shadow / 200 * 100);
    };
    prices.iter_mut().for_each(|price| *price += system_price);

    // Capacities in hundreds and the share in thousands, so that full links and full branches are whole numbers.
    let widest = rng.pick(&[10, 40, 300, 1_000]) >> halvings;
    let mut links: Vec<Link> = pairs(rng, shape.zones, shape.links)
        .into_iter()
        .map(|pair| link(pair, 100 * rng.between_or_end(0, widest) as u32))
        .collect();
    let share = match rng.below(4) {
        _ if links.is_empty() => 0,
        0 => 0,
        1 => 100_000,
        _ => 1_000 * rng.between(0, 100) as u32,
    };
    let spread = |link: &Link| prices[usize::from(link.to)] - prices[usize::from(link.from)];
    let mut net = [0i64; 16];
    let mut flows = Vec::with_capacity(links.len());
    for link in &links {
        let (capacity, full) = (i64::from(link.capacity), spread(link) > 0);
        flows.push(if full { most_flow(share, link.capacity) as u32 } else { 0 });
        if full {
            net[usize::from(link.to)] += capacity;
            net[usize::from(link.from)] -= capacity;
        }
    }
    if links.is_empty() && shape.orders > 0 {
        for _ in 0..shape.zones {
            let volume = 100 * rng.between_or_end(0, widest);
            net[rng.below(shape.zones)] += volume;
            net[rng.below(shape.zones)] -= volume;
        }
    }
    let mut branches = Vec::with_capacity(shape.branches);
    for (row, &shadow) in ptdfs.iter().zip(&shadows) {
        let full: i64 = row.iter().zip(net).map(|(ptdf, position)| ptdf * position).sum::<i64>() / ONE;
        if full.abs() > 500_000 {
            return None;
        }
        let ram = match (share, shadow) {
            // All is LTA: a branch may have any margin, since it adds nothing.
            (100_000, 0) => rng.between_or_end(-500_000, 500_000),
            (100_000, _) => rng.between_or_end(-500_000, full),
            (_, 0) => rng.between_or_end(full, 500_000),
            (_, _) => full,
        };
        branches.push(Branch { ram: ram as i32, ptdfs: row.iter().map(|&ptdf| ptdf as i32).collect() });
    }
    if share == 0 && rng.one_in(2) {
        // All is flow-based: the LTAs may earn less.
        for link in &mut links {
            link.capacity = rng.between(0, i64::from(link.capacity)) as u32;
        }
    }
    contract(rng, &mut links);

    let largest = (rng.pick(&[10, 5_000, 20_000, 100_000]) >> halvings).max(1);
    let orders = priced_orders(rng, shape.orders, largest, &prices, &net)?;
    Some(Hour {
        version: version(rng),
        zones: shape.zones as u8,
        tolerance: narrow(rng),
        branches,
        links,
        orders: orders.iter().map(|(row, _)| *row).collect(),
        share,
        system_price: system_price as i32,
        volumes: orders.iter().map(|(_, volume)| *volume).collect(),
        flows,
        shadow_prices: shadows.iter().map(|&shadow| shadow as u32).collect(),
    })
}

/// Orders with volumes that are best at the prices and give the net positions.
fn priced_orders(
    rng: &mut Rng,
    count: usize,
    largest: i64,
    prices: &[i64],
    net: &[i64; 16],
) -> Option<Vec<(Row, u32)>> {
    let zones = prices.len();
    let mut orders: Vec<(Row, u32)> = Vec::with_capacity(count + zones);
    let mut left = *net;
    let nearness = rng.pick(&[1, 1_000, 450_000]);
    let drawn = |rng: &mut Rng, taken: bool| {
        let (zone, side) = (rng.below(zones), rng.below(2) as u8);
        let away = rng.between_or_end(0, nearness);
        let dearer = (side == BUYS) == taken;
        let price = if dearer { prices[zone] + away } else { prices[zone] - away };
        let quantity = rng.between_or_end(1, largest) as u32;
        let price = price.clamp(LOW, HIGH) as i32;
        let volume = if taken { quantity } else { 0 };
        (Row { zone: zone as u8, side, quantity, price }, volume)
    };
    // Room is left for the orders at the zone price that balance each zone.
    for _ in 0..count.min(MOST_ORDERS - 3 * zones) {
        let taken = rng.one_in(2);
        let (row, volume) = drawn(rng, taken);
        let signed = i64::from(volume);
        left[usize::from(row.zone)] -= if row.side == BUYS { signed } else { -signed };
        orders.push((row, volume));
    }
    for zone in 0..zones {
        let side = if left[zone] > 0 { BUYS } else { SELLS };
        let mut open = left[zone].abs();
        while open > 0 {
            let volume = open.min(ONE);
            let quantity = rng.between_or_end(volume, ONE) as u32;
            let row = Row { zone: zone as u8, side, quantity, price: prices[zone] as i32 };
            orders.push((row, volume as u32));
            open -= volume;
        }
    }
    while orders.len() < count {
        orders.push(drawn(rng, false));
    }
    if orders.len() > MOST_ORDERS {
        return None;
    }
    for n in (1..orders.len()).rev() {
        orders.swap(n, rng.below(n + 1));
    }
    Some(orders)
}

/// An hour that breaks no rule up to 25, with a gap of any size.
pub fn feasible(rng: &mut Rng, shape: Shape) -> Hour {
    for _ in 0..20 {
        let mut hour = optimal(rng, shape);
        disturb(rng, &mut hour);
        if prices_in_range(&hour) && fit_margins(rng, &mut hour) {
            return hour;
        }
    }
    optimal(rng, shape)
}

fn disturb(rng: &mut Rng, hour: &mut Hour) {
    if rng.one_in(2) {
        for ptdf in hour.branches.iter_mut().flat_map(|branch| &mut branch.ptdfs) {
            *ptdf = (i64::from(*ptdf) + rng.between(-999, 999)).clamp(-200_000, 200_000) as i32;
        }
    }
    if rng.one_in(2) {
        for shadow in &mut hour.shadow_prices {
            *shadow = (*shadow + rng.below(100) as u32).min(1_000_000);
        }
    }
    if rng.one_in(2) {
        hour.system_price += rng.between(-300, 300) as i32;
    }
    if rng.one_in(2) && !hour.links.is_empty() {
        hour.share = rng.between_or_end(0, ONE) as u32;
        for (link, flow) in hour.links.iter_mut().zip(&mut hour.flows) {
            link.capacity = (link.capacity + rng.below(100) as u32).min(100_000);
            *flow = rng.between_or_end(0, most_flow(hour.share, link.capacity)) as u32;
        }
    }
    // A buy and a sell by the same volume: the balance stays.
    for _ in 0..rng.below(5) {
        if hour.orders.is_empty() {
            break;
        }
        let (a, b) = (rng.below(hour.orders.len()), rng.below(hour.orders.len()));
        if hour.orders[a].side != hour.orders[b].side {
            let room = |n: usize| hour.orders[n].quantity - hour.volumes[n];
            let more = i64::from(room(a).min(room(b)));
            let less = i64::from(hour.volumes[a].min(hour.volumes[b]));
            let change = rng.between_or_end(-less, more);
            for n in [a, b] {
                hour.volumes[n] = (i64::from(hour.volumes[n]) + change) as u32;
            }
        }
    }
}

/// Widens the margins that are too small, and makes some of them just enough.
fn fit_margins(rng: &mut Rng, hour: &mut Hour) -> bool {
    let parts = flow_based_parts(hour);
    let share = hour.share;
    hour.branches.iter_mut().all(|branch| {
        let used = used(branch, &parts);
        let Some(least) = least_ram(used, share) else {
            return used <= 0;
        };
        if i64::from(branch.ram) < least || rng.one_in(3) {
            branch.ram = least.clamp(-500_000, 500_000) as i32;
        }
        i64::from(branch.ram) >= least
    })
}

/// A random hour with every field in range that keeps the rules up to a random one.
pub fn random(rng: &mut Rng, shape: Shape) -> Hour {
    let zones = shape.zones;
    let tolerance = tolerance(rng);
    let mut field = |least, greatest| rng.between_or_end(least, greatest);
    let mut hour = Hour {
        zones: zones as u8,
        tolerance,
        branches: (0..shape.branches)
            .map(|_| Branch {
                ram: field(-500_000, 500_000) as i32,
                ptdfs: (0..zones).map(|_| field(-200_000, 200_000) as i32).collect(),
            })
            .collect(),
        orders: (0..shape.orders)
            .map(|_| Row {
                zone: field(0, zones as i64 - 1) as u8,
                side: field(0, 1) as u8,
                quantity: field(1, ONE) as u32,
                price: field(LOW, HIGH) as i32,
            })
            .collect(),
        share: field(0, ONE) as u32,
        system_price: field(LOW, HIGH) as i32,
        shadow_prices: (0..shape.branches).map(|_| field(0, 1_000_000) as u32).collect(),
        ..Hour::default()
    };
    hour.links =
        pairs(rng, zones, shape.links).into_iter().map(|pair| link(pair, rng.between_or_end(0, ONE) as u32)).collect();
    contract(rng, &mut hour.links);
    hour.version = version(rng);

    // How many of the rules from 21 on are kept.
    let seen_to = rng.below(7);
    let volume = |rng: &mut Rng, row: &Row| match seen_to {
        0 => rng.between_or_end(0, i64::from(row.quantity) * 2) as u32,
        _ => rng.between_or_end(0, i64::from(row.quantity)) as u32,
    };
    hour.volumes = hour.orders.iter().map(|row| volume(rng, row)).collect();
    if seen_to >= 2 {
        balance(&mut hour);
    }
    if seen_to >= 3 && hour.links.is_empty() {
        hour.share = 0;
    }
    for link in &hour.links {
        let most = match seen_to {
            0..=2 => rng.pick(&[ONE, u32::MAX.into()]),
            _ => most_flow(hour.share, link.capacity),
        };
        hour.flows.push(rng.between_or_end(0, most) as u32);
    }
    if seen_to >= 4 {
        // Small PTDFs, since otherwise no margin is wide enough.
        for ptdf in hour.branches.iter_mut().flat_map(|branch| &mut branch.ptdfs) {
            *ptdf /= rng.pick(&[1_000, 10_000]);
        }
        if hour.share == 100_000 && rng.one_in(2) {
            hour.share -= 1;
            for (link, flow) in hour.links.iter().zip(&mut hour.flows) {
                *flow = (*flow).min(most_flow(99_999, link.capacity) as u32);
            }
        }
        fit_margins(rng, &mut hour);
    }
    if seen_to >= 5 {
        hour.shadow_prices.iter_mut().for_each(|shadow| *shadow /= 64);
    }
    if seen_to >= 6 {
        hour.system_price = hour.system_price.clamp(0, 300_000);
    }
    hour
}

/// Lowers volumes on the larger side until both sides are equal.
pub fn balance(hour: &mut Hour) {
    let mut over: i64 = net_positions(hour).iter().sum();
    let larger = if over > 0 { BUYS } else { SELLS };
    for (row, volume) in hour.orders.iter().zip(&mut hour.volumes) {
        if row.side == larger {
            let cut = over.abs().min(i64::from(*volume));
            *volume -= cut as u32;
            over -= over.signum() * cut;
        }
    }
}

/// A good hour: optimal or feasible.
pub fn good(rng: &mut Rng, shape: Shape) -> Hour {
    if rng.one_in(2) {
        optimal(rng, shape)
    } else {
        feasible(rng, shape)
    }
}

/// A sufficient length, mostly the least.
pub fn enough(rng: &mut Rng) -> usize {
    match rng.below(3) {
        0 => LEAST_BUFFER + rng.below(81),
        _ => LEAST_BUFFER,
    }
}
