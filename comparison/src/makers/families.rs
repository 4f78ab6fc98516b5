//! Makes families: parents that hold, random ones and circles, and hours for them. The expected answer is computed
//! here independently, by the walk up and by products.

use super::hours::{good, optimal, Shape};
use crate::rng::Rng;
use paper_hours::Hour;
use second_judge::limits::{BUYS, MOST_ORDERS, SELLS};
use second_judge::Row;

/// How many steps up lead back, if any do; at most as many as there are orders.
pub fn back(parents: &[Option<u16>], order: usize) -> Option<usize> {
    let mut at = order;
    for steps in 1..=parents.len() {
        at = usize::from(parents[at]?);
        if at == order {
            return Some(steps);
        }
    }
    None
}

/// Whether a child's fraction exceeds its parent's, by products.
pub fn ahead(hour: &Hour, child: usize, parent: usize) -> bool {
    let product =
        |volume: usize, quantity: usize| u128::from(hour.volumes[volume]) * u128::from(hour.orders[quantity].quantity);
    product(child, parent) > product(parent, child)
}

/// The refusal of the list, or of the volumes with it.
pub fn due(hour: &Hour, parents: &[Option<u16>]) -> Option<(u32, usize)> {
    let count = parents.len();
    let stray = |o: &usize| parents[*o].is_some_and(|parent| usize::from(parent) >= count);
    if let Some(order) = (0..count).find(stray) {
        return Some((17, order));
    }
    if let Some(order) = (0..count).find(|o| back(parents, *o).is_some()) {
        return Some((18, order));
    }
    let over = |o: &usize| parents[*o].is_some_and(|parent| ahead(hour, *o, parent.into()));
    (0..count).find(over).map(|order| (28, order))
}

/// The orders by the fraction accepted, the greatest first.
pub fn by_fraction(hour: &Hour) -> Vec<usize> {
    let mut sorted: Vec<usize> = (0..hour.orders.len()).collect();
    sorted.sort_by(|&one, &other| {
        let share = |o: usize| u64::from(hour.volumes[o]);
        let of = |o: usize| u64::from(hour.orders[o].quantity);
        (share(other) * of(one)).cmp(&(share(one) * of(other)))
    });
    sorted
}

/// Parents that no fraction exceeds: a chain, a tree, one parent of all, or few.
pub fn holding(rng: &mut Rng, hour: &Hour) -> Vec<Option<u16>> {
    let sorted = by_fraction(hour);
    let mut parents = vec![None; sorted.len()];
    let kind = rng.below(4);
    for place in 1..sorted.len() {
        let above = match kind {
            0 => place - 1,
            1 => 0,
            2 => rng.below(place),
            _ if rng.one_in(4) => rng.below(place),
            _ => continue,
        };
        parents[sorted[place]] = Some(sorted[above] as u16);
    }
    parents
}

/// Random parents for this many orders; circles are frequent if few have none.
pub fn drawn(rng: &mut Rng, count: usize) -> Vec<Option<u16>> {
    let none = rng.pick(&[1, 2, 4, 40]);
    (0..count).map(|_| (!rng.one_in(none)).then(|| rng.below(count) as u16)).collect()
}

/// This many different random orders.
pub fn some_orders(rng: &mut Rng, count: usize, wanted: usize) -> Vec<usize> {
    let mut all: Vec<usize> = (0..count).collect();
    for n in 0..wanted {
        let other = n + rng.below(count - n);
        all.swap(n, other);
    }
    all.truncate(wanted);
    all
}

pub fn close(parents: &mut [Option<u16>], circle: &[usize]) {
    for (n, &order) in circle.iter().enumerate() {
        parents[order] = Some(circle[(n + 1) % circle.len()] as u16);
    }
}

pub fn some_hour(rng: &mut Rng) -> Hour {
    let shape = Shape::mostly_small(rng, 12);
    good(rng, shape)
}

/// The same with some orders.
pub fn hour_with_orders(rng: &mut Rng, least: usize) -> Hour {
    loop {
        let hour = some_hour(rng);
        if hour.orders.len() >= least {
            return hour;
        }
    }
}

/// The most orders there can be, and little else.
pub fn many_orders(rng: &mut Rng) -> Hour {
    loop {
        let shape = Shape { zones: 2, branches: 1, links: 1, orders: MOST_ORDERS };
        let hour = optimal(rng, shape);
        if hour.orders.len() == MOST_ORDERS {
            return hour;
        }
    }
}

/// The most orders, each accepted in the same fraction and all at the zone's price: every family holds, and the gap
/// is zero.
pub fn even_orders(rng: &mut Rng) -> Hour {
    let quantity = rng.between_or_end(1, 100_000) as u32;
    let volume = rng.between_or_end(0, quantity.into()) as u32;
    let price = rng.between(-50_000, 400_000) as i32;
    let order = |o: usize| Row { zone: 0, side: if o.is_multiple_of(2) { BUYS } else { SELLS }, quantity, price };
    Hour {
        zones: 1,
        orders: (0..MOST_ORDERS).map(order).collect(),
        volumes: vec![volume; MOST_ORDERS],
        system_price: price,
        ..Hour::default()
    }
}

/// An hour of one zone: a child and its parent on either side, a third order that balances them, all at the zone's
/// price, so that the gap is zero.
pub fn two_and_a_third(rng: &mut Rng, child: (u32, u32), parent: (u32, u32)) -> Hour {
    let price = rng.between(-50_000, 400_000) as i32;
    let sides = rng.pick(&[(BUYS, BUYS), (BUYS, SELLS), (SELLS, BUYS), (SELLS, SELLS)]);
    let signed = |side, volume: u32| match side {
        BUYS => i64::from(volume),
        _ => -i64::from(volume),
    };
    let left = signed(sides.0, child.0) + signed(sides.1, parent.0);
    let order = |side, quantity| Row { zone: 0, side, quantity, price };
    let mut hour = Hour {
        zones: 1,
        orders: vec![order(sides.0, child.1), order(sides.1, parent.1)],
        volumes: vec![child.0, parent.0],
        system_price: price,
        ..Hour::default()
    };
    let mut open = left.unsigned_abs() as u32;
    while open > 0 {
        let volume = open.min(100_000);
        let quantity = rng.between_or_end(volume.into(), 100_000) as u32;
        hour.orders.push(order(if left > 0 { SELLS } else { BUYS }, quantity));
        hour.volumes.push(volume);
        open -= volume;
    }
    hour
}
