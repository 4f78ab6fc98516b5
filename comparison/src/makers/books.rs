//! Makes order books, and plants faults in them.

use crate::rng::Rng;
use second_judge::Row;

pub const LOWEST: i64 = -50_000 * 100_000;
pub const HIGHEST: i64 = 400_000 * 100_000;

pub fn book(rng: &mut Rng, zones: usize, count: usize) -> (Vec<Row>, Vec<i64>) {
    let rows = (0..count)
        .map(|_| Row {
            zone: rng.below(zones) as u8,
            side: rng.below(2) as u8,
            quantity: rng.between_or_end(1, 100_000) as u32,
            price: rng.between_or_end(-50_000, 400_000) as i32,
        })
        .collect();
    let prices = (0..zones).map(|_| rng.between_or_end(LOWEST, HIGHEST)).collect();
    (rows, prices)
}

/// Faults a book can have, in the order in which they are asked.
pub const FAULTS: [(&str, u32); 11] = [
    ("no prices", 4),
    ("17 prices", 4),
    ("513 rows", 4),
    ("zone", 8),
    ("side", 8),
    ("quantity 0", 8),
    ("quantity over", 8),
    ("price under", 8),
    ("price over", 8),
    ("zone price under", 25),
    ("zone price over", 25),
];

/// Plants a fault and returns the index that its refusal names.
pub fn plant(rng: &mut Rng, fault: usize, rows: &mut Vec<Row>, prices: &mut Vec<i64>) -> u32 {
    let r = rng.below(rows.len());
    let z = if prices.is_empty() { 0 } else { rng.below(prices.len()) };
    match fault {
        0 => prices.clear(),
        1 => prices.resize(17 + rng.below(3), 0),
        2 => rows.resize(513 + rng.below(3), rows[0]),
        3 => rows[r].zone = rng.between_or_end(prices.len().min(255) as i64, 255) as u8,
        4 => rows[r].side = rng.between_or_end(2, 255) as u8,
        5 => rows[r].quantity = 0,
        6 => rows[r].quantity = rng.between_or_end(100_001, u32::MAX.into()) as u32,
        7 => rows[r].price = rng.between_or_end(i32::MIN.into(), -50_001) as i32,
        8 => rows[r].price = rng.between_or_end(400_001, i32::MAX.into()) as i32,
        9 if !prices.is_empty() => prices[z] = rng.pick(&[LOWEST - 1, i64::MIN]),
        10 if !prices.is_empty() => prices[z] = rng.pick(&[HIGHEST + 1, i64::MAX]),
        _ => {}
    }
    match fault {
        0 | 1 => 5,
        2 => 8,
        3..=8 => r as u32,
        _ => z as u32,
    }
}
