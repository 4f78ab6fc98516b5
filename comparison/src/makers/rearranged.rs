//! Makes files, and the same with their orders in another order.

use super::fields::{fields, outside, Field};
use super::hours::{good, random, Shape};
use super::limits::at_limits;
use crate::rng::Rng;
use paper_hours::Hour;

/// A readable case and a proposal of the right length for it, often with some of its fields changed.
pub fn files(rng: &mut Rng) -> (Hour, Vec<u8>, Vec<u8>) {
    let shape = Shape::any(rng);
    files_of(rng, shape)
}

/// The same with a given shape.
pub fn files_of(rng: &mut Rng, shape: Shape) -> (Hour, Vec<u8>, Vec<u8>) {
    let hour = match rng.below(8) {
        0 => at_limits(rng, shape),
        1 | 2 => random(rng, shape),
        _ => good(rng, shape),
    };
    let (mut case, mut proposal) = (hour.case(), hour.proposal());
    let of_proposal: Vec<Field> = fields(&hour).into_iter().filter(|f| !f.in_case).collect();
    let of_numbers = |least, greatest| {
        let asked = |f: &&Field| least <= f.number && f.number <= greatest;
        of_proposal.iter().filter(asked).copied().collect()
    };
    let list: Vec<Field> = match rng.below(8) {
        0 => of_numbers(0, 30),
        1 => of_numbers(10, 13),
        2..=4 => of_numbers(21, 21),
        _ => Vec::new(),
    };
    if !list.is_empty() {
        for _ in 0..rng.pick(&[1, 1, 2, 5]) {
            let field = rng.pick(&list);
            let value = match outside(rng, &field) {
                Some(value) if rng.one_in(2) => value,
                _ => rng.between_or_end(field.least, field.greatest),
            };
            field.put(&mut case, &mut proposal, value);
        }
    }
    (hour, case, proposal)
}

/// For each place its source: random, reversed, shifted by one, two exchanged, or sorted; and whether it is sorted.
pub fn rearrangement(rng: &mut Rng, hour: &Hour) -> (Vec<usize>, bool) {
    let count = hour.orders.len();
    let mut source: Vec<usize> = (0..count).collect();
    let mut sorted = false;
    match rng.below(6) {
        0 => source.reverse(),
        1 if count > 0 => source.rotate_left(1),
        2 if count > 0 => source.swap(rng.below(count), rng.below(count)),
        3 => {
            sorted = true;
            let key = |&o: &usize| {
                let order = &hour.orders[o];
                (order.zone, order.side, order.price, order.quantity)
            };
            source.sort_by_key(key);
        }
        _ => {
            for place in 1..count {
                source.swap(place, rng.below(place + 1));
            }
        }
    }
    (source, sorted)
}

/// The file with its rows in another order; all before and after them stays.
pub fn rows_moved(file: &[u8], start: usize, size: usize, source: &[usize]) -> Vec<u8> {
    let mut moved = file.to_vec();
    for (place, from) in source.iter().enumerate() {
        let row = &file[start + from * size..][..size];
        moved[start + place * size..][..size].copy_from_slice(row);
    }
    moved
}
