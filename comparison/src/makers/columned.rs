//! Makes cases for the columns, and columned files.

use super::fields::{one_outside, Field};
use super::hours::{good, random, Shape};
use super::limits::at_limits;
use crate::rng::Rng;
use paper_hours::Hour;
use second_judge::case_columned;

/// A case's columns, made by the second judge.
pub fn columned(case: &[u8]) -> Vec<u8> {
    let mut out = vec![0; case.len()];
    let answer = case_columned(case, &mut out);
    assert_eq!(answer.number, 0, "the case is readable");
    out
}

/// The same bytes moved, whatever they are; the hour says where the orders begin and how many there are.
pub fn moved(hour: &Hour, case: &[u8]) -> Vec<u8> {
    let count = hour.orders.len();
    let start = case.len() - 10 * count;
    let mut file = case[..start].to_vec();
    for byte in 0..10 {
        file.extend((0..count).map(|order| case[start + 10 * order + byte]));
    }
    file[2] = b'K';
    file
}

pub fn some_hour(rng: &mut Rng) -> Hour {
    let shape = Shape::mostly_small(rng, 8);
    hour_of(rng, shape)
}

/// The same with a given shape.
pub fn hour_of(rng: &mut Rng, shape: Shape) -> Hour {
    match rng.below(4) {
        0 => random(rng, shape),
        1 => at_limits(rng, shape),
        _ => good(rng, shape),
    }
}

/// A field of the case that its bytes can put out of range, and such a value.
pub fn fault_in(rng: &mut Rng, hour: &Hour, number: std::ops::RangeInclusive<u32>) -> Option<(Field, i64)> {
    one_outside(rng, hour, |field| field.in_case && number.contains(&field.number))
}
