//! The desk queue's entries against plain Rust over the same bytes, for which any bytes are a queue too.

use crate::{heading_against, measure, print, Times};
use comparison::library;
use second_judge::{ServedAnswer, QUEUE_BYTES};
use std::hint::black_box;

type Bytes = [u8; QUEUE_BYTES];

const HOURS: usize = 25;
const TURN_AT: usize = 100;

/// An area's waiting cells, and how many.
fn waiting(bytes: &Bytes, area: usize) -> ([u8; HOURS], usize) {
    let (mut cells, mut count, mut seen) = ([0; HOURS], 0, 0u32);
    for &cell in &bytes[area * HOURS..(area + 1) * HOURS] {
        if (1..=25).contains(&cell) && seen >> cell & 1 == 0 {
            seen |= 1 << cell;
            cells[count] = cell;
            count += 1;
        }
    }
    (cells, count)
}

fn plain_post(bytes: &mut Bytes, area: u32, hour: u32) -> u32 {
    if area > 3 {
        return 61;
    }
    if hour > 24 {
        return 62;
    }
    let (area, cell) = (area as usize, hour as u8 + 1);
    let (mut cells, count) = waiting(bytes, area);
    if cells[..count].contains(&cell) {
        return 63;
    }
    cells[count] = cell;
    bytes[area * HOURS..(area + 1) * HOURS].copy_from_slice(&cells);
    0
}

fn plain_serve(bytes: &mut Bytes) -> ServedAnswer {
    for turn in 0..4 {
        let area = (usize::from(bytes[TURN_AT]) + turn) % 4;
        let (cells, count) = waiting(bytes, area);
        if count > 0 {
            let left = &mut bytes[area * HOURS..(area + 1) * HOURS];
            left[..HOURS - 1].copy_from_slice(&cells[1..]);
            left[HOURS - 1] = 0;
            bytes[TURN_AT] = (area as u8 + 1) % 4;
            return ServedAnswer { number: 0, index: 0, area: area as u32, hour: u32::from(cells[0]) - 1 };
        }
    }
    ServedAnswer { number: 64, index: 0, area: 0, hour: 0 }
}

/// Posts this many hours, one of each area in turn, then serves all and once more; returns the sum of the answers.
fn day(
    hours: u32,
    post: impl Fn(&mut Bytes, u32, u32) -> u32,
    serve: impl Fn(&mut Bytes) -> ServedAnswer,
) -> (u32, Bytes) {
    let mut bytes = black_box([0; QUEUE_BYTES]);
    let mut sum = 0u32;
    for place in 0..hours {
        sum += post(&mut bytes, place % 4, place / 4);
    }
    for place in 0..=hours {
        let served = serve(&mut bytes);
        sum += served.number + (place + 1) * (4 * served.hour + served.area);
    }
    (sum, bytes)
}

fn of(hours: u32) -> Times {
    let proved = || day(hours, library::queue_post, library::queue_serve);
    let plain = || day(hours, plain_post, plain_serve);
    assert_eq!(proved(), plain(), "both queues");
    measure(
        || {
            black_box(proved());
        },
        || {
            black_box(plain());
        },
    )
}

pub fn queues() {
    heading_against("desk queue, against plain Rust", "Rust ns");
    print("a day: 100 hours posted and served", &of(100));
    print("4 hours posted and served", &of(4));
}
