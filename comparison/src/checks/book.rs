//! The order book entry of both judges: random books, refusals alone and in pairs, the widest books.

use crate::library;
use crate::makers::books::*;
use crate::numbers::BOOK;
use crate::rng::Rng;
use crate::run::Run;
use second_judge::{book_surplus, BookAnswer, Row};

pub fn feed(run: &mut Run, rows: &[Row], prices: &[i64]) -> BookAnswer {
    feed_as(run, rows, prices, false)
}

fn feed_as(run: &mut Run, rows: &[Row], prices: &[i64], null: bool) -> BookAnswer {
    run.count();
    let theirs = library::book_surplus(rows, prices, null);
    let ours = book_surplus(rows, prices);
    if theirs != ours {
        let rows = match rows.len() {
            0..=16 => format!("rows {rows:?}"),
            count => format!("{count} rows"),
        };
        run.fault(|| format!("library {theirs:?}, second judge {ours:?}\n  {rows}, prices {prices:?}"));
    }
    run.books[ours.number as usize] += 1;
    ours
}

fn expect(run: &mut Run, answer: BookAnswer, number: u32, index: u32, sum: i64) {
    let due = BookAnswer { number, index, sum };
    if answer != due {
        run.fault(|| format!("{answer:?} where {due:?} is due"));
    }
}

pub fn books(run: &mut Run, rng: &mut Rng) {
    run.section("order book");
    run.begin("random books");
    for _ in 0..20_000 {
        let zones = 1 + rng.below(16);
        let most = rng.pick(&[3, 30, 512]);
        let count = rng.between_or_end(0, most) as usize;
        let (rows, prices) = book(rng, zones, count);
        let answer = feed(run, &rows, &prices);
        if answer.number != 0 {
            run.fault(|| format!("{answer:?} for a book in range"));
        }
    }
    run.end();

    run.begin("counts about their limits");
    for zones in 0..20 {
        for count in [0, 1, 2, 511, 512, 513, 514] {
            let (rows, mut prices) = book(rng, zones.clamp(1, 16), count);
            prices.resize(zones, 0);
            let answer = feed(run, &rows, &prices);
            let due = match (zones, count) {
                (0 | 17.., _) => Some((4, 5)),
                (_, 513..) => Some((4, 8)),
                _ => None,
            };
            match due {
                Some((number, index)) => expect(run, answer, number, index, 0),
                None if answer.number != 0 => run.fault(|| format!("{answer:?} for a book in range")),
                None => {}
            }
        }
    }
    run.end();

    for (fault, (name, number)) in FAULTS.iter().enumerate() {
        run.begin(&format!("refusal: {name}"));
        for _ in 0..100 {
            let (zones, count) = (1 + rng.below(16), 1 + rng.below(512));
            let (mut rows, mut prices) = book(rng, zones, count);
            let index = plant(rng, fault, &mut rows, &mut prices);
            let answer = feed(run, &rows, &prices);
            expect(run, answer, *number, index, 0);
        }
        run.end();
    }

    // Faults planted in the order of asking do not undo each other.
    run.begin("each pair of refusals");
    for (one, (_, first)) in FAULTS.iter().enumerate() {
        for (other, (_, second)) in FAULTS.iter().enumerate().skip(one) {
            for _ in 0..40 {
                let (zones, count) = (1 + rng.below(16), 1 + rng.below(512));
                let (mut rows, mut prices) = book(rng, zones, count);
                let first = (*first, plant(rng, one, &mut rows, &mut prices));
                let second = (*second, plant(rng, other, &mut rows, &mut prices));
                let answer = feed(run, &rows, &prices);
                let (number, index) = first.min(second);
                expect(run, answer, number, index, 0);
            }
        }
    }
    run.end();

    run.begin("largest at the widest prices");
    let row = |side, price| Row { zone: 15, side, quantity: 100_000, price };
    let most = 512 * 100_000 * (HIGHEST - LOWEST);
    for (side, price, zone_price, sum) in [
        (0, 400_000, LOWEST, most),
        (0, 400_000, HIGHEST, 0),
        (0, -50_000, LOWEST, 0),
        (0, -50_000, HIGHEST, 0),
        (1, -50_000, HIGHEST, most),
        (1, -50_000, LOWEST, 0),
        (1, 400_000, HIGHEST, 0),
        (1, 400_000, LOWEST, 0),
    ] {
        let answer = feed(run, &[row(side, price); 512], &[zone_price; 16]);
        expect(run, answer, 0, 0, sum);
    }
    run.end();

    run.begin("null with length 0");
    let answer = feed_as(run, &[], &[0, LOWEST, HIGHEST], true);
    expect(run, answer, 0, 0, 0);
    let answer = feed_as(run, &[row(0, 0)], &[], true);
    expect(run, answer, 4, 5, 0);
    let answer = feed_as(run, &[], &[], true);
    expect(run, answer, 4, 5, 0);
    let answer = feed_as(run, &[], &[HIGHEST + 1], true);
    expect(run, answer, 25, 0, 0);
    run.end();

    run.section("order book, numbers, times met");
    let numbers = run.books;
    run.check_numbers(&BOOK, &numbers);
    run.entry("lta_book_surplus", numbers.iter().sum(), &[(&BOOK, &numbers)], &[]);
}
