//! The order of orders (S-9). The library judges each hour before and after its orders are rearranged, and the
//! proposal's volumes with them. Number, index and every byte of the buffer are the same, except for the index of
//! 21. Books are joined in both orders.

use super::book;
use super::offsets::at_least;
use crate::library;
use crate::makers::books;
use crate::makers::rearranged::{files, rearrangement, rows_moved};
use crate::numbers::JUDGE_REARRANGED;
use crate::rng::Rng;
use crate::run::Run;
use second_judge::limits::LEAST_BUFFER;

const HOURS: u64 = 20_000;
const BOOKS: u64 = 20_000;
const MOST_LENT: usize = 256;

#[derive(Default)]
struct Met {
    numbers: [u64; 31],
    /// Hours in which a row of an order moved, the 21s among them whose index moved, and those whose index stayed.
    moved: u64,
    index_moved: u64,
    index_stayed: u64,
    sorted: u64,
    /// With the volumes left in place: another verdict, or another report.
    left_in_place: u64,
}

pub fn hours(run: &mut Run, rng: &mut Rng) {
    let mut met = Met::default();
    run.section("orders rearranged");
    run.begin("hours, before and after");
    while run.fed() < 2 * HOURS {
        hour(run, rng, &mut met);
    }
    run.end();
    for number in &JUDGE_REARRANGED.numbers {
        at_least(run, format!("verdict {number}"), met.numbers[*number as usize]);
    }
    at_least(run, "an order moved".into(), met.moved);
    at_least(run, "sorted".into(), met.sorted);
    at_least(run, "21, index moved".into(), met.index_moved);
    at_least(run, "21, index stayed".into(), met.index_stayed);
    at_least(run, "volumes left in place, told apart".into(), met.left_in_place);
    joined_books(run, rng);
}

fn hour(run: &mut Run, rng: &mut Rng, met: &mut Met) {
    let (hour, case, proposal) = files(rng);
    let (source, sorted) = rearrangement(rng, &hour);
    met.sorted += u64::from(sorted);
    let orders_at = case.len() - 10 * source.len();
    let moved_case = rows_moved(&case, orders_at, 10, &source);
    let moved_proposal = rows_moved(&proposal, 13, 4, &source);
    let lent = match rng.below(16) {
        0 => rng.below(LEAST_BUFFER),
        _ => LEAST_BUFFER + rng.below(MOST_LENT - LEAST_BUFFER + 1),
    };
    run.feed(&case, &proposal, lent);
    run.feed(&moved_case, &moved_proposal, lent);

    // The library's own answers, over the same bytes in both buffers.
    let mut filled = [0; MOST_LENT];
    filled.iter_mut().for_each(|byte| *byte = rng.draw() as u8);
    let judged = |case: &[u8], proposal: &[u8]| {
        let mut buffer = filled;
        let answer = library::judge(case, proposal, &mut buffer[..lent]);
        (answer.number as usize, answer.index as usize, buffer)
    };
    let (number, index, buffer) = judged(&case, &proposal);
    let (moved_number, moved_index, moved_buffer) = judged(&moved_case, &moved_proposal);
    if !JUDGE_REARRANGED.numbers.contains(&(number as u32)) {
        run.fault_in_last(|| format!("{number} {index} for a readable case and a proposal of its length"));
        return;
    }
    let due = match number {
        21 => first_above(&moved_case[orders_at..], &moved_proposal[13..]),
        _ => index,
    };
    if (moved_number, moved_index) != (number, due) {
        run.fault_in_last(|| format!("{number} {index}, rearranged {moved_number} {moved_index}, {due} is due"));
    }
    if moved_buffer != buffer {
        run.fault_in_last(|| format!("another buffer, rearranged, for {number} {index}"));
    }

    met.numbers[number] += 1;
    met.moved += u64::from(moved_case != case);
    met.index_moved += u64::from(number == 21 && moved_index != index);
    met.index_stayed += u64::from(number == 21 && moved_index == index && moved_case != case);
    let (wrong_number, _, wrong_buffer) = judged(&moved_case, &proposal);
    met.left_in_place += u64::from(wrong_number != number || wrong_buffer != buffer);
}

/// The first order whose volume is above its quantity.
fn first_above(orders: &[u8], volumes: &[u8]) -> usize {
    let number = |bytes: &[u8]| u32::from_le_bytes(bytes.try_into().expect("four bytes"));
    let mut rows = orders.chunks_exact(10).zip(volumes.chunks_exact(4));
    rows.position(|(order, volume)| number(volume) > number(&order[2..6])).expect("21 was answered")
}

/// Two books at the same prices, each alone and joined in both orders.
fn joined_books(run: &mut Run, rng: &mut Rng) {
    let (mut full, mut over, mut refused) = (0, 0, 0);
    run.begin("books joined, in both orders");
    for _ in 0..BOOKS {
        let zones = 1 + rng.below(16);
        let most = rng.pick(&[3, 30, 512, 513]);
        let together = rng.between_or_end(0, most) as usize;
        let (rows, mut prices) = books::book(rng, zones, together);
        if rng.one_in(16) {
            let zone = rng.below(zones);
            prices[zone] = rng.pick(&[i64::MIN, i64::MAX]);
        }
        let (one, other) = rows.split_at(rng.below(together + 1));
        let [first, second, joined, turned] =
            [one.to_vec(), other.to_vec(), [one, other].concat(), [other, one].concat()]
                .map(|rows| book::feed(run, &rows, &prices));
        if joined != turned {
            run.fault(|| format!("{joined:?} one way, {turned:?} the other"));
        }
        // 513 rows, none of them refused in two books, are too many in one.
        if together > 512 {
            over += 1;
            if (joined.number, joined.index, joined.sum) != (4, 8, 0) {
                run.fault(|| format!("{joined:?} for {together} rows"));
            }
            continue;
        }
        full += u64::from(together == 512);
        refused += u64::from(joined.number == 25);
        let same = joined.number == first.number && joined.number == second.number;
        if !same || joined.sum != first.sum + second.sum {
            run.fault(|| format!("{first:?} and {second:?}, joined {joined:?}"));
        }
    }
    run.end();
    at_least(run, "joined, 512 rows".into(), full);
    at_least(run, "joined, 513 rows".into(), over);
    at_least(run, "joined, a price refused".into(), refused);
}
