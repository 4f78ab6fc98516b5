//! Lists with a wrong mark, version or length, fractions that are equal or a tenth off, and families in hours with
//! any other fault.

use super::families::{Files, Lists, MOST_LENT};
use crate::makers::families::*;
use crate::makers::fields::{change_a_byte, one_outside, Field};
use crate::makers::hours::{enough, narrow, random, wide, Shape};
use crate::makers::limits::at_limits;
use crate::numbers::JUDGE_FAMILIES;
use crate::rng::Rng;
use paper_hours::three_zone_hour;
use second_judge::limits::LEAST_BUFFER;
use second_judge::list_of;

/// Marks, versions and lengths, of good lists and others.
pub fn wrong_lists(lists: &mut Lists, rng: &mut Rng) {
    lists.run.begin("wrong mark, version or length");
    for _ in 0..8_000 {
        let hour = some_hour(rng);
        let parents = match rng.below(3) {
            0 => drawn(rng, hour.orders.len()),
            _ => holding(rng, &hour),
        };
        let mut list = list_of(&parents);
        let length = list.len();
        let kind = rng.below(12);
        match kind {
            0 => list.clear(),
            1 => list.truncate(length - 1),
            2 => list.push(rng.draw() as u8),
            3 => list.extend([0xFF, 0xFF]),
            4 => list.truncate(length - 2),
            5 => list.truncate(rng.below(length)),
            6 => list.resize(length + rng.pick(&[3, 10, 1_024, 70_000]), 0xFF),
            7 => list[rng.below(3)] ^= 1 + rng.below(255) as u8,
            8 => list[..3].copy_from_slice(rng.pick(&[b"LTC", b"LTP", b"LTK", b"ltf"])),
            9 => list[3] = rng.pick(&[0, 2, 3, 255]),
            10 => list[4] = 1 + rng.below(255) as u8,
            // The bytes of its version exchanged.
            _ => list[3..5].copy_from_slice(&[0, 1]),
        }
        lists.meet(11, list.is_empty() && !hour.orders.is_empty());
        lists.meet(12, list.is_empty() && hour.orders.is_empty());
        lists.meet(14, kind == 1);
        lists.meet(15, kind == 2);
        let files = Files::new(&hour, list);
        let lent = enough(rng);
        lists.expect(&files, lent, 16, 0);
    }
    lists.run.end();

    lists.run.begin("a list for other orders");
    for _ in 0..2_000 {
        let (hour, other) = (some_hour(rng), some_hour(rng));
        let list = list_of(&holding(rng, &other));
        let files = Files::new(&hour, list);
        let lent = enough(rng);
        match hour.orders.len() == other.orders.len() {
            true => lists.feed(&files, lent),
            false => lists.expect(&files, lent, 16, 0),
        };
    }
    lists.run.end();
}

/// Equal fractions of other quantities, and a tenth more or less on either side.
pub fn fractions(lists: &mut Lists, rng: &mut Rng) {
    lists.run.begin("equal fractions, and a tenth off");
    for _ in 0..3_000 {
        let most = rng.pick(&[3, 12, 400, 100_000]);
        let quantity = rng.between(1, most) as u32;
        let volume = rng.between_or_end(0, quantity.into()) as u32;
        let times = 100_000 / quantity;
        let (one, other) = (rng.between_or_end(1, times.into()) as u32, rng.between_or_end(1, times.into()) as u32);
        let child = (volume * one, quantity * one);
        let parent = (volume * other, quantity * other);
        let steps = [(0, 0), (1, 0), (-1, 0), (0, 1), (0, -1), (1, 1), (-1, -1)];
        for (of_child, of_parent) in steps {
            let moved = |(volume, quantity): (u32, u32), step: i64| {
                let volume = i64::from(volume) + step;
                (0..=i64::from(quantity)).contains(&volume).then_some((volume as u32, quantity))
            };
            let (Some(child), Some(parent)) = (moved(child, of_child), moved(parent, of_parent)) else {
                continue;
            };
            let hour = two_and_a_third(rng, child, parent);
            let mut parents = vec![None; hour.orders.len()];
            parents[0] = Some(1);
            let verdict = lists.expect_of(&hour, &parents, LEAST_BUFFER);
            let number = verdict.number;
            lists.meet(16, (of_child, of_parent) == (0, 0) && one != other && number == 0);
            lists.meet(17, (of_child, of_parent) == (1, 0) && number == 28);
            let right = match (of_child, of_parent) {
                (0, 0) | (-1, 0) | (0, 1) => number == 0,
                (1, 0) | (0, -1) => number == 28,
                _ => number == 0 || number == 28,
            };
            if !right {
                let files = Files::new(&hour, list_of(&parents));
                lists.fault(&files, || format!("{verdict:?}, off by {of_child} and {of_parent}"));
            }
        }
    }
    lists.run.end();

    lists.run.begin("neighbouring fractions of the largest quantities");
    for _ in 0..2_000 {
        let near = |rng: &mut Rng| {
            let quantity = 100_000 - rng.below(4) as u32;
            let volume = rng.pick(&[quantity, quantity - 1, quantity - 2, 1, 0, quantity / 2]);
            (volume, quantity)
        };
        let (child, parent) = (near(rng), near(rng));
        let hour = two_and_a_third(rng, child, parent);
        let mut parents = vec![None; hour.orders.len()];
        parents[0] = Some(1);
        lists.expect_of(&hour, &parents, LEAST_BUFFER);
    }
    lists.run.end();
}

/// The place of a number in the order of asking.
fn rank(number: u32) -> usize {
    JUDGE_FAMILIES.numbers.iter().position(|one| *one == number).expect("a number of the table")
}

/// Families with any other fault: the cause asked first is answered.
pub fn other_causes(lists: &mut Lists, rng: &mut Rng) {
    lists.run.begin("a field out of range, and families");
    let mut made = 0;
    while made < 10_000 {
        let hour = some_hour(rng);
        let number = rng.pick(&[2, 3, 4, 6, 7, 8, 10, 11, 13, 14, 21, 21, 21, 23]);
        let such = |field: &Field| field.number == number && !field.tied;
        let Some((field, value)) = one_outside(rng, &hour, such) else {
            continue;
        };
        made += 1;
        let count = hour.orders.len();
        let parents = match rng.below(3) {
            0 => holding(rng, &hour),
            _ => drawn(rng, count),
        };
        let mut files = Files::new(&hour, list_of(&parents));
        field.put(&mut files.case, &mut files.proposal, value);
        if rng.one_in(4) {
            files.list.push(0);
        }
        // With a volume above its quantity the fractions may give another answer.
        let due = match due(&hour, &parents) {
            _ if files.list.len() != 5 + 2 * count => Some((16, 0)),
            Some((28, _)) => None,
            other => other,
        };
        let first = match due {
            Some((number, index)) if rank(number) < rank(field.number) => (number, index),
            _ => (field.number, field.index as usize),
        };
        let lent = enough(rng);
        let certain = due.is_some() || field.number != 23;
        let verdict = match certain {
            true => lists.expect(&files, lent, first.0, first.1),
            false => lists.feed(&files, lent),
        };
        if verdict.number == 21 {
            let mut more = hour.clone();
            more.volumes[field.index as usize] = value as u32;
            let child = |o: usize| parents[o].is_some_and(|up| ahead(&more, o, up.into()));
            lists.meet(21, (0..count).any(child));
        }
    }
    lists.run.end();

    lists.run.begin("out of balance, and families");
    for _ in 0..4_000 {
        let mut hour = hour_with_orders(rng, 2);
        let order = rng.below(hour.orders.len());
        let full = hour.volumes[order] == hour.orders[order].quantity;
        match full {
            true => hour.volumes[order] -= 1,
            false => hour.volumes[order] += 1,
        }
        let parents = match rng.below(3) {
            0 => drawn(rng, hour.orders.len()),
            _ => holding(rng, &hour),
        };
        let mut parents = parents;
        if rng.one_in(2) {
            let child = rng.below(hour.orders.len());
            parents[child] = Some(rng.below(hour.orders.len()) as u16);
        }
        let files = Files::new(&hour, list_of(&parents));
        let (number, index) = due(&hour, &parents).unwrap_or((22, 0));
        let lent = enough(rng);
        lists.expect(&files, lent, number, index);
        lists.meet(22, number == 28);
    }
    lists.run.end();

    lists.run.begin("a wide tolerance, and families");
    for _ in 0..2_000 {
        let mut hour = some_hour(rng);
        hour.tolerance = wide(rng);
        let parents = drawn(rng, hour.orders.len());
        let mut files = Files::new(&hour, list_of(&parents));
        if rng.one_in(4) {
            files.list.clear();
        }
        let lent = enough(rng);
        lists.expect(&files, lent, 15, 0);
        hour.tolerance = narrow(rng);
        let narrower = Files::new(&hour, files.list);
        let verdict = lists.feed(&narrower, lent);
        lists.meet(24, (16..=18).contains(&verdict.number));
    }
    lists.run.end();

    lists.run.begin("files cut or made longer, and families");
    for _ in 0..3_000 {
        let hour = some_hour(rng);
        let parents = drawn(rng, hour.orders.len());
        let mut files = Files::new(&hour, list_of(&parents));
        let of_case = rng.one_in(2);
        let (file, header) = match of_case {
            true => (&mut files.case, 14),
            false => (&mut files.proposal, 13),
        };
        let length = file.len();
        match rng.below(3) {
            0 => file.push(0),
            1 => file.truncate(length - 1),
            _ => file.truncate(rng.below(header)),
        }
        let number = match (of_case, file.len() < header) {
            (true, true) => 1,
            (true, false) => 5,
            (false, true) => 9,
            (false, false) => 12,
        };
        let lent = enough(rng);
        lists.expect(&files, lent, number, 0);
    }
    lists.run.end();
}

/// Random hours, lists of random bytes, buffers of every length, null pointers.
pub fn whatever(lists: &mut Lists, rng: &mut Rng) {
    lists.run.begin("hours of any kind");
    for _ in 0..8_000 {
        let shape = Shape::mostly_small(rng, 8);
        let hour = match rng.one_in(4) {
            true => at_limits(rng, shape),
            false => random(rng, shape),
        };
        let parents = match rng.below(4) {
            0 => drawn(rng, hour.orders.len()),
            _ => holding(rng, &hour),
        };
        let files = Files::new(&hour, list_of(&parents));
        let lent = enough(rng);
        lists.feed(&files, lent);
    }
    lists.run.end();

    lists.run.begin("bytes changed, and bytes of any kind");
    for _ in 0..6_000 {
        let hour = some_hour(rng);
        let mut files = Files::new(&hour, list_of(&holding(rng, &hour)));
        match rng.below(4) {
            0 => {
                let length = rng.below(80);
                files.list = (0..length).map(|_| rng.draw() as u8).collect();
                let kept = rng.below(6).min(length);
                files.list[..kept].copy_from_slice(&b"LTF\x01\x00"[..kept]);
            }
            which => {
                for _ in 0..1 + rng.below(3) {
                    let file = match which {
                        1 => &mut files.case,
                        2 => &mut files.proposal,
                        _ => &mut files.list,
                    };
                    change_a_byte(rng, file);
                }
            }
        }
        let lent = enough(rng);
        lists.feed(&files, lent);
    }
    lists.run.end();

    lists.run.begin("buffer lengths");
    for lent in 0..=MOST_LENT {
        for n in 0..6 {
            let hour = hour_with_orders(rng, 1);
            let mut files = Files::new(&hour, list_of(&holding(rng, &hour)));
            // The buffer is asked before the case, the proposal and the list.
            match n {
                3 => files.case.truncate(5),
                4 => files.list.clear(),
                5 => files.list[5..7].copy_from_slice(&[0, 0]),
                _ => {}
            }
            match lent < LEAST_BUFFER {
                true => lists.expect(&files, lent, 30, 0),
                false => lists.feed(&files, lent),
            };
        }
    }
    lists.run.end();

    lists.run.begin("null with length 0");
    let hour = three_zone_hour();
    let whole = || Files::new(&hour, list_of(&[None; 5]));
    for (n, number) in [(0, 1), (1, 9), (2, 16), (3, 30), (4, 30)] {
        let mut files = whole();
        let lent = match n {
            0 => LEAST_BUFFER + files.case.split_off(0).len() % 2,
            1 => LEAST_BUFFER + files.proposal.split_off(0).len() % 2,
            2 => LEAST_BUFFER + files.list.split_off(0).len() % 2,
            3 => 0,
            _ => {
                files.case.clear();
                files.proposal.clear();
                files.list.clear();
                0
            }
        };
        let verdict = lists.feed_as(&files, lent, true);
        if (verdict.number, verdict.index) != (number, 0) {
            lists.fault(&files, || format!("{verdict:?} where {number} 0 is due"));
        }
    }
    lists.run.end();
}
