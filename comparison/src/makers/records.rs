//! Makes records for crates/prog_records, of every kind and with every cause that a record can have. Most are
//! small: the interpreter takes some thousand steps for one, and ends a run after ten million.

use super::columned::{fault_in, hour_of, moved};
use super::dumps;
use super::exchanges::{self, bytes as pair_bytes, some_zones, SCRATCH, SMALL_SCRATCH};
use super::families::{close, drawn, holding, some_orders};
use super::fields::{change_a_byte, one_outside};
use super::hours::{good, Shape};
use super::near::{enough_room, length, link_against, lone_branch, lone_link, lone_order, near, odd};
use super::planted::{zones_for, Planted, CAUSES};
use super::queues::{Event, Events};
use super::rearranged::files_of;
use super::sheets;
use crate::records::{bytes_of, event_bytes, Record};
use crate::rng::Rng;
use paper_hours::Hour;
use second_judge::{list_of, queue_post, queue_serve, QUEUE_BYTES};

type Maker = fn(&mut Rng) -> Record;

/// Each kind, how many records of it a part has, and its maker.
pub const KINDS: [(&str, usize, Maker); 8] = [
    ("hours", 55, hour),
    ("families", 14, families),
    ("dumps", 36, dump),
    ("columns", 36, columns),
    ("shortfalls", 50, shortfalls),
    ("sheets", 28, sheet),
    ("exchanges", 26, exchange),
    ("queues", 5, queue),
];

/// A shape is small, except for one out of this many.
const LARGER_EVERY: usize = 40;
/// Events of the longest run of the queue.
const MOST_EVENTS: usize = 40;
/// The most bytes of a record's parts. The largest hour has fewer; a sheet of many zeros may have more than the
/// 65,536 that the program keeps.
const LONGEST: usize = 16_384;

/// The records of a part, kind by kind, each with the name of its kind.
pub fn part(seed: u64) -> Vec<(&'static str, Record)> {
    let mut records = Vec::new();
    for (n, (kind, count, make)) in KINDS.into_iter().enumerate() {
        let mut rng = Rng::new(seed.wrapping_mul(1_000).wrapping_add(n as u64));
        let drawn = std::iter::repeat_with(|| make(&mut rng));
        let short = drawn.filter(|record| record.parts.iter().map(Vec::len).sum::<usize>() <= LONGEST);
        records.extend(short.take(count).map(|record| (kind, record)));
    }
    records
}

/// A file with a byte changed, a byte more, or cut; most are left as they are.
fn damage(rng: &mut Rng, file: &mut Vec<u8>) {
    match rng.below(12) {
        0 if !file.is_empty() => change_a_byte(rng, file),
        1 => file.push(rng.draw() as u8),
        2 => file.truncate(rng.below(file.len() + 1)),
        _ => {}
    }
}

/// An hour and its files: half of them break no rule; some of the others have a field out of range or are damaged.
fn files(rng: &mut Rng) -> (Hour, Vec<u8>, Vec<u8>) {
    let shape = Shape::mostly_small(rng, LARGER_EVERY);
    if rng.one_in(2) {
        return whole(if rng.one_in(2) { near(rng, shape) } else { good(rng, shape) });
    }
    let (hour, mut case, mut proposal) = files_of(rng, shape);
    if rng.one_in(6) {
        if let Some((field, value)) = one_outside(rng, &hour, |_| true) {
            field.put(&mut case, &mut proposal, value);
        }
    }
    damage(rng, &mut case);
    damage(rng, &mut proposal);
    (hour, case, proposal)
}

fn whole(hour: Hour) -> (Hour, Vec<u8>, Vec<u8>) {
    let (case, proposal) = (hour.case(), hour.proposal());
    (hour, case, proposal)
}

fn hour(rng: &mut Rng) -> Record {
    let (_, case, proposal) = files(rng);
    Record::new(b'h', [[case, proposal].concat(), vec![], vec![]])
}

/// Parents that hold or are random, some with a circle closed or with a parent that does not exist.
fn families(rng: &mut Rng) -> Record {
    let (hour, case, proposal) = files(rng);
    let count = hour.orders.len();
    let mut parents = if rng.one_in(3) { drawn(rng, count) } else { holding(rng, &hour) };
    match rng.below(4) {
        0 if count > 0 => {
            let size = 1 + rng.below(count);
            close(&mut parents, &some_orders(rng, count, size));
        }
        1 if count > 0 => parents[rng.below(count)] = Some(rng.between_or_end(count as i64, 65_534) as u16),
        _ => {}
    }
    let mut list = list_of(&parents);
    damage(rng, &mut list);
    Record::new(b'f', [case, proposal, list])
}

/// A dump that gives an hour's own proposal, or values of every kind; half of them with a cause. The room is the
/// program's own, so no record can make it too short.
fn dump(rng: &mut Rng) -> Record {
    let mut made = match rng.one_in(3) {
        true => {
            let shape = Shape::small(rng);
            dumps::giving_back(good(rng, shape))
        }
        false => dumps::Made::some(rng),
    };
    if rng.one_in(2) {
        let (cause, _) = rng.pick(&dumps::CAUSES);
        if cause != dumps::Cause::Room {
            made.plant(rng, cause);
        }
    }
    Record::new(b'd', [made.case.clone(), made.dump(), vec![]])
}

/// A case in rows or in columns, with room for it or too little.
fn columns(rng: &mut Rng) -> Record {
    // Every byte is printed, so a large case takes the interpreter too long.
    let shape = Shape::small(rng);
    let hour = hour_of(rng, shape);
    let mut case = hour.case();
    if rng.one_in(4) {
        if let Some((field, value)) = fault_in(rng, &hour, 2..=8) {
            field.put(&mut case, &mut [], value);
        }
    }
    let mut file = if rng.one_in(2) { case } else { moved(&hour, &case) };
    damage(rng, &mut file);
    let less = if rng.one_in(8) { rng.between_or_end(1, file.len() as i64) as usize } else { 0 };
    let room = (file.len() + rng.pick(&[0, 0, 1, 9])).saturating_sub(less);
    Record { room: room as u32, ..Record::new(b'c', [file, vec![], vec![]]) }
}

/// An hour near an optimal one, or one with a known shortfall; some are refused or have too little room.
fn shortfalls(rng: &mut Rng) -> Record {
    let (hour, case, proposal) = match rng.below(4) {
        0 => whole(odd(rng)),
        1 => whole(rng.pick(&[lone_order, lone_branch, lone_link, link_against])(rng).0),
        _ => files(rng),
    };
    let room = if rng.one_in(6) { rng.below(length(&hour) + 1) } else { enough_room(rng, &hour) };
    Record { room: room as u32, ..Record::new(b's', [case, proposal, vec![]]) }
}

/// A good sheet, one with a cause or two, or a damaged one.
fn sheet(rng: &mut Rng) -> Record {
    let mut made = sheets::Made::some(rng);
    let mut causes: Vec<usize> = (0..rng.below(3)).map(|_| rng.below(sheets::CAUSES.len())).collect();
    causes.sort();
    for cause in causes {
        made.plant(rng, sheets::CAUSES[cause].0);
    }
    let mut bytes = made.bytes();
    if rng.one_in(4) {
        bytes = sheets::damaged(rng, bytes);
    }
    Record { number: made.zones as u32, room: made.room as u32, ..Record::new(b'm', [bytes, vec![], vec![]]) }
}

/// An exchange that is answered, or an input with a cause.
fn exchange(rng: &mut Rng) -> Record {
    if rng.one_in(2) {
        let (cause, _) = rng.pick(&CAUSES);
        let zones = zones_for(rng, &[cause]);
        let mut made = Planted::good(rng, zones);
        made.plant(rng, cause);
        return exchange_of(&made.net, &made.prices, made.bytes(), made.room);
    }
    let zones = some_zones(rng).max(2);
    let made = match rng.below(6) {
        0 | 1 => exchanges::random(rng, zones),
        2 => exchanges::carried(rng, zones),
        3 => exchanges::shut(rng, zones),
        4 => {
            let rungs = 2 + rng.below(4);
            exchanges::ladder(rng, rungs)
        }
        _ => exchanges::chain(rng, zones),
    };
    exchange_of(&made.net, &made.prices, pair_bytes(&made.pairs), SCRATCH)
}

/// The small scratch is as much too long or too short as the wide one.
fn exchange_of(net: &[i64], prices: &[i64], pairs: Vec<u8>, room: usize) -> Record {
    let small_room = (room + SMALL_SCRATCH).saturating_sub(SCRATCH);
    let parts = [bytes_of(net), bytes_of(prices), pairs];
    Record { number: room as u32, room: small_room as u32, ..Record::new(b'i', parts) }
}

/// A run of posts and serves from the empty queue, a third of them with some bytes changed in between.
fn queue(rng: &mut Rng) -> Record {
    let (mut queue, mut drawn) = ([0; QUEUE_BYTES], Events::any(rng));
    let changes = rng.one_in(3);
    let mut events = Vec::new();
    for _ in 0..1 + rng.below(MOST_EVENTS) {
        if changes && rng.one_in(4) {
            let (place, value) = (rng.below(2 * QUEUE_BYTES), rng.pick(&[0, 1, 4, 25, 26, 255, 256]));
            queue[place % QUEUE_BYTES] = value as u8;
            events.extend(event_bytes(b'b', place as u32, value));
            continue;
        }
        match drawn.draw(rng) {
            Event::Post(area, hour) => {
                queue_post(&mut queue, area, hour);
                events.extend(event_bytes(b'p', area, hour));
            }
            Event::Serve => {
                let served = queue_serve(&mut queue);
                drawn.served = (served.number == 0).then_some((served.area, served.hour));
                events.extend(event_bytes(b's', 0, 0));
            }
        }
    }
    Record::new(b'q', [events, vec![], vec![]])
}

#[cfg(test)]
mod tests {
    use super::*;
    use crate::records::read;

    #[test]
    fn a_part_is_its_seed_s_and_has_every_kind() {
        for seed in 0..20 {
            let records = part(seed);
            assert!(records == part(seed), "the same of the same seed");
            assert!(records != part(seed + 1), "another of another seed");
            let bytes: Vec<u8> = records.iter().flat_map(|(_, record)| record.bytes()).collect();
            let back = read(&bytes).unwrap();
            assert!(records.iter().map(|(_, record)| record).eq(&back), "the program can read them");
            for (kind, count, _) in KINDS {
                assert_eq!(records.iter().filter(|(name, _)| *name == kind).count(), count);
            }
        }
    }
}
