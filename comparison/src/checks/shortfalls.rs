//! Compares the shortfalls' entry of both judges (S-14). The hours have gap zero, or a gap as a solver leaves it; have
//! links or none; have changed contracted volumes; are refused by every number; or are the largest. Outputs are about
//! as long as needed. `promises` checks every answer 0.

use super::promises::{Answered, Files, MET};
use crate::lent::Lent;
use crate::library;
use crate::makers::fields::one_outside;
use crate::makers::hours::{good, most_flow, optimal, random, Shape};
use crate::makers::limits::at_limits;
use crate::makers::near::*;
use crate::numbers::{COUNTED, LEAST_INPUTS, SHORTFALLS};
use crate::rng::Rng;
use crate::run::{count_met, Run};
use paper_hours::{stored, Hour, Version};
use second_judge::limits::LEAST_BUFFER;
use second_judge::{shortfalls, OutputAnswer};
use wrong_builds::shortfalls::{Value, BUILDS};

/// At least this many accepted hours have a gap.
const LEAST_GAPS: u64 = 10_000;
/// The wrong builds run on one input out of this many.
const WRONG_EVERY: u64 = 3;

/// Counts over all inputs.
struct Hours<'a> {
    run: &'a mut Run,
    inputs: u64,
    numbers: [u64; COUNTED],
    met: [u64; MET.len()],
    wrong_tried: u64,
    second_wrong: [u64; BUILDS.len()],
}

impl Hours<'_> {
    fn feed(&mut self, case: &[u8], proposal: &[u8], room: usize) -> (OutputAnswer, Vec<i64>) {
        self.feed_as(case, proposal, room, false)
    }

    /// Gives both judges this hour and this much room, and checks the answer against the library's judgement and
    /// the promises.
    fn feed_as(&mut self, case: &[u8], proposal: &[u8], room: usize, null: bool) -> (OutputAnswer, Vec<i64>) {
        self.run.count();
        self.inputs += 1;
        let copies = (case.to_vec(), proposal.to_vec());
        // A different pattern for each input, so that no number is right by luck.
        let salt = self.inputs.wrapping_mul(0x9E37_79B9_7F4A_7C15);
        let lent = Lent::filled(room, |n| (n.wrapping_mul(0xBF58_476D_1CE4_E5B9) ^ salt) as i64);
        let theirs = lent.to(|out| library::shortfalls(case, proposal, out, null));
        let ours = lent.to(|out| shortfalls(case, proposal, out));
        if let Some(text) = theirs.unlike(&ours) {
            self.fault(case, proposal, room, || text);
        }
        if copies.0 != case || copies.1 != proposal {
            self.fault(case, proposal, room, || "a file was written".into());
        }
        self.held(case, proposal, &theirs.answer, theirs.room());

        self.numbers[ours.answer.number as usize] += 1;
        if self.inputs.is_multiple_of(WRONG_EVERY) {
            self.wrong_tried += 1;
            let wrong = |build: Value, out: &mut [i64]| build(case, proposal, out);
            lent.tell(&theirs, &BUILDS, &mut self.second_wrong, wrong);
        }
        (ours.answer, ours.room().to_vec())
    }

    /// The judgement comes first; an answer 0 keeps the promises.
    fn held(&mut self, case: &[u8], proposal: &[u8], answer: &OutputAnswer, out: &[i64]) {
        let mut report = [0; LEAST_BUFFER];
        let returned = library::judge(case, proposal, &mut report);
        let files = Files { case, proposal, report: &report };
        let (number, index) = (returned.number.into(), returned.index.into());
        let answered = (u64::from(answer.number), answer.index, answer.length);
        let due = match number {
            0 => {
                let [_, branches, links, orders] = files.counts();
                let length = 2 * (orders + branches + links) as u64;
                match (out.len() as u64) < length {
                    true => (86, 0, 0),
                    false => (0, 0, length),
                }
            }
            _ => (number, index, 0),
        };
        if answered != due {
            self.fault(case, proposal, out.len(), || format!("{answer:?} where {due:?} is due"));
            return;
        }
        if due.0 != 0 {
            return;
        }
        let Answered { fault, met } = files.held(&out[..due.2 as usize]);
        count_met(&mut self.met, &met);
        if let Some(words) = fault {
            self.fault(case, proposal, out.len(), || words);
        }
    }

    fn fault(&mut self, case: &[u8], proposal: &[u8], room: usize, text: impl FnOnce() -> String) {
        self.run.fault_in(&[("case", case), ("proposal", proposal)], || format!("{}\n  room {room}", text()));
    }

    fn hour(&mut self, hour: &Hour, room: usize) -> (OutputAnswer, Vec<i64>) {
        self.feed(&hour.case(), &hour.proposal(), room)
    }

    fn expect(&mut self, hour: &Hour, room: usize, number: u32) -> (OutputAnswer, Vec<i64>) {
        let (case, proposal) = (hour.case(), hour.proposal());
        let (answer, out) = self.feed(&case, &proposal, room);
        if answer.number != number {
            self.fault(&case, &proposal, room, || format!("{answer:?} where {number} is due"));
        }
        (answer, out)
    }
}

pub fn hours(run: &mut Run, rng: &mut Rng) {
    run.section("shortfalls");
    let mut hours = Hours {
        run,
        inputs: 0,
        numbers: [0; COUNTED],
        met: Default::default(),
        wrong_tried: 0,
        second_wrong: Default::default(),
    };
    paper(&mut hours);
    gap_zero(&mut hours, rng);
    gaps(&mut hours, rng);
    of_links(&mut hours, rng);
    without_links(&mut hours, rng);
    contracted(&mut hours, rng);
    by_hand(&mut hours, rng);
    rooms(&mut hours, rng);
    refused(&mut hours, rng);
    largest(&mut hours, rng);

    let run = hours.run;
    run.section("shortfalls, numbers, times met");
    run.check_times("inputs".into(), hours.inputs, LEAST_INPUTS);
    run.check_numbers(&SHORTFALLS, &hours.numbers);
    run.section("shortfalls of accepted hours, met, times");
    for (n, (name, times)) in MET.iter().zip(hours.met).enumerate() {
        let least = if n == 1 { LEAST_GAPS } else { 1 };
        run.check_times(name.to_string(), times, least);
    }
    run.section("shortfalls, wrong builds, times told from the library");
    run.check_told(&BUILDS, &hours.second_wrong, hours.wrong_tried);
    run.entry("lta_shortfalls", hours.inputs, &[(&SHORTFALLS, &hours.numbers)], &hours.second_wrong);
}

/// The hours that the paper names, and P1 and P3 divided by 125.
fn paper(hours: &mut Hours) {
    hours.run.begin("the paper's hours");
    for stored in stored() {
        for room in [40, 16, 15, 0] {
            hours.feed(&stored.case, &stored.proposal, room);
        }
    }
    hours.run.end();
}

fn gap_zero(hours: &mut Hours, rng: &mut Rng) {
    hours.run.begin("gap zero");
    for _ in 0..8_000 {
        let shape = Shape::any(rng);
        let mut hour = optimal(rng, shape);
        hour.tolerance = tolerance(rng);
        let room = enough_room(rng, &hour);
        let (answer, out) = hours.expect(&hour, room, 0);
        if out[..answer.length as usize].iter().any(|&n| n != 0) {
            hours.fault(&hour.case(), &hour.proposal(), room, || "an optimal hour falls short".into());
        }
    }
    hours.run.end();
}

/// Hours near an optimal one, with the widest tolerance and near their own gap.
fn gaps(hours: &mut Hours, rng: &mut Rng) {
    hours.run.begin("a little off");
    for _ in 0..26_000 {
        let shape = Shape::mostly_small(rng, 12);
        let mut hour = near(rng, shape);
        if rng.one_in(6) {
            hour.tolerance = tolerance(rng);
        }
        let room = enough_room(rng, &hour);
        hours.hour(&hour, room);
    }
    hours.run.end();
    hours.run.begin("a little off, tolerance about the gap");
    for _ in 0..1_500 {
        let shape = Shape::small(rng);
        let mut hour = near(rng, shape);
        let mut report = [0; LEAST_BUFFER];
        if library::judge(&hour.case(), &hour.proposal(), &mut report).number != 0 {
            continue;
        }
        let gap = i64::from_le_bytes(report[24..32].try_into().expect("eight bytes"));
        let cents = (gap.div_euclid(1_000_000) + i64::from(gap % 1_000_000 != 0)) as u32;
        for (tolerance, number) in [(cents, 0), (cents.wrapping_sub(1), 26)] {
            if tolerance <= TOLERANCE {
                hour.tolerance = tolerance;
                let room = enough_room(rng, &hour);
                hours.expect(&hour, room, number);
            }
        }
    }
    hours.run.end();
}

fn of_links(hours: &mut Hours, rng: &mut Rng) {
    hours.run.begin("links, nothing round");
    for _ in 0..8_000 {
        let hour = odd(rng);
        let room = enough_room(rng, &hour);
        hours.hour(&hour, room);
    }
    hours.run.end();
}

fn without_links(hours: &mut Hours, rng: &mut Rng) {
    hours.run.begin("no link");
    for _ in 0..5_000 {
        let shape = Shape { links: 0, ..Shape::small(rng) };
        let hour = near(rng, shape);
        let room = enough_room(rng, &hour);
        hours.hour(&hour, room);
    }
    hours.run.end();
}

/// Only contracted volumes changed: the same answer, number by number, in either version.
fn contracted(hours: &mut Hours, rng: &mut Rng) {
    hours.run.begin("contracted volumes moved alone");
    let mut pairs = 0;
    while pairs < 3_000 {
        let shape = Shape::small(rng);
        let mut hour = near(rng, shape);
        if hour.links.is_empty() {
            continue;
        }
        pairs += 1;
        let room = enough_room(rng, &hour);
        hour.version = Version::One;
        let (first, of_first) = hours.hour(&hour, room);
        hour.version = Version::Two;
        for link in &mut hour.links {
            link.contracted = rng.between_or_end(0, link.capacity.into()) as u32;
        }
        let (second, of_second) = hours.hour(&hour, room);
        let count = first.length as usize;
        if first != second || of_first[..count] != of_second[..count] {
            hours.fault(&hour.case(), &hour.proposal(), room, || "another answer with other contracted volumes".into());
        }
    }
    hours.run.end();
}

/// Hours with one order, branch or link whose shortfall is known.
fn by_hand(hours: &mut Hours, rng: &mut Rng) {
    hours.run.begin("one shortfall, known beforehand");
    for _ in 0..1_000 {
        let (hour, place, whole, rest) = match rng.below(4) {
            0 => lone_order(rng),
            1 => lone_branch(rng),
            2 => lone_link(rng),
            _ => link_against(rng),
        };
        let room = enough_room(rng, &hour);
        let (_, out) = hours.expect(&hour, room, 0);
        let mut due = vec![0; length(&hour)];
        (due[2 * place], due[2 * place + 1]) = (whole, rest);
        if out[..due.len()] != due {
            hours.fault(&hour.case(), &hour.proposal(), room, || {
                format!("{:?} where {due:?} is due", &out[..due.len()])
            });
        }
    }
    hours.run.end();
}

/// Outputs of every kind of length, of accepted hours and of others.
fn rooms(hours: &mut Hours, rng: &mut Rng) {
    hours.run.begin("rooms");
    let mut made = 0;
    while made < 2_000 {
        let shape = Shape::any(rng);
        let mut hour = match rng.one_in(2) {
            true => optimal(rng, shape),
            false => near(rng, shape),
        };
        hour.tolerance = TOLERANCE;
        let due = length(&hour);
        if due == 0 || hours.hour(&hour, due).0.number != 0 {
            continue;
        }
        made += 1;
        let less = rng.between_or_end(1, due as i64) as usize;
        hours.expect(&hour, due - 1, 86);
        hours.expect(&hour, due - less, 86);
        hours.expect(&hour, due + 1 + rng.below(9), 0);
        // The judgement is asked first, even with no room.
        hour.system_price = i32::MAX;
        hours.expect(&hour, due - less, 25);
    }
    hours.run.end();
    hours.run.begin("empty files, null pointers, no room");
    let bare = Hour { zones: 1, ..Hour::default() };
    let hour = paper_hours::three_zone_hour();
    for null in [false, true] {
        for room in [0, 16] {
            for (case, proposal) in [
                (vec![], vec![]),
                (hour.case(), vec![]),
                (vec![], hour.proposal()),
                (hour.case(), hour.proposal()),
                (bare.case(), bare.proposal()),
            ] {
                hours.feed_as(&case, &proposal, room, null);
            }
        }
    }
    hours.run.end();
}

/// Hours that are refused: fields out of range, wrong lengths, rules broken, bytes flipped.
fn refused(hours: &mut Hours, rng: &mut Rng) {
    hours.run.begin("a field out of range");
    let mut made = 0;
    while made < 5_000 {
        let shape = Shape::small(rng);
        let hour = good(rng, shape);
        let hour = to_refuse(rng, hour);
        let (mut case, mut proposal) = (hour.case(), hour.proposal());
        // Each number as often as the others, whatever the number of rows.
        let number = rng.pick(&[2, 3, 4, 6, 7, 8, 10, 11, 13, 14, 21, 23]);
        let Some((field, value)) = one_outside(rng, &hour, |field| field.number == number) else {
            continue;
        };
        made += 1;
        field.put(&mut case, &mut proposal, value);
        let room = rng.pick(&[0, length(&hour), length(&hour) + 3]);
        hours.feed(&case, &proposal, room);
    }
    hours.run.end();
    hours.run.begin("lengths");
    for _ in 0..2_000 {
        let shape = Shape::small(rng);
        let hour = good(rng, shape);
        let hour = to_refuse(rng, hour);
        let (mut case, mut proposal) = (hour.case(), hour.proposal());
        let room = length(&hour);
        let file = match rng.one_in(2) {
            true => &mut case,
            false => &mut proposal,
        };
        match rng.below(3) {
            0 => file.truncate(rng.below(13)),
            1 => file.truncate(rng.below(file.len())),
            _ => file.push(rng.draw() as u8),
        }
        hours.feed(&case, &proposal, room);
    }
    hours.run.end();
    hours.run.begin("rules broken");
    for _ in 0..6_000 {
        let shape = Shape::small(rng);
        let made = match rng.below(5) {
            0 => random(rng, shape),
            1 => at_limits(rng, shape),
            _ => near(rng, shape),
        };
        let mut hour = to_refuse(rng, made);
        let pick = |rng: &mut Rng, count: usize| rng.below(count.max(1));
        match rng.below(6) {
            0 if !hour.orders.is_empty() => {
                let o = pick(rng, hour.orders.len());
                hour.volumes[o] ^= 1;
            }
            1 if hour.links.is_empty() => hour.share = 1 + rng.below(100_000) as u32,
            2 if !hour.links.is_empty() => {
                let l = pick(rng, hour.links.len());
                hour.flows[l] = most_flow(hour.share, hour.links[l].capacity) as u32 + 1;
            }
            3 if !hour.branches.is_empty() => {
                let b = pick(rng, hour.branches.len());
                hour.branches[b].ram = rng.pick(&[-500_000, -1]);
            }
            4 => hour.system_price = rng.pick(&[i32::MIN, i32::MAX]),
            _ => hour.tolerance = 0,
        }
        let room = enough_room(rng, &hour);
        hours.hour(&hour, room);
    }
    hours.run.end();
    hours.run.begin("tolerances above 100 euros");
    for _ in 0..600 {
        let shape = Shape::small(rng);
        let mut hour = good(rng, shape);
        hour.tolerance = rng.between_or_end(i64::from(TOLERANCE) + 1, 1_000_000_000) as u32;
        let room = rng.pick(&[0, length(&hour), length(&hour) + 3]);
        hours.hour(&hour, room);
    }
    hours.run.end();
    hours.run.begin("bytes flipped");
    for _ in 0..4_000 {
        let shape = Shape::small(rng);
        let hour = near(rng, shape);
        let (mut case, mut proposal) = (hour.case(), hour.proposal());
        for _ in 0..1 + rng.below(2) {
            let file = match rng.one_in(2) {
                true => &mut case,
                false => &mut proposal,
            };
            let at = rng.below(file.len());
            file[at] ^= 1 << rng.below(8);
        }
        hours.feed(&case, &proposal, length(&hour) + 2);
    }
    hours.run.end();
}

/// As many orders, branches and links as there may be.
fn largest(hours: &mut Hours, rng: &mut Rng) {
    hours.run.begin("the largest hours");
    for n in 0..40 {
        let mut hour = match n % 2 {
            0 => optimal(rng, Shape::LARGEST),
            _ => near(rng, Shape::LARGEST),
        };
        hour.tolerance = TOLERANCE;
        let due = length(&hour);
        hours.hour(&hour, due);
        hours.hour(&hour, due - 1);
    }
    hours.run.end();
}
