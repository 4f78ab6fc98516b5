//! The two case versions of S-4. A case of version 1 is one of version 2 with all of each capacity contracted,
//! whatever is wrong with it; and contracted volumes change owed alone.

use super::offsets::at_least;
use crate::makers::fields::{fields, outside, Field};
use crate::makers::hours::{enough, good, random, Shape};
use crate::makers::limits::{at_limits, OWED};
use crate::numbers::JUDGE_VERSION_2;
use crate::rng::Rng;
use crate::run::Run;
use paper_hours::{Hour, Version};
use second_judge::Verdict;

/// For each of the two laws.
const INPUTS: u64 = 24_000;

pub fn laws(run: &mut Run, rng: &mut Rng) {
    let mut shifted = [0; 2];
    run.section("the two case versions");
    run.begin("version 1 as 2, all contracted");
    while run.fed() < INPUTS {
        one_as_two(run, rng, &mut shifted);
    }
    run.end();
    run.begin("what is contracted moves owed");
    while run.fed() < INPUTS {
        owed_alone(run, rng);
    }
    run.end();
    for (number, times) in [7, 8].into_iter().zip(shifted) {
        at_least(run, format!("{number}, offset shifted"), times);
    }
}

/// How many of the hours so far have each version.
pub fn halves(run: &mut Run) {
    run.section("made inputs, by case version");
    let [one, two, other] = run.versions;
    let half = |share: u64| 45 * (one + two) <= 100 * share;
    run.check("version 1".into(), half(one), format!("{one}"));
    run.check("version 2".into(), half(two), format!("{two}"));
    at_least(run, "another or none".into(), other);
}

/// What the cases of version 2 met.
pub fn counted(run: &mut Run) {
    run.section("verdicts on cases of version 2, times met");
    let verdicts = run.verdicts_on_two;
    run.check_numbers(&JUDGE_VERSION_2, &verdicts);
}

fn any_hour(rng: &mut Rng) -> Hour {
    let shape = Shape::any(rng);
    match rng.below(8) {
        0 => at_limits(rng, shape),
        1 | 2 => random(rng, shape),
        _ => good(rng, shape),
    }
}

/// An hour of version 1, often damaged, and the same in version 2 with each link fully contracted.
fn one_as_two(run: &mut Run, rng: &mut Rng, shifted: &mut [u64; 2]) {
    let hour = Hour { version: Version::One, ..any_hour(rng) };
    let (mut one, mut proposal) = (hour.case(), hour.proposal());
    for _ in 0..rng.pick(&[0, 0, 1, 1, 1, 3]) {
        let list = damageable(rng, &hour);
        let field = rng.pick(&list);
        let value = match outside(rng, &field) {
            // Counts within their ranges would give another layout.
            Some(value) if rng.one_in(2) || field.number <= 4 => value,
            _ => rng.between_or_end(field.least, field.greatest),
        };
        field.put(&mut one, &mut proposal, value);
    }
    let mut two = all_contracted(&hour, &one);
    let length = rng.below(16);
    for case in [&mut one, &mut two] {
        match length {
            0 => case.push(7),
            1 => drop(case.pop()),
            2 => case.truncate(13),
            _ => {}
        }
    }

    let first = run.feed(&one, &proposal, enough(rng));
    let before = reported(run, first, &hour);
    let second = run.feed(&two, &proposal, enough(rng));
    let due = Verdict { number: first.number, index: in_version_two(&hour, first) };
    if second != due || before != reported(run, second, &hour) {
        run.fault_in_last(|| format!("version 1 {first:?}, version 2 {second:?} where {due:?} is due"));
    }
    for (times, number) in shifted.iter_mut().zip([7, 8]) {
        *times += u64::from(first.number == number && second.index > first.index);
    }
}

/// The fields of one part of the files, since parts with many rows would otherwise take all.
fn damageable(rng: &mut Rng, hour: &Hour) -> Vec<Field> {
    let mut list = fields(hour);
    let numbers = rng.pick(&[(2, 2), (4, 4), (6, 6), (7, 7), (7, 7), (8, 8), (10, 14), (21, 23)]);
    let of_part = |field: &Field| numbers.0 <= field.number && field.number <= numbers.1;
    if list.iter().any(of_part) {
        list.retain(of_part);
    } else {
        list.retain(|field| field.number == 2);
    }
    list
}

/// A case of version 1, laid out as the hour says, as one of version 2 with each capacity contracted.
fn all_contracted(hour: &Hour, case: &[u8]) -> Vec<u8> {
    let (links_at, orders_at) = parts(hour);
    let mut two = case[..links_at].to_vec();
    two[3] = 2;
    for link in case[links_at..orders_at].chunks_exact(6) {
        two.extend(link);
        two.extend(&link[2..]);
    }
    two.extend(&case[orders_at..]);
    two
}

/// Where the links and the orders of a case of version 1 begin.
fn parts(hour: &Hour) -> (usize, usize) {
    let links_at = 14 + hour.branches.len() * (4 + 4 * usize::from(hour.zones));
    (links_at, links_at + 6 * hour.links.len())
}

/// The index in version 2 of the field that a verdict on a case of version 1 names.
fn in_version_two(hour: &Hour, verdict: Verdict) -> u32 {
    let links_at = parts(hour).0 as u32;
    match verdict.number {
        7 => verdict.index + 4 * ((verdict.index - links_at) / 6),
        8 => verdict.index + 4 * hour.links.len() as u32,
        _ => verdict.index,
    }
}

/// The totals and prices of the last report, none without one.
fn reported(run: &Run, verdict: Verdict, hour: &Hour) -> Vec<i64> {
    match verdict.number {
        0 | 26 => (0..5 + usize::from(hour.zones)).map(|n| run.total(n)).collect(),
        _ => Vec::new(),
    }
}

/// An hour of version 2 as made, and with each link fully contracted.
fn owed_alone(run: &mut Run, rng: &mut Rng) {
    let mut hour = Hour { version: Version::Two, ..any_hour(rng) };
    let proposal = hour.proposal();
    let first = run.feed(&hour.case(), &proposal, enough(rng));
    let mut part = reported(run, first, &hour);
    for link in &mut hour.links {
        link.contracted = link.capacity;
    }
    let second = run.feed(&hour.case(), &proposal, enough(rng));
    let whole = reported(run, second, &hour);
    if let (Some(owed), Some(most)) = (part.get_mut(OWED), whole.get(OWED)) {
        if *owed > *most {
            run.fault_in_last(|| "more is owed for a part than for all".into());
        }
        *owed = *most;
    }
    if first != second || part != whole {
        run.fault_in_last(|| format!("{first:?} for a part, {second:?} for all, or another total than owed"));
    }
}
