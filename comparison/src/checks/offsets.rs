//! Verdicts 6, 7, 8 and 14: every cause in rows of hours of any size, and the offset that S-2 names for it.

use crate::makers::fields::{fields, outside, Field};
use crate::makers::hours::{enough, random, Shape};
use crate::numbers::LEAST_TIMES;
use crate::rng::Rng;
use crate::run::Run;
use paper_hours::{Hour, Version};

const INPUTS: u64 = 60_000;

/// What is done to the two zones of a link before any field is put outside.
#[derive(Clone, Copy)]
enum Zones {
    Kept,
    Equal,
    EqualUnknown,
    /// They become those of a link at least this many links before.
    Repeated(usize),
}
use Zones::*;

/// The last field of a row, whatever its number.
const LAST: usize = usize::MAX;

/// A link's field that only version 2 has.
const CONTRACTED: usize = 3;

/// Name, number, the zones, the row's fields that are put outside their range, the field that is named.
const CAUSES: [(&str, u32, Zones, &[usize], usize); 36] = [
    ("branch: margin", 6, Kept, &[0], 0),
    ("branch: first PTDF", 6, Kept, &[1], 1),
    ("branch: last PTDF", 6, Kept, &[LAST], LAST),
    ("branch: margin, first PTDF", 6, Kept, &[0, 1], 0),
    ("branch: margin, last PTDF", 6, Kept, &[0, LAST], 0),
    ("branch: first, last PTDF", 6, Kept, &[1, LAST], 1),
    ("link: unknown from", 7, Kept, &[0], 0),
    ("link: unknown to", 7, Kept, &[1], 1),
    ("link: equal zones", 7, Equal, &[], 1),
    ("link: capacity", 7, Kept, &[2], 2),
    ("link: repeated", 7, Repeated(1), &[], 0),
    ("link: repeated, 32 before", 7, Repeated(32), &[], 0),
    ("link: both unknown", 7, Kept, &[0, 1], 0),
    ("link: equal, unknown", 7, EqualUnknown, &[], 0),
    ("link: unknown from, capacity", 7, Kept, &[0, 2], 0),
    ("link: unknown to, capacity", 7, Kept, &[1, 2], 1),
    ("link: equal zones, capacity", 7, Equal, &[2], 1),
    ("link: repeated, capacity", 7, Repeated(1), &[2], 0),
    ("link: contracted", 7, Kept, &[CONTRACTED], CONTRACTED),
    ("link: unknown from, contracted", 7, Kept, &[0, CONTRACTED], 0),
    ("link: unknown to, contracted", 7, Kept, &[1, CONTRACTED], 1),
    ("link: equal zones, contracted", 7, Equal, &[CONTRACTED], 1),
    ("link: capacity, contracted", 7, Kept, &[2, CONTRACTED], 2),
    ("link: repeated, contracted", 7, Repeated(1), &[CONTRACTED], 0),
    ("order: zone", 8, Kept, &[0], 0),
    ("order: side", 8, Kept, &[1], 1),
    ("order: quantity", 8, Kept, &[2], 2),
    ("order: price", 8, Kept, &[3], 3),
    ("order: zone, side", 8, Kept, &[0, 1], 0),
    ("order: zone, quantity", 8, Kept, &[0, 2], 0),
    ("order: zone, price", 8, Kept, &[0, 3], 0),
    ("order: side, quantity", 8, Kept, &[1, 2], 1),
    ("order: side, price", 8, Kept, &[1, 3], 1),
    ("order: quantity, price", 8, Kept, &[2, 3], 2),
    ("order: all four", 8, Kept, &[0, 1, 2, 3], 0),
    ("shadow price", 14, Kept, &[0], 0),
];

/// The parts by number, with the last row that each can have.
const PARTS: [(u32, &str, usize); 4] =
    [(6, "branch", 63), (7, "link", 63), (8, "order", 511), (14, "shadow price", 63)];

/// How often each cause was named, and each part's first and greatest row.
struct Named {
    causes: [u64; CAUSES.len()],
    ends: [[u64; 2]; PARTS.len()],
}

pub fn offsets(run: &mut Run, rng: &mut Rng) {
    let mut named = Named { causes: [0; CAUSES.len()], ends: [[0; 2]; PARTS.len()] };
    run.begin("offset of each field");
    while run.fed() < INPUTS {
        let shape = match rng.below(4) {
            0 => Shape::LARGEST,
            _ => Shape::any(rng),
        };
        let hour = random(rng, shape);
        let (case, proposal, list) = (hour.case(), hour.proposal(), fields(&hour));
        for cause in 0..CAUSES.len() {
            let mut files = (case.clone(), proposal.clone());
            plant(run, rng, cause, &mut files, &list, &hour, &mut named);
        }
    }
    run.end();

    run.section("offsets, times named");
    for (number, ..) in PARTS {
        let of_number = |cause: &usize| CAUSES[*cause].1 == number;
        let causes = (0..CAUSES.len()).filter(of_number);
        let times = causes.map(|cause| named.causes[cause]).sum();
        at_least(run, format!("verdict {number}"), times);
    }
    for ((name, ..), times) in CAUSES.iter().zip(named.causes) {
        at_least(run, name.to_string(), times);
    }
    for ((_, name, last), [of_first, of_last]) in PARTS.iter().zip(named.ends) {
        at_least(run, format!("{name} 0"), of_first);
        at_least(run, format!("{name} {last}"), of_last);
    }
}

pub fn at_least(run: &mut Run, name: String, times: u64) {
    run.check_times(name, times, LEAST_TIMES);
}

/// Plants a cause in one row, if there is such a row, and judges the hour.
fn plant(
    run: &mut Run,
    rng: &mut Rng,
    cause: usize,
    (case, proposal): &mut (Vec<u8>, Vec<u8>),
    list: &[Field],
    hour: &Hour,
    named: &mut Named,
) {
    let (name, number, change, outsiders, due) = CAUSES[cause];
    let zones = usize::from(hour.zones);
    let part: Vec<Field> = list.iter().filter(|f| f.number == number).copied().collect();
    let width = match number {
        6 => 1 + zones,
        7 if hour.version == Version::One => 3,
        7 | 8 => 4,
        _ => 1,
    };
    let (count, first) = (part.len() / width, least_row(change));
    let has_fields = outsiders.iter().all(|&field| field < width || field == LAST);
    if count <= first || !has_fields {
        return;
    }
    let row = match rng.below(3) {
        0 => first,
        1 => count - 1,
        _ => first + rng.below(count - first),
    };
    let at = |row: usize, field: usize| part[row * width + field.min(width - 1)];

    let zones_at = at(row, 0).at;
    match change {
        Kept => {}
        Equal => case[zones_at + 1] = case[zones_at],
        EqualUnknown => case[zones_at..][..2].fill(rng.between_or_end(zones as i64, 255) as u8),
        Repeated(before) => {
            let earlier = at(rng.below(row - before + 1), 0).at;
            case.copy_within(earlier..earlier + 2, zones_at);
        }
    }
    for &field in outsiders {
        let field = at(row, field);
        let value = outside(rng, &field).expect("a field of these rows has a range");
        field.put(case, proposal, value);
    }
    // Often a field of a later row or part is at fault too, and not named.
    let row_ends = (number, at(row, LAST).at);
    let later = |f: &&Field| matches!(f.number, 6 | 7 | 8 | 14) && (f.number, f.at) > row_ends;
    let later: Vec<&Field> = list.iter().filter(later).collect();
    if !later.is_empty() && rng.one_in(2) {
        let field = rng.pick(&later);
        let value = outside(rng, field).expect("a field of these rows has a range");
        field.put(case, proposal, value);
    }

    let offset = at(row, due).at as u32;
    let verdict = run.feed(case, proposal, enough(rng));
    if (verdict.number, verdict.index) != (number, offset) {
        run.fault_in_last(|| format!("{name}: {verdict:?} where {number} {offset} is due"));
        return;
    }
    named.causes[cause] += 1;
    for (times, (part, _, last)) in named.ends.iter_mut().zip(PARTS) {
        times[0] += u64::from(part == number && row == 0);
        times[1] += u64::from(part == number && row == last);
    }
}

/// The first row that a cause can be in.
fn least_row(change: Zones) -> usize {
    match change {
        Repeated(before) => before,
        _ => 0,
    }
}
