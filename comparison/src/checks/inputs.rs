//! The kinds of inputs for the judgement, and how often each is fed.

use crate::makers::fields::{change_a_byte, fields, outside};
use crate::makers::hours::*;
use crate::makers::limits::{at_limits, widest, GAP};
use crate::rng::Rng;
use crate::run::Run;
use paper_hours::{stored, Branch, Hour};
use second_judge::limits::{BUYS, LEAST_BUFFER, SELLS};
use second_judge::Row;

/// Each call feeds one input or a few.
type Feed = fn(&mut Run, &mut Rng);

/// Name, share of the run's inputs in hundredths, maker.
pub const KINDS: [(&str, u64, Feed); 13] = [
    ("random hours", 15, random_hours),
    ("optimal hours", 12, optimal_hours),
    ("tolerance about the gap", 18, tolerance_about_the_gap),
    ("limits of each field", 12, limits_of_each_field),
    ("one field changed", 10, one_field_changed),
    ("files cut short", 4, cut_short),
    ("files made longer", 3, made_longer),
    ("bytes flipped", 5, bytes_flipped),
    ("several faults at once", 5, several_faults),
    ("repeated and equal zones", 2, bad_pairs),
    ("rules at their edges", 6, rules_at_their_edges),
    ("every field at a limit", 3, fields_at_limits),
    ("plain and full shapes", 4, plain_shapes),
];

fn feed_hour(run: &mut Run, rng: &mut Rng, hour: &Hour) {
    run.feed(&hour.case(), &hour.proposal(), enough(rng));
}

/// Feeds a good hour; it has a report whatever its gap.
pub fn breaks_no_rule(run: &mut Run, rng: &mut Rng, hour: &Hour) -> bool {
    let verdict = run.feed(&hour.case(), &hour.proposal(), enough(rng));
    let reported = matches!(verdict.number, 0 | 26);
    if !reported {
        run.fault_in_last(|| format!("{verdict:?} for an hour that breaks no rule"));
    }
    reported
}

/// A good hour fed at tolerance zero, and its gap.
pub fn hour_and_gap(run: &mut Run, rng: &mut Rng) -> Option<(Hour, i64)> {
    let shape = Shape::any(rng);
    let mut hour = good(rng, shape);
    hour.tolerance = 0;
    breaks_no_rule(run, rng, &hour).then(|| (hour, run.total(GAP)))
}

/// The hours the paper names, a check for each.
pub fn paper_hours(run: &mut Run) {
    run.of_paper = true;
    for hour in stored() {
        run.begin(hour.name);
        for lent in [LEAST_BUFFER, LEAST_BUFFER + 1, 256] {
            run.feed(&hour.case, &hour.proposal, lent);
            run.expect(hour.number, hour.index);
            for (n, total) in hour.totals.in_order().into_iter().enumerate() {
                if let Some(total) = total {
                    run.expect_total(n, total);
                }
            }
            for (zone, &price) in hour.prices.iter().enumerate() {
                run.expect_total(5 + zone, price);
            }
        }
        run.end();
    }
    run.of_paper = false;
}

fn random_hours(run: &mut Run, rng: &mut Rng) {
    let shape = Shape::any(rng);
    let hour = random(rng, shape);
    feed_hour(run, rng, &hour);
}

fn optimal_hours(run: &mut Run, rng: &mut Rng) {
    let shape = Shape::any(rng);
    let hour = optimal(rng, shape);
    feed_hour(run, rng, &hour);
    run.expect(0, 0);
    run.expect_total(GAP, 0);
}

fn tolerance_about_the_gap(run: &mut Run, rng: &mut Rng) {
    let Some((mut hour, gap)) = hour_and_gap(run, rng) else {
        return;
    };
    let cents = gap.div_euclid(1_000_000) + i64::from(gap % 1_000_000 != 0);
    for (tolerance, number) in [(cents - 1, 26), (cents, 0), (cents + 1, 0)] {
        if (0..=1_000_000_000).contains(&tolerance) {
            hour.tolerance = tolerance as u32;
            feed_hour(run, rng, &hour);
            // S-12: a gap that only a wide tolerance would allow.
            run.expect(if tolerance > 10_000 { 15 } else { number }, 0);
        }
    }
}

fn limits_of_each_field(run: &mut Run, rng: &mut Rng) {
    let every = rng.one_in(2);
    let shape = if every { Shape::small(rng) } else { Shape::any(rng) };
    let hour = good(rng, shape);
    let (mut case, mut proposal) = (hour.case(), hour.proposal());
    let originals = (case.clone(), proposal.clone());
    let list = fields(&hour);
    // All fields of a small hour, some of a large one.
    let count = if every { list.len() } else { 40 };
    for n in 0..count {
        let field = if every { list[n] } else { rng.pick(&list) };
        let (least, greatest) = (field.least, field.greatest);
        for value in [least - 1, least, least + 1, greatest - 1, greatest, greatest + 1] {
            let (lowest, highest) = field.room();
            if value < lowest || value > highest {
                continue;
            }
            field.put(&mut case, &mut proposal, value);
            let verdict = run.feed(&case, &proposal, enough(rng));
            if !field.allows(value) {
                run.expect(field.number, field.index);
            } else if verdict.number == field.number && !field.tied {
                run.fault_in_last(|| format!("{verdict:?} for {value}, which is in range"));
            }
        }
        case.copy_from_slice(&originals.0);
        proposal.copy_from_slice(&originals.1);
    }
}

fn one_field_changed(run: &mut Run, rng: &mut Rng) {
    let shape = Shape::any(rng);
    let hour = good(rng, shape);
    let (mut case, mut proposal) = (hour.case(), hour.proposal());
    let field = rng.pick(&fields(&hour));
    let value = if rng.one_in(4) {
        let (lowest, highest) = field.room();
        rng.between_or_end(lowest, highest)
    } else {
        rng.between_or_end(field.least, field.greatest)
    };
    field.put(&mut case, &mut proposal, value);
    run.feed(&case, &proposal, enough(rng));
}

fn cut_short(run: &mut Run, rng: &mut Rng) {
    let shape = Shape::any(rng);
    let hour = good(rng, shape);
    let (mut case, mut proposal) = (hour.case(), hour.proposal());
    let (cut_case, header) = (rng.one_in(2), rng.one_in(3));
    let file = if cut_case { &mut case } else { &mut proposal };
    let length = match header {
        true => rng.below(15.min(file.len())),
        false => rng.between_or_end(0, file.len() as i64 - 1) as usize,
    };
    file.truncate(length);
    run.feed(&case, &proposal, enough(rng));
    let number = match (cut_case, length) {
        (true, 0..=13) => 1,
        (true, _) => 5,
        (false, 0..=12) => 9,
        (false, _) => 12,
    };
    run.expect(number, 0);
}

fn made_longer(run: &mut Run, rng: &mut Rng) {
    let shape = Shape::any(rng);
    let hour = good(rng, shape);
    let (mut case, mut proposal) = (hour.case(), hour.proposal());
    let lengthen_case = rng.one_in(2);
    let file = if lengthen_case { &mut case } else { &mut proposal };
    for _ in 0..rng.pick(&[1, 1, 4, 10, 1_000]) {
        file.push(rng.draw() as u8);
    }
    run.feed(&case, &proposal, enough(rng));
    run.expect(if lengthen_case { 5 } else { 12 }, 0);
}

fn bytes_flipped(run: &mut Run, rng: &mut Rng) {
    let shape = Shape::any(rng);
    let hour = good(rng, shape);
    let (mut case, mut proposal) = (hour.case(), hour.proposal());
    for _ in 0..1 + rng.below(3) {
        let file = if rng.one_in(2) { &mut case } else { &mut proposal };
        change_a_byte(rng, file);
    }
    run.feed(&case, &proposal, enough(rng));
}

/// The smallest number wins, then the smallest index.
fn several_faults(run: &mut Run, rng: &mut Rng) {
    let shape = Shape::any(rng);
    let hour = good(rng, shape);
    let (mut case, mut proposal) = (hour.case(), hour.proposal());
    // From one part of the files only, since small numbers would hide the others.
    let numbers = rng.pick(&[(0, 30), (2, 4), (6, 8), (7, 8), (10, 14), (13, 21), (14, 23)]);
    let mut list = fields(&hour);
    list.retain(|field| numbers.0 <= field.number && field.number <= numbers.1);
    let mut due = (u32::MAX, 0);
    for _ in 0..2 + rng.below(4) {
        if list.is_empty() {
            break;
        }
        let field = rng.pick(&list);
        if let Some(value) = outside(rng, &field) {
            field.put(&mut case, &mut proposal, value);
            due = due.min((field.number, field.index));
        }
    }
    // A wrong length too: the smaller faults are in the headers and remain.
    match rng.below(8) {
        0 => due = due.min((wrong_length(rng, &mut case, 14, 1, 5), 0)),
        1 | 2 => due = due.min((wrong_length(rng, &mut proposal, 13, 9, 12), 0)),
        _ => {}
    }
    run.feed(&case, &proposal, enough(rng));
    if due.0 != u32::MAX {
        run.expect(due.0, due.1);
    }
}

fn bad_pairs(run: &mut Run, rng: &mut Rng) {
    let mut shape = Shape::any(rng);
    shape.zones = shape.zones.max(2);
    shape.links = shape.links.max(2);
    let mut hour = good(rng, shape);
    let count = hour.links.len();
    let later = 1 + rng.below(count - 1);
    // The link at fault, and the byte named: for a repeated pair the first, for equal zones the second.
    let mut due = (later, 0);
    if rng.one_in(2) {
        let earlier = rng.below(later);
        (hour.links[later].from, hour.links[later].to) = (hour.links[earlier].from, hour.links[earlier].to);
    } else {
        hour.links[later].from = hour.links[later].to;
        due = (later, 1);
    }
    // Sometimes a later link is at fault too, or an earlier one, or this one for another cause.
    if rng.one_in(2) {
        let other = rng.below(count);
        hour.links[other].to = hour.links[other].from;
        if other <= later {
            due = (other, 1);
        }
    }
    let links_at = 14 + hour.branches.len() * (4 + 4 * usize::from(hour.zones));
    feed_hour(run, rng, &hour);
    run.expect(7, (links_at + hour.link_bytes() * due.0 + due.1) as u32);
}

fn rules_at_their_edges(run: &mut Run, rng: &mut Rng) {
    let shape = if rng.one_in(20) { Shape::LARGEST } else { Shape::any(rng) };
    let mut hour = good(rng, shape);
    match rng.below(6) {
        0 => volume_past_balance(run, rng, &mut hour),
        1 => flow_past_its_link(run, rng, &mut hour),
        2 => margin_just_enough(run, rng, &mut hour),
        3 => share_by_one(run, rng, &mut hour),
        4 => price_by_one_grain(run, rng, hour.zones),
        _ => gap_by_one_microcent(run, rng, hour.zones),
    }
}

fn volume_past_balance(run: &mut Run, rng: &mut Rng, hour: &mut Hour) {
    if hour.orders.is_empty() {
        return;
    }
    let order = row(rng, hour.orders.len());
    let full = hour.volumes[order] == hour.orders[order].quantity;
    if full {
        hour.volumes[order] -= 1;
    } else {
        hour.volumes[order] += 1;
    }
    feed_hour(run, rng, hour);
    run.expect(22, 0);
}

fn flow_past_its_link(run: &mut Run, rng: &mut Rng, hour: &mut Hour) {
    if hour.links.is_empty() {
        return;
    }
    let link = row(rng, hour.links.len());
    hour.flows[link] = most_flow(hour.share, hour.links[link].capacity) as u32;
    feed_hour(run, rng, hour);
    hour.flows[link] += 1;
    feed_hour(run, rng, hour);
    run.expect(23, link as u32);
}

fn margin_just_enough(run: &mut Run, rng: &mut Rng, hour: &mut Hour) {
    if hour.branches.is_empty() {
        return;
    }
    let b = row(rng, hour.branches.len());
    let parts = flow_based_parts(hour);
    let Some(least) = least_ram(used(&hour.branches[b], &parts), hour.share) else {
        return;
    };
    for (ram, refused) in [(least - 1, true), (least, false), (least + 1, false)] {
        if !(-500_000..=500_000).contains(&ram) {
            continue;
        }
        hour.branches[b].ram = ram as i32;
        let verdict = run.feed(&hour.case(), &hour.proposal(), enough(rng));
        if refused {
            run.expect(24, b as u32);
        } else if verdict.number != 0 && verdict.number != 26 {
            run.fault_in_last(|| format!("{verdict:?} for a margin that is enough"));
        }
    }
}

fn share_by_one(run: &mut Run, rng: &mut Rng, hour: &mut Hour) {
    let share = hour.share;
    for near in [share.saturating_sub(1), (share + 1).min(100_000)] {
        hour.share = near;
        feed_hour(run, rng, hour);
    }
}

fn price_by_one_grain(run: &mut Run, rng: &mut Rng, zones: u8) {
    let zone = rng.below(zones.into());
    let (system_price, outwards) = rng.pick(&[(-50_000, -1), (400_000, 1)]);
    for (step, number) in [(0, 0), (outwards, 25), (-outwards, 0)] {
        let mut ptdfs = vec![0; zones.into()];
        ptdfs[zone] = step;
        let hour = Hour {
            version: version(rng),
            zones,
            branches: vec![Branch { ram: 0, ptdfs }],
            shadow_prices: vec![1],
            system_price,
            ..Hour::default()
        };
        feed_hour(run, rng, &hour);
        run.expect(number, if number == 25 { zone as u32 } else { 0 });
    }
}

/// One tenth, untraded, at a zone price one grain off a cent: the gap is a whole number of cents, less or more by one
/// microcent.
fn gap_by_one_microcent(run: &mut Run, rng: &mut Rng, zones: u8) {
    let zone = rng.below(zones.into());
    let cents = rng.pick(&[0, 1, 2, 1_000, 9_999, 10_000, 44_999]);
    let side = rng.pick(&[BUYS, SELLS]);
    for step in [-1, 0, 1] {
        let gap = cents * 1_000_000 + step;
        if gap < 0 {
            continue;
        }
        // A tenth at ten cents per MWh is a cent.
        let (system_price, price, ptdf) = match side {
            BUYS => (-49_999, -49_999 + 10 * cents, -step),
            _ => (399_999, 399_999 - 10 * cents, step),
        };
        let mut ptdfs = vec![0; zones.into()];
        ptdfs[zone] = ptdf as i32;
        let mut hour = Hour {
            version: version(rng),
            zones,
            branches: vec![Branch { ram: 0, ptdfs }],
            orders: vec![Row { zone: zone as u8, side, quantity: 1, price: price as i32 }],
            volumes: vec![0],
            shadow_prices: vec![1],
            system_price,
            ..Hour::default()
        };
        for tolerance in [cents - 1, cents, cents + 1] {
            if tolerance < 0 {
                continue;
            }
            hour.tolerance = tolerance as u32;
            feed_hour(run, rng, &hour);
            if tolerance > 10_000 {
                run.expect(15, 0);
                continue;
            }
            run.expect(if gap > tolerance * 1_000_000 { 26 } else { 0 }, 0);
            run.expect_total(GAP, gap);
        }
    }
}

fn fields_at_limits(run: &mut Run, rng: &mut Rng) {
    let shape = Shape::any(rng);
    let hour = at_limits(rng, shape);
    feed_hour(run, rng, &hour);
}

/// One zone or sixteen, no branch, no link, no order, negative margins, the largest.
fn plain_shapes(run: &mut Run, rng: &mut Rng) {
    let mut shape = Shape::any(rng);
    let plain = rng.below(8);
    match plain {
        0 => (shape.zones, shape.links) = (1, 0),
        1 => shape.zones = 16,
        2 => shape.branches = 0,
        3 => shape.links = 0,
        4 => shape.orders = 0,
        5 => shape = Shape { zones: shape.zones, branches: 0, links: 0, orders: 0 },
        6 => shape.branches = shape.branches.max(1),
        _ if rng.one_in(4) => shape = Shape::LARGEST,
        _ => {}
    }
    let mut hour = match rng.below(3) {
        0 => random(rng, shape),
        _ => good(rng, shape),
    };
    if plain == 6 {
        // All LTA and nothing flow-based: any margin holds, even a negative one.
        for branch in &mut hour.branches {
            branch.ram = rng.between_or_end(-500_000, -1) as i32;
        }
    }
    feed_hour(run, rng, &hour);
}

/// Totals at their widest, with their exact values.
pub fn widest_totals(run: &mut Run) {
    run.begin("totals at their widest");
    for case in widest() {
        for tolerance in [0, 10_000] {
            let hour = Hour { tolerance, ..case.hour.clone() };
            let verdict = run.feed(&hour.case(), &hour.proposal(), LEAST_BUFFER);
            if verdict.number != 0 && verdict.number != 26 {
                run.fault_in_last(|| format!("{}: {verdict:?}", case.name));
            }
            run.expect_total(case.total, case.value);
        }
    }
    run.end();
}

/// Buffers of every length up to past the longest report.
pub fn buffer_lengths(run: &mut Run, rng: &mut Rng) {
    run.begin("buffer lengths");
    for lent in 0..=256 {
        for n in 0..10 {
            let shape = Shape::small(rng);
            let hour = good(rng, shape);
            let (mut case, proposal) = (hour.case(), hour.proposal());
            if n == 9 {
                case.truncate(5); // the buffer is asked before the case
            }
            run.feed(&case, &proposal, lent);
            if lent < LEAST_BUFFER {
                run.expect(30, 0);
            }
        }
    }
    run.end();
}

/// Null pointers with length 0, as a C host may pass them.
pub fn null_pointers(run: &mut Run) {
    run.begin("null with length 0");
    let hour = paper_hours::three_zone_hour();
    let (case, proposal) = (hour.case(), hour.proposal());
    run.feed_null(&[], &proposal, LEAST_BUFFER);
    run.expect(1, 0);
    run.feed_null(&case, &[], LEAST_BUFFER);
    run.expect(9, 0);
    run.feed_null(&[], &[], LEAST_BUFFER);
    run.expect(1, 0);
    run.feed_null(&case, &proposal, 0);
    run.expect(30, 0);
    run.feed_null(&[], &[], 0);
    run.expect(30, 0);
    run.end();
}

/// Gives a file another length and returns the verdict for that.
fn wrong_length(rng: &mut Rng, file: &mut Vec<u8>, header: usize, short: u32, wrong: u32) -> u32 {
    if file.len() == header || rng.one_in(2) {
        file.push(rng.draw() as u8);
    } else if rng.one_in(4) {
        file.truncate(rng.below(header));
        return short;
    } else {
        file.truncate(header + rng.below(file.len() - header));
    }
    wrong
}

/// A row, often the last one.
fn row(rng: &mut Rng, count: usize) -> usize {
    match rng.below(3) {
        0 => count - 1,
        _ => rng.below(count),
    }
}
