//! Hours without links (S-6): no LTA share may be above 0, and the branch total alone is in the bound.

use super::inputs::breaks_no_rule;
use super::offsets::at_least;
use crate::makers::hours::{enough, flow_based_parts, good, least_ram, optimal, random, used, Shape};
use crate::makers::limits::{BOUND, GAP, RENT};
use crate::rng::Rng;
use crate::run::Run;
use paper_hours::{Hour, Link};

const INPUTS: u64 = 50_000;

/// What else is wrong with an hour without links, and its answer with share 0 and with one above.
const CAUSES: [(Cause, &str, u32, u32); 5] = [
    (Cause::Nothing, "nothing else", 0, 27),
    (Cause::Volume, "a volume above", 21, 21),
    (Cause::Balance, "out of balance", 22, 22),
    (Cause::Margin, "a branch over", 24, 27),
    (Cause::Price, "a price outside", 25, 27),
];

#[derive(Clone, Copy, PartialEq, Eq)]
enum Cause {
    Nothing,
    Volume,
    Balance,
    Margin,
    Price,
}

pub fn hours(run: &mut Run, rng: &mut Rng) {
    let mut met = [[0; 2]; CAUSES.len()];
    run.section("hours without links");
    run.begin("share 0 and above");
    while run.fed() < INPUTS {
        share_of_nothing(run, rng, &mut met);
    }
    run.end();
    run.begin("gap zero: the rent is the branch total");
    let mut signs = [0; 3];
    while run.fed() < INPUTS / 2 {
        rent_is_the_branch_total(run, rng, &mut signs);
    }
    run.end();
    run.begin("a link of no capacity added");
    let mut moved = [0; 2];
    while run.fed() < INPUTS / 2 {
        link_added(run, rng, &mut moved);
    }
    run.end();
    for ((_, name, without, with), times) in CAUSES.into_iter().zip(met) {
        at_least(run, format!("share 0, {name}: {without}"), times[0]);
        at_least(run, format!("a share, {name}: {with}"), times[1]);
    }
    for (name, times) in ["negative", "zero", "positive"].into_iter().zip(signs) {
        at_least(run, format!("branch total {name}"), times);
    }
    for (name, times) in ["the bound as it was", "the bound raised"].into_iter().zip(moved) {
        at_least(run, format!("link added: {name}"), times);
    }
}

fn alone(rng: &mut Rng) -> Shape {
    Shape { links: 0, ..Shape::any(rng) }
}

/// A good hour, or one with a further cause, first with share 0 and then with one above.
fn share_of_nothing(run: &mut Run, rng: &mut Rng, met: &mut [[u64; 2]; CAUSES.len()]) {
    let shape = alone(rng);
    if rng.one_in(8) {
        // It may break any rule.
        let hour = random(rng, shape);
        run.feed(&hour.case(), &hour.proposal(), enough(rng));
        return;
    }
    let mut hour = good(rng, shape);
    hour.tolerance = 10_000;
    let n = rng.below(CAUSES.len());
    let (cause, _, without, with) = CAUSES[n];
    if !brought(rng, &mut hour, cause) {
        return;
    }
    let verdict = run.feed(&hour.case(), &hour.proposal(), enough(rng));
    if verdict.number != without && !(without == 0 && verdict.number == 26) {
        run.fault_in_last(|| format!("{verdict:?} where {without} is due"));
    }
    met[n][0] += u64::from(verdict.number == without);
    hour.share = rng.between_or_end(1, 100_000) as u32;
    let verdict = run.feed(&hour.case(), &hour.proposal(), enough(rng));
    if verdict.number != with {
        run.fault_in_last(|| format!("{verdict:?} where {with} is due"));
    }
    met[n][1] += u64::from(verdict.number == with);
}

/// Plants the cause in the hour, if it has a place for it.
fn brought(rng: &mut Rng, hour: &mut Hour, cause: Cause) -> bool {
    let some_order = |rng: &mut Rng, hour: &Hour| match hour.orders.len() {
        0 => None,
        count => Some(rng.below(count)),
    };
    match cause {
        Cause::Nothing => true,
        Cause::Volume => {
            let Some(o) = some_order(rng, hour) else {
                return false;
            };
            hour.volumes[o] = hour.orders[o].quantity + 1;
            true
        }
        Cause::Balance => {
            let Some(o) = some_order(rng, hour) else {
                return false;
            };
            let full = hour.volumes[o] == hour.orders[o].quantity;
            hour.volumes[o] = match full {
                true => hour.volumes[o] - 1,
                false => hour.volumes[o] + 1,
            };
            true
        }
        Cause::Margin => {
            let parts = flow_based_parts(hour);
            let Some(branch) = hour.branches.last_mut() else {
                return false;
            };
            let least = least_ram(used(branch, &parts), 0).expect("all is flow-based");
            branch.ram = (least - 1).max(-500_000) as i32;
            i64::from(branch.ram) < least
        }
        Cause::Price => {
            hour.system_price = rng.pick(&[i32::MIN, i32::MAX]);
            true
        }
    }
}

fn branch_total(hour: &Hour) -> i64 {
    let branches = hour.branches.iter().zip(&hour.shadow_prices);
    branches.map(|(branch, &shadow)| 100_000 * i64::from(branch.ram) * i64::from(shadow)).sum()
}

/// At gap zero the rent is the branch total. If that is negative, the rent is below owed, which is zero.
fn rent_is_the_branch_total(run: &mut Run, rng: &mut Rng, signs: &mut [u64; 3]) {
    let shape = alone(rng);
    let hour = optimal(rng, shape);
    run.feed(&hour.case(), &hour.proposal(), enough(rng));
    run.expect(0, 0);
    run.expect_total(GAP, 0);
    let total = branch_total(&hour);
    run.expect_total(RENT, total);
    signs[(total.signum() + 1) as usize] += 1;
}

/// The same hour with a link that carries nothing: the bound takes the larger of branch total and zero again.
fn link_added(run: &mut Run, rng: &mut Rng, moved: &mut [u64; 2]) {
    let shape = Shape { zones: 2 + rng.below(15), ..alone(rng) };
    let mut hour = good(rng, shape);
    if !breaks_no_rule(run, rng, &hour) {
        return;
    }
    let (bound, total) = (run.total(BOUND), branch_total(&hour));
    hour.links.push(Link { from: 0, to: 1, capacity: 0, contracted: 0 });
    hour.flows.push(0);
    run.feed(&hour.case(), &hour.proposal(), enough(rng));
    run.expect_total(BOUND, bound + (-total).max(0));
    moved[usize::from(total < 0)] += 1;
}
