//! The judgement with a family list of both judges (S-11): lists that hold and that do not, circles of every size
//! and what leads into them, parents at the last order and past it. The same files are also judged without the
//! list, and that answer must be unchanged.

use super::families_causes::*;
use crate::lent::{Left, Lent};
use crate::library;
use crate::makers::families::*;
use crate::makers::hours::enough;
use crate::numbers::{COUNTED, JUDGE_FAMILIES, LEAST_INPUTS, OF_THE_LIST};
use crate::rng::Rng;
use crate::run::Run;
use paper_hours::{three_zone_hour, Hour};
use second_judge::limits::{LEAST_BUFFER, MOST_ORDERS};
use second_judge::{judge, judge_families, list_of, Verdict, NO_PARENT};
use wrong_builds::families::{JudgeFamilies, BUILDS};

pub const MOST_LENT: usize = 256;

/// What a good stream of inputs must contain, counted.
const MET: [&str; 25] = [
    "accepted, 512 orders in a chain",
    "18, 512 orders in a circle",
    "18, an order its own parent",
    "18, a circle of two",
    "18, a circle of many",
    "18, one before it leads into it",
    "18, two circles and more",
    "accepted, a parent the last order",
    "17, the order count",
    "17, 65,534",
    "17, and an order on a circle",
    "16, an empty list",
    "16, no orders and an empty list",
    "accepted, no orders and a list",
    "16, a byte short",
    "16, a byte long",
    "accepted, equal fractions",
    "28, a tenth more than the fraction",
    "28, a smaller volume than the parent's",
    "accepted, a larger volume than it",
    "28, accepted without the list",
    "21, and a child ahead",
    "28, and out of balance",
    "26, with families",
    "15, and a list refused by 16 to 18",
];

/// Counts over all inputs.
pub struct Lists<'a> {
    pub run: &'a mut Run,
    inputs: u64,
    numbers: [u64; COUNTED],
    met: [u64; MET.len()],
    second_wrong: [u64; BUILDS.len()],
}

/// An hour's files and a family list.
pub struct Files {
    pub case: Vec<u8>,
    pub proposal: Vec<u8>,
    pub list: Vec<u8>,
}

impl Files {
    pub fn new(hour: &Hour, list: Vec<u8>) -> Files {
        Files { case: hour.case(), proposal: hour.proposal(), list }
    }
}

impl Lists<'_> {
    pub fn feed(&mut self, files: &Files, lent: usize) -> Verdict {
        self.feed_as(files, lent, false)
    }

    /// Gives both judges these files and a buffer of this length.
    pub fn feed_as(&mut self, files: &Files, lent: usize, null: bool) -> Verdict {
        self.run.count();
        self.inputs += 1;
        let Files { case, proposal, list } = files;
        let copies = (case.clone(), proposal.clone(), list.clone());
        let lent = Lent::bytes(MOST_LENT, self.inputs).only(lent);
        let wrong = |build: JudgeFamilies, out: &mut [u8]| build(case, proposal, list, out);
        let theirs = lent.to(|report| library::judge_families(case, proposal, list, report, null));
        let ours = lent.to(|report| judge_families(case, proposal, list, report));
        if let Some(text) = theirs.unlike(&ours) {
            self.fault(files, || text);
        }
        if (case, proposal, list) != (&copies.0, &copies.1, &copies.2) {
            self.fault(files, || "a file was written".into());
        }
        self.without_list(files, &lent, &ours);

        self.numbers[ours.answer.number as usize] += 1;
        lent.tell(&theirs, &BUILDS, &mut self.second_wrong, wrong);
        ours.answer
    }

    /// The same files through the entry without a list: both judges agree, and the answer with the list differs
    /// only by the list's own numbers.
    fn without_list(&mut self, files: &Files, lent: &Lent<u8>, with: &Left<Verdict, u8>) {
        let (case, proposal) = (&files.case, &files.proposal);
        let theirs = lent.to(|report| library::judge(case, proposal, report));
        let ours = lent.to(|report| judge(case, proposal, report));
        if let Some(text) = theirs.unlike(&ours) {
            self.fault(files, || format!("without the list: {text}"));
        }
        let (verdict, free) = (with.answer, ours.answer);
        let own = OF_THE_LIST.contains(&verdict.number);
        let kept = match own {
            true => *with == lent.to(|_| verdict),
            false => *with == theirs,
        };
        // 16 to 18 are asked before all sums, 28 after 21; 15 before them.
        let earlier = match verdict.number {
            28 => (1..=15).contains(&free.number) || [21, 30].contains(&free.number),
            _ => (1..=15).contains(&free.number) || free.number == 30,
        };
        if !kept || own && earlier {
            self.fault(files, || format!("{verdict:?} with the list, {free:?} without it"));
        }
    }

    pub fn fault(&mut self, files: &Files, text: impl FnOnce() -> String) {
        let Files { case, proposal, list } = files;
        self.run.fault_in(&[("case", case), ("proposal", proposal), ("families", list)], text);
    }

    /// The expected answer.
    pub fn expect(&mut self, files: &Files, lent: usize, number: u32, index: usize) -> Verdict {
        let verdict = self.feed(files, lent);
        if (verdict.number, verdict.index as usize) != (number, index) {
            self.fault(files, || format!("{verdict:?} where {number} {index} is due"));
        }
        verdict
    }

    /// An hour that breaks nothing up to 21, with parents: 17, 18 or 28 for these, or the answer without a list.
    pub fn expect_of(&mut self, hour: &Hour, parents: &[Option<u16>], lent: usize) -> Verdict {
        let files = Files::new(hour, list_of(parents));
        match due(hour, parents) {
            Some((number, order)) => self.expect(&files, lent, number, order),
            None => {
                let mut report = [0; LEAST_BUFFER];
                let free = judge(&files.case, &files.proposal, &mut report);
                self.expect(&files, lent, free.number, free.index as usize)
            }
        }
    }

    pub fn meet(&mut self, at: usize, met: bool) {
        self.met[at] += u64::from(met);
    }
}

pub fn lists(run: &mut Run, rng: &mut Rng) {
    run.section("families");
    let mut lists =
        Lists { run, inputs: 0, numbers: [0; COUNTED], met: Default::default(), second_wrong: Default::default() };
    the_three_zone_hour(&mut lists);
    families_that_hold(&mut lists, rng);
    families_drawn(&mut lists, rng);
    circles(&mut lists, rng);
    most_orders(&mut lists, rng);
    strays(&mut lists, rng);
    wrong_lists(&mut lists, rng);
    fractions(&mut lists, rng);
    other_causes(&mut lists, rng);
    whatever(&mut lists, rng);

    let Lists { run, inputs, .. } = lists;
    run.section("families, numbers, times met");
    run.check_times("inputs".into(), inputs, LEAST_INPUTS);
    run.check_numbers(&JUDGE_FAMILIES, &lists.numbers);
    run.section("families, met, times");
    run.check_met(&MET, &lists.met);
    run.section("families, wrong builds, times told from the library");
    run.check_told(&BUILDS, &lists.second_wrong, inputs);
    run.entry("lta_judge_families", inputs, &[(&JUDGE_FAMILIES, &lists.numbers)], &lists.second_wrong);
}

/// Each single parent for each order of P1, and two at a time.
fn the_three_zone_hour(lists: &mut Lists) {
    lists.run.begin("P1, up to two parents");
    let hour = three_zone_hour();
    for (one, other) in (0..5).flat_map(|one| (0..5).map(move |other| (one, other))) {
        for (first, second) in (0..=6).flat_map(|a| (0..=6).map(move |b| (a, b))) {
            let mut parents = vec![None; 5];
            // 6 stands for none.
            parents[one] = Some(first).filter(|parent| *parent < 6);
            parents[other] = Some(second).filter(|parent| *parent < 6);
            lists.expect_of(&hour, &parents, LEAST_BUFFER);
        }
    }
    lists.run.end();
}

fn families_that_hold(lists: &mut Lists, rng: &mut Rng) {
    lists.run.begin("families that hold");
    for _ in 0..8_000 {
        let hour = some_hour(rng);
        let parents = holding(rng, &hour);
        let lent = enough(rng);
        let verdict = lists.expect_of(&hour, &parents, lent);
        let count = parents.len();
        let accepted = verdict.number == 0;
        let related: Vec<(usize, usize)> =
            (0..count).filter_map(|o| parents[o].map(|parent| (o, usize::from(parent)))).collect();
        let larger = |(child, parent): &(usize, usize)| hour.volumes[*child] > hour.volumes[*parent];
        lists.meet(7, accepted && related.iter().any(|(_, parent)| *parent == count - 1));
        lists.meet(13, accepted && count == 0);
        lists.meet(19, accepted && related.iter().any(larger));
        lists.meet(23, verdict.number == 26 && !related.is_empty());
        if verdict.number != 0 && verdict.number != 26 {
            let files = Files::new(&hour, list_of(&parents));
            lists.fault(&files, || format!("{verdict:?} for families that hold"));
        }
    }
    lists.run.end();

    lists.run.begin("one child that is ahead");
    let mut made = 0;
    while made < 6_000 {
        let hour = hour_with_orders(rng, 2);
        let count = hour.orders.len();
        let mut parents = holding(rng, &hour);
        let (child, parent) = (rng.below(count), rng.below(count));
        if !ahead(&hour, child, parent) {
            continue;
        }
        made += 1;
        // An order taken out of its family can close no circle.
        for up in parents.iter_mut() {
            *up = up.filter(|up| usize::from(*up) != child);
        }
        parents[child] = Some(parent as u16);
        let lent = enough(rng);
        let verdict = lists.expect_of(&hour, &parents, lent);
        let mut report = [0; LEAST_BUFFER];
        let free = judge(&hour.case(), &hour.proposal(), &mut report);
        let refused = (verdict.number, verdict.index as usize) == (28, child);
        lists.meet(18, refused && hour.volumes[child] < hour.volumes[parent]);
        lists.meet(20, refused && free.number == 0);
        if !refused {
            let files = Files::new(&hour, list_of(&parents));
            lists.fault(&files, || format!("{verdict:?} where 28 {child} is due"));
        }
    }
    lists.run.end();
}

fn families_drawn(lists: &mut Lists, rng: &mut Rng) {
    lists.run.begin("families drawn");
    for _ in 0..10_000 {
        let hour = some_hour(rng);
        let mut parents = drawn(rng, hour.orders.len());
        if rng.one_in(2) {
            // Each leads to an order before it: no circle.
            for (order, up) in parents.iter_mut().enumerate() {
                *up = up.filter(|_| order > 0).map(|up| up % order.max(1) as u16);
            }
        }
        let lent = enough(rng);
        lists.expect_of(&hour, &parents, lent);
    }
    lists.run.end();
}

fn circles(lists: &mut Lists, rng: &mut Rng) {
    lists.run.begin("circles, and what leads into them");
    for _ in 0..8_000 {
        let hour = hour_with_orders(rng, 3);
        let count = hour.orders.len();
        let mut parents = match rng.below(3) {
            0 => vec![None; count],
            _ => holding(rng, &hour),
        };
        let any = 1 + rng.below(count);
        let size = rng.pick(&[1, 1, 2, 2, 3, count, any]).min(count);
        let chosen = some_orders(rng, count, size);
        close(&mut parents, &chosen);
        let mut more = 0;
        if rng.one_in(3) && count > size {
            let rest: Vec<usize> = (0..count).filter(|o| !chosen.contains(o)).collect();
            let other_size = 1 + rng.below(rest.len());
            let places = some_orders(rng, rest.len(), other_size);
            let other: Vec<usize> = places.iter().map(|&place| rest[place]).collect();
            close(&mut parents, &other);
            more = other.len();
        }
        // Trees and tails that lead into what there is.
        for (order, up) in parents.iter_mut().enumerate() {
            if !chosen.contains(&order) && more == 0 && rng.one_in(2) {
                *up = Some(rng.pick(&chosen) as u16);
            }
        }
        let lent = enough(rng);
        let verdict = lists.expect_of(&hour, &parents, lent);
        if verdict.number != 18 {
            let files = Files::new(&hour, list_of(&parents));
            lists.fault(&files, || format!("{verdict:?} for a circle of {size}"));
            continue;
        }
        let first = verdict.index as usize;
        let into = |o: usize| parents[o].is_some_and(|up| back(&parents, up.into()).is_some());
        lists.meet(2, back(&parents, first) == Some(1));
        lists.meet(3, back(&parents, first) == Some(2));
        lists.meet(4, back(&parents, first) > Some(2));
        lists.meet(5, (0..first).any(into));
        lists.meet(6, more > 0);
    }
    lists.run.end();
}

fn most_orders(lists: &mut Lists, rng: &mut Rng) {
    lists.run.begin("512 orders");
    let last = MOST_ORDERS - 1;
    for round in 0..60 {
        let hour = match round % 2 {
            0 => even_orders(rng),
            _ => many_orders(rng),
        };
        let up = |o: usize| (o < last).then_some(o as u16 + 1);
        let down = |o: usize| o.checked_sub(1).map(|o| o as u16);
        let whole = some_orders(rng, MOST_ORDERS, MOST_ORDERS);
        let mut around: Vec<Option<u16>> = vec![None; MOST_ORDERS];
        close(&mut around, &whole);
        let mut chain: Vec<Option<u16>> = around.clone();
        chain[whole[last]] = None;
        let mut tail: Vec<Option<u16>> = (0..MOST_ORDERS).map(down).collect();
        tail[0] = Some(rng.below(MOST_ORDERS) as u16);
        let mut shapes: Vec<Vec<Option<u16>>> = vec![
            (0..MOST_ORDERS).map(up).collect(),
            (0..MOST_ORDERS).map(down).collect(),
            (0..MOST_ORDERS).map(|o| Some((o + 1) as u16 % 512)).collect(),
            (0..MOST_ORDERS).map(|o| Some((o + last) as u16 % 512)).collect(),
            (0..MOST_ORDERS).map(|o| Some(o as u16 ^ 1)).collect(),
            (0..MOST_ORDERS).map(|o| (o > 0).then_some((o as u16 - 1) / 2)).collect(),
            vec![Some(last as u16); MOST_ORDERS],
            vec![None; MOST_ORDERS],
            holding(rng, &hour),
            around,
            chain,
            tail,
        ];
        // One order on a circle, the last one, and all others lead to it.
        shapes.push((0..MOST_ORDERS).map(|o| Some(o.max(last - 1) as u16)).collect());
        for (n, parents) in shapes.iter().enumerate() {
            let verdict = lists.expect_of(&hour, parents, LEAST_BUFFER);
            lists.meet(0, n <= 1 && verdict.number == 0);
            lists.meet(1, n == 9 && verdict.number == 18);
        }
        let mut past = shapes[7].clone();
        past[rng.below(MOST_ORDERS)] = Some(512);
        lists.expect_of(&hour, &past, LEAST_BUFFER);
    }
    lists.run.end();
}

/// Parents that do not exist, at the count of orders, one below and past it.
fn strays(lists: &mut Lists, rng: &mut Rng) {
    lists.run.begin("parents that do not exist");
    for _ in 0..6_000 {
        let hour = hour_with_orders(rng, 1);
        let count = hour.orders.len();
        let mut parents = match rng.below(3) {
            0 => vec![None; count],
            1 => holding(rng, &hour),
            _ => drawn(rng, count),
        };
        let circle = (0..count).any(|o| back(&parents, o).is_some());
        for _ in 0..1 + rng.below(2) {
            let any = rng.between(count as i64, 65_534) as u16;
            let past = rng.pick(&[count as u16, count as u16, count as u16 + 1, NO_PARENT - 1, 512, 32_768, any]);
            parents[rng.below(count)] = Some(past);
        }
        let lent = enough(rng);
        let verdict = lists.expect_of(&hour, &parents, lent);
        if verdict.number == 17 {
            let named = parents[verdict.index as usize];
            lists.meet(8, named == Some(count as u16));
            lists.meet(9, named == Some(NO_PARENT - 1));
            lists.meet(10, circle);
        }
    }
    lists.run.end();
}
