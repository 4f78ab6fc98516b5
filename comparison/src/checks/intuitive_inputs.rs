//! The inputs of S-3's and S-13's entries: yes and no, each cause alone and with others, every limit, all small
//! exchanges, and hours.

use super::intuitive::{Asked, Exchanges};
use crate::makers::exchanges::*;
use crate::makers::hours::{good, pairs, random as random_hour, Shape};
use crate::makers::planted::{zones_for, Planted, CAUSES};
use crate::rng::Rng;
use paper_hours::{stored, three_zone_hour, Hour};

/// Exchanges that are answered.
pub fn answered(all: &mut Exchanges, rng: &mut Rng) {
    all.run.begin("annex 5.1's two price sets");
    for (second, total) in [(false, 8_000), (true, 14_000)] {
        let annex = annex(second);
        let mut made = annex.clone();
        for _ in 0..60 {
            let answer = all.feed_exchange(&made);
            if answer.total != total {
                all.run.fault(|| format!("{answer:?} where {total} is due"));
            }
            made = annex.relabelled(rng);
        }
    }
    all.run.end();

    type Maker = fn(&mut Rng, usize) -> Exchange;
    let kinds: [(&str, u64, Maker); 3] =
        [("random exchanges", 8_000, random), ("carried by flows", 5_000, carried), ("a set shut in", 5_000, shut)];
    for (name, times, make) in kinds {
        all.run.begin(name);
        for _ in 0..times {
            let zones = some_zones(rng).max(2);
            all.feed_exchange(&make(rng, zones));
        }
        all.run.end();
    }

    all.run.begin("ways back needed");
    for n in 0..2_000 {
        let rungs = 2 + n % 7;
        all.feed_exchange(&ladder(rng, rungs));
    }
    all.run.end();

    all.run.begin("chains of zones");
    for n in 0..600 {
        all.feed_exchange(&chain(rng, 2 + n % 15));
    }
    all.run.end();
}

/// Each exchange of three zones with every choice of pairs, prices from 0 to 2 and positions from -2 to 2.
pub fn small_ones(all: &mut Exchanges) {
    all.run.begin("all of three zones, prices 0 to 2, positions -2 to 2");
    let every = [(0, 1), (0, 2), (1, 0), (1, 2), (2, 0), (2, 1)];
    for chosen in 0..64 {
        let pairs: Vec<(u8, u8)> = (0..6).filter(|n| chosen >> n & 1 == 1).map(|n| every[n]).collect();
        for prices in 0..27 {
            for (one, other) in (-2..=2).flat_map(|one| (-2..=2).map(move |other| (one, other))) {
                if i64::abs(one + other) > 2 {
                    continue;
                }
                all.feed_exchange(&Exchange {
                    net: vec![one, other, -one - other],
                    prices: vec![prices % 3, prices / 3 % 3, prices / 9],
                    pairs: pairs.clone(),
                    known: None,
                });
            }
        }
    }
    all.run.end();
}

/// Each cause alone, each two of them, and several.
pub fn refused(all: &mut Exchanges, rng: &mut Rng) {
    for (cause, name) in CAUSES {
        all.run.begin(&format!("one cause: {name}"));
        for _ in 0..250 {
            let zones = zones_for(rng, &[cause]);
            let mut made = Planted::good(rng, zones);
            made.plant(rng, cause);
            all.feed_planted(&made);
        }
        all.run.end();
    }

    all.run.begin("each pair of causes");
    for (one, (first, _)) in CAUSES.iter().enumerate() {
        for (second, _) in &CAUSES[one..] {
            for _ in 0..40 {
                let zones = zones_for(rng, &[*first, *second]);
                let mut made = Planted::good(rng, zones);
                made.plant(rng, *first);
                // Emptied lists have no place for another cause.
                if !made.net.is_empty() {
                    made.plant(rng, *second);
                }
                all.feed_planted(&made);
            }
        }
    }
    all.run.end();

    all.run.begin("several causes");
    for _ in 0..4_000 {
        let zones = zones_for(rng, &[]);
        let mut made = Planted::good(rng, zones);
        let skipped = rng.below(CAUSES.len() - 3);
        for (cause, _) in &CAUSES[skipped..CAUSES.len() - 3] {
            for _ in 0..rng.pick(&[0, 0, 0, 1, 1, 3]) {
                made.plant(rng, *cause);
            }
        }
        all.feed_planted(&made);
    }
    all.run.end();
}

/// Each limit, and one on either side of it, with everything else good.
pub fn at_the_limits(all: &mut Exchanges, rng: &mut Rng) {
    all.run.begin("counts of zones and of prices");
    for zones in 0..20 {
        for prices in 0..20 {
            let (net, list) = (vec![0; zones], vec![0; prices]);
            let answer = all.feed(Asked::Positions(&net, &list), &[], SCRATCH);
            let good = (1..=MOST_ZONES).contains(&zones) && zones == prices;
            if (answer.number == 0) != good {
                all.run.fault(|| format!("{answer:?} for {zones}, {prices}"));
            }
        }
    }
    all.run.end();

    all.run.begin("each position and each price at its limits");
    for zones in 2..=MOST_ZONES {
        for zone in 0..zones {
            for sign in [-1, 1] {
                for past in [-1, 0, 1] {
                    let mut made = Planted::good(rng, zones);
                    made.net.fill(0);
                    made.net[zone] = sign * (MOST_EXPORT + past);
                    made.net[(zone + 1) % zones] = -sign * (MOST_EXPORT + past.min(0));
                    if past > 0 {
                        made.positions.push(zone as u32);
                    }
                    all.feed_planted(&made);
                    let mut made = Planted::good(rng, zones);
                    let limit = if sign < 0 { LOWEST } else { HIGHEST };
                    made.prices[zone] = limit + sign * past;
                    if past > 0 {
                        made.bad_prices.push(zone as u32);
                    }
                    all.feed_planted(&made);
                }
            }
        }
    }
    all.run.end();

    all.run.begin("widest totals");
    for zones in (2..=MOST_ZONES).step_by(2) {
        for sign in [-1, 1] {
            let half = zones / 2;
            let net = (0..zones).map(|z| if z < half { sign } else { -sign });
            let pairs = (0..half).map(|z| (z as u8, (half + z) as u8));
            all.feed_exchange(&Exchange {
                net: net.map(|side| side * MOST_EXPORT).collect(),
                prices: vec![HIGHEST; zones],
                pairs: pairs.collect(),
                known: Some(sign > 0),
            });
        }
    }
    all.run.end();

    all.run.begin("sums away from zero");
    for zones in 1..=MOST_ZONES {
        for off in [-2, -1, 0, 1, 2, MOST_EXPORT, -MOST_EXPORT] {
            let mut made = Planted::good(rng, zones);
            made.net.fill(0);
            made.net[rng.below(zones)] = off;
            made.unbalanced = off != 0;
            all.feed_planted(&made);
            // Every position at one limit: sixteen of them do not wrap.
            made.net.fill(off);
            all.feed_planted(&made);
        }
    }
    all.run.end();

    all.run.begin("counts of pairs, and a byte more");
    for zones in [2, 9, 12, 16] {
        let every = pairs(rng, zones, zones * (zones - 1));
        for count in (0..=every.len()).filter(|n| *n < 4 || (61..68).contains(n) || *n > 120) {
            for lone in [None, Some(0), Some(zones as u8)] {
                let mut made = Planted::good(rng, zones);
                made.pairs = every[..count].iter().map(|pair| (*pair, false)).collect();
                made.lone = lone;
                all.feed_planted(&made);
            }
        }
    }
    all.run.end();

    all.run.begin("a pair repeated, each place after each");
    let every = pairs(rng, MOST_ZONES, MOST_PAIRS);
    for earlier in 0..MOST_PAIRS - 1 {
        let later = rng.between_or_end(earlier as i64 + 1, MOST_PAIRS as i64 - 1) as usize;
        for turned in [false, true] {
            let mut made = Planted::good(rng, MOST_ZONES);
            made.pairs = every.iter().map(|pair| (*pair, false)).collect();
            let (from, to) = every[earlier];
            let same = if turned { (to, from) } else { (from, to) };
            // The reverse pair is a different one, unless it is there too.
            let stands = every.iter().position(|pair| *pair == same);
            made.pairs[later] = (same, stands.is_some_and(|at| at < later));
            if let Some(again) = stands.filter(|at| *at > later) {
                made.pairs[again].1 = true;
            }
            all.feed_planted(&made);
        }
    }
    all.run.end();

    all.run.begin("lengths of the scratch");
    for room in (0..=660).filter(|n| *n < 4 || (90..=102).contains(n) || (318..=332).contains(n) || n % 50 == 0) {
        // In steps of three, so that each length goes to both entries unchanged.
        for zones in [1, 5, MOST_ZONES] {
            let mut made = Planted::good(rng, zones);
            made.room = room;
            all.feed_planted(&made);
        }
    }
    all.run.end();

    all.run.begin("null with length 0");
    let one: (&[i64], &[i64]) = (&[0], &[0]);
    for (net, prices, room) in
        [(&[][..], &[][..], 0), (one.0, &[], 0), (&[], one.1, SCRATCH), (one.0, one.1, 0), (one.0, one.1, SCRATCH)]
    {
        all.feed_as(Asked::Positions(net, prices), &[], room, true);
    }
    all.feed_as(Asked::Hour(&[], &[]), &[], 0, true);
    let hour = three_zone_hour();
    let (case, proposal) = (hour.case(), hour.proposal());
    all.feed_as(Asked::Hour(&case, &[]), &[], 0, true);
    all.feed_as(Asked::Hour(&case, &proposal), &[], 0, true);
    all.feed_as(Asked::Hour(&case, &proposal), &[], SCRATCH, true);
    all.run.end();
}

/// Hours, accepted ones and others.
pub fn hours(all: &mut Exchanges, rng: &mut Rng) {
    all.run.begin("the paper's hours");
    for hour in stored() {
        for pairs in [&[][..], &[0, 1], &[0, 1, 0, 2], &[1, 0], &[0, 0], &[0]] {
            for room in [0, SCRATCH - 1, SCRATCH, SCRATCH + 1] {
                let answer = all.feed(Asked::Hour(&hour.case, &hour.proposal), pairs, room);
                let judged = (hour.number, hour.index);
                if hour.number != 0 && (answer.number, answer.index) != judged {
                    all.run.fault(|| format!("{answer:?} where {judged:?} is due"));
                }
            }
        }
    }
    all.run.end();

    all.run.begin("hours that break no rule");
    for _ in 0..6_000 {
        let shape = Shape::any(rng);
        let mut hour = good(rng, shape);
        if rng.one_in(3) {
            hour.tolerance = rng.pick(&[0, 10_000, 10_001]);
        }
        feed_hour(all, rng, &hour);
    }
    all.run.end();

    all.run.begin("random hours");
    for _ in 0..3_000 {
        let shape = Shape::small(rng);
        let hour = random_hour(rng, shape);
        feed_hour(all, rng, &hour);
    }
    all.run.end();

    all.run.begin("hours with bytes flipped or cut");
    for _ in 0..2_000 {
        let shape = Shape::small(rng);
        let hour = good(rng, shape);
        let (mut case, mut proposal) = (hour.case(), hour.proposal());
        let file = if rng.one_in(2) { &mut case } else { &mut proposal };
        let at = rng.below(file.len());
        match rng.below(4) {
            0 => file.truncate(at),
            1 => file.push(0),
            _ => file[at] ^= 1 << rng.below(8),
        }
        let pairs = pairs_for(rng, &hour);
        let room = scratch_for(rng);
        all.feed(Asked::Hour(&case, &proposal), &pairs, room);
    }
    all.run.end();
}

fn feed_hour(all: &mut Exchanges, rng: &mut Rng, hour: &Hour) {
    let pairs = pairs_for(rng, hour);
    let room = scratch_for(rng);
    all.feed(Asked::Hour(&hour.case(), &hour.proposal()), &pairs, room);
}
