//! Makes exchanges for the entries of S-3 and S-13: net positions, prices and pairs. For some it is known whether
//! all can be carried.

use super::hours::{self, pairs};
use crate::rng::Rng;
use paper_hours::Hour;

pub const MOST_ZONES: usize = 16;
pub const MOST_PAIRS: usize = 64;
pub const MOST_EXPORT: i64 = 51_200_000;
/// Numbers of scratch that are enough.
pub const SCRATCH: usize = 324;
/// The same for S-13's entries.
pub const SMALL_SCRATCH: usize = 96;
pub const LOWEST: i64 = -50_000 * 100_000;
pub const HIGHEST: i64 = 400_000 * 100_000;

#[derive(Clone)]
pub struct Exchange {
    /// Tenths, export positive.
    pub net: Vec<i64>,
    /// Grains.
    pub prices: Vec<i64>,
    pub pairs: Vec<(u8, u8)>,
    /// Whether all can be carried, if that is known.
    pub known: Option<bool>,
}

/// Pairs as the entries take them.
pub fn bytes(pairs: &[(u8, u8)]) -> Vec<u8> {
    pairs.iter().flat_map(|pair| [pair.0, pair.1]).collect()
}

/// Annex 5.1's five zones, A to E, with its prices or with those of A and B exchanged: 800 of 1,400 MW, and all.
pub fn annex(second: bool) -> Exchange {
    let mut prices = [10, 20, 40, 50, 30].map(|euros| euros * 10_000_000);
    if second {
        prices.swap(0, 1);
    }
    let both = |(one, other)| [(one, other), (other, one)];
    Exchange {
        net: vec![1_000, 13_000, -7_000, -3_000, -4_000],
        prices: prices.to_vec(),
        pairs: [(0, 1), (0, 2), (1, 4), (2, 3), (3, 4)].into_iter().flat_map(both).collect(),
        known: Some(second),
    }
}

/// Mostly few zones, to keep a run short.
pub fn some_zones(rng: &mut Rng) -> usize {
    match rng.below(10) {
        0 => 1 + rng.below(MOST_ZONES),
        1 => MOST_ZONES - rng.below(3),
        2..5 => 4 + rng.below(6),
        _ => 2 + rng.below(4),
    }
}

fn some_pairs(rng: &mut Rng, zones: usize) -> Vec<(u8, u8)> {
    let most = (zones * (zones - 1)).min(MOST_PAIRS);
    let few = most.min(zones + 2);
    let count = match rng.below(4) {
        0 => rng.between_or_end(0, most as i64),
        1 => most as i64,
        _ => rng.between(few as i64 / 2, few as i64),
    };
    pairs(rng, zones, count as usize)
}

/// Prices with ties, without, at the ends of their range.
fn some_prices(rng: &mut Rng, zones: usize) -> Vec<i64> {
    let base = rng.between(LOWEST + 20, HIGHEST - 20);
    let kind = rng.below(6);
    (0..zones)
        .map(|_| match kind {
            0 => base,
            1 => base + rng.below(2) as i64,
            2 => base + rng.below(zones) as i64,
            3 => rng.pick(&[LOWEST, LOWEST + 1, -1, 0, 1, HIGHEST - 1, HIGHEST]),
            _ => rng.between_or_end(LOWEST, HIGHEST),
        })
        .collect()
}

/// Balanced positions: amounts taken from one zone and given to another.
fn some_positions(rng: &mut Rng, zones: usize) -> Vec<i64> {
    let mut net = vec![0; zones];
    let largest = rng.pick(&[1, 3, 1_000, MOST_EXPORT, MOST_EXPORT]);
    for _ in 0..rng.below(2 * zones) {
        let (one, other) = (rng.below(zones), rng.below(zones));
        transfer(rng, &mut net, one, other, largest);
    }
    net
}

/// More export at one zone, and as much import at another.
fn transfer(rng: &mut Rng, net: &mut [i64], one: usize, other: usize, largest: i64) {
    if one == other {
        return;
    }
    let room = (MOST_EXPORT - net[one]).min(MOST_EXPORT + net[other]).min(largest);
    let amount = rng.between_or_end(0, room);
    net[one] += amount;
    net[other] -= amount;
}

/// The answer is not known.
pub fn random(rng: &mut Rng, zones: usize) -> Exchange {
    Exchange {
        net: some_positions(rng, zones),
        prices: some_prices(rng, zones),
        pairs: some_pairs(rng, zones),
        known: None,
    }
}

fn counts(prices: &[i64], (from, to): (u8, u8)) -> bool {
    prices[usize::from(from)] <= prices[usize::from(to)]
}

/// Positions that flows along counted pairs leave behind: a yes.
pub fn carried(rng: &mut Rng, zones: usize) -> Exchange {
    let mut made = random(rng, zones);
    made.net = vec![0; zones];
    made.known = Some(true);
    let largest = rng.pick(&[1, 1_000, MOST_EXPORT]);
    for pair in made.pairs.clone() {
        if counts(&made.prices, pair) && !rng.one_in(4) {
            let (from, to) = (pair.0.into(), pair.1.into());
            transfer(rng, &mut made.net, from, to, largest);
        }
    }
    made
}

/// A set of zones that no counted pair leaves, with exports above its imports: a no.
pub fn shut(rng: &mut Rng, zones: usize) -> Exchange {
    let mut made = random(rng, zones);
    let size = 1 + rng.below(zones - 1);
    let inside = |zone: u8| usize::from(zone) < size;
    let leaves = |pair: &(u8, u8)| inside(pair.0) && !inside(pair.1);
    let prices = made.prices.clone();
    made.pairs.retain(|pair| !(leaves(pair) && counts(&prices, *pair)));
    made.net = vec![0; zones];
    let largest = rng.pick(&[1, 1_000, MOST_EXPORT]);
    for _ in 0..rng.below(zones) {
        // Within the set or outside of it, so that its excess stays.
        let (one, other) = (rng.below(zones), rng.below(zones));
        if (one < size) == (other < size) {
            transfer(rng, &mut made.net, one, other, largest);
        }
    }
    // At least one tenth goes from the set to the others.
    let from = (0..size).min_by_key(|z| made.net[*z]).expect("not empty");
    let to = (size..zones).max_by_key(|z| made.net[*z]).expect("not empty");
    let room = (MOST_EXPORT - made.net[from]).min(MOST_EXPORT + made.net[to]);
    let amount = rng.between_or_end(1, room.min(largest));
    made.net[from] += amount;
    made.net[to] -= amount;
    made.known = Some(false);
    made.relabelled(rng)
}

/// A row of exports that each reach two imports, where only one assignment carries all: what goes to the wrong
/// import must be taken back, down to the first rung. Without its first rung it is a no.
pub fn ladder(rng: &mut Rng, rungs: usize) -> Exchange {
    let whole = !rng.one_in(4);
    let alike = rng.one_in(2);
    let largest = rng.pick(&[1, 1_000, MOST_EXPORT]);
    let mut net = vec![0; 2 * rungs];
    let mut pairs = Vec::new();
    for rung in 0..rungs {
        let amount = if alike { largest } else { rng.between_or_end(1, largest) };
        net[rung] = amount;
        net[rungs + rung] = -amount;
        let (export, import) = (rung as u8, (rungs + rung) as u8);
        if rung > 0 || whole {
            pairs.push((export, import));
        }
        if rung + 1 < rungs {
            pairs.push((export, import + 1));
        }
    }
    let base = rng.between(LOWEST, HIGHEST - 1);
    let step = rng.below(2) as i64;
    let prices = (0..2 * rungs).map(|zone| base + if zone < rungs { 0 } else { step }).collect();
    let mut made = Exchange { net, prices, pairs, known: Some(whole) };
    if 2 * rungs < MOST_ZONES && rng.one_in(2) {
        made.through_a_zone(rng);
    }
    made.relabelled(rng)
}

/// One export, carried from zone to zone to the last.
pub fn chain(rng: &mut Rng, zones: usize) -> Exchange {
    let amount = rng.between_or_end(1, MOST_EXPORT);
    let mut net = vec![0; zones];
    net[0] = amount;
    net[zones - 1] -= amount;
    let base = rng.between(LOWEST, HIGHEST - 20);
    let step = rng.below(2) as i64;
    let mut made = Exchange {
        net,
        prices: (0..zones as i64).map(|z| base + step * z).collect(),
        pairs: (1..zones as u8).map(|z| (z - 1, z)).collect(),
        known: Some(true),
    };
    if rng.one_in(2) {
        // With one pair reversed there is no way to the last zone, even at equal prices.
        let at = rng.below(made.pairs.len());
        let (from, to) = made.pairs[at];
        made.pairs[at] = (to, from);
        made.known = Some(false);
    }
    made.relabelled(rng)
}

impl Exchange {
    /// One pair leads through a zone that neither exports nor imports.
    fn through_a_zone(&mut self, rng: &mut Rng) {
        if self.pairs.is_empty() {
            return;
        }
        let at = rng.below(self.pairs.len());
        let (from, to) = self.pairs[at];
        let new = self.net.len() as u8;
        self.net.push(0);
        self.prices.push(self.prices[usize::from(to)]);
        self.pairs[at] = (from, new);
        self.pairs.push((new, to));
    }

    /// The same with its zones and its pairs in another order.
    pub fn relabelled(&self, rng: &mut Rng) -> Exchange {
        let zones = self.net.len();
        let mut place: Vec<usize> = (0..zones).collect();
        shuffle(rng, &mut place);
        let mut made = self.clone();
        for (zone, &at) in place.iter().enumerate() {
            made.net[at] = self.net[zone];
            made.prices[at] = self.prices[zone];
        }
        let renamed = |zone: u8| place[usize::from(zone)] as u8;
        for pair in &mut made.pairs {
            *pair = (renamed(pair.0), renamed(pair.1));
        }
        shuffle(rng, &mut made.pairs);
        made
    }
}

fn shuffle<T>(rng: &mut Rng, list: &mut [T]) {
    for n in (1..list.len()).rev() {
        list.swap(n, rng.below(n + 1));
    }
}

/// Pairs for an hour: its links, others, broken ones.
pub fn pairs_for(rng: &mut Rng, hour: &Hour) -> Vec<u8> {
    let links: Vec<(u8, u8)> = hour.links.iter().map(|link| (link.from, link.to)).collect();
    let zones = usize::from(hour.zones);
    let most = zones * (zones - 1);
    match rng.below(8) {
        0..4 => bytes(&links),
        4 | 5 => bytes(&hours::pairs(rng, zones, most.min(MOST_PAIRS))),
        6 => {
            let count = rng.below(most.min(zones) + 1);
            bytes(&hours::pairs(rng, zones, count))
        }
        _ => {
            let mut made = bytes(&links);
            let at = rng.below(made.len() + 1);
            made.insert(at, rng.pick(&[0, 1, zones as u8, 255]));
            made
        }
    }
}

pub fn scratch_for(rng: &mut Rng) -> usize {
    match rng.below(8) {
        0 => rng.between_or_end(0, SCRATCH as i64 - 1) as usize,
        _ => SCRATCH + rng.below(3),
    }
}
