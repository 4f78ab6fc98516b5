//! Inputs of S-3's entry with planted causes: which of these must be named, and where, is known.

use super::exchanges::*;
use super::hours::pairs;
use crate::rng::Rng;

/// What can be wrong with an input, in an order in which none undoes another.
#[derive(Clone, Copy, PartialEq, Eq)]
pub enum Cause {
    Sum,
    Over,
    Under,
    PriceOver,
    PriceUnder,
    FirstUnknown,
    SecondUnknown,
    EqualZones,
    Repeated,
    PastThe64th,
    LoneByte,
    Scratch,
    NoZones,
    ManyZones,
    TwoLengths,
}

pub const CAUSES: [(Cause, &str); 15] = [
    (Cause::Sum, "sum not zero"),
    (Cause::Over, "position over"),
    (Cause::Under, "position under"),
    (Cause::PriceOver, "price over"),
    (Cause::PriceUnder, "price under"),
    (Cause::FirstUnknown, "first zone unknown"),
    (Cause::SecondUnknown, "second zone unknown"),
    (Cause::EqualZones, "equal zones"),
    (Cause::Repeated, "repeated pair"),
    (Cause::PastThe64th, "past the 64th pair"),
    (Cause::LoneByte, "lone last byte"),
    (Cause::Scratch, "short scratch"),
    (Cause::NoZones, "no zones"),
    (Cause::ManyZones, "over 16 zones"),
    (Cause::TwoLengths, "lists of two lengths"),
];

/// Zones that leave room for 65 pairs, if these are asked for.
pub fn zones_for(rng: &mut Rng, causes: &[Cause]) -> usize {
    match causes.contains(&Cause::PastThe64th) {
        true => 9 + rng.below(8),
        false => some_zones(rng).max(2),
    }
}

/// An input, with what is wrong with it.
pub struct Planted {
    pub net: Vec<i64>,
    pub prices: Vec<i64>,
    /// Each pair, and whether it is at fault at its place.
    pub pairs: Vec<((u8, u8), bool)>,
    pub lone: Option<u8>,
    pub room: usize,
    zones_at_fault: bool,
    /// Zones out of range.
    pub positions: Vec<u32>,
    pub unbalanced: bool,
    pub bad_prices: Vec<u32>,
}

impl Planted {
    /// Nothing is wrong with it.
    pub fn good(rng: &mut Rng, zones: usize) -> Planted {
        let made = match rng.below(3) {
            0 => carried(rng, zones),
            _ => random(rng, zones),
        };
        Planted {
            net: made.net,
            prices: made.prices,
            pairs: made.pairs.into_iter().map(|pair| (pair, false)).collect(),
            lone: None,
            room: SCRATCH + rng.pick(&[0, 0, 1, 2, 76]),
            zones_at_fault: false,
            positions: Vec::new(),
            unbalanced: false,
            bad_prices: Vec::new(),
        }
    }

    pub fn bytes(&self) -> Vec<u8> {
        let pairs: Vec<(u8, u8)> = self.pairs.iter().map(|row| row.0).collect();
        let mut bytes = bytes(&pairs);
        bytes.extend(self.lone);
        bytes
    }

    /// Number and index, in the order in which the causes are asked.
    pub fn due(&self) -> (u32, u32) {
        let bad = self.pairs.iter().position(|row| row.1);
        let past = (self.pairs.len() > MOST_PAIRS).then_some(MOST_PAIRS);
        let lone = self.lone.map(|_| self.pairs.len().min(MOST_PAIRS));
        let pair = [bad, past, lone].into_iter().flatten().min();
        if self.zones_at_fault {
            (81, 0)
        } else if let Some(zone) = self.positions.iter().min() {
            (82, *zone)
        } else if self.unbalanced {
            (82, 0)
        } else if let Some(zone) = self.bad_prices.iter().min() {
            (83, *zone)
        } else if let Some(pair) = pair {
            (84, pair as u32)
        } else if self.room < SCRATCH {
            (85, 0)
        } else {
            (0, 0)
        }
    }

    /// Plants a cause; call it in the order of `CAUSES`.
    pub fn plant(&mut self, rng: &mut Rng, cause: Cause) {
        let zones = self.net.len();
        let z = rng.between_or_end(0, zones as i64 - 1) as usize;
        match cause {
            Cause::Sum => {
                // One that is not above zero has room.
                let least = (0..zones).min_by_key(|z| self.net[*z]).expect("a zone");
                self.net[least] += rng.pick(&[1, 1, 2, 1_000]);
                self.unbalanced = true;
            }
            Cause::Over | Cause::Under => {
                let beyond = match rng.below(3) {
                    0 => MOST_EXPORT + 1,
                    1 => rng.between(MOST_EXPORT + 1, i64::MAX),
                    _ => i64::MAX,
                };
                self.net[z] = match cause {
                    Cause::Over => beyond,
                    _ => rng.pick(&[-beyond, -beyond, i64::MIN]),
                };
                self.positions.push(z as u32);
            }
            Cause::PriceOver | Cause::PriceUnder => {
                self.prices[z] = match cause {
                    Cause::PriceOver => rng.pick(&[HIGHEST + 1, 400_000_000_000, i64::MAX]),
                    _ => rng.pick(&[LOWEST - 1, -50_000_000_000, i64::MIN]),
                };
                self.bad_prices.push(z as u32);
            }
            Cause::FirstUnknown | Cause::SecondUnknown | Cause::EqualZones => {
                let unknown = rng.between_or_end(zones as i64, 255) as u8;
                let pair = match cause {
                    Cause::FirstUnknown => (unknown, rng.pick(&[z as u8, unknown])),
                    Cause::SecondUnknown => (z as u8, unknown),
                    _ => (z as u8, z as u8),
                };
                self.put_in(rng, 0, pair);
            }
            Cause::Repeated => {
                if self.pairs.is_empty() {
                    return;
                }
                let earlier = rng.below(self.pairs.len());
                self.put_in(rng, earlier + 1, self.pairs[earlier].0);
            }
            Cause::PastThe64th => {
                let count = MOST_PAIRS + rng.pick(&[1, 1, 2, 30, 200]);
                let listed = |all: &[((u8, u8), bool)], pair| all.iter().any(|row| row.0 == pair);
                for pair in pairs(rng, zones, zones * (zones - 1)) {
                    if self.pairs.len() < count && !listed(&self.pairs, pair) {
                        self.pairs.push((pair, false));
                    }
                }
            }
            Cause::LoneByte => self.lone = Some(rng.pick(&[0, z as u8, 255])),
            Cause::Scratch => self.room = rng.between_or_end(0, SCRATCH as i64 - 1) as usize,
            Cause::NoZones => {
                self.net.clear();
                self.prices.truncate(rng.pick(&[0, 0, 1, 16]));
            }
            Cause::ManyZones => {
                let count = MOST_ZONES + rng.pick(&[1, 1, 2, 100, 256, 65_536 - 16]);
                self.net.resize(count, 0);
                self.prices.resize(count, 0);
            }
            // A second time it could repair the first.
            Cause::TwoLengths if self.zones_at_fault => {}
            Cause::TwoLengths => match rng.below(4) {
                0 => self.prices.push(0),
                1 => drop(self.prices.pop()),
                2 => self.net.push(0),
                _ => self.prices.resize(self.net.len() + 16, 0),
            },
        }
        self.zones_at_fault |= matches!(cause, Cause::NoZones | Cause::ManyZones | Cause::TwoLengths);
    }

    /// Inserts a pair at fault at this place or later.
    fn put_in(&mut self, rng: &mut Rng, least: usize, pair: (u8, u8)) {
        let at = rng.between_or_end(least as i64, self.pairs.len() as i64) as usize;
        self.pairs.insert(at, (pair, true));
    }
}
