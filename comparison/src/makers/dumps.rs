//! Makes solver's dumps: values of every kind, and causes planted in them. The expected answer is computed here
//! independently, by the machine's own product.

use super::hours::{good, tolerance, Shape};
use crate::rng::Rng;
use paper_hours::{Branch, Hour, Link, Version};
use second_judge::limits::SELLS;
use second_judge::Row;

/// Room for every proposal, and the bytes of one without rows.
pub const ROOM: usize = 13 + 4 * (512 + 64 + 64);
pub const HEADER: usize = 13;

pub const SIGN: u64 = 1 << 63;
pub const FRACTION: u64 = (1 << 52) - 1;
pub const INFINITE: u64 = 0x7FF << 52;

/// What a value is, by its place.
#[derive(Clone, Copy, PartialEq, Eq)]
pub enum Kind {
    LtaShare,
    System,
    Accepted(u32),
    Flow,
    Shadow,
}

impl Kind {
    /// What a share, a flow or a price is multiplied by.
    pub fn factor(self) -> u32 {
        match self {
            Kind::LtaShare => 100_000,
            Kind::Accepted(quantity) => quantity,
            Kind::Flow => 10,
            Kind::System | Kind::Shadow => 100,
        }
    }

    pub fn is_share(self) -> bool {
        matches!(self, Kind::LtaShare | Kind::Accepted(_))
    }

    pub fn is_price(self) -> bool {
        matches!(self, Kind::System | Kind::Shadow)
    }

    /// The least and the greatest number that may be written.
    pub fn range(self) -> (f64, f64) {
        match self {
            Kind::LtaShare => (0.0, 100_000.0),
            Kind::Accepted(quantity) => (0.0, quantity.into()),
            Kind::System => (i32::MIN.into(), i32::MAX.into()),
            Kind::Flow => (0.0, u32::MAX.into()),
            Kind::Shadow => (0.0, 1_000_000.0),
        }
    }

    /// The number written for a finite value, by the machine's floats; none: 59.
    pub fn written(self, value: f64) -> Option<u32> {
        if self != Kind::System && value < 0.0 || self.is_share() && value > 1.0 {
            return None;
        }
        let product = value * f64::from(self.factor());
        let number = match self.is_price() {
            true => product.round(),
            false => product.trunc(),
        };
        let (least, greatest) = self.range();
        (least <= number && number <= greatest).then_some(number as i64 as u32)
    }
}

pub fn kinds(hour: &Hour) -> Vec<Kind> {
    [Kind::LtaShare, Kind::System]
        .into_iter()
        .chain(hour.orders.iter().map(|order| Kind::Accepted(order.quantity)))
        .chain(hour.links.iter().map(|_| Kind::Flow))
        .chain(hour.branches.iter().map(|_| Kind::Shadow))
        .collect()
}

/// The value this many steps further from zero, or nearer to it.
pub fn stepped(value: f64, steps: i64) -> f64 {
    let size = value.to_bits() & !SIGN;
    let moved = (size as i64 + steps).clamp(0, INFINITE as i64 - 1) as u64;
    f64::from_bits(moved | value.to_bits() & SIGN)
}

/// What can be wrong with a dump, in the order in which it is asked.
#[derive(Clone, Copy, PartialEq, Eq)]
pub enum Cause {
    Case,
    Length,
    NotFinite,
    Range,
    Room,
}

pub const CAUSES: [(Cause, &str); 5] = [
    (Cause::Case, "56, the case"),
    (Cause::Length, "57, the length"),
    (Cause::NotFinite, "58, not finite"),
    (Cause::Range, "59, out of range"),
    (Cause::Room, "60, the room"),
];

/// A dump for an hour's case, with its faults.
pub struct Made {
    pub hour: Hour,
    pub case: Vec<u8>,
    /// The number that refuses the case, or 0.
    pub case_number: u32,
    pub values: Vec<u64>,
    /// Bytes too many, or too few if negative.
    pub longer: isize,
    pub room: usize,
}

impl Made {
    pub fn of(hour: Hour, values: Vec<u64>) -> Made {
        Made { case: hour.case(), case_number: 0, room: HEADER + 4 * (values.len() - 2), values, longer: 0, hour }
    }

    /// Good values of every kind, with room for their proposal.
    pub fn good(rng: &mut Rng, hour: Hour) -> Made {
        let values = kinds(&hour).into_iter().map(|kind| taken(rng, kind).to_bits()).collect();
        let mut made = Made::of(hour, values);
        made.room += rng.pick(&[0, 0, 1, 3, 4, 100]);
        made
    }

    pub fn some(rng: &mut Rng) -> Made {
        let shape = Shape::mostly_small(rng, 8);
        let mut hour = good(rng, shape);
        // S-12: a wide tolerance is read, and the proposal is not judged.
        hour.tolerance = tolerance(rng);
        Made::good(rng, hour)
    }

    pub fn dump(&self) -> Vec<u8> {
        let mut dump: Vec<u8> = self.values.iter().flat_map(|bits| bits.to_le_bytes()).collect();
        let length = dump.len().saturating_add_signed(self.longer);
        dump.resize(length, 0x3F);
        dump
    }

    /// Number, index and the bytes written, by the machine's floats.
    pub fn due(&self) -> (u32, u64, Vec<u8>) {
        let refusal = |number, index| (number, index, Vec::new());
        if self.case_number != 0 {
            return refusal(56, self.case_number.into());
        }
        if self.longer != 0 {
            return refusal(57, 0);
        }
        let values = || self.values.iter().map(|bits| f64::from_bits(*bits));
        if let Some(at) = values().position(|value| !value.is_finite()) {
            return refusal(58, at as u64);
        }
        let numbers: Vec<Option<u32>> =
            kinds(&self.hour).into_iter().zip(values()).map(|(kind, value)| kind.written(value)).collect();
        if let Some(at) = numbers.iter().position(Option::is_none) {
            return refusal(59, at as u64);
        }
        if self.room < HEADER + 4 * (self.values.len() - 2) {
            return refusal(60, 0);
        }
        let mut written = b"LTP\x01\x00".to_vec();
        let numbers = numbers.into_iter().flatten();
        numbers.for_each(|number| written.extend(number.to_le_bytes()));
        (0, 0, written)
    }

    pub fn plant(&mut self, rng: &mut Rng, cause: Cause) {
        let last = self.values.len() as i64 - 1;
        match cause {
            Cause::Case => self.spoil_case(rng),
            Cause::Length => {
                let most = 8 * self.values.len() as i64;
                self.longer = match rng.below(3) {
                    0 => rng.pick(&[-8, -4, -1, 1, 4, 8, 16, 80]),
                    1 => -rng.between_or_end(1, most) as isize,
                    _ => rng.between_or_end(1, most) as isize,
                };
            }
            Cause::NotFinite => {
                let at = rng.between_or_end(0, last) as usize;
                self.values[at] = not_finite(rng);
            }
            Cause::Range => {
                let at = rng.between_or_end(0, last) as usize;
                self.values[at] = refused(rng, kinds(&self.hour)[at]).to_bits();
            }
            Cause::Room => {
                let needed = HEADER + 4 * (self.values.len() - 2);
                self.room = needed - rng.between_or_end(1, needed as i64) as usize;
            }
        }
    }

    /// Spoils the case so that one of 1 to 8 refuses it.
    pub fn spoil_case(&mut self, rng: &mut Rng) {
        let mut hour = self.hour.clone();
        let rows = [hour.branches.len(), hour.links.len(), hour.orders.len()];
        let mut number = 1 + rng.below(8);
        if number >= 6 && rows[number - 6] == 0 {
            number -= 5;
        }
        let row = |rng: &mut Rng| rng.below(rows[number - 6]);
        match number {
            4 => hour.tolerance = rng.pick(&[1_000_000_001, u32::MAX]),
            6 => hour.branches[row(rng)].ram = rng.pick(&[500_001, -500_001, i32::MIN]),
            7 => hour.links[row(rng)].capacity = rng.pick(&[100_001, u32::MAX]),
            8 => hour.orders[row(rng)].quantity = rng.pick(&[0, 100_001, u32::MAX]),
            _ => {}
        }
        self.case = hour.case();
        match number {
            1 => self.case.truncate(rng.below(14)),
            2 => self.case[rng.below(3)] ^= 1 + rng.below(255) as u8,
            3 => self.case[3..5].copy_from_slice(&rng.pick(&[0u16, 3, 257, 258, u16::MAX]).to_le_bytes()),
            5 if rng.one_in(2) => self.case.push(0),
            5 if self.case.len() > 14 => drop(self.case.pop()),
            5 => self.case.push(1),
            _ => {}
        }
        self.case_number = number as u32;
    }
}

/// A value of its kind that is taken.
pub fn taken(rng: &mut Rng, kind: Kind) -> f64 {
    let steps = rng.between(-3, 3);
    let value = match rng.below(10) {
        0 => rng.pick(&[0.0, -0.0, f64::from_bits(1), f64::MIN_POSITIVE]),
        1 => f64::from_bits(rng.draw() & FRACTION),
        2 => f64::from_bits(rng.draw() & FRACTION | (1 + rng.draw() % 1_022) << 52),
        3..6 => whole(rng, kind),
        6 => stepped(whole(rng, kind), steps),
        7 => half(rng, kind),
        8 => stepped(half(rng, kind), steps),
        _ => of_decimals(rng, kind),
    };
    let value = match kind {
        Kind::System if rng.one_in(2) => -value,
        _ => value,
    };
    match kind.written(value) {
        Some(_) => value,
        None => 0.0,
    }
}

/// The greatest number of this kind, or often a far smaller one.
pub fn most(rng: &mut Rng, kind: Kind) -> i64 {
    let most = kind.range().1 as i64;
    rng.pick(&[most, most.min(100_000), most.min(1_000), most.min(10)])
}

/// The value nearest to one whose product is whole.
pub fn whole(rng: &mut Rng, kind: Kind) -> f64 {
    let most = most(rng, kind);
    rng.between_or_end(0, most) as f64 / f64::from(kind.factor())
}

/// The value nearest to one whose product ends in a half, or such a value itself.
pub fn half(rng: &mut Rng, kind: Kind) -> f64 {
    let most = most(rng, kind);
    let half = rng.between_or_end(0, most) as f64 + 0.5;
    match rng.below(3) {
        // An odd number of eighths, times 100, ends in a half.
        0 if kind.is_price() => (2.0 * half) / 8.0,
        _ => half / f64::from(kind.factor()),
    }
}

/// A value of some decimals, as people write them.
pub fn of_decimals(rng: &mut Rng, kind: Kind) -> f64 {
    let scale = rng.pick(&[10.0, 100.0, 1_000.0, 100_000.0, 1e9]);
    match kind.is_share() {
        true => rng.between_or_end(0, scale as i64) as f64 / scale,
        false => most(rng, kind) as f64 * rng.below(1 << 30) as f64 / (1 << 30) as f64 / scale,
    }
}

/// The bits of an infinity or of some NaN.
pub fn not_finite(rng: &mut Rng) -> u64 {
    let payload = match rng.below(6) {
        0 | 1 => 0,
        2 => 1,
        3 => 1 << 51,
        4 => FRACTION,
        _ => 1 + rng.draw() % FRACTION,
    };
    INFINITE | payload | rng.draw() & SIGN
}

/// A finite value that 59 refuses.
pub fn refused(rng: &mut Rng, kind: Kind) -> f64 {
    let steps = rng.between(0, 3);
    let factor = f64::from(kind.factor());
    let (least, greatest) = kind.range();
    let past = match kind {
        Kind::LtaShare | Kind::Accepted(_) => 1.0,
        Kind::Flow => (greatest + 1.0) / factor,
        Kind::System if rng.one_in(2) => (least - 0.5) / factor,
        _ => (greatest + 0.5) / factor,
    };
    let value = match rng.below(8) {
        0..4 => stepped(past, steps),
        4 => past * (1.0 + rng.below(1_000) as f64),
        5 => f64::MAX / rng.pick(&[1.0, 2.0, 9.0, 10.0, 99.0, 100.0, 101.0, 1e6]),
        6 => -rng.pick(&[1.0, 0.5, 1e-300, f64::MIN_POSITIVE, f64::from_bits(1), f64::MAX]),
        _ => f64::from_bits(rng.draw() & !INFINITE | SIGN | (rng.draw() % 0x7FF) << 52),
    };
    match kind.written(value) {
        None => value,
        Some(_) => rng.pick(&[f64::MAX, -f64::MAX]),
    }
}

/// A value of its kind that gives this number.
pub fn giving(kind: Kind, number: u32) -> f64 {
    let whole = match kind {
        Kind::System => f64::from(number as i32),
        _ => f64::from(number),
    };
    let near = whole / f64::from(kind.factor());
    // The nearest may be below, and then the cut product is one too low.
    match kind.written(near) == Some(number) {
        true => near,
        false => stepped(near, 1),
    }
}

/// A dump that gives an hour's own proposal.
pub fn giving_back(hour: Hour) -> Made {
    let numbers = [hour.share, hour.system_price as u32]
        .into_iter()
        .chain(hour.volumes.iter().copied())
        .chain(hour.flows.iter().copied())
        .chain(hour.shadow_prices.iter().copied());
    let values = kinds(&hour).into_iter().zip(numbers).map(|(kind, number)| giving(kind, number).to_bits()).collect();
    Made::of(hour, values)
}

/// An hour with one of each, whose order has this quantity.
pub fn one_of_each(quantity: u32, version: Version) -> Hour {
    Hour {
        version,
        zones: 2,
        branches: vec![Branch { ram: 0, ptdfs: vec![0, 0] }],
        links: vec![Link { from: 0, to: 1, capacity: 100_000, contracted: 7 }],
        orders: vec![Row { zone: 1, side: SELLS, quantity, price: 0 }],
        ..Hour::default()
    }
}
