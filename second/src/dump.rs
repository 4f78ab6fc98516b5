//! A proposal straight from the solver's dump, request S-5.
//!
//! A binary64 is a whole number times a power of two, given by its bits. Products are taken and rounded in whole
//! numbers; no float is used.

use crate::files::Case;
use crate::judgement::readable;
use crate::limits::*;
use crate::{OutputAnswer, Papers};
use std::cmp::Ordering;

/// The kind of a value in a dump.
#[derive(Clone, Copy, Debug, PartialEq, Eq)]
pub enum Kind {
    LtaShare,
    SystemPrice,
    /// A share of an order, and that order's quantity.
    Accepted(u32),
    Flow,
    ShadowPrice,
}

impl Kind {
    pub fn is_share(self) -> bool {
        matches!(self, Kind::LtaShare | Kind::Accepted(_))
    }

    pub fn is_price(self) -> bool {
        matches!(self, Kind::SystemPrice | Kind::ShadowPrice)
    }

    /// The factor: hundred-thousandths in 1, cents in a euro, the quantity, tenths in a MW.
    pub fn factor(self) -> u32 {
        match self {
            Kind::LtaShare => 100_000,
            Kind::Accepted(quantity) => quantity,
            Kind::Flow => 10,
            Kind::SystemPrice | Kind::ShadowPrice => 100,
        }
    }

    /// The range of its field in a proposal. A volume never exceeds the quantity.
    fn range(self) -> std::ops::RangeInclusive<i128> {
        match self {
            Kind::LtaShare => SHARE,
            Kind::SystemPrice => i32::MIN.into()..=i32::MAX.into(),
            Kind::Accepted(quantity) => 0..=quantity.into(),
            Kind::Flow => 0..=u32::MAX.into(),
            Kind::ShadowPrice => SHADOW_PRICE,
        }
    }
}

pub trait DumpReading: Sized {
    /// 56's index is the number that refuses the case.
    fn case_of<'a>(&self, case: &'a [u8]) -> Result<Case<'a>, usize> {
        readable(case).map_err(|verdict| verdict.number as usize)
    }

    /// LTA share and system price, then a share per order, a flow per link, a shadow price per branch.
    fn kinds(&self, case: &Case) -> Vec<Kind> {
        let mut kinds = vec![Kind::LtaShare, Kind::SystemPrice];
        kinds.extend((0..case.orders).map(|o| Kind::Accepted(case.order(o).quantity)));
        kinds.extend((0..case.links).map(|_| Kind::Flow));
        kinds.extend((0..case.branches).map(|_| Kind::ShadowPrice));
        kinds
    }

    /// 58: not finite.
    fn is_not_finite(&self, bits: u64) -> bool {
        Value::of(bits).is_none()
    }

    /// The number in the proposal for a finite value. None is 59: a share outside 0 to 1, a negative flow or shadow
    /// price, or a result that is infinite or leaves its field's range.
    fn converted(&self, kind: Kind, bits: u64) -> Option<i128> {
        let value = self.value(bits)?;
        // Minus zero is zero.
        let negative = value.negative && value.whole > 0;
        if negative && kind != Kind::SystemPrice || kind.is_share() && value.above_one() {
            return None;
        }
        let size = i128::try_from(self.whole(kind, &self.product(kind, &value)?)).ok()?;
        let number = if negative { -size } else { size };
        kind.range().contains(&number).then_some(number)
    }

    fn value(&self, bits: u64) -> Option<Value> {
        Value::of(bits)
    }

    /// One rounded product; none where it is infinite.
    fn product(&self, kind: Kind, value: &Value) -> Option<Value> {
        value.times(kind.factor()).rounded()
    }

    /// Prices are taken to the nearest whole, the others are cut.
    fn whole(&self, kind: Kind, product: &Value) -> u128 {
        match kind.is_price() {
            true => self.nearest(product),
            false => product.cut(),
        }
    }

    /// Halves away from zero.
    fn nearest(&self, product: &Value) -> u128 {
        let (floor, half) = product.floor_and_half();
        match half {
            Ordering::Less => floor,
            _ => floor + 1,
        }
    }

    /// 58 or 59 with the place of the first such value, each asked over the whole dump.
    fn refused_value(&self, values: &[(Kind, u64)]) -> Option<(u32, usize)> {
        let not_finite = values.iter().position(|(_, bits)| self.is_not_finite(*bits));
        let outside = || values.iter().position(|(kind, bits)| self.converted(*kind, *bits).is_none());
        not_finite.map(|at| (58, at)).or_else(|| outside().map(|at| (59, at)))
    }

    /// The bytes of the proposal, or number and index of the first cause, from 56 to 60.
    fn proposal(&self, case: &[u8], dump: &[u8], room: usize) -> Result<Vec<u8>, (u32, usize)> {
        let case = self.case_of(case).map_err(|index| (56, index))?;
        let kinds = self.kinds(&case);
        if dump.len() != 8 * kinds.len() {
            return Err((57, 0));
        }
        let bits = dump.chunks_exact(8).map(|field| u64::from_le_bytes(field.try_into().expect("eight bytes")));
        let values: Vec<(Kind, u64)> = kinds.into_iter().zip(bits).collect();
        if let Some(refused) = self.refused_value(&values) {
            return Err(refused);
        }
        let mut proposal = b"LTP\x01\x00".to_vec();
        for (kind, bits) in values {
            let number = self.converted(kind, bits).expect("59 was asked before");
            // The low 32 bits; for a system price below zero they are its two's complement.
            proposal.extend((number as u32).to_le_bytes());
        }
        if room < proposal.len() {
            return Err((60, 0));
        }
        Ok(proposal)
    }

    /// Writes the proposal that a dump gives for a case, and answers with its length.
    fn dump_proposal(&self, case: &[u8], dump: &[u8], out: &mut [u8]) -> OutputAnswer {
        match self.proposal(case, dump, out.len()) {
            Ok(proposal) => {
                out[..proposal.len()].copy_from_slice(&proposal);
                OutputAnswer::written(proposal.len())
            }
            Err((number, index)) => OutputAnswer::refused(number, index),
        }
    }
}

/// Writes the proposal that a dump gives for a case, and answers with its length.
pub fn dump_proposal(case: &[u8], dump: &[u8], out: &mut [u8]) -> OutputAnswer {
    Papers.dump_proposal(case, dump, out)
}

/// The parts of a binary64's bits.
pub const SIGN: u64 = 1 << 63;
pub const FRACTION: u64 = (1 << 52) - 1;
pub const EXPONENT: u64 = !(SIGN | FRACTION);
/// Binary digits of a binary64.
const DIGITS: u32 = 53;
/// From two to this power on a number is infinite.
const INFINITE: i32 = 1_024;

/// A finite number: its size is `whole` times two to the `power`.
#[derive(Clone, Copy, Debug)]
pub struct Value {
    pub negative: bool,
    pub whole: u128,
    pub power: i32,
}

impl Value {
    /// The value of a binary64's bits; none if infinite or no number.
    pub fn of(bits: u64) -> Option<Value> {
        let (exponent, fraction) = ((bits & EXPONENT) >> 52, bits & FRACTION);
        let (whole, power) = match exponent {
            0x7FF => return None,
            0 => (fraction, -1_074),
            _ => (fraction | (FRACTION + 1), exponent as i32 - 1_075),
        };
        Some(Value { negative: bits & SIGN != 0, whole: whole.into(), power })
    }

    pub fn above_one(&self) -> bool {
        match u32::try_from(-self.power) {
            // A whole number has at most 53 digits: with more places the value is below one.
            Ok(places) => places <= DIGITS && self.whole > 1 << places,
            Err(_) => self.whole > 0,
        }
    }

    /// The exact product: at most 53 digits by 17, which is 70.
    pub fn times(&self, factor: u32) -> Value {
        Value { whole: self.whole * u128::from(factor), ..*self }
    }

    /// The nearest binary64, ties to even; none if that is infinite. A value read from bits never has a power below
    /// the least of a binary64, and neither has its product, so 53 digits are available however small it is.
    pub fn rounded(&self) -> Option<Value> {
        let spare = digits(self.whole).saturating_sub(DIGITS);
        let kept = self.whole >> spare;
        // The dropped part and half of the last digit kept, both doubled.
        let dropped = 2 * (self.whole - (kept << spare));
        let up = match dropped.cmp(&(1 << spare)) {
            Ordering::Less => 0,
            Ordering::Equal => kept % 2,
            Ordering::Greater => 1,
        };
        let nearest = Value { whole: kept + up, power: self.power + spare as i32, ..*self };
        (digits(nearest.whole) as i32 + nearest.power <= INFINITE).then_some(nearest)
    }

    /// Its size cut to a whole number; the greatest number if it does not fit.
    pub fn cut(&self) -> u128 {
        match u32::try_from(-self.power) {
            Ok(places) => self.whole.checked_shr(places).unwrap_or(0),
            Err(_) if self.whole == 0 => 0,
            Err(_) if digits(self.whole) as i32 + self.power > 127 => u128::MAX,
            Err(_) => self.whole << self.power,
        }
    }

    /// Its size cut to a whole number, and how the rest compares with a half.
    pub fn floor_and_half(&self) -> (u128, Ordering) {
        let floor = self.cut();
        let half = match u32::try_from(-self.power) {
            // A half is a one at the first place after the point.
            Ok(places @ 1..=127) => (self.whole - (floor << places)).cmp(&(1 << (places - 1))),
            _ => Ordering::Less,
        };
        (floor, half)
    }
}

fn digits(whole: u128) -> u32 {
    u128::BITS - whole.leading_zeros()
}
