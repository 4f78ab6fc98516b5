//! Wrong builds of a solver's dump, of S-5 and S-12.

use second_judge::dump::{Kind, Value, EXPONENT, FRACTION, SIGN};
use second_judge::files::Case;
use second_judge::judgement::readable;
use second_judge::limits::*;
use second_judge::{DumpReading, OutputAnswer, Papers};
use std::cmp::Ordering;

/// A build's entry.
pub type Convert = fn(&[u8], &[u8], &mut [u8]) -> OutputAnswer;

/// Every wrong build, with its name.
pub static BUILDS: [(Convert, &str); 17] = [
    (|c, d, o| VolumeToNearest.dump_proposal(c, d, o), "volume to the nearest"),
    (|c, d, o| FlowToNearest.dump_proposal(c, d, o), "flow to the nearest"),
    (|c, d, o| LtaShareToNearest.dump_proposal(c, d, o), "LTA share to the nearest"),
    (|c, d, o| PriceCut.dump_proposal(c, d, o), "price cut"),
    (|c, d, o| HalvesToEven.dump_proposal(c, d, o), "halves to even"),
    (|c, d, o| HalvesUp.dump_proposal(c, d, o), "halves up, not away from zero"),
    (|c, d, o| PriceRoundedTwice.dump_proposal(c, d, o), "price's product rounded twice"),
    (|c, d, o| PriceUnrounded.dump_proposal(c, d, o), "price's product not rounded"),
    (|c, d, o| VolumeUnrounded.dump_proposal(c, d, o), "volume's product not rounded"),
    (|c, d, o| RangeBeforeLaterFinite.dump_proposal(c, d, o), "59 before 58 of a later value"),
    (|c, d, o| InfinityOutOfRange.dump_proposal(c, d, o), "infinity is 59"),
    (|c, d, o| IndexInBytes.dump_proposal(c, d, o), "index in bytes"),
    (|c, d, o| CaseIndexNamed.dump_proposal(c, d, o), "56: the case's index"),
    (|c, d, o| MinusZeroRefused.dump_proposal(c, d, o), "minus zero refused"),
    (|c, d, o| SubnormalsZero.dump_proposal(c, d, o), "subnormals are zero"),
    (|c, d, o| QuantityBefore.dump_proposal(c, d, o), "quantity of the order before"),
    (|c, d, o| WideRefused.dump_proposal(c, d, o), "wide tolerances refused"),
];

pub struct VolumeToNearest;
impl DumpReading for VolumeToNearest {
    fn whole(&self, kind: Kind, product: &Value) -> u128 {
        match kind {
            Kind::Accepted(_) => Papers.nearest(product),
            _ => Papers.whole(kind, product),
        }
    }
}

pub struct FlowToNearest;
impl DumpReading for FlowToNearest {
    fn whole(&self, kind: Kind, product: &Value) -> u128 {
        match kind {
            Kind::Flow => Papers.nearest(product),
            _ => Papers.whole(kind, product),
        }
    }
}

pub struct LtaShareToNearest;
impl DumpReading for LtaShareToNearest {
    fn whole(&self, kind: Kind, product: &Value) -> u128 {
        match kind {
            Kind::LtaShare => Papers.nearest(product),
            _ => Papers.whole(kind, product),
        }
    }
}

pub struct PriceCut;
impl DumpReading for PriceCut {
    fn whole(&self, _kind: Kind, product: &Value) -> u128 {
        product.cut()
    }
}

pub struct HalvesToEven;
impl DumpReading for HalvesToEven {
    fn nearest(&self, product: &Value) -> u128 {
        match product.floor_and_half() {
            (floor, Ordering::Equal) => floor + floor % 2,
            _ => Papers.nearest(product),
        }
    }
}

pub struct HalvesUp;
impl DumpReading for HalvesUp {
    fn nearest(&self, product: &Value) -> u128 {
        match product.floor_and_half() {
            (floor, Ordering::Equal) if product.negative => floor,
            _ => Papers.nearest(product),
        }
    }
}

pub struct PriceRoundedTwice;
impl DumpReading for PriceRoundedTwice {
    fn product(&self, kind: Kind, value: &Value) -> Option<Value> {
        match kind.is_price() {
            true => value.times(10).rounded()?.times(10).rounded(),
            false => Papers.product(kind, value),
        }
    }
}

pub struct PriceUnrounded;
impl DumpReading for PriceUnrounded {
    fn product(&self, kind: Kind, value: &Value) -> Option<Value> {
        match kind.is_price() {
            true => Some(value.times(kind.factor())),
            false => Papers.product(kind, value),
        }
    }
}

pub struct VolumeUnrounded;
impl DumpReading for VolumeUnrounded {
    fn product(&self, kind: Kind, value: &Value) -> Option<Value> {
        match kind.is_share() {
            true => Some(value.times(kind.factor())),
            false => Papers.product(kind, value),
        }
    }
}

pub struct RangeBeforeLaterFinite;
impl DumpReading for RangeBeforeLaterFinite {
    fn refused_value(&self, values: &[(Kind, u64)]) -> Option<(u32, usize)> {
        let at = values.iter().position(|(kind, bits)| self.converted(*kind, *bits).is_none())?;
        Some((if self.is_not_finite(values[at].1) { 58 } else { 59 }, at))
    }
}

pub struct InfinityOutOfRange;
impl DumpReading for InfinityOutOfRange {
    fn is_not_finite(&self, bits: u64) -> bool {
        Papers.is_not_finite(bits) && bits & FRACTION != 0
    }
}

pub struct IndexInBytes;
impl DumpReading for IndexInBytes {
    fn refused_value(&self, values: &[(Kind, u64)]) -> Option<(u32, usize)> {
        Papers.refused_value(values).map(|(number, at)| (number, 8 * at))
    }
}

pub struct CaseIndexNamed;
impl DumpReading for CaseIndexNamed {
    fn case_of<'a>(&self, case: &'a [u8]) -> Result<Case<'a>, usize> {
        readable(case).map_err(|verdict| verdict.index as usize)
    }
}

pub struct MinusZeroRefused;
impl DumpReading for MinusZeroRefused {
    fn converted(&self, kind: Kind, bits: u64) -> Option<i128> {
        Papers.converted(kind, bits).filter(|_| bits != SIGN)
    }
}

pub struct SubnormalsZero;
impl DumpReading for SubnormalsZero {
    fn value(&self, bits: u64) -> Option<Value> {
        let mut value = Value::of(bits)?;
        if bits & EXPONENT == 0 {
            value.whole = 0;
        }
        Some(value)
    }
}

pub struct QuantityBefore;
impl DumpReading for QuantityBefore {
    fn kinds(&self, case: &Case) -> Vec<Kind> {
        let mut kinds = Papers.kinds(case);
        for o in 0..case.orders {
            kinds[2 + o] = Kind::Accepted(case.order(o.saturating_sub(1)).quantity);
        }
        kinds
    }
}

pub struct WideRefused;
impl DumpReading for WideRefused {
    fn case_of<'a>(&self, case: &'a [u8]) -> Result<Case<'a>, usize> {
        let case = Papers.case_of(case)?;
        match case.tolerance > WIDEST_TOLERANCE {
            true => Err(4),
            false => Ok(case),
        }
    }
}
