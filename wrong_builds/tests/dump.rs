//! Wrong builds of a dump do what their names say.

use paper_hours::{three_zone_hour, Branch, Hour, Link};
use second_judge::{DumpReading, Papers, Row};
use wrong_builds::dump::*;

const ROOM: usize = 13 + 4 * (512 + 64 + 64);
const FILL: u8 = 0xA5;

fn bytes(values: &[f64]) -> Vec<u8> {
    values.iter().flat_map(|value| value.to_le_bytes()).collect()
}

/// An hour with one of each, whose order has this quantity.
fn one_of_each(quantity: u32) -> Hour {
    Hour {
        zones: 2,
        branches: vec![Branch { ram: 10, ptdfs: vec![0, 0] }],
        links: vec![Link { from: 0, to: 1, capacity: 10, contracted: 10 }],
        orders: vec![Row { zone: 0, side: 1, quantity, price: 1 }],
        ..Hour::default()
    }
}

/// Number, index and the numbers written. The bytes past them must be unchanged.
fn read_in(room: usize, build: impl DumpReading, case: &[u8], dump: &[u8]) -> (u32, u64, Vec<i64>) {
    let mut out = vec![FILL; room];
    let answer = build.dump_proposal(case, dump, &mut out);
    let length = answer.length as usize;
    assert!(out[length..].iter().all(|byte| *byte == FILL));
    if answer.number != 0 {
        assert_eq!(length, 0);
        return (answer.number, answer.index, vec![]);
    }
    assert_eq!(out[..5], *b"LTP\x01\x00");
    let numbers = out[5..length].chunks_exact(4).enumerate().map(|(n, field)| {
        let bits = u32::from_le_bytes(field.try_into().unwrap());
        if n == 1 {
            (bits as i32).into()
        } else {
            bits.into()
        }
    });
    (answer.number, answer.index, numbers.collect())
}

/// What a value becomes at a place of a dump with one of each, the others zero.
fn becomes_as(build: impl DumpReading, at: usize, quantity: u32, value: f64) -> Option<i64> {
    let mut values = [0.0; 5];
    values[at] = value;
    let case = one_of_each(quantity).case();
    match read_in(ROOM, build, &case, &bytes(&values)) {
        (0, 0, numbers) => Some(numbers[at]),
        (59, index, _) => {
            assert_eq!(index, at as u64);
            None
        }
        other => panic!("{other:?}"),
    }
}

const LTA_SHARE: usize = 0;
const SYSTEM: usize = 1;
const ACCEPTED: usize = 2;
const FLOW: usize = 3;
const SHADOW: usize = 4;

/// The three-zone hour's proposal as a solver has it.
const THREE_ZONES: [f64; 10] = [0.875, 22.5, 1.0, 1_375.0 / 6_000.0, 1.0, 0.0, 0.4375, 350.0, 55.0, 2.5];

#[test]
fn wrong_builds_do_what_is_said_of_them() {
    assert_eq!(becomes_as(VolumeUnrounded, ACCEPTED, 10, 0.3), Some(2));
    assert_eq!(becomes_as(PriceUnrounded, SYSTEM, 1, 0.045), Some(4));
    let mut order = three_zone_hour();
    order.orders[2].quantity = 0;
    assert_eq!(read_in(0, CaseIndexNamed, &order.case(), &bytes(&THREE_ZONES)), (56, 74, vec![]));
    assert_eq!(becomes_as(VolumeToNearest, ACCEPTED, 10, 0.29), Some(3));
    assert_eq!(becomes_as(FlowToNearest, FLOW, 10, 0.19), Some(2));
    assert_eq!(becomes_as(LtaShareToNearest, LTA_SHARE, 10, 0.000019), Some(2));
    assert_eq!(becomes_as(PriceCut, SYSTEM, 1, -0.019), Some(-1));
    assert_eq!(becomes_as(HalvesToEven, SYSTEM, 1, 0.125), Some(12));
    assert_eq!(becomes_as(HalvesToEven, SYSTEM, 1, 0.375), Some(38));
    assert_eq!(becomes_as(HalvesUp, SYSTEM, 1, -0.125), Some(-12));
    assert_eq!(becomes_as(HalvesUp, SYSTEM, 1, 0.125), Some(13));
    // 0.145 times 100 is 14.499999999999998; times 10 it is 1.45, and that times 10 is 14.5.
    assert_eq!(becomes_as(Papers, SHADOW, 1, 0.145), Some(14));
    assert_eq!(becomes_as(PriceRoundedTwice, SHADOW, 1, 0.145), Some(15));
    assert_eq!(becomes_as(MinusZeroRefused, FLOW, 1, -0.0), None);
    let least = -f64::from_bits(1);
    assert_eq!(becomes_as(SubnormalsZero, FLOW, 1, least), Some(0));

    let case = three_zone_hour().case();
    let mut values = THREE_ZONES;
    values[3] = 1.0;
    assert_eq!(read_in(ROOM, QuantityBefore, &case, &bytes(&values)).2[3], 4_000);
    values[3] = 2.0;
    assert_eq!(read_in(ROOM, IndexInBytes, &case, &bytes(&values)), (59, 24, vec![]));
    values[8] = f64::NAN;
    assert_eq!(read_in(ROOM, RangeBeforeLaterFinite, &case, &bytes(&values)), (59, 3, vec![]));
    assert_eq!(read_in(ROOM, IndexInBytes, &case, &bytes(&values)), (58, 64, vec![]));
    values[8] = f64::INFINITY;
    values[3] = 1.0;
    assert_eq!(read_in(ROOM, InfinityOutOfRange, &case, &bytes(&values)), (59, 8, vec![]));
}
