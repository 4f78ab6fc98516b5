//! The solver's dump: products, limits, what is not finite, and the causes in their order.

use paper_hours::{contracted_hour, three_zone_hour, Branch, Hour, Link};
use second_judge::dump::{Value, FRACTION};
use second_judge::limits::LEAST_BUFFER;
use second_judge::*;

const ROOM: usize = 13 + 4 * (512 + 64 + 64);
const FILL: u8 = 0xA5;

fn bytes(values: &[f64]) -> Vec<u8> {
    values.iter().flat_map(|value| value.to_le_bytes()).collect()
}

/// An hour with one of each, whose order has this quantity.
fn one_of_each(quantity: u32) -> Hour {
    Hour {
        zones: 2,
        branches: vec![Branch { ram: 10, ptdfs: vec![0, 0] }],
        links: vec![Link { from: 0, to: 1, capacity: 10, contracted: 10 }],
        orders: vec![Row { zone: 0, side: 1, quantity, price: 1 }],
        ..Hour::default()
    }
}

/// Number, index and the numbers written. The bytes past them must be unchanged.
fn read_in(room: usize, build: impl DumpReading, case: &[u8], dump: &[u8]) -> (u32, u64, Vec<i64>) {
    let mut out = vec![FILL; room];
    let answer = build.dump_proposal(case, dump, &mut out);
    let length = answer.length as usize;
    assert!(out[length..].iter().all(|byte| *byte == FILL));
    if answer.number != 0 {
        assert_eq!(length, 0);
        return (answer.number, answer.index, vec![]);
    }
    assert_eq!(out[..5], *b"LTP\x01\x00");
    let numbers = out[5..length].chunks_exact(4).enumerate().map(|(n, field)| {
        let bits = u32::from_le_bytes(field.try_into().unwrap());
        if n == 1 {
            (bits as i32).into()
        } else {
            bits.into()
        }
    });
    (answer.number, answer.index, numbers.collect())
}

/// What a value becomes at a place of a dump with one of each, the others zero.
fn becomes_as(build: impl DumpReading, at: usize, quantity: u32, value: f64) -> Option<i64> {
    let mut values = [0.0; 5];
    values[at] = value;
    let case = one_of_each(quantity).case();
    match read_in(ROOM, build, &case, &bytes(&values)) {
        (0, 0, numbers) => Some(numbers[at]),
        (59, index, _) => {
            assert_eq!(index, at as u64);
            None
        }
        other => panic!("{other:?}"),
    }
}

const LTA_SHARE: usize = 0;
const SYSTEM: usize = 1;
const ACCEPTED: usize = 2;
const FLOW: usize = 3;
const SHADOW: usize = 4;

/// The three-zone hour's proposal as a solver has it.
const THREE_ZONES: [f64; 10] = [0.875, 22.5, 1.0, 1_375.0 / 6_000.0, 1.0, 0.0, 0.4375, 350.0, 55.0, 2.5];

fn read(case: &[u8], dump: &[u8]) -> (u32, u64, Vec<i64>) {
    read_in(ROOM, Papers, case, dump)
}

fn becomes(at: usize, quantity: u32, value: f64) -> Option<i64> {
    becomes_as(Papers, at, quantity, value)
}

#[test]
fn three_zone_dump_gives_its_proposal() {
    for hour in [three_zone_hour(), contracted_hour()] {
        let mut out = vec![FILL; ROOM];
        let answer = dump_proposal(&hour.case(), &bytes(&THREE_ZONES), &mut out);
        let due = OutputAnswer { number: 0, index: 0, length: 45 };
        assert_eq!(answer, due);
        assert_eq!(out[..45], hour.proposal());
        let verdict = judge(&hour.case(), &out[..45], &mut [0; LEAST_BUFFER]);
        assert_eq!((verdict.number, verdict.index), (0, 0));
    }
}

#[test]
fn products_are_rounded_once_and_cut() {
    // 0.1 is above a tenth: each product is rounded down onto a whole number.
    assert_eq!(becomes(ACCEPTED, 30, 0.1), Some(3));
    assert_eq!(becomes(FLOW, 1, 0.1), Some(1));
    assert_eq!(becomes(LTA_SHARE, 1, 0.1), Some(10_000));
    // 0.3 is below three tenths: rounded up, and the exact product would be cut to 2.
    assert_eq!(becomes(ACCEPTED, 10, 0.3), Some(3));
    // 0.29 times 100 is 28.999999999999996.
    assert_eq!(becomes(ACCEPTED, 100, 0.29), Some(28));
    // The greatest value below 1: its product with 100,000 is below it by a digit.
    let below = f64::from_bits(1.0f64.to_bits() - 1);
    assert_eq!(below, 1.0 - 2f64.powi(-53));
    assert_eq!(becomes(ACCEPTED, 100_000, below), Some(99_999));
    assert_eq!(becomes(LTA_SHARE, 1, below), Some(99_999));
    assert_eq!(becomes(ACCEPTED, 1, below), Some(0));
    assert_eq!(becomes(FLOW, 1, 0.19), Some(1));
}

#[test]
fn prices_go_to_the_nearest_cent_halves_away_from_zero() {
    assert_eq!(becomes(SHADOW, 1, 0.285), Some(28));
    assert_eq!(becomes(SHADOW, 1, 1.005), Some(100));
    assert_eq!(becomes(SYSTEM, 1, 1.115), Some(112));
    // 0.045 is below 45 thousandths, and its product is rounded onto the half.
    assert_eq!(becomes(SYSTEM, 1, 0.045), Some(5));
    for (euros, cents) in [(0.125, 13), (0.375, 38), (0.5, 50), (0.005, 1)] {
        assert_eq!(becomes(SYSTEM, 1, euros), Some(cents));
        assert_eq!(becomes(SYSTEM, 1, -euros), Some(-cents));
        assert_eq!(becomes(SHADOW, 1, euros), Some(cents));
    }
    assert_eq!(becomes(SYSTEM, 1, 0.0049999999999999), Some(0));
    assert_eq!(becomes(SYSTEM, 1, -1e-300), Some(0));
}

#[test]
fn limit_is_taken_and_the_next_value_refused() {
    let next = |value: f64, steps: i64| f64::from_bits((value.to_bits() as i64 + steps) as u64);
    for at in [LTA_SHARE, ACCEPTED] {
        let whole = [100_000, 0, 77, 0, 0][at].into();
        assert_eq!(becomes(at, 77, 1.0), Some(whole));
        assert_eq!(becomes(at, 77, next(1.0, 1)), None);
        assert_eq!(becomes(at, 77, f64::MAX), None);
    }
    for at in [LTA_SHARE, ACCEPTED, FLOW, SHADOW] {
        assert_eq!(becomes(at, 77, 0.0), Some(0));
        assert_eq!(becomes(at, 77, -0.0), Some(0));
        assert_eq!(becomes(at, 77, f64::from_bits(1)), Some(0));
        assert_eq!(becomes(at, 77, -f64::from_bits(1)), None);
        assert_eq!(becomes(at, 77, -1e-300), None);
    }
    assert_eq!(becomes(SYSTEM, 77, -0.0), Some(0));
    assert_eq!(becomes(FLOW, 1, 429_496_729.5), Some(4_294_967_295));
    let past = 429_496_729.6;
    assert_eq!(becomes(FLOW, 1, past), None);
    assert_eq!(becomes(FLOW, 1, next(past, -1)), Some(4_294_967_295));
    assert_eq!(becomes(SHADOW, 1, 10_000.0), Some(1_000_000));
    // Its product is 1,000,000.4999999999, the next one's 1,000,000.5000000001.
    let half = 10_000.005;
    assert_eq!(becomes(SHADOW, 1, half), Some(1_000_000));
    assert_eq!(becomes(SHADOW, 1, next(half, 1)), None);
    assert_eq!(becomes(SYSTEM, 1, 21_474_836.47), Some(2_147_483_647));
    assert_eq!(becomes(SYSTEM, 1, 21_474_836.475), None);
    assert_eq!(becomes(SYSTEM, 1, -21_474_836.48), Some(-2_147_483_648));
    assert_eq!(becomes(SYSTEM, 1, -21_474_836.485), None);
    // The product is infinite, or nearly.
    for at in [SYSTEM, FLOW, SHADOW] {
        assert_eq!(becomes(at, 1, f64::MAX), None);
        assert_eq!(becomes(at, 1, f64::MAX / 128.0), None);
    }
    assert_eq!(becomes(SYSTEM, 1, -f64::MAX), None);
}

/// The machine's own product and its result, for patterns of every kind.
#[test]
fn products_and_results_are_the_machines() {
    let mut state = 1u64;
    let mut number = || {
        state = state.wrapping_mul(6_364_136_223_846_793_005).wrapping_add(1_442_695_040_888_963_407);
        state >> 11 ^ state << 31
    };
    for n in 0..200_000 {
        let bits = match n % 4 {
            0 => number(),
            1 => number() & FRACTION | 0x3FE << 52,
            2 => number() & FRACTION | (1_000 + number() % 50) << 52 | number() << 63,
            _ => ((number() % 1_000_000) as f64 / 1_000.0).to_bits(),
        };
        let (value, factor) = (f64::from_bits(bits), 1 + number() as u32 % 100_000);
        let Some(read) = Value::of(bits) else {
            assert!(!value.is_finite());
            continue;
        };
        assert!(value.is_finite());
        assert_eq!(read.above_one(), value.abs() > 1.0);
        let product = value * f64::from(factor);
        let Some(rounded) = read.times(factor).rounded() else {
            assert!(product.is_infinite());
            continue;
        };
        assert!(product.is_finite());
        if product.abs() < 1e30 {
            assert_eq!(rounded.cut(), product.abs().trunc() as u128, "{bits:x}");
            let nearest = product.abs().round() as u128;
            assert_eq!(Papers.nearest(&rounded), nearest, "{bits:x}");
        }
    }
}

#[test]
fn value_not_finite_is_refused_before_any_range() {
    let case = three_zone_hour().case();
    let patterns = [
        f64::INFINITY.to_bits(),
        f64::NEG_INFINITY.to_bits(),
        f64::NAN.to_bits(),
        0x7FF0_0000_0000_0001,
        0xFFF0_0000_0000_0001,
        0x7FF8_0000_0000_0000,
        u64::MAX,
    ];
    for bits in patterns {
        for at in 0..10 {
            let mut dump = bytes(&THREE_ZONES);
            dump[8 * at..8 * at + 8].copy_from_slice(&bits.to_le_bytes());
            assert_eq!(read(&case, &dump), (58, at as u64, vec![]));
            // A value out of range before it, and one behind it.
            for other in [0, 9] {
                if other != at {
                    dump[8 * other..8 * other + 8].copy_from_slice(&(-1f64).to_le_bytes());
                }
            }
            assert_eq!(read(&case, &dump), (58, at as u64, vec![]));
        }
    }
}

#[test]
fn causes_are_asked_in_their_order() {
    let (hour, mut dump) = (three_zone_hour(), bytes(&THREE_ZONES));
    let case = hour.case();
    assert_eq!(read_in(44, Papers, &case, &dump), (60, 0, vec![]));
    let right = Papers;
    assert_eq!(read_in(45, right, &case, &dump).0, 0);
    dump[8 * 9..].copy_from_slice(&(-1f64).to_le_bytes());
    assert_eq!(read_in(0, right, &case, &dump), (59, 9, vec![]));
    dump[8 * 4..8 * 5].copy_from_slice(&1.5f64.to_le_bytes());
    assert_eq!(read_in(0, right, &case, &dump), (59, 4, vec![]));
    dump[8 * 9..].copy_from_slice(&f64::NAN.to_le_bytes());
    assert_eq!(read_in(0, right, &case, &dump), (58, 9, vec![]));
    for length in (0..dump.len()).chain([81, 88, 160]) {
        let mut other = dump.clone();
        other.resize(length, 0);
        assert_eq!(read_in(0, right, &case, &other), (57, 0, vec![]));
    }
    // The case first of all, by the number that refuses it.
    for (case, number) in [
        (vec![], 1),
        (b"LTP".iter().chain(&case[3..]).copied().collect(), 2),
        (Hour { zones: 0, ..hour.clone() }.case(), 4),
        (case[..101].to_vec(), 5),
    ] {
        assert_eq!(read_in(0, right, &case, &[]), (56, number, vec![]));
    }
    let mut order = hour.clone();
    order.orders[2].quantity = 0;
    assert_eq!(read(&order.case(), &dump), (56, 8, vec![]));
}
