//! The paper's limits, each in its measure, and its sizes in bytes.

use std::ops::RangeInclusive;

pub const ZONES: RangeInclusive<usize> = 1..=16;
pub const BRANCHES: RangeInclusive<usize> = 0..=64;
pub const LINKS: RangeInclusive<usize> = 0..=64;
pub const ORDERS: RangeInclusive<usize> = 0..=512;
/// Cents.
pub const TOLERANCE: RangeInclusive<i128> = 0..=1_000_000_000;
/// Cents. S-12: a wider tolerance is read, and refused by 15.
pub const WIDEST_TOLERANCE: i128 = 10_000;
/// Tenths.
pub const RAM: RangeInclusive<i128> = -500_000..=500_000;
/// Hundred-thousandths.
pub const PTDF: RangeInclusive<i128> = -200_000..=200_000;
/// Tenths.
pub const CAPACITY: RangeInclusive<i128> = 0..=100_000;
/// Tenths.
pub const QUANTITY: RangeInclusive<i128> = 1..=100_000;
/// Cents per MWh.
pub const ORDER_PRICE: RangeInclusive<i128> = -50_000..=400_000;
/// Hundred-thousandths.
pub const SHARE: RangeInclusive<i128> = 0..=ONE;
/// Cents per MWh.
pub const SHADOW_PRICE: RangeInclusive<i128> = 0..=1_000_000;
/// Grains: -50,000 to 400,000 cents per MWh.
pub const ZONE_PRICE: RangeInclusive<i128> = -50_000 * ONE..=400_000 * ONE;
/// Tenths, export positive. S-3: the most that 512 orders can have.
pub const NET_EXPORT: RangeInclusive<i128> = -51_200_000..=51_200_000;

/// 100,000: hundred-thousandths in 1, grains in a cent per MWh, and S-14's parts of a microcent.
pub const ONE: i128 = 100_000;
/// Microcents in a cent.
pub const MICROCENTS: i128 = 1_000_000;

/// Sides of an order.
pub const BUYS: u8 = 0;
pub const SELLS: u8 = 1;

pub const MOST_ZONES: usize = 16;
pub const MOST_ORDERS: usize = 512;
pub const MOST_BRANCHES: usize = 64;

pub const CASE_HEADER: usize = 14;
pub const ORDER_BYTES: usize = 10;
pub const PROPOSAL_HEADER: usize = 13;

/// A report buffer shorter than this is refused by 30.
pub const LEAST_BUFFER: usize = 176;
/// The report: the bytes of its header, the number of totals after it, and the bytes of each total or zone price.
pub const REPORT_HEADER: usize = 8;
pub const REPORT_ZONES_AT: usize = 6;
pub const REPORT_TOTALS: usize = 5;
pub const REPORT_FIELD: usize = 8;

/// An output for the desk's lines shorter than this is refused by 31.
pub const LEAST_OUTPUT: usize = 1_024;

/// S-3: the most pairs that are taken, and the numbers of scratch under which 85 is answered.
pub const MOST_PAIRS: usize = 64;
pub const SCRATCH: usize = 324;
/// S-13: one number per pair, one per zone for export used, one per zone for import used.
pub const SMALL_SCRATCH: usize = MOST_PAIRS + MOST_ZONES + MOST_ZONES;
