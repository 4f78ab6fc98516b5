//! An order book in memory: its rows and the sum of rule 8.

use crate::files::{i32_at, u32_at};
use crate::limits::*;

/// An order, of a lent book or of a case.
#[derive(Clone, Copy, Debug, PartialEq, Eq)]
pub struct Row {
    pub zone: u8,
    pub side: u8,
    /// Tenths.
    pub quantity: u32,
    /// Cents per MWh.
    pub price: i32,
}

impl Row {
    /// An order of a case, from its ten bytes.
    pub fn of(bytes: &[u8]) -> Row {
        Row { zone: bytes[0], side: bytes[1], quantity: u32_at(bytes, 2), price: i32_at(bytes, 6) }
    }

    pub fn quantity(&self) -> i128 {
        self.quantity.into()
    }

    pub fn price(&self) -> i128 {
        self.price.into()
    }

    /// Zone, side, quantity and price: whether each is in its range, with this many zones.
    pub fn fields_in_range(&self, zones: usize) -> [bool; 4] {
        [
            usize::from(self.zone) < zones,
            self.side == BUYS || self.side == SELLS,
            QUANTITY.contains(&self.quantity()),
            ORDER_PRICE.contains(&self.price()),
        ]
    }

    /// What a tenth of the order gains at a zone price, in microcents: for a buy the order price above the zone
    /// price, for a sell the zone price above the order price, both in grains.
    pub fn unit_gain(&self, zone_price: i128) -> i128 {
        match self.side {
            BUYS => ONE * self.price() - zone_price,
            _ => zone_price - ONE * self.price(),
        }
    }

    /// Rule 8: quantity times that, never below zero.
    pub fn surplus(&self, zone_price: i128) -> i128 {
        self.quantity() * self.unit_gain(zone_price).max(0)
    }
}

/// What the book entry answers; a refusal has sum 0.
#[derive(Clone, Copy, Debug, PartialEq, Eq)]
pub struct BookAnswer {
    pub number: u32,
    pub index: u32,
    /// Microcents.
    pub sum: i64,
}

/// The sum of rule 8 over the rows, at zone prices in grains.
pub fn book_surplus(rows: &[Row], prices: &[i64]) -> BookAnswer {
    let refusal = |number, index: usize| BookAnswer { number, index: index as u32, sum: 0 };
    if prices.is_empty() || prices.len() > MOST_ZONES {
        return refusal(4, 5);
    }
    if rows.len() > MOST_ORDERS {
        return refusal(4, 8);
    }
    let good = |row: &Row| row.fields_in_range(prices.len()) == [true; 4];
    if let Some(row) = rows.iter().position(|row| !good(row)) {
        return refusal(8, row);
    }
    let in_range = |price: &i64| ZONE_PRICE.contains(&i128::from(*price));
    if let Some(zone) = prices.iter().position(|price| !in_range(price)) {
        return refusal(25, zone);
    }
    let surplus = |row: &Row| row.surplus(prices[usize::from(row.zone)].into());
    let sum: i128 = rows.iter().map(surplus).sum();
    BookAnswer { number: 0, index: 0, sum: i64::try_from(sum).expect("the sum fits 64 bits") }
}
