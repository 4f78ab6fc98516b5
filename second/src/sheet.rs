//! Published margin sheets (S-1): turns lines of text into the branch part of a case.
//!
//! A number stays text until it is known to have no more digits than its limit. So no step can overflow.

use crate::limits::*;
use crate::{OutputAnswer, Papers};
use std::ops::RangeInclusive;

/// A field of a line: the decimals of our unit, and the range in that unit.
#[derive(Clone, Debug, PartialEq, Eq)]
pub struct Column {
    pub decimals: usize,
    pub range: RangeInclusive<i128>,
}

/// Margin in MW to one decimal: tenths.
pub const MARGIN: Column = Column { decimals: 1, range: RAM };
/// PTDFs to five: hundred-thousandths.
pub const PTDF_OF_ZONE: Column = Column { decimals: 5, range: PTDF };

/// A number as it is written.
#[derive(Clone, Copy, Debug)]
pub struct Numeral<'a> {
    pub negative: bool,
    /// The digits before its point.
    pub whole: &'a str,
    /// Those after it, without the zeros at the end, which do not change the value.
    pub decimals: &'a str,
}

pub trait MarginSheet: Sized {
    /// A newline ends a line and the last may lack it. An empty sheet has none.
    fn lines<'a>(&self, sheet: &'a [u8]) -> Vec<&'a [u8]> {
        let mut lines: Vec<&[u8]> = sheet.split(|byte| *byte == b'\n').collect();
        // What follows the last newline is a line only if it is not empty.
        if lines.last().is_some_and(|last| last.is_empty()) {
            lines.pop();
        }
        lines
    }

    /// One margin, then one PTDF per zone.
    fn columns(&self, zones: usize) -> Vec<Column> {
        let mut columns = vec![MARGIN];
        columns.resize(1 + zones, PTDF_OF_ZONE);
        columns
    }

    /// 52: a decimal past ours is not zero.
    fn is_past_ours(&self, numeral: &Numeral, column: &Column) -> bool {
        numeral.decimals.len() > column.decimals
    }

    /// The number in our unit; none, which is 53, where it is out of range.
    fn units(&self, numeral: &Numeral, column: &Column) -> Option<i32> {
        let size = numeral.digits_in(column);
        // Without leading zeros the longer number is larger, and of two with one length the one later in the
        // alphabet.
        let limit = match numeral.negative {
            true => column.range.start(),
            false => column.range.end(),
        };
        let limit = limit.unsigned_abs().to_string();
        if (size.len(), &size) > (limit.len(), &limit) {
            return None;
        }
        let size: i32 = match size.as_str() {
            "" => 0,
            digits => digits.parse().expect("no more digits than the limit"),
        };
        Some(if numeral.negative { -size } else { size })
    }

    /// Sheets count export positive, so PTDFs change sign and margins don't.
    fn changes_sign(&self, column: &Column) -> bool {
        *column == PTDF_OF_ZONE
    }

    /// 54: over 64 lines.
    fn are_too_many(&self, lines: usize) -> bool {
        lines > MOST_BRANCHES
    }

    /// 51 to 53 with the first such line, each asked over the whole sheet. A line is none if it has the wrong
    /// number of fields or one is no number.
    fn refused_line(&self, lines: &[Option<Vec<Numeral>>], columns: &[Column]) -> Option<(u32, usize)> {
        let any = |line: &[Numeral], cause: &dyn Fn(&Numeral, &Column) -> bool| {
            line.iter().zip(columns).any(|(numeral, column)| cause(numeral, column))
        };
        let first =
            |cause: &dyn Fn(&Numeral, &Column) -> bool| lines.iter().flatten().position(|line| any(line, cause));
        if let Some(line) = lines.iter().position(Option::is_none) {
            return Some((51, line));
        }
        if let Some(line) = first(&|numeral, column| self.is_past_ours(numeral, column)) {
            return Some((52, line));
        }
        let line = first(&|numeral, column| self.units(numeral, column).is_none())?;
        Some((53, line))
    }

    /// The branch part, or number and index of the first cause, from 50 to 55.
    fn branches(&self, sheet: &[u8], zones: usize, room: usize) -> Result<Vec<u8>, (u32, usize)> {
        if !ZONES.contains(&zones) {
            return Err((50, 0));
        }
        let columns = self.columns(zones);
        let lines: Vec<_> = self.lines(sheet).into_iter().map(|line| numerals(line, columns.len())).collect();
        if let Some(refused) = self.refused_line(&lines, &columns) {
            return Err(refused);
        }
        if self.are_too_many(lines.len()) {
            return Err((54, 0));
        }
        if room < 4 * (1 + zones) * lines.len() {
            return Err((55, 0));
        }
        let mut branches = Vec::new();
        for line in lines.iter().flatten() {
            for (numeral, column) in line.iter().zip(&columns) {
                let units = self.units(numeral, column).expect("53 was asked before");
                let units = if self.changes_sign(column) { -units } else { units };
                branches.extend(units.to_le_bytes());
            }
        }
        Ok(branches)
    }

    /// Writes the branches of a sheet, and answers with their length.
    fn sheet_branches(&self, sheet: &[u8], zones: usize, out: &mut [u8]) -> OutputAnswer {
        match self.branches(sheet, zones, out.len()) {
            Ok(branches) => {
                out[..branches.len()].copy_from_slice(&branches);
                OutputAnswer::written(branches.len())
            }
            Err((number, line)) => OutputAnswer::refused(number, line),
        }
    }
}

/// Writes the branches of a sheet, and answers with their length.
pub fn sheet_branches(sheet: &[u8], zones: usize, out: &mut [u8]) -> OutputAnswer {
    Papers.sheet_branches(sheet, zones, out)
}

/// The numbers of a line, if there are this many fields and each is a number.
fn numerals(line: &[u8], count: usize) -> Option<Vec<Numeral<'_>>> {
    let fields: Vec<&[u8]> = line.split(|byte| *byte == b',').collect();
    if fields.len() != count {
        return None;
    }
    fields.into_iter().map(Numeral::of).collect()
}

impl<'a> Numeral<'a> {
    /// Digits, perhaps with a minus sign before and a point and digits after.
    pub fn of(field: &'a [u8]) -> Option<Numeral<'a>> {
        let text = std::str::from_utf8(field).ok()?;
        let (negative, size) = match text.strip_prefix('-') {
            Some(size) => (true, size),
            None => (false, text),
        };
        let (whole, decimals) = match size.split_once('.') {
            Some((whole, decimals)) if are_digits(decimals) => (whole, decimals),
            Some(_) => return None,
            None => (size, ""),
        };
        are_digits(whole).then_some(Numeral { negative, whole, decimals: decimals.trim_end_matches('0') })
    }

    /// Its size in our unit, without leading zeros. Decimals after ours are dropped.
    pub fn digits_in(&self, column: &Column) -> String {
        let width = column.decimals;
        let ours = &self.decimals[..self.decimals.len().min(width)];
        let digits = format!("{}{ours:0<width$}", self.whole);
        digits.trim_start_matches('0').to_string()
    }
}

fn are_digits(text: &str) -> bool {
    !text.is_empty() && text.bytes().all(|byte| byte.is_ascii_digit())
}
