//! Wrong builds of a margin sheet, S-1.

use second_judge::limits::MOST_BRANCHES;
use second_judge::sheet::{Column, Numeral};
use second_judge::{MarginSheet, OutputAnswer, Papers};

/// A build's entry.
pub type Read = fn(&[u8], usize, &mut [u8]) -> OutputAnswer;

/// Every wrong build, with its name.
pub static BUILDS: [(Read, &str); 7] = [
    (|s, z, o| SignNotTurned.sheet_branches(s, z, o), "PTDFs keep their sign"),
    (|s, z, o| MarginTurnedToo.sheet_branches(s, z, o), "margins turned too"),
    (|s, z, o| DecimalsCutOff.sheet_branches(s, z, o), "decimals past ours cut off"),
    (|s, z, o| UnendedLineDropped.sheet_branches(s, z, o), "line without newline dropped"),
    (|s, z, o| CausesLineByLine.sheet_branches(s, z, o), "51 and 52 line by line"),
    (|s, z, o| LongNumberWrapped.sheet_branches(s, z, o), "long number wrapped"),
    (|s, z, o| LineTooMany.sheet_branches(s, z, o), "65th line let through"),
];

pub struct SignNotTurned;
impl MarginSheet for SignNotTurned {
    fn changes_sign(&self, _column: &Column) -> bool {
        false
    }
}

pub struct MarginTurnedToo;
impl MarginSheet for MarginTurnedToo {
    fn changes_sign(&self, _column: &Column) -> bool {
        true
    }
}

pub struct DecimalsCutOff;
impl MarginSheet for DecimalsCutOff {
    fn is_past_ours(&self, _numeral: &Numeral, _column: &Column) -> bool {
        false
    }
}

pub struct UnendedLineDropped;
impl MarginSheet for UnendedLineDropped {
    fn lines<'a>(&self, sheet: &'a [u8]) -> Vec<&'a [u8]> {
        let mut lines: Vec<&[u8]> = sheet.split(|byte| *byte == b'\n').collect();
        lines.pop();
        lines
    }
}

pub struct CausesLineByLine;
impl MarginSheet for CausesLineByLine {
    fn refused_line(&self, lines: &[Option<Vec<Numeral>>], columns: &[Column]) -> Option<(u32, usize)> {
        let past = |line: &Vec<Numeral>| line.iter().zip(columns).any(|(n, column)| self.is_past_ours(n, column));
        for (l, line) in lines.iter().enumerate() {
            match line {
                None => return Some((51, l)),
                Some(line) if past(line) => return Some((52, l)),
                Some(_) => {}
            }
        }
        Papers.refused_line(lines, columns)
    }
}

/// The number kept in 32 bits.
pub struct LongNumberWrapped;
impl MarginSheet for LongNumberWrapped {
    fn units(&self, numeral: &Numeral, column: &Column) -> Option<i32> {
        let digit = |sum: u32, digit: u8| sum.wrapping_mul(10).wrapping_add(u32::from(digit - b'0'));
        let size = numeral.digits_in(column).bytes().fold(0, digit);
        let units = if numeral.negative { size.wrapping_neg() } else { size } as i32;
        column.range.contains(&units.into()).then_some(units)
    }
}

pub struct LineTooMany;
impl MarginSheet for LineTooMany {
    fn are_too_many(&self, lines: usize) -> bool {
        lines > MOST_BRANCHES + 1
    }
}
