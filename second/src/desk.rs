//! The desk program: cuts its input, judges it and prints lines.

use crate::judgement::{judge, with_good_header};
use crate::limits::*;
use crate::OutputAnswer;

/// Microcents in a euro, and the decimals shown.
const MONEY: (u64, usize) = (100_000_000, 8);
/// Grains in a euro per MWh, and the decimals shown.
const PRICE: (u64, usize) = (10_000_000, 7);

/// Where the case ends. If the header is good and there are enough bytes, the case ends at its demanded length and
/// the rest is the proposal; else all is the case.
fn cut(input: &[u8]) -> usize {
    match with_good_header(input) {
        Ok(case) if case.demanded() <= input.len() => case.demanded(),
        _ => input.len(),
    }
}

/// An amount with all its decimals. A minus sign stands before a negative amount only.
fn amount(value: i64, (unit, decimals): (u64, usize)) -> String {
    let sign = if value < 0 { "-" } else { "" };
    let size = value.unsigned_abs();
    format!("{sign}{}.{:0decimals$}", size / unit, size % unit)
}

/// The lines that the desk program prints for its whole standard input.
pub fn desk_lines(input: &[u8]) -> Vec<u8> {
    let (case, proposal) = input.split_at(cut(input));
    let mut report = [0; LEAST_BUFFER];
    let verdict = judge(case, proposal, &mut report);
    let mut lines = format!("verdict {} {}\n", verdict.number, verdict.index);
    if verdict.number == 0 || verdict.number == 26 {
        let fields = report[REPORT_HEADER..].chunks_exact(REPORT_FIELD);
        let mut values = fields.map(|field| i64::from_le_bytes(field.try_into().expect("eight bytes")));
        for name in ["welfare", "bound", "gap", "rent", "owed"] {
            let value = values.next().expect("five totals");
            lines += &format!("{name} {}\n", amount(value, MONEY));
        }
        for (zone, price) in values.take(report[REPORT_ZONES_AT].into()).enumerate() {
            lines += &format!("price {zone} {}\n", amount(price, PRICE));
        }
    }
    lines.into_bytes()
}

/// The same lines written to an output, and their length; 31 if it has under 1,024 bytes.
pub fn desk_output(input: &[u8], out: &mut [u8]) -> OutputAnswer {
    if out.len() < LEAST_OUTPUT {
        return OutputAnswer::refused(31, 0);
    }
    let lines = desk_lines(input);
    out[..lines.len()].copy_from_slice(&lines);
    OutputAnswer::written(lines.len())
}

#[cfg(test)]
mod tests {
    use super::*;

    #[test]
    fn amounts_have_all_decimals_and_their_sign() {
        assert_eq!(amount(0, MONEY), "0.00000000");
        assert_eq!(amount(-1, MONEY), "-0.00000001");
        assert_eq!(amount(99_999_999, MONEY), "0.99999999");
        assert_eq!(amount(-100_000_000, MONEY), "-1.00000000");
        assert_eq!(amount(i64::MIN, MONEY), "-92233720368.54775808");
        assert_eq!(amount(-5_000_000_000, PRICE), "-500.0000000");
        assert_eq!(amount(40_000_000_001, PRICE), "4000.0000001");
    }
}
