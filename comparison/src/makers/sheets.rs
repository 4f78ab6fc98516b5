//! Makes margin sheets: good ones, and ones with planted causes whose answer is known.

use crate::rng::Rng;

pub const MOST_LINES: usize = 64;
pub const MOST_ZONES: usize = 16;
/// Room for every sheet.
pub const ROOM: usize = 4 * (MOST_ZONES + 1) * MOST_LINES;

/// Tenths and hundred-thousandths: the decimals of a field, its greatest size.
pub const fn column(field: usize) -> (usize, i128) {
    match field {
        0 => (1, 500_000),
        _ => (5, 200_000),
    }
}

/// What can be wrong with a sheet.
#[derive(Clone, Copy, PartialEq, Eq)]
pub enum Cause {
    Zones,
    NoNumber,
    FieldMissing,
    FieldTooMany,
    EmptyLine,
    Decimal,
    Range,
    Lines,
    Room,
}

/// In an order in which none undoes another: lines are added before fields are damaged, and fields before their
/// line.
pub const CAUSES: [(Cause, u32, &str); 9] = [
    (Cause::Lines, 54, "over 64 lines"),
    (Cause::Decimal, 52, "decimal past ours"),
    (Cause::Range, 53, "number out of range"),
    (Cause::NoNumber, 51, "no number"),
    (Cause::FieldMissing, 51, "field missing"),
    (Cause::FieldTooMany, 51, "field too many"),
    (Cause::EmptyLine, 51, "empty line"),
    (Cause::Room, 55, "room too short"),
    (Cause::Zones, 50, "zones 0 or over 16"),
];

/// Texts that are no numbers, with a bar between them.
pub const NO_NUMBERS: &str = "|-|+1|.5|1.|-.5|-1.|--1|1-|1e3| 1|1 |1\r|1\t|1.2.3|1..2|.|-.|0x1|1_0|NaN\
    |1\0|\u{661}|\u{feff}1|\"1\"|:";

pub const WRONG_ZONES: [usize; 14] =
    [0, 17, 18, 64, 255, 256, 257, 65_537, 1 << 32, (1 << 32) + 1, 1 << 62, (1 << 62) + 2, usize::MAX - 1, usize::MAX];

/// A sheet, field by field, with its faults.
pub struct Made {
    pub zones: usize,
    pub room: usize,
    pub ended: bool,
    pub lines: Vec<Vec<String>>,
    /// The values of the fields, in their units.
    pub units: Vec<Vec<i128>>,
    /// Number and line of each cause planted.
    pub causes: Vec<(u32, u64)>,
    pub spoilt: Vec<(usize, usize)>,
}

impl Made {
    /// A good sheet, with room for it.
    pub fn good(rng: &mut Rng, zones: usize, count: usize) -> Made {
        let units: Vec<Vec<i128>> =
            (0..count).map(|_| (0..=zones).map(|field| in_range(rng, field)).collect()).collect();
        let lines = units
            .iter()
            .map(|row| {
                let fields = row.iter().enumerate();
                fields.map(|(f, units)| written(rng, f, *units)).collect()
            })
            .collect();
        let room = 4 * (zones + 1) * count;
        Made {
            zones,
            room: room + rng.pick(&[0, 0, 1, 3, 4, 100]),
            ended: !rng.one_in(3),
            lines,
            units,
            causes: Vec::new(),
            spoilt: Vec::new(),
        }
    }

    pub fn some(rng: &mut Rng) -> Made {
        let zones = match rng.below(4) {
            0 => 1 + rng.below(MOST_ZONES),
            _ => 1 + rng.below(4),
        };
        let most = match rng.below(12) {
            0 => MOST_LINES,
            1..4 => 12,
            _ => 4,
        };
        let count = rng.between_or_end(1, most as i64) as usize;
        Made::good(rng, zones, count)
    }

    pub fn bytes(&self) -> Vec<u8> {
        let lines: Vec<String> = self.lines.iter().map(|line| line.join(",")).collect();
        let mut text = lines.join("\n");
        // Without its newline an empty line at the end would be no line.
        if lines.last().is_some_and(|last| self.ended || last.is_empty()) {
            text.push('\n');
        }
        text.into_bytes()
    }

    /// The branch part: margins as they are, PTDFs with their sign turned.
    pub fn branches(&self) -> Vec<u8> {
        let turned = |(field, units): (usize, &i128)| match field {
            0 => *units as i32,
            _ => -*units as i32,
        };
        let numbers = self.units.iter().flat_map(|row| row.iter().enumerate());
        numbers.flat_map(|n| turned(n).to_le_bytes()).collect()
    }

    /// Number and index: the smallest number, and its first line.
    pub fn due(&self) -> (u32, u64) {
        self.causes.iter().copied().min().unwrap_or((0, 0))
    }

    /// Plants a cause; call it in the order of `CAUSES`.
    pub fn plant(&mut self, rng: &mut Rng, cause: Cause) {
        let (_, number, _) = CAUSES.iter().find(|row| row.0 == cause).expect("in the list");
        let last = self.lines.len() - 1;
        let l = rng.between_or_end(0, last as i64) as usize;
        let f = rng.between_or_end(0, self.units[l].len() as i64 - 1) as usize;
        match cause {
            Cause::Lines => {
                let count = MOST_LINES + rng.pick(&[1, 1, 2, 7, 40]);
                let rows = self.lines.len();
                for n in rows..count {
                    self.lines.push(self.lines[n % rows].clone());
                    self.units.push(self.units[n % rows].clone());
                }
            }
            Cause::Decimal | Cause::Range => {
                if self.spoilt.contains(&(l, f)) {
                    return;
                }
                self.spoilt.push((l, f));
                self.lines[l][f] = match cause {
                    Cause::Decimal => with_decimal_past(rng, f),
                    _ => out_of_range(rng, f),
                };
            }
            // A line that is already wrong is left: adding what was removed would repair it.
            _ if *number == 51 && self.causes.contains(&(51, l as u64)) => return,
            Cause::NoNumber => {
                let texts: Vec<&str> = NO_NUMBERS.split('|').collect();
                self.lines[l][f] = rng.pick(&texts).into();
            }
            Cause::FieldMissing => drop(self.lines[l].remove(f)),
            Cause::FieldTooMany => self.lines[l].insert(f, rng.pick(&["0", "1", ""]).into()),
            Cause::EmptyLine => self.lines[l].clear(),
            Cause::Room => {
                let needed = 4 * (self.zones + 1) * self.lines.len();
                self.room = needed - rng.between_or_end(1, needed as i64) as usize;
            }
            Cause::Zones => self.zones = rng.pick(&WRONG_ZONES),
        }
        let named = (51..=53).contains(number);
        self.causes.push((*number, if named { l as u64 } else { 0 }));
    }
}

pub fn in_range(rng: &mut Rng, field: usize) -> i128 {
    let limit = column(field).1 as i64;
    let most = rng.pick(&[limit, limit, 10, 1]);
    rng.between_or_end(-most, most).into()
}

/// A number with all the decimals of its field.
pub fn plain(field: usize, units: i128) -> String {
    let decimals = column(field).0;
    let scale = 10u128.pow(decimals as u32);
    let size = units.unsigned_abs();
    let sign = if units < 0 { "-" } else { "" };
    format!("{sign}{}.{:0decimals$}", size / scale, size % scale)
}

/// A number in one of the ways in which it can be written.
pub fn written(rng: &mut Rng, field: usize, units: i128) -> String {
    let mut text = plain(field, units);
    if units == 0 && rng.one_in(4) {
        text.insert(0, '-');
    }
    match rng.below(4) {
        0 | 1 => text = text.trim_end_matches('0').trim_end_matches('.').into(),
        2 => text.push_str(&zeros(rng)),
        _ => {}
    }
    if rng.one_in(6) {
        let first = usize::from(text.starts_with('-'));
        text.insert_str(first, &zeros(rng));
    }
    text
}

/// Some zeros, now and then very many.
pub fn zeros(rng: &mut Rng) -> String {
    let count = match rng.below(60) {
        0 => 1_000,
        _ => rng.pick(&[1, 2, 4, 20]),
    };
    "0".repeat(count)
}

/// A number whose last nonzero decimal is past ours.
pub fn with_decimal_past(rng: &mut Rng, field: usize) -> String {
    let units = match rng.below(4) {
        0 => column(field).1,
        _ => in_range(rng, field),
    };
    let mut text = plain(field, units);
    if !rng.one_in(3) {
        text.push_str(&zeros(rng));
    }
    text.push(rng.pick(&['1', '5', '9']));
    if rng.one_in(3) {
        text.push_str(&zeros(rng));
    }
    text
}

/// A number out of its range, by one or by far. Some would wrap into the range in 32 or 64 bits.
pub fn out_of_range(rng: &mut Rng, field: usize) -> String {
    let most = column(field).1;
    let wraps = in_range(rng, field).abs();
    let size = match rng.below(8) {
        0..3 => most + 1,
        3 => rng.between(most as i64 + 1, i64::MAX).into(),
        4 => (1 << 32) + wraps,
        5 => (1 << 64) + wraps,
        6 => ((1 + rng.below(1 << 20) as i128) << 32) + wraps,
        _ => {
            let sign = if rng.one_in(2) { "-" } else { "" };
            let digits = rng.pick(&[9, 10, 18, 19, 20, 38, 39, 1_000]);
            return format!("{sign}{}{}", rng.pick(&["1", "9", "2"]), "0".repeat(digits));
        }
    };
    let sign = if rng.one_in(2) { -1 } else { 1 };
    written(rng, field, sign * size)
}

/// A sheet with some bytes changed, taken out or put in.
pub fn damaged(rng: &mut Rng, mut sheet: Vec<u8>) -> Vec<u8> {
    const BYTES: &[u8] = b"0123456789-.,\n\n,.-+ \re\0/:;\xff";
    for _ in 0..1 + rng.below(3) {
        let at = rng.below(sheet.len() + 1);
        match rng.below(4) {
            0 => sheet.insert(at, rng.pick(BYTES)),
            1 if at < sheet.len() => drop(sheet.remove(at)),
            2 if at < sheet.len() => sheet[at] = rng.pick(BYTES),
            3 if rng.one_in(4) => sheet.truncate(at),
            _ => {}
        }
    }
    sheet
}
