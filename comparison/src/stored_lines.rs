//! What the programs share that print both judges' answers for stored hours or dumps.

use second_judge::OutputAnswer;
use std::io::{Error, Write};

/// Reads the lines on standard input, each a name and some fields, and prints the library's answer and the second
/// judge's: the name, the judge, the words.
pub fn of_each<const FIELDS: usize>(
    what: &str,
    said: impl Fn([&str; FIELDS]) -> Option<[Vec<String>; 2]>,
) -> std::io::Result<()> {
    let mut out = std::io::stdout().lock();
    for line in std::io::stdin().lines() {
        let line = line?;
        let mut fields = line.split(' ');
        let name = fields.next().unwrap_or_default();
        let fields: Result<[&str; FIELDS], _> = fields.collect::<Vec<_>>().try_into();
        let both = fields.ok().and_then(&said);
        let both = both.ok_or_else(|| Error::other(format!("a line is no {what}")))?;
        for (judge, lines) in ["library", "second"].into_iter().zip(both) {
            for words in lines {
                writeln!(out, "{name} {judge} {words}")?;
            }
        }
    }
    out.flush()
}

/// The bytes of pairs of hexadecimal digits; a dash means none.
pub fn bytes(digits: &str) -> Option<Vec<u8>> {
    if digits == "-" {
        return Some(Vec::new());
    }
    digits.as_bytes().chunks(2).map(|pair| u8::from_str_radix(std::str::from_utf8(pair).ok()?, 16).ok()).collect()
}

pub fn hex(bytes: &[u8]) -> String {
    bytes.iter().map(|byte| format!("{byte:02x}")).collect()
}

/// An entry's answer, its output, and how much of it was written: up to the last number that changed in one of two
/// outputs with different fills.
pub fn written<T: Copy + PartialEq>(
    room: usize,
    fills: [T; 2],
    entry: impl Fn(&mut [T]) -> OutputAnswer,
) -> (OutputAnswer, Vec<T>, usize) {
    let [mut one, mut other] = fills.map(|fill| vec![fill; room]);
    let answer = entry(&mut one);
    entry(&mut other);
    let changed = |n: &usize| one[*n] != fills[0] || other[*n] != fills[1];
    let count = (0..room).rev().find(changed).map_or(0, |last| last + 1);
    (answer, one, count)
}
