//! The margin sheet's entry against a plain C parser of the same grammar.

use crate::{heading_against, measure, print, Times};
use comparison::library;
use second_judge::{sheet_branches, OutputAnswer};
use std::fmt::Write;
use std::hint::black_box;

extern "C" {
    fn plain_sheet_branches(
        sheet: *const u8,
        sheet_len: usize,
        zones: usize,
        out: *mut u8,
        out_len: usize,
    ) -> lta_sys::Written;
}

const MOST_ZONES: usize = 16;
const MOST_LINES: usize = 64;
const ROOM: usize = 4 * (MOST_ZONES + 1) * MOST_LINES;

fn plain(sheet: &[u8], zones: usize, out: &mut [u8]) -> OutputAnswer {
    // Safe: each pointer comes with the length of its own slice.
    let written = unsafe { plain_sheet_branches(sheet.as_ptr(), sheet.len(), zones, out.as_mut_ptr(), out.len()) };
    OutputAnswer { number: written.number, index: written.index, length: written.length }
}

/// A sheet as operators publish it, every number with all its decimals.
fn published(zones: usize, lines: usize) -> String {
    let mut sheet = String::new();
    for l in 0..lines {
        let tenths = 1_000 + l * 7_919 % 90_000;
        write!(sheet, "{}.{}", tenths / 10, tenths % 10).expect("a string takes every write");
        for z in 0..zones {
            let sign = if (l + z) % 3 == 0 { "-" } else { "" };
            let ptdf = (l * 7_717 + z * 31_337) % 120_000;
            write!(sheet, ",{sign}{}.{:05}", ptdf / 100_000, ptdf % 100_000).expect("a string takes every write");
        }
        sheet.push('\n');
    }
    sheet
}

/// Measures a sheet; all three must give the same answer.
fn of(sheet: &str, zones: usize, number: u32) -> Times {
    let sheet = sheet.as_bytes();
    let (mut one, mut other, mut due) = ([0; ROOM], [0; ROOM], [0; ROOM]);
    let answer = sheet_branches(sheet, zones, &mut due);
    assert_eq!(answer.number, number, "the second judge");
    let proved = library::sheet_branches(sheet, zones, &mut one, false);
    assert_eq!((proved, one), (answer, due), "the library");
    let in_c = plain(sheet, zones, &mut other);
    assert_eq!((in_c, other), (answer, due), "plain C");
    measure(
        || {
            let out = black_box(&mut one);
            black_box(library::sheet_branches(black_box(sheet), zones, out, false));
        },
        || {
            black_box(plain(black_box(sheet), zones, black_box(&mut other)));
        },
    )
}

pub fn sheets() {
    heading_against("margin sheet, against plain C", "C ns");
    let largest = published(MOST_ZONES, MOST_LINES);
    print("64 lines of 16 zones", &of(&largest, MOST_ZONES, 0));
    print("3 lines of 3 zones", &of(&published(3, 3), 3, 0));
    let zeros = "000000000000,0.000000000000\n".repeat(MOST_LINES);
    print("64 lines of 1 zone, many zeros", &of(&zeros, 1, 0));
    let (head, _) = largest.rsplit_once(',').expect("a line has commas");
    for (field, number) in [("x", 51), ("0.000001", 52), ("3", 53)] {
        let name = format!("64 of 16, refused at the last field ({number})");
        print(&name, &of(&format!("{head},{field}\n"), MOST_ZONES, number));
    }
}
