//! Margin sheets: lines, numbers, ranges, and the causes in their order.

use second_judge::*;

const ROOM: usize = 64 * 68;
const FILL: u8 = 0xA5;

/// The answer of a build in this much room, and the numbers written. The bytes past them must be unchanged.
fn read_in(room: usize, build: impl MarginSheet, sheet: &[u8], zones: usize) -> (OutputAnswer, Vec<i32>) {
    let mut out = vec![FILL; room];
    let answer = build.sheet_branches(sheet, zones, &mut out);
    let (written, rest) = out.split_at(answer.length as usize);
    assert!(rest.iter().all(|byte| *byte == FILL), "{answer:?}");
    let numbers = written.chunks_exact(4).map(|bytes| i32::from_le_bytes(bytes.try_into().unwrap())).collect();
    (answer, numbers)
}

fn gives(sheet: &str, zones: usize, numbers: &[i32]) {
    let (answer, written) = read_in(ROOM, Papers, sheet.as_bytes(), zones);
    let due = OutputAnswer { number: 0, index: 0, length: 4 * numbers.len() as u64 };
    assert_eq!((answer, &written[..]), (due, numbers), "{sheet:?}");
}

fn refuses_in(room: usize, sheet: &[u8], zones: usize, number: u32, index: u64) {
    let (answer, _) = read_in(room, Papers, sheet, zones);
    let due = OutputAnswer { number, index, length: 0 };
    let start = String::from_utf8_lossy(&sheet[..sheet.len().min(60)]);
    assert_eq!(answer, due, "{start:?} of {zones} zones");
}

fn refuses(sheet: &str, zones: usize, number: u32, index: u64) {
    refuses_in(ROOM, sheet.as_bytes(), zones, number, index);
}

#[test]
fn three_zone_sheet_is_the_branch_part_of_its_case() {
    let sheet = b"250.0,0,-0.75,-0.5\n1500,1,0,0\n";
    let mut out = [FILL; 40];
    assert_eq!(sheet_branches(sheet, 3, &mut out).length, 32);
    let case = paper_hours::three_zone_hour().case();
    assert_eq!((&out[..32], &out[32..]), (&case[14..46], &[FILL; 8][..]));
}

#[test]
fn newline_ends_a_line_and_the_last_may_lack_it() {
    gives("", 1, &[]);
    gives("1,1", 1, &[10, -100_000]);
    gives("1,1\n", 1, &[10, -100_000]);
    gives("1,1\n2,0", 1, &[10, -100_000, 20, 0]);
    gives("1,1\n2,0\n", 1, &[10, -100_000, 20, 0]);
    refuses("\n", 1, 51, 0);
    refuses("\n1,1\n", 1, 51, 0);
    refuses("1,1\n\n", 1, 51, 1);
    refuses("1,1\n\n2,0", 1, 51, 1);
}

#[test]
fn any_number_of_zeros_before_and_behind_is_taken() {
    let zeros = "0".repeat(1_000);
    gives(&format!("{zeros}7.5{zeros},-{zeros}.00001{zeros}"), 1, &[75, 1]);
    gives(&format!("-{zeros},-{zeros}.{zeros}"), 1, &[0, 0]);
    gives("-0,-0.0", 1, &[0, 0]);
    gives("0.5,0.00009", 1, &[5, -9]);
    gives("-12.3,-1.23456", 1, &[-123, 123_456]);
}

#[test]
fn field_that_is_no_number_is_refused() {
    let broken = "|-|+1|.5|1.|-.5|-1.|--1|1-|1e3|1E3| 1|1 |1\r|1\t|1.2.3|1..2|.|-.|0x1|1_0|NaN|inf\
        |1\0|\u{661}|1\u{2212}|\u{feff}1|1;2|\"1\"|1'0|/|:";
    for field in broken.split('|') {
        refuses(&format!("{field},0"), 1, 51, 0);
        refuses(&format!("0,{field}"), 1, 51, 0);
        refuses(&format!("0,0,0\n1,{field},2"), 2, 51, 1);
    }
    refuses_in(ROOM, b"0,\xff", 1, 51, 0);
    refuses_in(ROOM, b"\xe2\x88,0", 1, 51, 0);
}

#[test]
fn wrong_number_of_fields_is_refused() {
    for sheet in ["0", "0,0,0", "0,0,", ",0,0", "0,,0", ","] {
        refuses(&format!("0,0\n{sheet}\n0,0"), 1, 51, 1);
    }
    gives(&["0"; 17].join(","), 16, &[0; 17]);
    refuses(&["0"; 17].join(","), 15, 51, 0);
    refuses(&["0"; 16].join(","), 16, 51, 0);
}

#[test]
fn decimals_beyond_those_that_count_must_be_zeros() {
    gives("0.10,0.123450", 1, &[1, -12_345]);
    refuses("0.01,0", 1, 52, 0);
    refuses("0.101,0", 1, 52, 0);
    refuses("0,0.000001", 1, 52, 0);
    refuses("0,-0.1234501", 1, 52, 0);
    let zeros = "0".repeat(1_000);
    refuses(&format!("0.{zeros}1,0"), 1, 52, 0);
    // Two decimals are too many for a margin and not for a PTDF.
    gives("0,0.25", 1, &[0, -25_000]);
}

#[test]
fn number_past_its_limit_is_refused_whatever_its_length() {
    gives("50000.0,2.00000\n-50000.0,-2", 1, &[500_000, -200_000, -500_000, 200_000]);
    for line in ["50000.1,0", "-50000.1,0", "100000,0", "0,2.00001", "0,-2.00001", "0,10"] {
        refuses(&format!("0,0\n{line}"), 1, 53, 1);
    }
    let long = "9".repeat(1_000);
    refuses(&format!("{long},0"), 1, 53, 0);
    refuses(&format!("0,-{long}.5"), 1, 53, 0);
    // 2^32 and 2^64 tenths, and the same hundred-thousandths.
    refuses("429496729.6,0", 1, 53, 0);
    refuses("1844674407370955161.6,0", 1, 53, 0);
    refuses("0,42949.67296", 1, 53, 0);
    refuses("0,184467440737095.51616", 1, 53, 0);
}

#[test]
fn zone_count_is_asked_first() {
    for zones in [0, 17, 18, 255, 256, 257, 1 << 32, (1 << 32) + 1, 1 << 62, usize::MAX] {
        refuses("", zones, 50, 0);
        refuses("x", zones, 50, 0);
    }
    gives("", 16, &[]);
}

#[test]
fn line_65_and_a_short_output_are_refused() {
    let of = |lines: usize| "1,1\n".repeat(lines);
    gives(&of(64), 1, &[10, -100_000].repeat(64));
    refuses(&of(65), 1, 54, 0);
    refuses(&(of(64) + "1,1"), 1, 54, 0);
    for room in [0, 1, 7] {
        refuses_in(room, b"1,1\n", 1, 55, 0);
    }
    for room in [8, 9] {
        assert_eq!(read_in(room, Papers, b"1,1\n", 1).1, [10, -100_000]);
    }
    refuses_in(511, of(64).as_bytes(), 1, 55, 0);
    assert_eq!(read_in(0, Papers, b"", 16).0.number, 0);
}

#[test]
fn each_cause_is_asked_of_the_whole_sheet_before_the_next() {
    let (good, form, past, range) = ("1,1", "1,x", "1.01,1", "1,3");
    let of = |lines: &[&str]| lines.join("\n").into_bytes();
    refuses_in(0, &of(&[range, past, good, form, form]), 1, 51, 3);
    refuses_in(0, &of(&[range, good, past, past]), 1, 52, 2);
    refuses_in(0, &of(&[good, range, range]), 1, 53, 1);
    refuses_in(0, &of(&[form]), 17, 50, 0);
    // Over 64 lines loses to 51, 52 and 53 in any line.
    for (bad, number) in [(form, 51), (past, 52), (range, 53)] {
        let mut lines = vec![good; 80];
        lines[79] = bad;
        refuses_in(0, &of(&lines), 1, number, 79);
    }
    refuses_in(0, &of(&[good; 65]), 1, 54, 0);
    // Both in one number.
    refuses("50000.11,0", 1, 52, 0);
    refuses("1,3.000001", 1, 52, 0);
}
