//! Wrong builds of a margin sheet do what their names say.

use second_judge::{MarginSheet, OutputAnswer};
use wrong_builds::sheet::*;

const ROOM: usize = 64 * 68;
const FILL: u8 = 0xA5;

/// The answer of a build in this much room, and the numbers written. The bytes past them must be unchanged.
fn read_in(room: usize, build: impl MarginSheet, sheet: &[u8], zones: usize) -> (OutputAnswer, Vec<i32>) {
    let mut out = vec![FILL; room];
    let answer = build.sheet_branches(sheet, zones, &mut out);
    let (written, rest) = out.split_at(answer.length as usize);
    assert!(rest.iter().all(|byte| *byte == FILL), "{answer:?}");
    let numbers = written.chunks_exact(4).map(|bytes| i32::from_le_bytes(bytes.try_into().unwrap())).collect();
    (answer, numbers)
}

#[test]
fn wrong_builds_do_what_is_said_of_them() {
    assert_eq!(wrong(SignNotTurned, "1,1"), (0, 0, vec![10, 100_000]));
    assert_eq!(wrong(MarginTurnedToo, "1,1"), (0, 0, vec![-10, -100_000]));
    assert_eq!(wrong(DecimalsCutOff, "1.29,1"), (0, 0, vec![12, -100_000]));
    assert_eq!(wrong(UnendedLineDropped, "1,1\n2,1"), (0, 0, vec![10, -100_000]));
    assert_eq!(wrong(CausesLineByLine, "1.01,1\n1,x"), (52, 0, vec![]));
    assert_eq!(wrong(LongNumberWrapped, "429496729.7,0"), (0, 0, vec![1, 0]));
    assert_eq!(wrong(LongNumberWrapped, "0,-42949.67297"), (0, 0, vec![0, 1]));
    assert_eq!(wrong(LineTooMany, &"1,1\n".repeat(65)).0, 0);
    assert_eq!(wrong(LineTooMany, &"1,1\n".repeat(66)).0, 54);
}

fn wrong(build: impl MarginSheet, sheet: &str) -> (u32, u64, Vec<i32>) {
    let (answer, numbers) = read_in(ROOM, build, sheet.as_bytes(), 1);
    (answer.number, answer.index, numbers)
}
