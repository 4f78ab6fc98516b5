//! What both judges answer for the hours on standard input, for tests/stored_hours.
//!
//! An hour is a line: its name, its case and its proposal, both in hexadecimal digits. For each answer a line is
//! printed: the name, the judge, the way and the answer. For two separate files this is the verdict, with the
//! totals of the report in microcents. For joined files it is the desk's lines.

use comparison::library;
use comparison::stored_lines::{bytes, of_each};
use second_judge::limits::{LEAST_BUFFER, LEAST_OUTPUT, REPORT_FIELD, REPORT_HEADER};
use second_judge::Verdict;

const TOTALS: [&str; 5] = ["welfare", "bound", "gap", "rent", "owed"];

fn main() -> std::io::Result<()> {
    of_each("hour", |[case, proposal]| {
        let (case, proposal) = (bytes(case)?, bytes(proposal)?);
        let joined = [&case[..], &proposal].concat();
        Some([
            both_ways(library_apart(&case, &proposal), &library_lines(&joined)),
            both_ways(second_apart(&case, &proposal), &second_judge::desk_lines(&joined)),
        ])
    })
}

fn both_ways(apart: Vec<String>, lines: &[u8]) -> Vec<String> {
    let lines = String::from_utf8_lossy(lines);
    let apart = apart.iter().map(|said| format!("apart {said}"));
    let joined = lines.lines().map(|said| format!("joined {said}"));
    apart.chain(joined).collect()
}

fn library_apart(case: &[u8], proposal: &[u8]) -> Vec<String> {
    let mut report = [0; LEAST_BUFFER];
    let verdict = library::judge(case, proposal, &mut report);
    verdict_and_totals(verdict, &report)
}

fn second_apart(case: &[u8], proposal: &[u8]) -> Vec<String> {
    let mut report = [0; LEAST_BUFFER];
    let verdict = second_judge::judge(case, proposal, &mut report);
    verdict_and_totals(verdict, &report)
}

/// The totals are read from the report if there is one, whatever the number.
fn verdict_and_totals(verdict: Verdict, report: &[u8]) -> Vec<String> {
    let mut said = vec![format!("verdict {} {}", verdict.number, verdict.index)];
    if report.iter().any(|byte| *byte != 0) {
        for (name, field) in TOTALS.iter().zip(report[REPORT_HEADER..].chunks_exact(REPORT_FIELD)) {
            let total = i64::from_le_bytes(field.try_into().expect("eight bytes"));
            said.push(format!("{name} {total}"));
        }
    }
    said
}

fn library_lines(input: &[u8]) -> Vec<u8> {
    let mut out = [0; LEAST_OUTPUT];
    let length = library::desk_lines(input, &mut out).length as usize;
    out[..length].to_vec()
}
