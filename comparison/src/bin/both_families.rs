//! What both judges answer for the hours with families on standard input, for tests/stored_families.
//!
//! An hour is a line: its name, its case, its proposal and its family list, all in hexadecimal digits. For each
//! judge a line is printed: the name, the judge and the line that crates/prog_records prints.

use comparison::library;
use comparison::records::families_line;
use comparison::stored_lines::{bytes, of_each};
use second_judge::limits::LEAST_BUFFER;
use second_judge::Verdict;

fn main() -> std::io::Result<()> {
    of_each("hour with families", |[case, proposal, list]| {
        let (case, proposal, list) = (bytes(case)?, bytes(proposal)?, bytes(list)?);
        Some([library_says(&case, &proposal, &list), second_says(&case, &proposal, &list)])
    })
}

fn library_says(case: &[u8], proposal: &[u8], list: &[u8]) -> Vec<String> {
    said_of(
        |report| library::judge_families(case, proposal, list, report, false),
        |report| library::judge(case, proposal, report),
    )
}

fn second_says(case: &[u8], proposal: &[u8], list: &[u8]) -> Vec<String> {
    said_of(
        |report| second_judge::judge_families(case, proposal, list, report),
        |report| second_judge::judge(case, proposal, report),
    )
}

/// A report written with the list must be the one without it.
fn said_of(with: impl Fn(&mut [u8]) -> Verdict, without: impl Fn(&mut [u8]) -> Verdict) -> Vec<String> {
    let (mut report, mut free_report) = ([0; LEAST_BUFFER], [0; LEAST_BUFFER]);
    let (verdict, free) = (with(&mut report), without(&mut free_report));
    let other = match report == free_report || report == [0; LEAST_BUFFER] {
        true => "",
        false => ", with another report",
    };
    vec![families_line(verdict, &report, free) + other]
}
