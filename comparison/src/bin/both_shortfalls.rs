//! Prints what both judges answer for the shortfalls of the hours on standard input, for tests/stored_shortfalls.
//!
//! Each line of the input has an hour: its name, the size of its output in numbers, and the case and the proposal as
//! hexadecimal digits, or a dash for an empty one. For each judge it prints two lines:
//!
//! - the name, the judge, and the line that crates/prog_records prints;
//! - the name, the judge, `written`, and the numbers of the output that were changed, from the first on.

use comparison::library;
use comparison::records::{numbers_words, shortfall_line};
use comparison::stored_lines::{bytes, of_each, written};
use second_judge::OutputAnswer;

fn main() -> std::io::Result<()> {
    of_each("hour", |[room, case, proposal]| {
        let (room, case, proposal) = (room.parse().ok()?, bytes(case)?, bytes(proposal)?);
        Some([
            said_of(room, |out| library::shortfalls(&case, &proposal, out, false)),
            said_of(room, |out| second_judge::shortfalls(&case, &proposal, out)),
        ])
    })
}

fn said_of(room: usize, entry: impl Fn(&mut [i64]) -> OutputAnswer) -> Vec<String> {
    let (answer, out, count) = written(room, [0, -1], entry);
    let numbers = &out[..(answer.length as usize).min(room)];
    vec![shortfall_line(answer, numbers), format!("written{}", numbers_words(&out[..count]))]
}
