//! Prints what both judges answer for the dumps on standard input, for tests/stored_dumps.
//!
//! Each line of the input has a dump: its name, the size of its output in bytes, and the case and the dump as
//! hexadecimal digits. For each judge it prints two lines:
//!
//! - the name, the judge, and the line that crates/prog_records prints;
//! - the name, the judge, `written`, and the bytes of the output that were changed, from the first on.

use comparison::library;
use comparison::records::dump_line;
use comparison::stored_lines::{bytes, hex, of_each, written};
use second_judge::limits::LEAST_BUFFER;
use second_judge::{OutputAnswer, Verdict};

fn main() -> std::io::Result<()> {
    of_each("dump", |[room, case, dump]| {
        let (room, case, dump) = (room.parse().ok()?, bytes(case)?, bytes(dump)?);
        Some([library_says(&case, &dump, room), second_says(&case, &dump, room)])
    })
}

fn library_says(case: &[u8], dump: &[u8], room: usize) -> Vec<String> {
    said_of(
        room,
        |out| library::dump_proposal(case, dump, out, false),
        |proposal| library::judge(case, proposal, &mut [0; LEAST_BUFFER]),
    )
}

fn second_says(case: &[u8], dump: &[u8], room: usize) -> Vec<String> {
    said_of(
        room,
        |out| second_judge::dump_proposal(case, dump, out),
        |proposal| second_judge::judge(case, proposal, &mut [0; LEAST_BUFFER]),
    )
}

fn said_of(room: usize, convert: impl Fn(&mut [u8]) -> OutputAnswer, judge: impl Fn(&[u8]) -> Verdict) -> Vec<String> {
    let (answer, out, count) = written(room, [0, 0xFF], convert);
    let judged = (answer.number == 0).then(|| judge(&out[..answer.length as usize]).number);
    vec![dump_line(answer, judged), format!("written {}", hex(&out[..count]))]
}
