//! The desk's lines of both judges, over every input of the judgement.

use crate::lent::Lent;
use crate::library;
use crate::numbers::{COUNTED, DESK};
use crate::rng::Rng;
use crate::run::Run;
use second_judge::limits::LEAST_OUTPUT;
use second_judge::{desk_output, OutputAnswer};

/// Outputs are longer than required by at most this many bytes.
const MORE: usize = 64;

/// What was done to the joined files or to the output.
const NAMES: [&str; 5] = [
    "joined files",
    "joined files cut short",
    "joined files made longer",
    "output a byte too short",
    "output too short",
];

pub struct Desk {
    inputs: [u64; NAMES.len()],
    faults: [u64; NAMES.len()],
    numbers: [u64; COUNTED],
    rng: Rng,
    joined: Vec<u8>,
}

impl Desk {
    pub fn new(seed: u64) -> Desk {
        let counts = [0; NAMES.len()];
        Desk { inputs: counts, faults: counts, numbers: [0; COUNTED], rng: Rng::new(seed), joined: Vec::new() }
    }

    /// Feeds the files of an hour, joined; returns the first input of each kind that differs, with the difference.
    pub fn feed(&mut self, case: &[u8], proposal: &[u8]) -> Option<(Vec<u8>, String)> {
        let mut joined = std::mem::take(&mut self.joined);
        joined.clear();
        joined.extend(case);
        joined.extend(proposal);
        let room = LEAST_OUTPUT + self.rng.below(MORE + 1);
        let mut differs = self.compare(0, &joined, room).map(|text| (joined.clone(), text));
        let further = match self.rng.below(8) {
            0 => {
                joined.truncate(self.rng.below(joined.len() + 1));
                self.compare(1, &joined, LEAST_OUTPUT)
            }
            1 => {
                for _ in 0..1 + self.rng.below(20) {
                    joined.push(self.rng.draw() as u8);
                }
                self.compare(2, &joined, LEAST_OUTPUT)
            }
            2 => self.compare(3, &joined, LEAST_OUTPUT - 1),
            3 => {
                let room = self.rng.below(LEAST_OUTPUT);
                self.compare(4, &joined, room)
            }
            _ => None,
        };
        if let Some(text) = further {
            differs.get_or_insert((joined.clone(), text));
        }
        self.joined = joined;
        differs
    }

    /// Gives both judges this input and this much room.
    fn compare(&mut self, kind: usize, input: &[u8], room: usize) -> Option<String> {
        self.inputs[kind] += 1;
        let lent = Lent::bytes(LEAST_OUTPUT + MORE, self.rng.draw()).only(room);
        let theirs = lent.to(|out| library::desk_lines(input, out));
        let ours = lent.to(|out| desk_output(input, out));
        self.numbers[ours.answer.number as usize] += 1;
        let text = theirs.unlike(&ours)?;
        self.faults[kind] += 1;
        (self.faults[kind] == 1).then(|| {
            let shown = [(&theirs, "library"), (&ours, "second judge")]
                .map(|(left, name)| format!("\n{name}:\n{}", shown(left.room(), left.answer)));
            format!("amiss in the desk lines, {}, room {room}: {text}{}", NAMES[kind], shown.concat())
        })
    }
}

/// The bytes that an answer says it wrote.
fn shown(out: &[u8], answer: OutputAnswer) -> String {
    let length = out.len().min(answer.length as usize);
    String::from_utf8_lossy(&out[..length]).into()
}

/// Closes the checks of the desk's lines.
pub fn end(run: &mut Run) {
    run.section("desk lines");
    for (kind, name) in NAMES.iter().enumerate() {
        let (inputs, faults) = (run.desk.inputs[kind], run.desk.faults[kind]);
        run.check_inputs(name.to_string(), inputs, faults);
    }
    three_zone_lines(run);
    run.section("desk lines, numbers, times met");
    let numbers = run.desk.numbers;
    run.check_numbers(&DESK, &numbers);
}

/// The row of the closing table, for whatever part of the run was done.
pub fn entry(run: &mut Run) {
    let (inputs, numbers) = (run.desk.inputs.iter().sum(), run.desk.numbers);
    run.entry("lta_desk_lines", inputs, &[(&DESK, &numbers)], &[]);
}

/// The nine lines of P1, which the paper gives.
fn three_zone_lines(run: &mut Run) {
    run.begin("the nine lines of P1");
    let hour = paper_hours::three_zone_hour();
    let mut lines = [0x5A; LEAST_OUTPUT];
    let answer = library::desk_lines(&[hour.case(), hour.proposal()].concat(), &mut lines);
    let due = "verdict 0 0\nwelfare 22125.00000000\nbound 22125.00000000\ngap 0.00000000\n\
        rent 17500.00000000\nowed 17500.00000000\nprice 0 20.0000000\nprice 1 63.7500000\n\
        price 2 50.0000000\n";
    run.count();
    let good = OutputAnswer { number: 0, index: 0, length: due.len() as u64 };
    if answer != good || &lines[..due.len()] != due.as_bytes() {
        run.fault(|| format!("{answer:?}\n{}", shown(&lines, answer)));
    }
    run.end();
}
