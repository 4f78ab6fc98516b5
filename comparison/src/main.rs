//! Compares the proved judge's library with the second judge over made inputs.
//!
//! The wrong builds here are the second judge's, from the crate wrong_builds: the inputs must distinguish each of
//! them from the library. Wrong builds of the proved judge are the edits in crates/NAME/must-fail; the prover
//! refuses them.

use comparison::checks::*;
use comparison::numbers::JUDGE;
use comparison::progress::Progress;
use comparison::rng::Rng;
use comparison::run::{Run, MET};
use comparison::table::{add, print_checks, print_entries};
use std::path::PathBuf;
use std::process::ExitCode;
use wrong_builds::judgement::BUILDS;

const USAGE: &str = "usage: comparison [--seed S] [--inputs N] [--seconds N] [--rounds N] [--files FOLDER]

  --seed S        the first seed, 1
  --inputs N      made inputs for the judgement, 260000
  --seconds N     a long run: further rounds, each with the next seed, until so many seconds are over
  --rounds N      ends a long run after so many rounds, if the time is not over before
  --files FOLDER  where the first difference is written, target/comparison, for lta explain";

struct Options {
    seed: u64,
    inputs: u64,
    seconds: Option<u64>,
    rounds: u64,
    files: PathBuf,
}

fn options() -> Option<Options> {
    let files = PathBuf::from("target/comparison");
    let mut options = Options { seed: 1, inputs: 260_000, seconds: None, rounds: u64::MAX, files };
    let mut arguments = std::env::args_os().skip(1);
    while let Some(name) = arguments.next() {
        let value = arguments.next()?;
        let number = || value.to_str()?.parse().ok();
        match name.to_str()? {
            "--seed" => options.seed = number()?,
            "--inputs" => options.inputs = number()?,
            "--seconds" => options.seconds = Some(number()?),
            "--rounds" => options.rounds = number()?,
            "--files" => options.files = value.into(),
            _ => return None,
        }
    }
    Some(options)
}

fn main() -> ExitCode {
    let Some(Options { seed, inputs, seconds, rounds, files }) = options() else {
        eprintln!("{USAGE}");
        return ExitCode::from(2);
    };
    println!("seed {seed}");
    let (mut entries, mut checks, mut faults) = (Vec::new(), Vec::new(), 0);
    let mut progress = Progress::new(seconds);
    let mut difference_folder = Some(files);
    loop {
        let round_seed = seed.wrapping_add(progress.round() - 1);
        let mut run = Run::new(round_seed, progress, difference_folder);
        let whole = round(&mut run, round_seed, inputs);
        first_entries(&mut run);
        run.progress.clear();
        add(&mut entries, &run.entries);
        // A further round prints its failures only.
        faults += run.checks.iter().filter(|check| !check.passed).count();
        if run.progress.round() > 1 {
            let failed = run.checks.iter().filter(|check| !check.passed);
            failed.for_each(|check| println!("seed {round_seed}: {}, {}: FAILED", check.section, check.name));
        } else {
            print_checks(&run.checks);
        }
        checks.append(&mut run.checks);
        let over = seconds.is_none() || !whole || run.progress.time_is_over() || run.progress.round() >= rounds;
        progress = std::mem::replace(&mut run.progress, Progress::new(None));
        difference_folder = run.into_difference_folder();
        if over {
            break;
        }
        progress = progress.next_round();
    }
    print_entries(&entries);
    let done = match progress.round() {
        1 => String::new(),
        rounds => format!(", {rounds} rounds"),
    };
    println!("{:.1} s{done}", progress.elapsed().as_secs_f64());
    println!("{} passed, {faults} failed", checks.len() - faults);
    match faults {
        0 => ExitCode::SUCCESS,
        _ => ExitCode::FAILURE,
    }
}

/// Every part has its own source of random numbers, so that none depends on the one before.
const PARTS: [fn(&mut Run, &mut Rng); 19] = [
    |run, _| inputs::widest_totals(run),
    inputs::buffer_lengths,
    |run, _| inputs::null_pointers(run),
    places::made,
    offsets::offsets,
    |run, _| versions::halves(run),
    versions::laws,
    no_links::hours,
    wide::hours,
    rearranged::hours,
    |run, _| desk::end(run),
    book::books,
    sheet::sheets,
    intuitive::exchanges,
    dump::dumps,
    columns::files,
    families::lists,
    shortfalls::hours,
    queue::queues,
];

/// One round; whether it ended before the time was over.
fn round(run: &mut Run, seed: u64, inputs: u64) -> bool {
    run.section("the paper's hours");
    inputs::paper_hours(run);
    run.section("made inputs");
    for (n, (name, hundredths, feed)) in inputs::KINDS.iter().enumerate() {
        let mut rng = Rng::new(seed.wrapping_mul(1_000).wrapping_add(n as u64));
        run.begin(name);
        while run.fed() < inputs * hundredths / 100 {
            feed(run, &mut rng);
        }
        run.end();
        if run.progress.time_is_over() {
            return false;
        }
    }
    for part in PARTS {
        part(run, &mut Rng::new(seed));
        if run.progress.time_is_over() {
            return false;
        }
    }
    judgement(run);
    true
}

/// What all inputs of the judgement met.
fn judgement(run: &mut Run) {
    run.section("verdicts, times met");
    let verdicts = run.verdicts;
    run.check_numbers(&JUDGE, &verdicts);
    places::named(run);
    versions::counted(run);
    run.section("met, times");
    let met = run.met;
    run.check_met(&MET, &met);
    run.section("wrong builds, times told from the library");
    let found = run.second_wrong;
    for ((_, name), found) in BUILDS.iter().zip(found) {
        let note = format!("{} of the paper, {} of {} made", found.of_paper, found.made, run.second_wrong_tried);
        run.check(name.to_string(), found.made > 0, note);
    }
}

/// The judgement's and the desk's rows of the table, first: each input of the one is one of the other.
fn first_entries(run: &mut Run) {
    let (verdicts, told) = (run.verdicts, run.second_wrong.map(|found| found.made));
    run.entry("lta_judge", run.inputs, &[(&JUDGE, &verdicts)], &told);
    desk::entry(run);
    run.entries.rotate_right(2);
}
