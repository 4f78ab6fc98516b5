//! Feeds both judges the same input, compares everything that they leave, and counts.

use crate::checks::desk::Desk;
use crate::checks::places::PLACES;
use crate::difference::{self, hex, Files};
use crate::lent::{Left, Lent};
use crate::library;
use crate::numbers::{Reach, COUNTED};
use crate::progress::Progress;
use crate::table::Entry;
use second_judge::{judge, Verdict};
use std::path::PathBuf;
use wrong_builds::judgement::BUILDS;

/// The longest buffer that is lent.
const MOST_LENT: usize = 256;
/// The wrong builds run on one input out of this many.
const WRONG_EVERY: u64 = 6;
/// Disagreements shown in full for each check.
const SHOWN: u64 = 3;

/// A named check and how it went.
pub struct Check {
    pub section: &'static str,
    pub name: String,
    pub passed: bool,
    pub note: String,
}

/// How often a wrong build differed from the library, on the paper's hours and on made ones.
#[derive(Clone, Copy, Default)]
pub struct Found {
    pub of_paper: u64,
    pub made: u64,
}

/// A total above this fills most of its 64 bits.
const LARGE: i64 = 1_000_000_000_000_000_000;
/// The most that can be owed: every link fully contracted, across all prices.
const MOST_OWED: i64 = 64 * 100_000 * 450_000 * 100_000;

/// What a good stream of inputs must contain, counted.
pub const MET: [&str; 25] = [
    "accepted with gap zero",
    "accepted, gap at the tolerance",
    "refused, gap a microcent over",
    "refused, gap under a cent over",
    "accepted with a negative RAM",
    "accepted with a negative rent",
    "accepted with sixteen zones",
    "accepted with some LTA flow",
    "welfare above 10^18",
    "welfare below -10^18",
    "bound above 10^18",
    "gap above 10^18",
    "rent above 10^18",
    "rent below -10^18",
    "owed 288 * 10^15, its most",
    "version 2: all contracted",
    "version 2: nothing contracted",
    "version 2: less owed",
    "less owed, accepted at gap zero",
    "less owed, links' total in bound",
    "accepted without links",
    "no links: negative branch total",
    "no links: accepted, bound < 0",
    "no links: bound below -10^18",
    "no links: rent below owed - gap",
];

pub struct Run {
    pub checks: Vec<Check>,
    pub verdicts: [u64; COUNTED],
    /// The verdicts on cases of version 2.
    pub verdicts_on_two: [u64; COUNTED],
    /// Cases of version 1, of version 2, and of none.
    pub versions: [u64; 3],
    pub second_wrong: [Found; BUILDS.len()],
    pub second_wrong_tried: u64,
    pub met: [u64; MET.len()],
    pub places: [u64; PLACES.len()],
    pub inputs: u64,
    /// Inputs are the paper's hours, not the generator's.
    pub of_paper: bool,
    pub desk: Desk,
    /// Answers of the order book's entry, by number.
    pub books: [u64; COUNTED],
    /// The rows of the closing table.
    pub entries: Vec<Entry>,
    pub progress: Progress,
    /// Where the first difference will be written; none once it is.
    difference_folder: Option<PathBuf>,

    section: &'static str,
    kind: String,
    kind_inputs: u64,
    kind_faults: u64,
    verdict: Verdict,
    buffer: Vec<u8>,
    copies: (Vec<u8>, Vec<u8>),
}

impl Run {
    pub fn new(seed: u64, progress: Progress, difference_folder: Option<PathBuf>) -> Run {
        Run {
            checks: Vec::new(),
            verdicts: [0; COUNTED],
            verdicts_on_two: [0; COUNTED],
            versions: [0; 3],
            second_wrong: [Found::default(); BUILDS.len()],
            second_wrong_tried: 0,
            met: [0; MET.len()],
            places: [0; PLACES.len()],
            inputs: 0,
            of_paper: false,
            desk: Desk::new(seed),
            books: [0; COUNTED],
            entries: Vec::new(),
            progress,
            difference_folder,
            section: "",
            kind: String::new(),
            kind_inputs: 0,
            kind_faults: 0,
            verdict: Verdict { number: 0, index: 0 },
            buffer: Vec::new(),
            copies: Default::default(),
        }
    }

    /// Opens a part of the table.
    pub fn section(&mut self, name: &'static str) {
        self.section = name;
    }

    /// Opens a check; everything fed until `end` belongs to it.
    pub fn begin(&mut self, name: &str) {
        self.kind = name.to_string();
        self.kind_inputs = 0;
        self.kind_faults = 0;
    }

    /// Inputs of the check that is open.
    pub fn fed(&self) -> u64 {
        self.kind_inputs
    }

    /// Closes the check.
    pub fn end(&mut self) {
        let name = std::mem::take(&mut self.kind);
        self.check_inputs(name, self.kind_inputs, self.kind_faults);
    }

    /// A check that passes if something was fed and nothing was wrong.
    pub fn check_inputs(&mut self, name: String, inputs: u64, faults: u64) {
        let note = match faults {
            0 => format!("{inputs}"),
            _ => format!("{inputs}, {faults} amiss"),
        };
        self.check(name, inputs > 0 && faults == 0, note);
    }

    pub fn check(&mut self, name: String, passed: bool, note: String) {
        self.checks.push(Check { section: self.section, name, passed, note });
    }

    /// A check that something was met at least this many times.
    pub fn check_times(&mut self, name: String, times: u64, least: u64) {
        self.check(name, times >= least, format!("{times}"));
    }

    /// A check for each number that an entry must reach, by how often it was answered, and one that it answers no
    /// other.
    pub fn check_numbers(&mut self, reach: &Reach, times: &[u64]) {
        for number in &reach.numbers {
            self.check_times(format!("{number}"), times[*number as usize], reach.times);
        }
        let reached: u64 = reach.numbers.iter().map(|number| times[*number as usize]).sum();
        let others = times.iter().sum::<u64>() - reached;
        self.check("others".into(), others == 0, format!("{others}"));
    }

    /// A row of the closing table.
    pub fn entry(&mut self, name: &'static str, inputs: u64, reached: &[(&Reach, &[u64])], told: &[u64]) {
        self.entries.push(Entry::new(name, inputs, reached, told));
    }

    /// A check for each name that it was met.
    pub fn check_met(&mut self, names: &[&str], times: &[u64]) {
        for (name, times) in names.iter().zip(times) {
            self.check_times(name.to_string(), *times, 1);
        }
    }

    /// A check for each wrong build that some input distinguished it from the library.
    pub fn check_told<B>(&mut self, builds: &[(B, &str)], times: &[u64], inputs: u64) {
        for ((_, name), times) in builds.iter().zip(times) {
            self.check(name.to_string(), *times > 0, format!("{times} of {inputs}"));
        }
    }

    /// Counts an input that is compared elsewhere.
    pub fn count(&mut self) {
        self.kind_inputs += 1;
        self.progress.tick(&self.kind);
    }

    /// Something is wrong that no file shows.
    pub fn fault(&mut self, text: impl FnOnce() -> String) {
        self.fault_in(&[], text);
    }

    /// Something is wrong with an input of these files.
    pub fn fault_in(&mut self, files: &Files, text: impl FnOnce() -> String) {
        self.kind_faults += 1;
        if self.kind_faults > SHOWN && self.difference_folder.is_none() {
            return;
        }
        let text = format!("amiss in {}, input {}: {}", self.kind, self.kind_inputs, text());
        self.progress.clear();
        println!("{text}{}", hex(files));
        self.write_difference(files, &text);
    }

    /// The first difference of a run is written as files; later ones are only shown.
    pub fn write_difference(&mut self, files: &Files, text: &str) {
        let Some(folder) = self.difference_folder.take() else { return };
        match difference::write(&folder, files, text) {
            Ok(command) => println!("written: {command}"),
            Err(fault) => println!("{} is not written: {fault}", folder.display()),
        }
    }

    /// The folder for the first difference, if there was none yet.
    pub fn into_difference_folder(self) -> Option<PathBuf> {
        self.difference_folder
    }

    /// Gives both judges this input and a buffer of this length.
    pub fn feed(&mut self, case: &[u8], proposal: &[u8], lent: usize) -> Verdict {
        self.feed_as(case, proposal, lent, false)
    }

    /// Like `feed`, with null pointers for empty slices.
    pub fn feed_null(&mut self, case: &[u8], proposal: &[u8], lent: usize) -> Verdict {
        self.feed_as(case, proposal, lent, true)
    }

    fn feed_as(&mut self, case: &[u8], proposal: &[u8], lent: usize, null: bool) -> Verdict {
        self.inputs += 1;
        self.count();
        // Files must not be written: a copy is kept to compare.
        self.copies.0.clear();
        self.copies.0.extend(case);
        self.copies.1.clear();
        self.copies.1.extend(proposal);

        let lent = Lent::bytes(MOST_LENT, self.inputs).only(lent);
        let theirs = lent.to(|report| library::judge_as(case, proposal, report, null));
        let ours = lent.to(|report| judge(case, proposal, report));
        self.verdict = ours.answer;
        self.buffer = ours.room().to_vec();
        if let Some(text) = theirs.unlike(&ours) {
            self.fault_in(&[("case", case), ("proposal", proposal)], || text);
        }
        if self.copies.0 != case || self.copies.1 != proposal {
            self.fault(|| "a file was written".into());
        }

        self.verdicts[self.verdict.number as usize] += 1;
        match case.get(3..5) {
            Some([1, 0]) => self.versions[0] += 1,
            Some([2, 0]) => {
                self.versions[1] += 1;
                self.verdicts_on_two[self.verdict.number as usize] += 1;
            }
            _ => self.versions[2] += 1,
        }
        for (times, place) in self.places.iter_mut().zip(PLACES) {
            *times += u64::from(place == (self.verdict.number, self.verdict.index));
        }
        self.meet(case, proposal);
        if self.of_paper || self.inputs.is_multiple_of(WRONG_EVERY) {
            self.try_second_wrong(case, proposal, &lent, &theirs);
        }
        if let Some((input, text)) = self.desk.feed(case, proposal) {
            self.progress.clear();
            println!("{text}");
            self.write_difference(&[("joined", &input)], &text);
        }
        self.verdict
    }

    /// The last input must have had this verdict.
    pub fn expect(&mut self, number: u32, index: u32) {
        let verdict = self.verdict;
        if verdict != (Verdict { number, index }) {
            self.fault_in_last(|| format!("{verdict:?} where {number} {index} is due"));
        }
    }

    /// This number of the last report must have this value.
    pub fn expect_total(&mut self, n: usize, value: i64) {
        let reported = self.total(n);
        if reported != value {
            self.fault_in_last(|| format!("total {n} is {reported} where {value} is due"));
        }
    }

    /// Something is wrong with the last input of the judgement.
    pub fn fault_in_last(&mut self, text: impl FnOnce() -> String) {
        let (case, proposal) = self.copies.clone();
        self.fault_in(&[("case", &case), ("proposal", &proposal)], text);
    }

    /// A number of the last report: five totals, then the zone prices.
    pub fn total(&self, n: usize) -> i64 {
        let at = 8 + 8 * n;
        i64::from_le_bytes(self.buffer[at..at + 8].try_into().expect("eight bytes"))
    }

    fn meet(&mut self, case: &[u8], proposal: &[u8]) {
        let number = self.verdict.number;
        if number != 0 && number != 26 {
            return;
        }
        let u32_at = |file: &[u8], at| u32::from_le_bytes(file[at..at + 4].try_into().expect("four"));
        let zones = usize::from(case[5]);
        let (branches, links) = (usize::from(case[6]), usize::from(case[7]));
        let orders = usize::from(case[8]) + 256 * usize::from(case[9]);
        let [welfare, bound, gap, rent, owed] = [0, 1, 2, 3, 4].map(|n| self.total(n));
        let tolerance = i64::from(u32_at(case, 10)) * 1_000_000;
        let negative = |b: usize| (u32_at(case, 14 + b * (4 + 4 * zones)) as i32) < 0;
        let flow = |l: usize| u32_at(proposal, 13 + 4 * (orders + l));
        let accepted = number == 0;
        let ram = |b: usize| i64::from(u32_at(case, 14 + b * (4 + 4 * zones)) as i32);
        let shadow = |b: usize| i64::from(u32_at(proposal, 13 + 4 * (orders + links + b)));
        let branch_total: i64 = (0..branches).map(|b| 100_000 * ram(b) * shadow(b)).sum();
        let two = case[3] == 2;
        let link_at = |l| 14 + branches * (4 + 4 * zones) + l * if two { 10 } else { 6 };
        let capacity = |l: usize| i64::from(u32_at(case, link_at(l) + 2));
        let contracted = |l: usize| i64::from(u32_at(case, link_at(l) + if two { 6 } else { 2 }));
        let price = |zone: u8| self.total(5 + usize::from(zone));
        let spread = |l: usize| price(case[link_at(l) + 1]) - price(case[link_at(l)]);
        let link_total: i64 = (0..links).map(|l| capacity(l) * spread(l).max(0)).sum();
        let less = two && owed < link_total;
        let offered = two && (0..links).any(|l| capacity(l) > 0);
        // The coverage rule holds by capacities too; it speaks of hours with a link (S-6).
        let uncovered = rent < owed - gap || rent < link_total - gap;
        if links > 0 && uncovered {
            self.fault_in_last(|| format!("rent {rent} does not cover {owed} or {link_total} less {gap}"));
        }
        if gap < 0 {
            self.fault_in_last(|| format!("a gap of {gap}"));
        }
        let alone = links == 0;
        let met = [
            accepted && gap == 0,
            accepted && gap == tolerance && gap > 0,
            !accepted && gap - tolerance == 1,
            !accepted && gap - tolerance < 1_000_000,
            accepted && (0..branches).any(negative),
            accepted && rent < 0,
            accepted && zones == 16,
            accepted && (0..links).any(|l| flow(l) > 0),
            welfare > LARGE,
            welfare < -LARGE,
            bound > LARGE,
            gap > LARGE,
            rent > LARGE,
            rent < -LARGE,
            owed == MOST_OWED,
            accepted && offered && (0..links).all(|l| contracted(l) == capacity(l)),
            accepted && offered && (0..links).all(|l| contracted(l) == 0),
            accepted && less,
            accepted && less && gap == 0,
            accepted && less && link_total > branch_total,
            accepted && alone,
            accepted && alone && branch_total < 0,
            accepted && alone && bound < 0,
            accepted && alone && bound < -LARGE,
            accepted && alone && uncovered,
        ];
        count_met(&mut self.met, &met);
    }

    /// Each wrong build in place of the papers: whether its answer or its buffer differs from the library's.
    fn try_second_wrong(&mut self, case: &[u8], proposal: &[u8], lent: &Lent<u8>, library: &Left<Verdict, u8>) {
        self.second_wrong_tried += u64::from(!self.of_paper);
        for (found, (build, _)) in self.second_wrong.iter_mut().zip(BUILDS) {
            let wrong = lent.to(|report| build(case, proposal, report));
            if wrong != *library {
                *(if self.of_paper { &mut found.of_paper } else { &mut found.made }) += 1;
            }
        }
    }
}

/// Counts what one input met.
pub fn count_met(counts: &mut [u64], met: &[bool]) {
    for (count, met) in counts.iter_mut().zip(met) {
        *count += u64::from(*met);
    }
}
