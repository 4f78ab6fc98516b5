//! The entries of S-3 of both judges, over exchanges and over hours. Each input also goes to S-13's entries, whose
//! answers must be those of the wide ones.

use super::intuitive_inputs::*;
use crate::lent::Lent;
use crate::library;
use crate::makers::exchanges::{bytes, Exchange, MOST_EXPORT, MOST_PAIRS, MOST_ZONES, SCRATCH, SMALL_SCRATCH};
use crate::makers::planted::Planted;
use crate::numbers::{COUNTED, HOUR_INTUITIVE, INTUITIVE, LEAST_HOURS, LEAST_INPUTS};
use crate::rng::Rng;
use crate::run::{count_met, Run};
use second_judge::{CarriedAnswer, IntuitiveHours, Papers, ScratchSize};
use wrong_builds::intuitive::{Entries, BUILDS, EQUAL_PRICES, NO_WAY_BACK, SMALL_BUILDS};

/// What a good stream of inputs must contain, counted; first for lta_intuitive, then for lta_hour_intuitive.
const MET: [&str; 22] = [
    "yes",
    "no",
    "yes, nothing to carry",
    "no, nothing carried",
    "no, a part carried",
    "yes, 16 zones and 64 pairs",
    "no, 16 zones and 64 pairs",
    "an equal price decides",
    "a way back is needed",
    "8 * 51,200,000 carried",
    "82 by the sum",
    "82 or 83 at the 16th zone",
    "84 at the first pair",
    "84 at the 64th pair",
    "84 past the 64th pair",
    "84 by a lone byte",
    "hour: yes",
    "hour: no",
    "hour: not accepted, 26",
    "hour: not accepted, another",
    "hour: 84",
    "hour: 85",
];
const OF_AN_HOUR: usize = 16;

/// The arguments of one of the two entries.
#[derive(Clone, Copy)]
pub enum Asked<'a> {
    Positions(&'a [i64], &'a [i64]),
    Hour(&'a [u8], &'a [u8]),
}

impl Asked<'_> {
    fn second(self, size: ScratchSize, pairs: &[u8], scratch: &mut [i64]) -> CarriedAnswer {
        match self {
            Asked::Positions(net, prices) => Papers.intuitive(size, net, prices, pairs, scratch),
            Asked::Hour(case, proposal) => Papers.hour_intuitive(size, case, proposal, pairs, scratch),
        }
    }

    fn wrong(self, build: Entries, size: ScratchSize, pairs: &[u8], scratch: &mut [i64]) -> CarriedAnswer {
        match self {
            Asked::Positions(net, prices) => (build.intuitive)(size, net, prices, pairs, scratch),
            Asked::Hour(case, proposal) => (build.hour_intuitive)(size, case, proposal, pairs, scratch),
        }
    }

    fn library(self, size: ScratchSize, pairs: &[u8], scratch: &mut [i64], null: bool) -> CarriedAnswer {
        match (self, size) {
            (Asked::Positions(net, prices), ScratchSize::Wide) => library::intuitive(net, prices, pairs, scratch, null),
            (Asked::Positions(net, prices), ScratchSize::Small) => {
                library::intuitive_small(net, prices, pairs, scratch, null)
            }
            (Asked::Hour(case, proposal), ScratchSize::Wide) => {
                library::hour_intuitive(case, proposal, pairs, scratch, null)
            }
            (Asked::Hour(case, proposal), ScratchSize::Small) => {
                library::hour_intuitive_small(case, proposal, pairs, scratch, null)
            }
        }
    }

    /// Both lists, to compare after the calls: neither may be written.
    fn copied(self) -> (Vec<i64>, Vec<i64>, Vec<u8>, Vec<u8>) {
        match self {
            Asked::Positions(net, prices) => (net.to_vec(), prices.to_vec(), vec![], vec![]),
            Asked::Hour(case, proposal) => (vec![], vec![], case.to_vec(), proposal.to_vec()),
        }
    }

    fn shown(self) -> String {
        match self {
            Asked::Positions(net, prices) if net.len() + prices.len() <= 40 => {
                format!("net {net:?}, prices {prices:?}")
            }
            Asked::Positions(net, prices) => {
                format!("{} positions, {} prices", net.len(), prices.len())
            }
            Asked::Hour(case, proposal) => {
                format!("case of {} bytes, proposal of {}", case.len(), proposal.len())
            }
        }
    }
}

/// What the inputs of one size of scratch met.
struct Tally {
    inputs: u64,
    hours: u64,
    numbers: [u64; COUNTED],
    hour_numbers: [u64; COUNTED],
    second_wrong: Vec<u64>,
}

impl Tally {
    fn new(wrong: &[(Entries, &str)]) -> Tally {
        Tally {
            inputs: 0,
            hours: 0,
            numbers: [0; COUNTED],
            hour_numbers: [0; COUNTED],
            second_wrong: vec![0; wrong.len()],
        }
    }

    fn count(&mut self, asked: Asked, answer: CarriedAnswer, wrong: &[bool]) {
        let (inputs, numbers) = match asked {
            Asked::Positions(..) => (&mut self.inputs, &mut self.numbers),
            Asked::Hour(..) => (&mut self.hours, &mut self.hour_numbers),
        };
        *inputs += 1;
        numbers[answer.number as usize] += 1;
        count_met(&mut self.second_wrong, wrong);
    }
}

/// Counts over all inputs.
pub struct Exchanges<'a> {
    pub run: &'a mut Run,
    inputs: u64,
    wide: Tally,
    small: Tally,
    both_took: u64,
    met: [u64; MET.len()],
}

impl Exchanges<'_> {
    /// Gives both judges this input and this many numbers of scratch.
    pub fn feed(&mut self, asked: Asked, pairs: &[u8], room: usize) -> CarriedAnswer {
        self.feed_as(asked, pairs, room, false)
    }

    pub fn feed_as(&mut self, asked: Asked, pairs: &[u8], room: usize, null: bool) -> CarriedAnswer {
        self.inputs += 1;
        let (wide, wrong) = self.compare(asked, ScratchSize::Wide, pairs, room, null);
        self.meet(asked, pairs, wide, &wrong);

        // The small entries get in turn the same scratch and one that is as much too long or too short for them.
        let small_room = match room.checked_sub(SCRATCH) {
            _ if self.inputs.is_multiple_of(3) => room,
            Some(past) => SMALL_SCRATCH + past,
            None => room * SMALL_SCRATCH / SCRATCH,
        };
        let (small, _) = self.compare(asked, ScratchSize::Small, pairs, small_room, null);
        let enough = (small_room >= SMALL_SCRATCH, room >= SCRATCH);
        let due = match wide.number {
            // Asked last, so there is no other cause.
            0 | 85 if !enough.0 => small.number == 85,
            0 => small == wide,
            85 => small.number == 0,
            _ => small == wide,
        };
        if !due {
            self.fault(asked, pairs, room, || {
                format!("wide entry {wide:?}, small one {small:?} with scratch {small_room}")
            });
        }
        self.both_took += u64::from(enough == (true, true) && wide.number == 0);
        wide
    }

    /// One entry against the second judge's: the right answer, and which wrong builds differed from it.
    fn compare(
        &mut self,
        asked: Asked,
        size: ScratchSize,
        pairs: &[u8],
        room: usize,
        null: bool,
    ) -> (CarriedAnswer, Vec<bool>) {
        self.run.count();
        let copies = (asked.copied(), pairs.to_vec());
        // A different pattern for each input, without zeros, so that no number is right by luck.
        let salt = self.inputs as i64;
        let lent = Lent::filled(room, |n| (n as i64 * 0x1_0001_0003 + salt * 0x51_7CC1) | 1);
        let theirs = lent.to(|scratch| asked.library(size, pairs, scratch, null));
        let ours = lent.to(|scratch| asked.second(size, pairs, scratch));
        if let Some(text) = theirs.unlike(&ours) {
            self.fault(asked, pairs, room, || format!("{size:?}: {text}"));
        }
        if copies != (asked.copied(), pairs.to_vec()) {
            self.fault(asked, pairs, room, || "an argument was written".into());
        }

        let (builds, tally) = match size {
            ScratchSize::Wide => (&BUILDS[..], &mut self.wide),
            ScratchSize::Small => (&SMALL_BUILDS[..], &mut self.small),
        };
        let wrong: Vec<bool> = builds
            .iter()
            .map(|(build, _)| lent.to(|scratch| asked.wrong(*build, size, pairs, scratch)) != theirs)
            .collect();
        tally.count(asked, ours.answer, &wrong);
        (ours.answer, wrong)
    }

    fn fault(&mut self, asked: Asked, pairs: &[u8], room: usize, text: impl FnOnce() -> String) {
        let about = || format!("{}\n  {}, pairs {pairs:?}, scratch {room}", text(), asked.shown());
        match asked {
            Asked::Positions(..) => self.run.fault(about),
            Asked::Hour(case, proposal) => self.run.fault_in(&[("case", case), ("proposal", proposal)], about),
        }
    }

    fn meet(&mut self, asked: Asked, pairs: &[u8], answer: CarriedAnswer, wrong: &[bool]) {
        let CarriedAnswer { number, index, intuitive, total } = answer;
        let (yes, no) = (number == 0 && intuitive == 1, number == 0 && intuitive == 0);
        let found = |build| {
            let at = BUILDS.iter().position(|row| row.1 == build);
            wrong[at.expect("in the list")]
        };
        match asked {
            Asked::Positions(net, _) => {
                let exports: i128 = net.iter().map(|one| i128::from(*one).max(0)).sum();
                let largest = net.len() == MOST_ZONES && pairs.len() == 2 * MOST_PAIRS;
                let outside = net.iter().any(|one| one.abs_diff(0) > MOST_EXPORT as u64);
                let met = [
                    yes,
                    no,
                    yes && exports == 0,
                    no && total == 0,
                    no && total > 0,
                    yes && largest,
                    no && largest,
                    number == 0 && found(EQUAL_PRICES),
                    number == 0 && found(NO_WAY_BACK),
                    yes && total == 8 * MOST_EXPORT,
                    number == 82 && !outside,
                    (number == 82 || number == 83) && index == 15,
                    number == 84 && index == 0,
                    number == 84 && index == 63,
                    number == 84 && index == 64,
                    number == 84 && index as usize == pairs.len() / 2 && index < 64,
                ];
                count_met(&mut self.met, &met);
            }
            Asked::Hour(..) => {
                let met = [
                    yes && total > 0,
                    no,
                    number == 26,
                    number != 0 && number != 26 && number < 81,
                    number == 84,
                    number == 85,
                ];
                count_met(&mut self.met[OF_AN_HOUR..], &met);
            }
        }
    }

    /// Feeds a made exchange, whose answer is known.
    pub fn feed_exchange(&mut self, made: &Exchange) -> CarriedAnswer {
        let pairs = bytes(&made.pairs);
        let asked = Asked::Positions(&made.net, &made.prices);
        let answer = self.feed(asked, &pairs, SCRATCH + self.inputs as usize % 3);
        let exports: i64 = made.net.iter().map(|one| one.max(&0)).sum();
        let whole = (answer.number, answer.total == exports) == (0, answer.intuitive == 1);
        let as_made = made.known.is_none_or(|known| answer.intuitive == known.into());
        if !whole || !as_made {
            self.fault(asked, &pairs, SCRATCH, || format!("{answer:?} where {:?} is due", made.known));
        }
        answer
    }

    /// Feeds an input with planted causes: the first of them must be named.
    pub fn feed_planted(&mut self, made: &Planted) {
        let pairs = made.bytes();
        let asked = Asked::Positions(&made.net, &made.prices);
        let answer = self.feed(asked, &pairs, made.room);
        let due = made.due();
        if (answer.number, answer.index) != due {
            self.fault(asked, &pairs, made.room, || format!("{answer:?} where {due:?} is due"));
        }
    }
}

pub fn exchanges(run: &mut Run, rng: &mut Rng) {
    run.section("intuitive hours");
    let mut all = Exchanges {
        run,
        inputs: 0,
        wide: Tally::new(&BUILDS),
        small: Tally::new(&SMALL_BUILDS),
        both_took: 0,
        met: Default::default(),
    };
    answered(&mut all, rng);
    small_ones(&mut all);
    refused(&mut all, rng);
    at_the_limits(&mut all, rng);
    hours(&mut all, rng);

    let run = all.run;
    let sections = [
        "intuitive hours, numbers of lta_intuitive, times met",
        "intuitive hours, numbers of lta_hour_intuitive, times met",
        "intuitive hours, wrong builds, times told from the library",
    ];
    told(run, "lta_intuitive, lta_hour_intuitive", sections, &all.wide, &BUILDS);
    run.section("intuitive hours, met, times");
    run.check_met(&MET, &all.met);
    let sections = [
        "the smaller scratch, numbers of lta_intuitive_small, times met",
        "the smaller scratch, numbers of lta_hour_intuitive_small, times met",
        "the smaller scratch, wrong builds, times told from the library",
    ];
    told(run, "lta_intuitive_small, lta_hour_intuitive_small", sections, &all.small, &SMALL_BUILDS);
    run.section("the smaller scratch, and the wide one on the same input");
    run.check_times("both took it, and said the same".into(), all.both_took, LEAST_INPUTS);
}

/// What the entries of one size met: inputs, each number, and the wrong builds.
fn told(run: &mut Run, entry: &'static str, sections: [&'static str; 3], tally: &Tally, builds: &[(Entries, &str)]) {
    let Tally { inputs, hours, .. } = *tally;
    run.section(sections[0]);
    run.check_times("inputs".into(), inputs, LEAST_INPUTS);
    run.check_times("hours".into(), hours, LEAST_HOURS);
    run.check_numbers(&INTUITIVE, &tally.numbers);
    run.section(sections[1]);
    run.check_numbers(&HOUR_INTUITIVE, &tally.hour_numbers);
    run.section(sections[2]);
    run.check_told(builds, &tally.second_wrong, inputs + hours);
    let reached = [(&*INTUITIVE, &tally.numbers[..]), (&*HOUR_INTUITIVE, &tally.hour_numbers)];
    run.entry(entry, inputs + hours, &reached, &tally.second_wrong);
}
