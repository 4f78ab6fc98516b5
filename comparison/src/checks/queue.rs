//! The desk queue of both judges over runs of posts and serves, from the empty queue and from any bytes: after each
//! event the answers, what waits, and every byte are compared.

use crate::library;
use crate::makers::queues::{any_bytes, Event, Events};
use crate::numbers::{COUNTED, QUEUE};
use crate::rng::Rng;
use crate::run::Run;
use second_judge::{DeskQueue, Papers, Queue, ServedAnswer, QUEUE_BYTES};
use wrong_builds::queue::{BUILDS, OF_BYTES};

/// The number of runs, and of events in each.
const RUNS: u64 = 6_000;
const EVENTS: usize = 500;

/// Bytes kept on either side of the queue, which nobody may touch.
const GUARD: usize = 16;
const SPACE: usize = GUARD + QUEUE_BYTES + GUARD;

/// The request's bounds: serves for which an area waits, and a posted hour.
const AREA_WAITS: u64 = 4;
const HOUR_WAITS: u64 = 100;

/// What a good stream of runs must contain, counted.
const MET: [&str; 9] = [
    "runs from the empty queue",
    "runs from any bytes",
    "25 hours wait in an area",
    "all 100 hours wait",
    "area served by its fourth serve",
    "hour served by its hundredth serve",
    "hour posted as soon as it was served",
    "61 where the hour is over 24 too",
    "serve of a queue that a serve emptied",
];

/// What an event answers: a post its number, a serve all it has.
#[derive(Clone, Copy, Debug, PartialEq, Eq)]
enum Answer {
    Posted(u32),
    Served(ServedAnswer),
}

impl Event {
    /// A queue that follows the events alone.
    fn on(self, build: &dyn DeskQueue, queue: &mut Queue) -> Answer {
        match self {
            Event::Post(area, hour) => Answer::Posted(build.post(queue, area, hour)),
            Event::Serve => Answer::Served(build.serve(queue)),
        }
    }

    /// The second judge's entries over bytes.
    fn on_bytes(self, build: &dyn DeskQueue, bytes: &mut [u8; QUEUE_BYTES]) -> Answer {
        match self {
            Event::Post(area, hour) => Answer::Posted(build.queue_post(bytes, area, hour)),
            Event::Serve => Answer::Served(build.queue_serve(bytes)),
        }
    }

    fn on_library(self, bytes: &mut [u8; QUEUE_BYTES]) -> Answer {
        match self {
            Event::Post(area, hour) => Answer::Posted(library::queue_post(bytes, area, hour)),
            Event::Serve => Answer::Served(library::queue_serve(bytes)),
        }
    }
}

impl Answer {
    fn number(self) -> u32 {
        match self {
            Answer::Posted(number) => number,
            Answer::Served(served) => served.number,
        }
    }
}

/// Counts over all runs.
struct Queues<'a> {
    run: &'a mut Run,
    runs: u64,
    numbers: [u64; COUNTED],
    met: [u64; MET.len()],
    second_wrong: [u64; BUILDS.len()],
}

/// One run: the library's bytes, the second judge's, and its queues.
struct Followed {
    theirs: [u8; SPACE],
    ours: [u8; QUEUE_BYTES],
    queue: Queue,
    /// A wrong queue for each wrong build, until it differs from the library.
    wrong: Vec<Option<(Box<dyn DeskQueue>, Queue)>>,
    /// Serves since each area began to wait, and since each hour was posted.
    area_waits: [Option<u64>; 4],
    hour_waits: [[Option<u64>; 25]; 4],
    last: Option<ServedAnswer>,
}

fn lent(space: &mut [u8; SPACE]) -> &mut [u8; QUEUE_BYTES] {
    let lent = &mut space[GUARD..GUARD + QUEUE_BYTES];
    lent.try_into().expect("101 bytes")
}

impl Queues<'_> {
    fn start(&mut self, bytes: [u8; QUEUE_BYTES]) -> Followed {
        self.run.count();
        self.runs += 1;
        let salt = self.runs as u8;
        let mut theirs = [0; SPACE];
        for (n, byte) in theirs.iter_mut().enumerate() {
            *byte = (n as u8).wrapping_mul(37) ^ salt;
        }
        *lent(&mut theirs) = bytes;
        let from_zeros = bytes == [0; QUEUE_BYTES];
        self.met[0] += u64::from(from_zeros);
        self.met[1] += u64::from(!from_zeros);
        let followed = |build: &dyn DeskQueue| match from_zeros {
            true => Queue::default(),
            false => build.read(&bytes),
        };
        let queue = followed(&Papers);
        let wrong = BUILDS.iter().enumerate().map(|(n, (build, _))| {
            let build = build();
            let queue = followed(&*build);
            (!from_zeros || n < OF_BYTES).then_some((build, queue))
        });
        let mut area_waits = [None; 4];
        let mut hour_waits = [[None; 25]; 4];
        for area in 0..4 {
            // An hour that waits at the start has at most 24 before it too.
            for hour in queue.waiting(area as u32) {
                area_waits[area] = Some(0);
                hour_waits[area][hour as usize] = Some(0);
            }
        }
        Followed {
            theirs,
            ours: bytes,
            queue,
            // From zeros the builds that read or write bytes wrongly are right.
            wrong: wrong.collect(),
            area_waits,
            hour_waits,
            last: None,
        }
    }

    /// Gives both judges this event, and compares everything that they leave.
    fn feed(&mut self, one: &mut Followed, event: Event) -> Answer {
        let before = one.theirs;
        let theirs = event.on_library(lent(&mut one.theirs));
        let ours = event.on(&Papers, &mut one.queue);
        let of_bytes = event.on_bytes(&Papers, &mut one.ours);
        let after: [u8; QUEUE_BYTES] = *lent(&mut one.theirs);
        if theirs != ours || theirs != of_bytes {
            self.run.fault(|| format!("{event:?}: library {theirs:?}, second judge {ours:?} and {of_bytes:?}"));
        } else if after != one.ours {
            let ours = one.ours;
            self.run.fault(|| format!("{event:?}: library {after:?}, second judge {ours:?}"));
        } else if !Papers.read(&after).waits_as(&one.queue) {
            let queue = &one.queue;
            self.run.fault(|| format!("{event:?}: {after:?} is not {queue:?}"));
        }
        let (front, back) = (..GUARD, GUARD + QUEUE_BYTES..);
        if one.theirs[front] != before[front] || one.theirs[back.clone()] != before[back] {
            self.run.fault(|| format!("{event:?}: a byte beside the queue"));
        }
        if theirs.number() != 0 && one.theirs != before {
            self.run.fault(|| format!("{event:?}: refused, and a byte written"));
        }
        self.numbers[ours.number() as usize] += 1;
        self.try_wrong(one, event, theirs, before, after);
        self.wait(one, event, ours);
        ours
    }

    /// The wrong builds along the same run; each stops once it differed.
    fn try_wrong(
        &mut self,
        one: &mut Followed,
        event: Event,
        theirs: Answer,
        mut before: [u8; SPACE],
        after: [u8; QUEUE_BYTES],
    ) {
        for (n, (wrong, times)) in one.wrong.iter_mut().zip(&mut self.second_wrong).enumerate() {
            let Some((build, queue)) = wrong else { continue };
            let mut told = event.on(&**build, queue) != theirs || !queue.waits_as(&one.queue);
            if n >= OF_BYTES {
                let mut bytes = *lent(&mut before);
                told |= event.on_bytes(&**build, &mut bytes) != theirs || bytes != after;
            }
            if told {
                *times += 1;
                *wrong = None;
            }
        }
    }

    /// Both bounds, over every event.
    fn wait(&mut self, one: &mut Followed, event: Event, answer: Answer) {
        match (event, answer) {
            (Event::Post(area, hour), Answer::Posted(0)) => {
                let (area, hour) = (area as usize, hour as usize);
                one.area_waits[area].get_or_insert(0);
                one.hour_waits[area][hour] = Some(0);
                let again = one
                    .last
                    .is_some_and(|last| (last.number, last.area as usize, last.hour as usize) == (0, area, hour));
                self.met[6] += u64::from(again);
                let waiting = one.queue.waiting(area as u32).len();
                let all = (0..4).map(|area| one.queue.waiting(area).len());
                self.met[2] += u64::from(waiting == 25);
                self.met[3] += u64::from(waiting == 25 && all.sum::<usize>() == 100);
                one.last = None;
            }
            (Event::Post(_, hour), _) => {
                self.met[7] += u64::from(answer.number() == 61 && hour > 24);
            }
            (Event::Serve, Answer::Served(served)) => {
                let emptied = one.last.is_some_and(|last| last.number == 0);
                self.met[8] += u64::from(served.number == 64 && emptied);
                one.last = Some(served);
                for times in one.area_waits.iter_mut().flatten() {
                    *times += 1;
                }
                for times in one.hour_waits.iter_mut().flatten().flatten() {
                    *times += 1;
                }
                if served.number == 0 {
                    self.served(one, served.area as usize, served.hour as usize);
                }
                let area_longest = one.area_waits.iter().flatten().max();
                let hour_longest = one.hour_waits.iter().flatten().flatten().max();
                if area_longest >= Some(&AREA_WAITS) || hour_longest >= Some(&HOUR_WAITS) {
                    let waited = (area_longest.copied(), hour_longest.copied());
                    self.run.fault(|| format!("still waiting after {waited:?} serves"));
                }
            }
            (Event::Serve, Answer::Posted(_)) => unreachable!("a serve answers as one"),
        }
    }

    fn served(&mut self, one: &mut Followed, area: usize, hour: usize) {
        let area_waited = one.area_waits[area].take();
        let hour_waited = one.hour_waits[area][hour].take();
        self.met[4] += u64::from(area_waited == Some(AREA_WAITS));
        self.met[5] += u64::from(hour_waited == Some(HOUR_WAITS));
        if !one.queue.waiting(area as u32).is_empty() {
            one.area_waits[area] = Some(0);
        }
    }
}

pub fn queues(run: &mut Run, rng: &mut Rng) {
    run.section("the desk queue, runs of 500 events");
    let mut all =
        Queues { run, runs: 0, numbers: [0; COUNTED], met: Default::default(), second_wrong: Default::default() };
    made(&mut all, rng);
    longest_waits(&mut all);
    every_cell(&mut all, rng);

    let run = all.run;
    run.section("the desk queue, numbers, times met");
    run.check_numbers(&QUEUE, &all.numbers);
    run.section("the desk queue, met, times");
    run.check_met(&MET, &all.met);
    run.section("the desk queue, wrong builds, runs told from the library");
    run.check_told(&BUILDS, &all.second_wrong, all.runs);
    let events = all.numbers.iter().sum();
    run.entry("lta_queue_post, lta_queue_serve", events, &[(&QUEUE, &all.numbers)], &all.second_wrong);
}

/// Random runs, by random habits.
fn made(all: &mut Queues, rng: &mut Rng) {
    for (name, from_zeros) in [("from the empty queue", true), ("from any bytes", false)] {
        all.run.begin(name);
        let runs = if from_zeros { 5_000 } else { RUNS - 5_000 };
        for _ in 0..runs {
            let bytes = if from_zeros { [0; QUEUE_BYTES] } else { any_bytes(rng) };
            random_run(all, rng, bytes);
        }
        all.run.end();
    }
}

fn random_run(all: &mut Queues, rng: &mut Rng, bytes: [u8; QUEUE_BYTES]) {
    let mut one = all.start(bytes);
    let mut events = Events::any(rng);
    for _ in 0..EVENTS {
        let event = events.draw(rng);
        if let Answer::Served(served) = all.feed(&mut one, event) {
            events.served = (served.number == 0).then_some((served.area, served.hour));
        }
    }
}

/// Each hour of the long day posted last, with every other waiting and posted again as soon as it is served; from
/// each turn.
fn longest_waits(all: &mut Queues) {
    all.run.begin("every other hour waits and is posted again");
    for turn in 0..4 {
        for place in 0..100 {
            let (area, hour) = (place / 25, place % 25);
            let mut bytes = [0; QUEUE_BYTES];
            bytes[100] = turn;
            let mut one = all.start(bytes);
            for other in (0..100).filter(|other| *other != place) {
                all.feed(&mut one, Event::Post(other / 25, other % 25));
            }
            all.feed(&mut one, Event::Post(area, hour));
            let due = 97 + (area + 4 - u32::from(turn)) % 4;
            for serve in 1..=due {
                let Answer::Served(served) = all.feed(&mut one, Event::Serve) else {
                    continue;
                };
                let it = (served.area, served.hour) == (area, hour);
                if it != (serve == due) {
                    all.run.fault(|| format!("{area} {hour} served by {serve}, and {due} is due"));
                }
                all.feed(&mut one, Event::Post(served.area, served.hour));
            }
        }
    }
    all.run.end();
}

/// Each value in each cell of an otherwise empty queue.
fn every_cell(all: &mut Queues, rng: &mut Rng) {
    all.run.begin("each value of each byte");
    for at in 0..QUEUE_BYTES {
        for value in 0..=255 {
            let mut bytes = [0; QUEUE_BYTES];
            bytes[at] = value;
            let mut one = all.start(bytes);
            all.feed(&mut one, Event::Post(rng.below(4) as u32, rng.below(25) as u32));
            for _ in 0..3 {
                all.feed(&mut one, Event::Serve);
            }
        }
    }
    all.run.end();
}
