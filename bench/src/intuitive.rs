//! S-3's entries against plain Rust on the same inputs: annex 5.1's two price sets, no pairs, random exchanges, the
//! worst that a search finds, and hours. Then S-13's, with the smaller scratch, against S-3's on the same inputs.

use crate::plain_flow::{by_dinic, by_edmonds_karp};
use crate::{accepted, heading_against, measure, print};
use comparison::library;
use comparison::rng::Rng;
use paper_hours::{three_zone_hour, Hour};
use second_judge::limits::{LEAST_BUFFER, SELLS};
use second_judge::{hour_intuitive, intuitive, judge, CarriedAnswer};
use std::hint::black_box;
use std::time::Instant;

const SCRATCH: usize = 324;
const SMALL_SCRATCH: usize = 96;
const ZONES: usize = 16;
const PAIRS: usize = 64;
const SEED: u64 = 3;
/// The search for many paths: the number of starts, and the steps of each; then the search for a long time.
const STARTS: usize = 4;
const STEPS: usize = 40_000;
const TIMED_STEPS: usize = 2_000;

#[derive(Clone)]
struct Exchange {
    net: Vec<i64>,
    prices: Vec<i64>,
    pairs: Vec<u8>,
}

type Plain = fn(&[i64], &[i64], &[u8], &mut [i64]) -> (CarriedAnswer, usize);
const PLAIN: [(&str, Plain); 2] = [("Edmonds-Karp", by_edmonds_karp), ("Dinic", by_dinic)];

impl Exchange {
    fn proved(&self, scratch: &mut [i64]) -> CarriedAnswer {
        library::intuitive(&self.net, &self.prices, &self.pairs, scratch, false)
    }

    fn small(&self, scratch: &mut [i64]) -> CarriedAnswer {
        library::intuitive_small(&self.net, &self.prices, &self.pairs, scratch, false)
    }

    fn plain(&self, by: Plain, scratch: &mut [i64]) -> (CarriedAnswer, usize) {
        by(&self.net, &self.prices, &self.pairs, scratch)
    }

    /// Paths that Edmonds and Karp's algorithm takes.
    fn paths(&self) -> usize {
        self.plain(by_edmonds_karp, &mut [0; SCRATCH]).1
    }

    /// Nanoseconds of the library's call, the least of several.
    fn time(&self) -> f64 {
        let mut scratch = [0; SCRATCH];
        let mut one = || {
            let start = Instant::now();
            for _ in 0..8 {
                black_box(black_box(self).proved(black_box(&mut scratch)));
            }
            start.elapsed().as_nanos() as f64 / 8.0
        };
        (0..6).map(|_| one()).fold(f64::INFINITY, f64::min)
    }
}

/// Measures the exchanges together; all must give the same answer.
fn of(name: &str, exchanges: &[Exchange]) {
    for (other, by) in PLAIN {
        let (mut one, mut two, mut due) = ([1; SCRATCH], [2; SCRATCH], [3; SCRATCH]);
        for given in exchanges {
            let answer = intuitive(&given.net, &given.prices, &given.pairs, &mut due);
            assert_eq!(given.proved(&mut one), answer, "the library");
            assert_eq!(given.plain(by, &mut two).0, answer, "{other}");
        }
        let times = measure(
            || {
                for given in exchanges {
                    black_box(black_box(given).proved(black_box(&mut one)));
                }
            },
            || {
                for given in exchanges {
                    black_box(black_box(given).plain(by, black_box(&mut two)));
                }
            },
        );
        print(&format!("{name}, {other}"), &times);
    }
}

/// Measures both sizes of scratch on the same exchanges.
fn of_sizes(name: &str, exchanges: &[Exchange]) {
    let (mut small, mut wide) = ([1; SMALL_SCRATCH], [2; SCRATCH]);
    for given in exchanges {
        assert_eq!(given.small(&mut small), given.proved(&mut wide), "{name}");
    }
    let times = measure(
        || {
            for given in exchanges {
                black_box(black_box(given).small(black_box(&mut small)));
            }
        },
        || {
            for given in exchanges {
                black_box(black_box(given).proved(black_box(&mut wide)));
            }
        },
    );
    print(name, &times);
}

/// The same on one hour.
fn hour_of_sizes(name: &str, hour: &Hour) {
    let (case, proposal) = (hour.case(), hour.proposal());
    let pairs = links(hour);
    let (mut small, mut wide) = ([1; SMALL_SCRATCH], [2; SCRATCH]);
    assert_eq!(
        library::hour_intuitive_small(&case, &proposal, &pairs, &mut small, false),
        library::hour_intuitive(&case, &proposal, &pairs, &mut wide, false),
        "{name}"
    );
    let times = measure(
        || {
            let (case, scratch) = (black_box(&case), black_box(&mut small));
            black_box(library::hour_intuitive_small(case, &proposal, &pairs, scratch, false));
        },
        || {
            let (case, scratch) = (black_box(&case), black_box(&mut wide));
            black_box(library::hour_intuitive(case, &proposal, &pairs, scratch, false));
        },
    );
    print(name, &times);
}

/// An hour's links as pairs.
fn links(hour: &Hour) -> Vec<u8> {
    hour.links.iter().flat_map(|link| [link.from, link.to]).collect()
}

fn annex(euros: [i64; 5]) -> Exchange {
    let lines = [(0, 1), (0, 2), (1, 4), (2, 3), (3, 4)];
    Exchange {
        net: vec![1_000, 13_000, -7_000, -3_000, -4_000],
        prices: euros.map(|price| price * 10_000_000).to_vec(),
        pairs: lines.into_iter().flat_map(|(one, other)| [one, other, other, one]).collect(),
    }
}

/// As many different pairs as there is room for.
fn some_pairs(rng: &mut Rng, zones: usize, count: usize) -> Vec<u8> {
    let mut every: Vec<[u8; 2]> = (0..zones as u8)
        .flat_map(|from| (0..zones as u8).map(move |to| [from, to]))
        .filter(|[from, to]| from != to)
        .collect();
    for n in 0..count.min(every.len()) {
        let other = n + rng.below(every.len() - n);
        every.swap(n, other);
    }
    every.truncate(count);
    every.concat()
}

fn transfer(rng: &mut Rng, net: &mut [i64]) {
    let (one, other) = (rng.below(net.len()), rng.below(net.len()));
    let most = rng.pick(&[10, 1_000, 100_000]);
    let amount = rng.between(1, most);
    if net[one] + amount <= 51_200_000 && net[other] - amount >= -51_200_000 {
        net[one] += amount;
        net[other] -= amount;
    }
}

fn random(rng: &mut Rng, zones: usize, pairs: usize) -> Exchange {
    let mut net = vec![0; zones];
    (0..3 * zones).for_each(|_| transfer(rng, &mut net));
    Exchange {
        net,
        prices: (0..zones).map(|_| rng.below(zones) as i64).collect(),
        pairs: some_pairs(rng, zones, pairs),
    }
}

/// The same with one thing changed: an amount, a price or a pair.
fn changed(rng: &mut Rng, given: &Exchange) -> Exchange {
    let mut made = given.clone();
    match rng.below(4) {
        0 | 1 => transfer(rng, &mut made.net),
        2 => {
            let zone = rng.below(ZONES);
            made.prices[zone] = rng.below(3) as i64;
        }
        _ => {
            let at = 2 * rng.below(PAIRS);
            let pair = some_pairs(rng, ZONES, 1);
            if made.pairs.chunks(2).all(|other| other != pair) {
                made.pairs[at..at + 2].copy_from_slice(&pair);
            }
        }
    }
    made
}

/// Hill climbing from an exchange, by steps that do not make it lower.
fn worst(rng: &mut Rng, start: Exchange, steps: usize, of: impl Fn(&Exchange) -> f64) -> (Exchange, f64) {
    let mut found = start;
    let mut height = of(&found);
    for _ in 0..steps {
        let next = changed(rng, &found);
        let next_height = of(&next);
        if next_height >= height {
            (found, height) = (next, next_height);
        }
    }
    (found, height)
}

/// The hour by the second judge, then by Edmonds and Karp's algorithm.
fn plain_hour(hour: &Hour, case: &[u8], proposal: &[u8], pairs: &[u8], scratch: &mut [i64]) -> i64 {
    let mut report = [0; LEAST_BUFFER];
    let verdict = judge(case, proposal, &mut report);
    if verdict.number != 0 {
        return -1;
    }
    let zones = usize::from(hour.zones);
    let mut net = [0; ZONES];
    for (order, volume) in hour.orders.iter().zip(&hour.volumes) {
        let volume = i64::from(*volume);
        net[usize::from(order.zone)] += if order.side == SELLS { volume } else { -volume };
    }
    let mut prices = [0; ZONES];
    for (price, field) in prices[..zones].iter_mut().zip(report[48..].chunks_exact(8)) {
        *price = i64::from_le_bytes(field.try_into().expect("eight bytes"));
    }
    by_edmonds_karp(&net[..zones], &prices[..zones], pairs, scratch).0.total
}

fn of_hour(name: &str, hour: &Hour) {
    let (case, proposal) = (hour.case(), hour.proposal());
    let pairs = links(hour);
    let (mut one, mut two) = ([0; SCRATCH], [0; SCRATCH]);
    let due = hour_intuitive(&case, &proposal, &pairs, &mut two);
    assert_eq!(due.number, 0, "{name} is accepted");
    let answer = library::hour_intuitive(&case, &proposal, &pairs, &mut one, false);
    assert_eq!(answer, due, "the library");
    let total = plain_hour(hour, &case, &proposal, &pairs, &mut two);
    assert_eq!(total, due.total, "plain Rust");
    let times = measure(
        || {
            let (case, scratch) = (black_box(&case), black_box(&mut one));
            black_box(library::hour_intuitive(case, &proposal, &pairs, scratch, false));
        },
        || {
            let (case, scratch) = (black_box(&case), black_box(&mut two));
            black_box(plain_hour(hour, case, &proposal, &pairs, scratch));
        },
    );
    print(name, &times);
}

pub fn exchanges() {
    let mut rng = Rng::new(SEED);
    let mut asked: Vec<(String, Vec<Exchange>)> = vec![
        ("001, first prices".into(), vec![annex([10, 20, 40, 50, 30])]),
        ("001, second prices".into(), vec![annex([20, 10, 40, 50, 30])]),
    ];
    let none = Exchange { pairs: vec![], ..random(&mut rng, ZONES, PAIRS) };
    asked.push(("16 zones, no pairs".into(), vec![none]));
    for (zones, pairs) in [(5, 10), (16, 64)] {
        let some = (0..32).map(|_| random(&mut rng, zones, pairs)).collect();
        asked.push((format!("32 random, {zones} and {pairs}"), some));
    }
    let most_paths = (0..STARTS)
        .map(|_| {
            let mut start = random(&mut rng, ZONES, PAIRS);
            start.prices.fill(0);
            let paths = |given: &Exchange| given.paths() as f64;
            worst(&mut rng, start, STEPS, paths).0
        })
        .max_by_key(Exchange::paths)
        .expect("some starts");
    let (slowest, _) = worst(&mut rng, most_paths.clone(), TIMED_STEPS, Exchange::time);
    let paths = most_paths.paths();
    asked.push((format!("most paths found, {paths}"), vec![most_paths]));
    let paths = slowest.paths();
    asked.push((format!("slowest found, {paths} paths"), vec![slowest]));
    let hours = [
        ("P1", three_zone_hour()),
        ("middling: 8, 24, 12, 150", accepted(8, 24, 12, 150)),
        ("largest: 16, 64, 64, 512", accepted(16, 64, 64, 512)),
    ];

    heading_against("intuitive, against plain Rust", "Rust ns");
    asked.iter().for_each(|(name, some)| of(name, some));
    heading_against("intuitive hours, links as pairs", "Rust ns");
    hours.iter().for_each(|(name, hour)| of_hour(name, hour));
    heading_against("the smaller scratch, against the wide one", "wide ns");
    asked.iter().for_each(|(name, some)| of_sizes(name, some));
    hours.iter().for_each(|(name, hour)| hour_of_sizes(name, hour));
}
