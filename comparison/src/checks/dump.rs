//! Compares the entry for a solver's dump of both judges. The dumps give an hour's own proposal; have values of every
//! kind, each cause alone and with others, every limit and the values next to it, and every exponent; or are random
//! bits. Both judges judge what is written.

use crate::lent::Lent;
use crate::library;
use crate::makers::dumps::*;
use crate::makers::hours::{good, Shape};
use crate::numbers::{COUNTED, DUMP, JUDGE_DUMPED, LEAST_INPUTS};
use crate::rng::Rng;
use crate::run::{count_met, Run};
use paper_hours::{contracted_hour, three_zone_hour, Hour, Version};
use second_judge::limits::{LEAST_BUFFER, WIDEST_TOLERANCE};
use second_judge::{dump_proposal, judge, OutputAnswer};
use wrong_builds::dump::{Convert, BUILDS};

/// What a good stream of dumps must contain, counted.
const MET: [&str; 17] = [
    "first value named",
    "last value named",
    "58 past a value that is 59",
    "58 by an infinity",
    "58 by a signalling NaN",
    "58 by a NaN with its sign set",
    "59 by an infinite product",
    "59 by a subnormal",
    "59 by an integer past its field",
    "volume's product rounded up to a whole",
    "volume's product rounded down to one",
    "price's product rounded to a half",
    "price's half below zero",
    "minus zero written as zero",
    "subnormal written as zero",
    "largest proposal written",
    "proposal of no rows written",
];

/// Whether a volume is within one tenth of the exact product, in whole numbers.
fn within_one_tenth(bits: u64, quantity: u32, volume: u32) -> bool {
    let (exponent, fraction) = ((bits & INFINITE) >> 52, bits & FRACTION);
    let (whole, places) = match exponent {
        0 => (fraction, 1_074),
        _ => (fraction | (FRACTION + 1), 1_075 - exponent),
    };
    if places > 100 {
        // Below 2^-47 of a tenth, for any quantity.
        return volume == 0;
    }
    let exact = i128::from(whole) * i128::from(quantity);
    let apart = exact - (i128::from(volume) << places);
    apart.abs() < 1 << places
}

/// Counts over all dumps.
struct Dumps<'a> {
    run: &'a mut Run,
    inputs: u64,
    numbers: [u64; COUNTED],
    /// 56 by the number in its index.
    cases: [u64; 9],
    /// The judges' answers for a written proposal.
    judged: [u64; COUNTED],
    met: [u64; MET.len()],
    second_wrong: [u64; BUILDS.len()],
}

impl Dumps<'_> {
    /// Gives both judges this dump and this much room.
    fn feed(&mut self, case: &[u8], dump: &[u8], room: usize) -> (OutputAnswer, Vec<u8>) {
        self.feed_as(case, dump, room, false)
    }

    fn feed_as(&mut self, case: &[u8], dump: &[u8], room: usize, null: bool) -> (OutputAnswer, Vec<u8>) {
        self.run.count();
        self.inputs += 1;
        let copies = (case.to_vec(), dump.to_vec());
        let lent = Lent::bytes(room, self.inputs);
        let wrong = |build: Convert, out: &mut [u8]| build(case, dump, out);
        let theirs = lent.to(|out| library::dump_proposal(case, dump, out, null));
        let ours = lent.to(|out| dump_proposal(case, dump, out));
        if let Some(text) = theirs.unlike(&ours) {
            self.fault(case, dump, room, || text);
        }
        if copies.0 != case || copies.1 != dump {
            self.fault(case, dump, room, || "the case or the dump was written".into());
        }

        let answer = ours.answer;
        self.numbers[answer.number as usize] += 1;
        if answer.number == 56 {
            self.cases[answer.index as usize] += 1;
        }
        lent.tell(&theirs, &BUILDS, &mut self.second_wrong, wrong);
        if answer.number == 0 {
            self.judge(case, dump, &ours.room()[..answer.length as usize]);
        }
        (answer, ours.room().to_vec())
    }

    fn fault(&mut self, case: &[u8], dump: &[u8], room: usize, text: impl FnOnce() -> String) {
        self.run.fault_in(&[("case", case), ("dump", dump)], || format!("{}\n  room {room}", text()));
    }

    /// Both judges read a written proposal: none of 9 to 14 and not 21 has a cause. 15 is the only answer if the
    /// case's tolerance is wide (S-12).
    fn judge(&mut self, case: &[u8], dump: &[u8], proposal: &[u8]) {
        let (mut report, mut their_report) = ([0; LEAST_BUFFER], [0; LEAST_BUFFER]);
        let verdict = judge(case, proposal, &mut report);
        let answer = library::judge(case, proposal, &mut their_report);
        let (number, index) = (verdict.number, verdict.index);
        if answer != verdict || report != their_report {
            self.fault(case, dump, proposal.len(), || {
                format!("judged: library {answer:?}, second judge {verdict:?}, or their reports")
            });
        }
        let tolerance = case[10..14].try_into().map(u32::from_le_bytes);
        let wide = tolerance.expect("four bytes") > WIDEST_TOLERANCE as u32;
        if !matches!(number, 0 | 15 | 22..=27) || wide != (number == 15) {
            self.fault(case, dump, proposal.len(), || format!("the proposal written is refused by {number} {index}"));
        }
        self.judged[number as usize] += 1;
    }

    /// Feeds a made dump whose answer and bytes are known.
    fn feed_made(&mut self, made: &Made) {
        let dump = made.dump();
        let (answer, out) = self.feed(&made.case, &dump, made.room);
        let (number, index, written) = made.due();
        let due = OutputAnswer { number, index, length: written.len() as u64 };
        if answer != due {
            self.fault(&made.case, &dump, made.room, || format!("{answer:?} where {due:?} is due"));
        } else if out[..written.len()] != written {
            self.fault(&made.case, &dump, made.room, || "another proposal than is due".into());
        }
        self.meet(made, due);
    }

    fn meet(&mut self, made: &Made, answer: OutputAnswer) {
        let OutputAnswer { number, index, length } = answer;
        let kinds = kinds(&made.hour);
        let last = made.values.len() - 1;
        let names = number == 58 || number == 59;
        let at = if names { index as usize } else { 0 };
        let (bits, kind) = (made.values[at], kinds[at]);
        let (value, nan) = (f64::from_bits(bits), bits & FRACTION != 0);
        let out_of_range = |n: usize| {
            let value = f64::from_bits(made.values[n]);
            value.is_finite() && kinds[n].written(value).is_none()
        };
        let product = value * f64::from(kind.factor());
        let mut met = [false; MET.len()];
        met[..9].copy_from_slice(&[
            names && at == 0,
            names && at == last,
            number == 58 && (0..at).any(out_of_range),
            number == 58 && !nan,
            number == 58 && nan && bits & 1 << 51 == 0,
            number == 58 && nan && bits & SIGN != 0,
            number == 59 && product.is_infinite(),
            number == 59 && value.is_subnormal(),
            number == 59 && product.is_finite() && value > 0.0 && !kind.is_share(),
        ]);
        for (kind, &bits) in kinds.iter().zip(&made.values).filter(|_| number == 0) {
            let value = f64::from_bits(bits);
            let product = value * f64::from(kind.factor());
            // What rounding took away, exactly.
            let left = value.mul_add(kind.factor().into(), -product);
            let whole = product == product.trunc() && matches!(kind, Kind::Accepted(_));
            let half = (2.0 * product).trunc() == 2.0 * product && product != product.trunc();
            met[9] |= whole && left < 0.0;
            met[10] |= whole && left > 0.0;
            met[11] |= kind.is_price() && half && left != 0.0;
            met[12] |= *kind == Kind::System && half && product < 0.0;
            met[13] |= bits == SIGN;
            met[14] |= value.is_subnormal();
        }
        met[15] = number == 0 && length == ROOM as u64;
        met[16] = number == 0 && length == HEADER as u64;
        count_met(&mut self.met, &met);
    }
}

pub fn dumps(run: &mut Run, rng: &mut Rng) {
    run.section("solver's dumps");
    let mut dumps = Dumps {
        run,
        inputs: 0,
        numbers: [0; COUNTED],
        cases: [0; 9],
        judged: [0; COUNTED],
        met: Default::default(),
        second_wrong: Default::default(),
    };

    given_back(&mut dumps, rng);
    dumps.run.begin("good dumps");
    for _ in 0..12_000 {
        let made = Made::some(rng);
        dumps.feed_made(&made);
        volumes_near(&mut dumps, &made);
    }
    for _ in 0..40 {
        let hour = good(rng, Shape::LARGEST);
        dumps.feed_made(&Made::good(rng, hour));
    }
    dumps.run.end();

    for (cause, name) in CAUSES {
        dumps.run.begin(&format!("one cause: {name}"));
        for _ in 0..1_500 {
            let mut made = Made::some(rng);
            made.plant(rng, cause);
            dumps.feed_made(&made);
        }
        dumps.run.end();
    }
    dumps.run.begin("each pair of causes");
    for (one, (first, _)) in CAUSES.iter().enumerate() {
        for (second, _) in &CAUSES[one..] {
            for _ in 0..300 {
                let mut made = Made::some(rng);
                made.plant(rng, *first);
                made.plant(rng, *second);
                dumps.feed_made(&made);
            }
        }
    }
    dumps.run.end();
    dumps.run.begin("several causes");
    for _ in 0..8_000 {
        let mut made = Made::some(rng);
        let skipped = rng.below(CAUSES.len());
        for (cause, _) in &CAUSES[skipped..] {
            for _ in 0..rng.pick(&[0, 0, 1, 1, 3]) {
                made.plant(rng, *cause);
            }
        }
        dumps.feed_made(&made);
    }
    dumps.run.end();

    at_the_limits(&mut dumps, rng);
    by_bits(&mut dumps, rng);
    by_bytes(&mut dumps, rng);

    let Dumps { run, inputs, .. } = dumps;
    run.section("solver's dumps, numbers, times met");
    run.check_times("inputs".into(), inputs, LEAST_INPUTS);
    run.check_numbers(&DUMP, &dumps.numbers);
    for (number, times) in dumps.cases.iter().enumerate().skip(1) {
        run.check_times(format!("56 {number}"), *times, 1);
    }
    run.section("solver's dumps, verdicts on what was written, times met");
    run.check_numbers(&JUDGE_DUMPED, &dumps.judged);
    run.section("solver's dumps, met, times");
    run.check_met(&MET, &dumps.met);
    run.section("solver's dumps, wrong builds, times told from the library");
    run.check_told(&BUILDS, &dumps.second_wrong, inputs);
    run.entry("lta_dump_proposal", inputs, &[(&DUMP, &dumps.numbers)], &dumps.second_wrong);
}

/// Dumps that give the proposals of good hours, which are judged like those.
fn given_back(dumps: &mut Dumps, rng: &mut Rng) {
    dumps.run.begin("an hour's own proposal given back");
    for hour in [three_zone_hour(), contracted_hour()] {
        dumps.feed_made(&giving_back(hour));
    }
    for _ in 0..8_000 {
        let shape = Shape::mostly_small(rng, 8);
        let hour = good(rng, shape);
        let proposal = hour.proposal();
        let made = giving_back(hour);
        if made.due().2 != proposal {
            let dump = made.dump();
            dumps.fault(&made.case, &dump, made.room, || "it does not give the hour's proposal".into());
        }
        dumps.feed_made(&made);
    }
    dumps.run.end();
}

/// Each expected volume is within a tenth of the exact product, and not above the quantity.
fn volumes_near(dumps: &mut Dumps, made: &Made) {
    let (number, _, written) = made.due();
    if number != 0 {
        return;
    }
    let numbers = written[HEADER..].chunks_exact(4);
    let numbers = numbers.map(|field| u32::from_le_bytes(field.try_into().expect("four bytes")));
    for ((order, volume), &bits) in made.hour.orders.iter().zip(numbers).zip(&made.values[2..]) {
        if volume > order.quantity || !within_one_tenth(bits, order.quantity, volume) {
            let dump = made.dump();
            dumps.fault(&made.case, &dump, made.room, || {
                format!("volume {volume} of share {bits:016x} and {}", order.quantity)
            });
        }
    }
}

/// Each limit of each kind, with the values next to it and the rest good.
fn at_the_limits(dumps: &mut Dumps, rng: &mut Rng) {
    dumps.run.begin("each limit of each value, and the values next to it");
    for quantity in [1, 2, 3, 10, 999, 4_096, 99_999, 100_000] {
        let hour = one_of_each(quantity, rng.pick(&[Version::One, Version::Two]));
        for (at, kind) in kinds(&hour).into_iter().enumerate() {
            let factor = f64::from(kind.factor());
            let (least, greatest) = kind.range();
            let mut limits = vec![0.0, -0.0, 1.0, f64::MIN_POSITIVE, f64::MAX, f64::MAX / factor];
            for whole in [least, greatest] {
                for past in [-1.0, -0.5, 0.0, 0.5, 1.0] {
                    limits.push((whole + past) / factor);
                }
            }
            for limit in limits {
                for steps in -4..=4 {
                    for sign in [1.0, -1.0] {
                        let mut made = Made::good(rng, hour.clone());
                        made.values[at] = (sign * stepped(limit, steps)).to_bits();
                        dumps.feed_made(&made);
                    }
                }
            }
        }
    }
    dumps.run.end();

    dumps.run.begin("products about whole numbers and halves");
    for _ in 0..10_000 {
        let quantity = rng.between_or_end(1, 100_000) as u32;
        let hour = one_of_each(quantity, Version::One);
        let mut made = Made::good(rng, hour);
        for (at, kind) in kinds(&made.hour).into_iter().enumerate() {
            let value = match rng.one_in(2) {
                true => whole(rng, kind),
                false => half(rng, kind),
            };
            let value = stepped(value, rng.between(-2, 2));
            if kind.written(value).is_some() {
                made.values[at] = value.to_bits();
            }
        }
        dumps.feed_made(&made);
        volumes_near(dumps, &made);
    }
    dumps.run.end();

    dumps.run.begin("every price of three decimals up to 20 euros");
    for thousandths in 0..20_000 {
        let mut made = Made::of(one_of_each(1, Version::Two), vec![0; 5]);
        let euros = f64::from(thousandths) / 1_000.0;
        made.values[1] = (-euros).to_bits();
        made.values[4] = euros.to_bits();
        dumps.feed_made(&made);
    }
    dumps.run.end();

    dumps.run.begin("lengths of the dump and of the room");
    for made in [
        giving_back(three_zone_hour()),
        giving_back(contracted_hour()),
        giving_back(good(rng, Shape::LARGEST)),
        giving_back(Hour { zones: 1, ..Hour::default() }),
    ] {
        let (dump, needed) = (made.dump(), made.room);
        let due = dump.len();
        let lengths = (0..200).chain(due.saturating_sub(20)..due + 20);
        for length in lengths.chain([2 * due, 10 * due]) {
            let mut other = dump.clone();
            other.resize(length, 0);
            let (answer, _) = dumps.feed(&made.case, &other, needed);
            if (answer.number == 57) != (length != due) {
                dumps.fault(&made.case, &other, needed, || format!("{answer:?}"));
            }
        }
        for room in (0..60).chain(needed.saturating_sub(20)..needed + 20) {
            let mut other = giving_back(made.hour.clone());
            other.room = room;
            dumps.feed_made(&other);
        }
    }
    dumps.run.end();
}

/// Every exponent, and bits of any kind.
fn by_bits(dumps: &mut Dumps, rng: &mut Rng) {
    dumps.run.begin("every exponent, in each place");
    for exponent in 0..=0x7FF {
        for at in 0..5 {
            for sign in [0, SIGN] {
                for fraction in [0, FRACTION, rng.draw() & FRACTION] {
                    let quantity = rng.between_or_end(1, 100_000) as u32;
                    let mut made = Made::of(one_of_each(quantity, Version::One), vec![0; 5]);
                    made.values[at] = exponent << 52 | sign | fraction;
                    dumps.feed_made(&made);
                }
            }
        }
    }
    dumps.run.end();

    dumps.run.begin("bits of any kind");
    for n in 0..12_000 {
        let mut made = Made::some(rng);
        let count = match n % 3 {
            0 => made.values.len(),
            _ => 1,
        };
        for _ in 0..count {
            let at = rng.below(made.values.len());
            made.values[at] = rng.draw();
        }
        dumps.feed_made(&made);
    }
    dumps.run.end();
}

/// Files with bytes changed, and null pointers.
fn by_bytes(dumps: &mut Dumps, rng: &mut Rng) {
    dumps.run.begin("damaged cases and dumps");
    for _ in 0..8_000 {
        let made = Made::some(rng);
        let mut files = [made.case.clone(), made.dump()];
        for _ in 0..1 + rng.below(3) {
            let file = &mut files[rng.below(2)];
            let at = rng.below(file.len() + 1);
            match rng.below(4) {
                0 => file.insert(at, rng.draw() as u8),
                1 if at < file.len() => drop(file.remove(at)),
                2 if at < file.len() => file[at] = rng.pick(&[0, 1, 0x7F, 0x80, 0xFF]),
                3 if at < file.len() => file[at] ^= 1 << rng.below(8),
                _ => {}
            }
        }
        dumps.feed(&files[0], &files[1], made.room);
    }
    dumps.run.end();

    dumps.run.begin("null with length 0");
    let made = giving_back(three_zone_hour());
    let (case, dump, none) = (&made.case[..], &made.dump()[..], &[][..]);
    for (case, dump, room) in
        [(none, none, 0), (none, dump, ROOM), (case, none, ROOM), (case, none, 0), (case, dump, 0)]
    {
        dumps.feed_as(case, dump, room, true);
    }
    dumps.run.end();
}
