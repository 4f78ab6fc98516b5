//! Columning and the way back of both judges (S-10): readable cases there and back, rooms, fields out of range in
//! rows and in columns, lengths, counts, marks, and random bytes.

use crate::lent::Lent;
use crate::library;
use crate::makers::columned::*;
use crate::makers::fields::{change_a_byte, fields};
use crate::makers::hours::{good, Shape};
use crate::numbers::{COLUMNS, COUNTED, LEAST_INPUTS};
use crate::rng::Rng;
use crate::run::Run;
use paper_hours::{contracted_hour, three_zone_hour, Version};
use second_judge::limits::LEAST_BUFFER;
use second_judge::{case_columned, case_restored, judge, OutputAnswer};
use wrong_builds::columns::{Rearrange, BUILDS};

/// The longest case: 64 branches of 16 zones, 64 links of version 2, 512 orders.
const LONGEST: usize = 14 + 64 * 68 + 64 * 10 + 512 * 10;

/// What a good stream of files must contain, counted.
const MET: [&str; 10] = [
    "longest case and back",
    "case of no rows and back",
    "no order, and links",
    "one order and back",
    "version 1 with links and back",
    "version 2 with links and back",
    "71 by the mark alone on the way back",
    "71 by an order's field on the way back",
    "71 by the length on the way back",
    "72 by one byte",
];

#[derive(Clone, Copy, PartialEq, Eq)]
enum Entry {
    Columned,
    Restored,
}

const ENTRIES: [(Entry, &str); 2] = [(Entry::Columned, "columning"), (Entry::Restored, "way back")];

impl Entry {
    fn library(self, file: &[u8], out: &mut [u8], null: bool) -> OutputAnswer {
        match self {
            Entry::Columned => library::case_columned(file, out, null),
            Entry::Restored => library::case_restored(file, out, null),
        }
    }

    fn second(self, file: &[u8], out: &mut [u8]) -> OutputAnswer {
        match self {
            Entry::Columned => case_columned(file, out),
            Entry::Restored => case_restored(file, out),
        }
    }

    fn other(self) -> Entry {
        match self {
            Entry::Columned => Entry::Restored,
            Entry::Restored => Entry::Columned,
        }
    }
}

/// Counts over all files, for each entry.
struct Files<'a> {
    run: &'a mut Run,
    inputs: [u64; 2],
    numbers: [[u64; COUNTED]; 2],
    met: [u64; MET.len()],
    second_wrong: [u64; BUILDS.len()],
}

impl Files<'_> {
    /// Gives both judges this file and this much room. A file answered 0 is sent back.
    fn feed(&mut self, entry: Entry, file: &[u8], room: usize) -> OutputAnswer {
        let (answer, out) = self.feed_as(entry, file, room, false);
        if answer.number == 0 {
            let made = &out[..answer.length as usize];
            let room = made.len() + 1;
            let (back, again) = self.feed_as(entry.other(), made, room, false);
            if back != answer || again[..made.len()] != *file {
                self.fault(entry, file, room, || "it does not come back".into());
            }
            if entry == Entry::Columned {
                self.judged(file, made);
            }
        }
        answer
    }

    fn feed_as(&mut self, entry: Entry, file: &[u8], room: usize, null: bool) -> (OutputAnswer, Vec<u8>) {
        self.run.count();
        self.inputs[entry as usize] += 1;
        let copy = file.to_vec();
        let lent = Lent::bytes(room, self.inputs[entry as usize]);
        let wrong = |build: [Rearrange; 2], out: &mut [u8]| build[entry as usize](file, out);
        let theirs = lent.to(|out| entry.library(file, out, null));
        let ours = lent.to(|out| entry.second(file, out));
        if let Some(text) = theirs.unlike(&ours) {
            self.fault(entry, file, room, || text);
        }
        if copy != file {
            self.fault(entry, file, room, || "the file was written".into());
        }

        self.numbers[entry as usize][ours.answer.number as usize] += 1;
        lent.tell(&theirs, &BUILDS, &mut self.second_wrong, wrong);
        (ours.answer, ours.room().to_vec())
    }

    fn fault(&mut self, entry: Entry, file: &[u8], room: usize, text: impl FnOnce() -> String) {
        let (_, name) = ENTRIES[entry as usize];
        let suffix = match entry {
            Entry::Columned => "case",
            Entry::Restored => "columned",
        };
        self.run.fault_in(&[(suffix, file)], || format!("{name}: {}\n  room {room}", text()));
    }

    /// The expected answer.
    fn expect(&mut self, entry: Entry, file: &[u8], room: usize, number: u32) {
        let answer = self.feed(entry, file, room);
        let length = match number {
            0 => file.len() as u64,
            _ => 0,
        };
        let due = OutputAnswer { number, index: 0, length };
        if answer != due {
            self.fault(entry, file, room, || format!("{answer:?} where {due:?} is due"));
        }
    }

    /// Both judges refuse a columned file by 2, with any proposal.
    fn judged(&mut self, case: &[u8], columned: &[u8]) {
        let (mut report, mut their_report) = ([7; LEAST_BUFFER], [7; LEAST_BUFFER]);
        let verdict = judge(columned, case, &mut report);
        let answer = library::judge(columned, case, &mut their_report);
        let kept = report == [7; LEAST_BUFFER] && their_report == report;
        if (answer.number, answer.index) != (2, 0) || (verdict.number, verdict.index) != (2, 0) || !kept {
            self.fault(Entry::Columned, case, 0, || format!("judged {answer:?} and {verdict:?}"));
        }
    }

    fn meet(&mut self, at: usize, met: bool) {
        self.met[at] += u64::from(met);
    }
}

pub fn files(run: &mut Run, rng: &mut Rng) {
    run.section("columns");
    let mut files = Files {
        run,
        inputs: [0; 2],
        numbers: [[0; COUNTED]; 2],
        met: Default::default(),
        second_wrong: Default::default(),
    };

    files.run.begin("readable cases and back");
    for hour in [three_zone_hour(), contracted_hour()] {
        let case = hour.case();
        files.expect(Entry::Columned, &case, case.len(), 0);
    }
    for _ in 0..20 {
        let hour = good(rng, Shape::LARGEST);
        let case = hour.case();
        files.meet(0, case.len() == LONGEST);
        files.expect(Entry::Columned, &case, case.len(), 0);
    }
    for _ in 0..12_000 {
        let hour = some_hour(rng);
        let case = hour.case();
        let room = case.len() + rng.pick(&[0, 0, 1, 9, 100]);
        let (links, orders) = (!hour.links.is_empty(), hour.orders.len());
        files.meet(1, !links && orders == 0 && hour.branches.is_empty());
        files.meet(2, links && orders == 0);
        files.meet(3, orders == 1);
        files.meet(4, links && orders > 1 && hour.version == Version::One);
        files.meet(5, links && orders > 1 && hour.version == Version::Two);
        files.expect(Entry::Columned, &case, room, 0);
        files.expect(Entry::Restored, &columned(&case), room, 0);
        if moved(&hour, &case) != columned(&case) {
            files.fault(Entry::Columned, &case, 0, || "moved otherwise".into());
        }
    }
    files.run.end();

    rooms(&mut files, rng);
    fields_outside(&mut files, rng);
    lengths(&mut files, rng);
    marks(&mut files, rng);
    by_bytes(&mut files, rng);

    let Files { run, inputs, .. } = files;
    run.section("columns, numbers, times met");
    for (entry, name) in ENTRIES {
        let inputs = inputs[entry as usize];
        run.check_times(format!("{name}, inputs"), inputs, LEAST_INPUTS);
        for number in &COLUMNS.numbers {
            let times = files.numbers[entry as usize][*number as usize];
            run.check_times(format!("{name}, {number}"), times, COLUMNS.times);
        }
    }
    run.section("columns, met, times");
    run.check_met(&MET, &files.met);
    run.section("columns, wrong builds, times told from the library");
    let all = inputs[0] + inputs[1];
    run.check_told(&BUILDS, &files.second_wrong, all);
    let reached = files.numbers.each_ref().map(|times| (&*COLUMNS, &times[..]));
    run.entry("lta_case_columned, lta_case_restored", all, &reached, &files.second_wrong);
}

/// Outputs of every kind of length, for readable files and others.
fn rooms(files: &mut Files, rng: &mut Rng) {
    files.run.begin("rooms");
    for _ in 0..4_000 {
        let hour = some_hour(rng);
        let case = hour.case();
        let less = rng.between_or_end(1, case.len() as i64) as usize;
        files.meet(9, less == 1);
        files.expect(Entry::Columned, &case, case.len() - less, 72);
        files.expect(Entry::Restored, &columned(&case), case.len() - less, 72);
        // Neither entry takes the other's file, however little room there is.
        files.expect(Entry::Restored, &case, case.len() - less, 71);
        files.expect(Entry::Columned, &columned(&case), case.len() - less, 71);
    }
    files.run.end();
    files.run.begin("empty files, null pointers, no room");
    for null in [false, true] {
        for (entry, _) in ENTRIES {
            for room in [0, 1, 14] {
                files.feed_as(entry, &[], room, null);
            }
            let case = three_zone_hour().case();
            let file = match entry {
                Entry::Columned => case.clone(),
                Entry::Restored => columned(&case),
            };
            files.feed_as(entry, &file, 0, null);
        }
    }
    files.run.end();
}

/// A field out of range, in rows and in columns, or the least and the most it may be.
fn fields_outside(files: &mut Files, rng: &mut Rng) {
    files.run.begin("a field out of range");
    let mut made = 0;
    while made < 8_000 {
        let hour = some_hour(rng);
        let mut case = hour.case();
        let numbers = rng.pick(&[(3, 8), (4, 4), (6, 6), (7, 7), (8, 8), (8, 8)]);
        let Some((field, value)) = fault_in(rng, &hour, numbers.0..=numbers.1) else {
            continue;
        };
        made += 1;
        field.put(&mut case, &mut [], value);
        let room = case.len() - usize::from(rng.one_in(4));
        files.expect(Entry::Columned, &case, room, 71);
        let file = moved(&hour, &case);
        files.meet(7, field.number == 8);
        files.expect(Entry::Restored, &file, room, 71);
    }
    files.run.end();
    files.run.begin("an order's field at its limits");
    for _ in 0..4_000 {
        let hour = some_hour(rng);
        let mut case = hour.case();
        let mut list = fields(&hour);
        list.retain(|field| field.in_case && field.number == 8);
        if list.is_empty() {
            continue;
        }
        let field = rng.pick(&list);
        let value = rng.pick(&[field.least, field.greatest]);
        field.put(&mut case, &mut [], value);
        files.expect(Entry::Columned, &case, case.len(), 0);
        files.expect(Entry::Restored, &moved(&hour, &case), case.len(), 0);
    }
    files.run.end();
}

/// Bytes too many or too few, and counts that demand another length.
fn lengths(files: &mut Files, rng: &mut Rng) {
    files.run.begin("lengths");
    for _ in 0..6_000 {
        let hour = some_hour(rng);
        let case = hour.case();
        let length = match rng.below(4) {
            0 => case.len() - 1,
            1 => case.len() + rng.pick(&[1, 4, 10, 640, 12_000]),
            2 => rng.below(case.len()),
            _ => rng.below(15).min(case.len() - 1),
        };
        for (entry, file) in [(Entry::Columned, case.clone()), (Entry::Restored, columned(&case))] {
            let mut file = file;
            file.resize(length, 0);
            files.meet(8, entry == Entry::Restored && length >= 14);
            files.expect(entry, &file, length, 71);
        }
    }
    files.run.end();
    files.run.begin("counts");
    for _ in 0..4_000 {
        let case = some_hour(rng).case();
        for (entry, file) in [(Entry::Columned, case.clone()), (Entry::Restored, columned(&case))] {
            let mut file = file;
            // The version, the zones, the branches, the links or the orders.
            file[3 + rng.below(7)] ^= 1 + rng.below(255) as u8;
            files.feed(entry, &file, case.len());
        }
    }
    files.run.end();
}

/// Another mark, all else good.
fn marks(files: &mut Files, rng: &mut Rng) {
    files.run.begin("marks");
    for _ in 0..4_000 {
        let case = some_hour(rng).case();
        let mut file = columned(&case);
        let at = rng.below(3);
        match rng.below(3) {
            0 => file[2] = b'C',
            _ => file[at] ^= 1 + rng.below(255) as u8,
        }
        files.meet(6, true);
        files.expect(Entry::Restored, &file, file.len(), 71);
        let mut other = case.clone();
        match rng.below(3) {
            0 => other[2] = b'K',
            _ => other[at] ^= 1 + rng.below(255) as u8,
        }
        files.expect(Entry::Columned, &other, other.len(), 71);
    }
    files.run.end();
}

/// Some bytes changed, and bytes of any kind.
fn by_bytes(files: &mut Files, rng: &mut Rng) {
    files.run.begin("bytes changed");
    for _ in 0..8_000 {
        let case = some_hour(rng).case();
        for (entry, file) in [(Entry::Columned, case.clone()), (Entry::Restored, columned(&case))] {
            let mut file = file;
            for _ in 0..1 + rng.below(3) {
                change_a_byte(rng, &mut file);
            }
            let room = file.len() - usize::from(rng.one_in(8));
            files.feed(entry, &file, room);
        }
    }
    files.run.end();
    files.run.begin("bytes of any kind");
    for _ in 0..4_000 {
        let length = rng.below(200);
        let mut file: Vec<u8> = (0..length).map(|_| rng.draw() as u8).collect();
        let mark = rng.pick(&[b"LTK\x01\x00\x01\x00\x00", b"LTC\x02\x00\x02\x00\x00"]);
        let kept = rng.below(9).min(length);
        file[..kept].copy_from_slice(&mark[..kept]);
        for (entry, _) in ENTRIES {
            files.feed(entry, &file, length);
        }
    }
    files.run.end();
}
