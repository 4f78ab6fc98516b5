//! The margin sheet's entry of both judges: good sheets, each cause alone and with others, every limit, damaged
//! sheets, and all short ones.

use crate::lent::Lent;
use crate::library;
use crate::makers::sheets::*;
use crate::numbers::{COUNTED, LEAST_INPUTS, SHEET};
use crate::rng::Rng;
use crate::run::{count_met, Run};
use second_judge::{sheet_branches, OutputAnswer};
use wrong_builds::sheet::{Read, BUILDS};

/// What a good stream of sheets must contain, counted.
const MET: [&str; 6] = [
    "first line named",
    "last of several lines named",
    "line past the 64th named",
    "64 lines of 16 zones written",
    "no line, and nothing written",
    "last line without newline written",
];

/// Counts over all sheets.
struct Sheets<'a> {
    run: &'a mut Run,
    inputs: u64,
    numbers: [u64; COUNTED],
    met: [u64; MET.len()],
    second_wrong: [u64; BUILDS.len()],
}

impl Sheets<'_> {
    /// Gives both judges this sheet and this much room.
    fn feed(&mut self, sheet: &[u8], zones: usize, room: usize) -> (OutputAnswer, Vec<u8>) {
        self.feed_as(sheet, zones, room, false)
    }

    fn feed_as(&mut self, sheet: &[u8], zones: usize, room: usize, null: bool) -> (OutputAnswer, Vec<u8>) {
        self.run.count();
        self.inputs += 1;
        let copy = sheet.to_vec();
        let lent = Lent::bytes(room, self.inputs);
        let wrong = |build: Read, out: &mut [u8]| build(sheet, zones, out);
        let theirs = lent.to(|out| library::sheet_branches(sheet, zones, out, null));
        let ours = lent.to(|out| sheet_branches(sheet, zones, out));
        if let Some(text) = theirs.unlike(&ours) {
            self.fault(sheet, zones, room, || text);
        }
        if copy != sheet {
            self.fault(sheet, zones, room, || "the sheet was written".into());
        }

        self.numbers[ours.answer.number as usize] += 1;
        self.meet(sheet, zones, ours.answer);
        lent.tell(&theirs, &BUILDS, &mut self.second_wrong, wrong);
        (ours.answer, ours.room().to_vec())
    }

    fn fault(&mut self, sheet: &[u8], zones: usize, room: usize, text: impl FnOnce() -> String) {
        self.run.fault_in(&[("sheet", sheet)], || format!("{}\n  zones {zones}, room {room}", text()));
    }

    fn meet(&mut self, sheet: &[u8], zones: usize, answer: OutputAnswer) {
        let OutputAnswer { number, index, length } = answer;
        let newlines = sheet.iter().filter(|byte| **byte == b'\n').count() as u64;
        let ended = sheet.ends_with(b"\n");
        let last = (newlines + u64::from(!ended)).saturating_sub(1);
        let names = (51..=53).contains(&number);
        let met = [
            names && index == 0,
            names && index == last && last > 0,
            names && index >= MOST_LINES as u64,
            number == 0 && zones == MOST_ZONES && length == ROOM as u64,
            number == 0 && sheet.is_empty() && length == 0,
            number == 0 && !sheet.is_empty() && !ended,
        ];
        count_met(&mut self.met, &met);
    }

    /// Feeds a made sheet whose answer and bytes are known.
    fn feed_made(&mut self, made: &Made) {
        let sheet = made.bytes();
        let (answer, out) = self.feed(&sheet, made.zones, made.room);
        let (number, index) = made.due();
        let written = match number {
            0 => made.branches(),
            _ => Vec::new(),
        };
        let due = OutputAnswer { number, index, length: written.len() as u64 };
        if answer != due {
            self.fault(&sheet, made.zones, made.room, || format!("{answer:?} where {due:?} is due"));
        } else if out[..written.len()] != written {
            self.fault(&sheet, made.zones, made.room, || "other branches than were made".into());
        }
    }
}

pub fn sheets(run: &mut Run, rng: &mut Rng) {
    run.section("margin sheets");
    let mut sheets =
        Sheets { run, inputs: 0, numbers: [0; COUNTED], met: Default::default(), second_wrong: Default::default() };

    sheets.run.begin("good sheets");
    for _ in 0..12_000 {
        sheets.feed_made(&Made::some(rng));
    }
    sheets.run.end();

    for (cause, _, name) in CAUSES {
        sheets.run.begin(&format!("one cause: {name}"));
        for _ in 0..500 {
            let mut made = Made::some(rng);
            made.plant(rng, cause);
            sheets.feed_made(&made);
        }
        sheets.run.end();
    }

    sheets.run.begin("each pair of causes");
    for (one, (first, ..)) in CAUSES.iter().enumerate() {
        for (second, ..) in &CAUSES[one..] {
            for _ in 0..150 {
                let mut made = Made::some(rng);
                made.plant(rng, *first);
                made.plant(rng, *second);
                sheets.feed_made(&made);
            }
        }
    }
    sheets.run.end();

    sheets.run.begin("several causes");
    for _ in 0..10_000 {
        let mut made = Made::some(rng);
        let skipped = rng.below(CAUSES.len());
        for (cause, ..) in &CAUSES[skipped..] {
            for _ in 0..rng.pick(&[0, 0, 0, 1, 1, 3]) {
                made.plant(rng, *cause);
            }
        }
        sheets.feed_made(&made);
    }
    sheets.run.end();

    at_the_limits(&mut sheets, rng);

    sheets.run.begin("damaged sheets");
    for _ in 0..20_000 {
        let made = Made::some(rng);
        let sheet = damaged(rng, made.bytes());
        sheets.feed(&sheet, made.zones, made.room);
    }
    sheets.run.end();

    sheets.run.begin("every sheet of up to six bytes, of 1 9 - . , and newline");
    let letters = b"19-.,\n";
    for length in 0..=6 {
        for n in 0..letters.len().pow(length) {
            let digit = |place| n / letters.len().pow(place) % letters.len();
            let sheet: Vec<u8> = (0..length).map(|place| letters[digit(place)]).collect();
            sheets.feed(&sheet, 1, 24);
        }
    }
    sheets.run.end();

    sheets.run.begin("null with length 0");
    for (sheet, zones, room) in [("", 1, 0), ("", 16, 4), ("1,1", 1, 0), ("", 0, 0), ("1,1", 17, 0)] {
        sheets.feed_as(sheet.as_bytes(), zones, room, true);
    }
    sheets.run.end();

    let Sheets { run, inputs, .. } = sheets;
    run.section("margin sheets, numbers, times met");
    run.check_times("inputs".into(), inputs, LEAST_INPUTS);
    run.check_numbers(&SHEET, &sheets.numbers);
    run.section("margin sheets, met, times");
    run.check_met(&MET, &sheets.met);
    run.section("margin sheets, wrong builds, times told from the library");
    run.check_told(&BUILDS, &sheets.second_wrong, inputs);
    run.entry("lta_sheet_branches", inputs, &[(&SHEET, &sheets.numbers)], &sheets.second_wrong);
}

/// Each limit, and one on either side of it, with everything else good.
fn at_the_limits(sheets: &mut Sheets, rng: &mut Rng) {
    sheets.run.begin("each field at its limits and one past");
    for zones in 1..=MOST_ZONES {
        for field in 0..=zones {
            for sign in [-1, 1] {
                for past in [-1, 0, 1] {
                    let count = 1 + rng.below(3);
                    let mut made = Made::good(rng, zones, count);
                    let l = rng.below(count);
                    let units = sign * (column(field).1 + past);
                    made.units[l][field] = units;
                    made.lines[l][field] = written(rng, field, units);
                    if past > 0 {
                        made.causes.push((53, l as u64));
                    }
                    sheets.feed_made(&made);
                }
            }
        }
    }
    sheets.run.end();

    sheets.run.begin("counts of lines and lengths of room about their limits");
    for zones in 1..=MOST_ZONES {
        for count in [0, 1, 2, 63, 64, 65, 66, 128] {
            let needed = 4 * (zones + 1) * count;
            for room in [0, needed.saturating_sub(4), needed.saturating_sub(1), needed, needed + 1] {
                let mut made = Made::good(rng, zones, count);
                made.room = room;
                if count > MOST_LINES {
                    made.causes.push((54, 0));
                } else if room < needed {
                    made.causes.push((55, 0));
                }
                sheets.feed_made(&made);
            }
        }
    }
    sheets.run.end();

    sheets.run.begin("zone counts about their limits and far past");
    for zones in (0..40).chain(WRONG_ZONES) {
        for room in [0, ROOM] {
            for sheet in ["", "\n", "1,1\n", "x"] {
                sheets.feed(sheet.as_bytes(), zones, room);
            }
        }
        if zones == 0 || zones > MOST_ZONES {
            for _ in 0..4 {
                let mut made = Made::some(rng);
                made.zones = zones;
                made.causes.push((50, 0));
                sheets.feed_made(&made);
            }
        }
    }
    sheets.run.end();
}
