//! The stored output of crates/prog_records for queues, columns and shortfalls: the papers' output is the same, and
//! each wrong build's differs.

use paper_hours::{forced_hour, three_zone_hour, Branch, Hour, Link, Version};
use second_judge::{
    case_columned, case_restored, shortfalls, DeskQueue, OutputAnswer, Papers, Queue, ServedAnswer, QUEUE_BYTES,
};
use wrong_builds::columns::Rearrange;
use wrong_builds::shortfalls::Value;
use wrong_builds::{columns, queue};

const RECORDS: &[u8] = include_bytes!("../../crates/prog_records/stdin");
const RECORDS_PRINTED: &str = include_str!("../../crates/prog_records/stdout");

/// A stored record: the room that is lent, and its three parts.
struct Record {
    room: usize,
    parts: [&'static [u8]; 3],
}

/// The stored records of a letter, of which there are some.
fn records(letter: u8) -> Vec<Record> {
    let mut found = Vec::new();
    let mut rest = RECORDS;
    while let Some((opening, mut next)) = rest.split_first_chunk::<21>() {
        let word = |at: usize| u32::from_le_bytes(opening[at..at + 4].try_into().unwrap()) as usize;
        let parts = [9, 13, 17].map(|at| {
            let (part, past) = next.split_at(word(at));
            next = past;
            part
        });
        if opening[0] == letter {
            found.push(Record { room: word(5), parts });
        }
        rest = next;
    }
    assert!(rest.is_empty() && !found.is_empty());
    found
}

/// What stands under a heading in the stored output of crates/prog_records.
fn printed_of(heading: &str) -> String {
    let lines = RECORDS_PRINTED.lines().skip_while(|line| *line != heading).skip(1);
    lines.take_while(|line| !line.starts_with("== ")).map(|line| format!("{line}\n")).collect()
}

/// The stored runs of the desk queue as this queue prints them: a run begins with its name, and from a line `byte`
/// on its bytes follow.
fn queue_runs(new: &dyn Fn() -> Box<dyn DeskQueue>, events: &str) -> String {
    let mut build = new();
    let mut queue = Queue::default();
    let mut bytes = [0; QUEUE_BYTES];
    let mut by_bytes = false;
    let mut printed = String::new();
    for line in events.lines() {
        let words: Vec<&str> = line.split(' ').collect();
        let number = |n: usize| words[n].parse::<u32>().unwrap();
        printed += line;
        match words[0] {
            "#" => {
                build = new();
                queue = Queue::default();
                bytes = [0; QUEUE_BYTES];
                by_bytes = false;
            }
            "byte" => {
                bytes[number(1) as usize] = number(2) as u8;
                by_bytes = true;
            }
            "post" => {
                let (area, hour) = (number(1), number(2));
                let of_bytes = new().queue_post(&mut bytes, area, hour);
                let followed = build.post(&mut queue, area, hour);
                let answer = if by_bytes { of_bytes } else { followed };
                printed += &format!(": {answer}");
            }
            "serve" => {
                let of_bytes = new().queue_serve(&mut bytes);
                let followed = build.serve(&mut queue);
                let answer = if by_bytes { of_bytes } else { followed };
                let ServedAnswer { number, index, area, hour } = answer;
                printed += &format!(": {number} {index} {area} {hour}");
            }
            word => panic!("no event: {word}"),
        }
        printed += "\n";
    }
    printed
}

const QUEUE_EVENTS: &str = include_str!("../../queue/events.txt");
const QUEUE_PRINTED: &str = include_str!("../../queue/answers.txt");

#[test]
fn stored_queue_runs_tell_every_wrong_queue_but_one() {
    assert_eq!(queue_runs(&|| Box::new(Papers), QUEUE_EVENTS), QUEUE_PRINTED);
    assert_eq!(printed_of("== queues"), QUEUE_PRINTED);
    // Wrong bytes in cells are no answer: that build shows only in the bytes.
    for (build, name) in queue::BUILDS {
        let told = queue_runs(&build, QUEUE_EVENTS) != QUEUE_PRINTED;
        assert_eq!(told, name != "all areas written anew", "{name}");
    }
}

/// The stored files as this judge columns and restores them, two lines for each.
fn column_runs([column, restore]: [Rearrange; 2]) -> String {
    let mut printed = String::new();
    for Record { room, parts: [file, ..] } in records(b'c') {
        let mut out = vec![0; room];
        let columned = column(file, &mut out);
        printed += &column_line("columned", columned, &out);
        out.fill(0);
        let restored = restore(file, &mut out);
        printed += &column_line("restored", restored, &out);
    }
    printed
}

fn column_line(name: &str, answer: OutputAnswer, out: &[u8]) -> String {
    let length = answer.length as usize;
    let written = out.get(..length).unwrap_or(&[]);
    let hex: String = written.iter().map(|byte| format!("{byte:02x}")).collect();
    format!("{name} {} {} {length} {hex}\n", answer.number, answer.index)
}

#[test]
fn stored_columns_tell_every_wrong_build() {
    let printed = printed_of("== columns");
    assert_eq!(column_runs([case_columned, case_restored]), printed);
    for (build, name) in columns::BUILDS {
        assert_ne!(column_runs(build), printed, "{name}");
    }
}

/// P1 with every volume, margin, capacity, flow and quantity divided by 125: its amounts are too, and so is a gap.
/// The tolerance is 100 euros, which S-12 allows.
fn small_hour() -> Hour {
    let mut hour = three_zone_hour();
    hour.tolerance = 10_000;
    for branch in &mut hour.branches {
        branch.ram /= 125;
    }
    for link in &mut hour.links {
        link.capacity /= 125;
        link.contracted /= 125;
    }
    for order in &mut hour.orders {
        order.quantity /= 125;
    }
    for number in hour.volumes.iter_mut().chain(&mut hour.flows) {
        *number /= 125;
    }
    hour
}

/// Capacity 1, share 1, and the price of zone 1 a grain above that of zone 0.
fn grain_hour() -> Hour {
    Hour {
        zones: 2,
        tolerance: 1,
        branches: vec![Branch { ram: 0, ptdfs: vec![0, 1] }],
        links: vec![Link { from: 0, to: 1, capacity: 1, contracted: 1 }],
        share: 1,
        flows: vec![0],
        shadow_prices: vec![1],
        ..Hour::default()
    }
}

#[test]
fn each_wrong_build_is_told_by_some_hour() {
    let mut free = small_hour();
    free.branches[0].ram += 1;
    free.links[0].capacity += 2;
    free.links[0].contracted = 3;
    free.version = Version::Two;
    free.volumes = vec![22, 21, 7, 1, 35];
    let mut against = small_hour();
    against.links.push(Link { from: 1, to: 0, capacity: 8, contracted: 8 });
    against.flows.push(1);
    against.volumes = vec![32, 10, 7, 0, 35];
    let mut negative = forced_hour();
    negative.tolerance = 10_000;
    negative.branches[0].ram = -999;
    let mut refused = free.clone();
    refused.tolerance = 1;
    let hours = [small_hour(), free, against, negative, refused, grain_hour()];
    for (build, name) in wrong_builds::shortfalls::BUILDS {
        let told = hours.iter().any(|hour| {
            let (case, proposal) = (hour.case(), hour.proposal());
            (0..=24).any(|room| {
                let (mut out, mut right) = (vec![-7; room], vec![-7; room]);
                let answer = build(&case, &proposal, &mut out);
                (answer, out) != (shortfalls(&case, &proposal, &mut right), right)
            })
        });
        assert!(told, "{name}");
    }
}

/// The lines of the stored shortfalls by one of the builds.
fn shortfall_runs(build: Value) -> String {
    let mut printed = String::new();
    for Record { room, parts: [case, proposal, _] } in records(b's') {
        let mut out = vec![0; room];
        let answer = build(case, proposal, &mut out);
        printed += &format!("{} {} {}", answer.number, answer.index, answer.length);
        for number in out.iter().take(answer.length as usize) {
            printed += &format!(" {number}");
        }
        printed += "\n";
    }
    printed
}

#[test]
fn stored_shortfalls_tell_every_wrong_build() {
    let printed = printed_of("== shortfalls");
    assert_eq!(shortfall_runs(shortfalls), printed);
    for (build, name) in wrong_builds::shortfalls::BUILDS {
        assert_ne!(shortfall_runs(build), printed, "{name}");
    }
}
