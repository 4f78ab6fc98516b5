//! The records that crates/prog_records reads, and what the program prints for each by the second judge. The
//! program's src/main.rt has the format, and each of its modules says what a kind of record holds.

use crate::stored_lines::hex;
use second_judge::files::u32_at;
use second_judge::limits::LEAST_BUFFER;
use second_judge::{
    case_columned, case_restored, desk_lines, dump_proposal, intuitive, intuitive_small, judge, judge_families,
    queue_post, queue_serve, sheet_branches, shortfalls, CarriedAnswer, OutputAnswer, ServedAnswer, Verdict,
    QUEUE_BYTES,
};

/// Bytes before the parts: a letter, two numbers and three lengths.
const OPENING: usize = 21;
/// Bytes of an event of the queue: a letter and two numbers.
const EVENT: usize = 9;

/// The room of the program; a record lends all of it or less.
const COLUMNED_ROOM: usize = 10_126;
const PROPOSAL_ROOM: usize = 2_572;
const SHEET_ROOM: usize = 4_352;
const SHORTFALL_ROOM: usize = 1_280;
const SCRATCH_ROOM: usize = 330;
const SMALL_SCRATCH_ROOM: usize = 102;
/// The most net positions and prices that the program takes.
const ZONES: usize = 17;
/// Each number of a scratch before the call.
const SCRATCH_BEFORE: i64 = 7;

/// A letter that says which entry the record is for, two numbers and three parts.
#[derive(Clone, Debug, Default, PartialEq, Eq)]
pub struct Record {
    pub letter: u8,
    pub number: u32,
    pub room: u32,
    pub parts: [Vec<u8>; 3],
}

impl Record {
    /// A record without numbers.
    pub fn new(letter: u8, parts: [Vec<u8>; 3]) -> Record {
        Record { letter, parts, ..Record::default() }
    }

    pub fn bytes(&self) -> Vec<u8> {
        let mut bytes = vec![self.letter];
        let lengths = self.parts.each_ref().map(|part| part.len() as u32);
        let numbers = [self.number, self.room].into_iter().chain(lengths);
        bytes.extend(numbers.flat_map(u32::to_le_bytes));
        bytes.extend(self.parts.concat());
        bytes
    }

    /// What the program prints for it.
    pub fn printed(&self) -> Vec<u8> {
        let [first, second, third] = &self.parts;
        let (number, room) = (self.number as usize, self.room as usize);
        match self.letter {
            b't' => first.clone(),
            b'h' => desk_lines(first),
            b'c' => columns_lines(room, first).into_bytes(),
            b'd' => dump_lines(first, second).into_bytes(),
            b'f' => families_lines(first, second, third).into_bytes(),
            b'i' => exchange_lines(number, room, first, second, third).into_bytes(),
            b'm' => sheet_lines(number, room, first).into_bytes(),
            b'q' => queue_lines(first).into_bytes(),
            b's' => shortfall_lines(room, first, second).into_bytes(),
            _ => b"no entry\n".to_vec(),
        }
    }
}

/// The records of an input, if its last is whole.
pub fn read(mut input: &[u8]) -> Option<Vec<Record>> {
    let mut records = Vec::new();
    while !input.is_empty() {
        let (opening, mut rest) = input.split_at_checked(OPENING)?;
        let mut record = Record::new(opening[0], Default::default());
        (record.number, record.room) = (u32_at(opening, 1), u32_at(opening, 5));
        for (n, part) in record.parts.iter_mut().enumerate() {
            let length = u32_at(opening, 9 + 4 * n) as usize;
            let (taken, behind) = rest.split_at_checked(length)?;
            *part = taken.to_vec();
            rest = behind;
        }
        records.push(record);
        input = rest;
    }
    Some(records)
}

/// Number, index and length.
fn answer_words(OutputAnswer { number, index, length }: OutputAnswer) -> String {
    format!("{number} {index} {length}")
}

/// The line of a dump: an answer and, for a written proposal, the number of its judgement.
pub fn dump_line(answer: OutputAnswer, judged: Option<u32>) -> String {
    let judged = judged.map_or(String::new(), |number| format!(" judged {number}"));
    format!("{}{judged}", answer_words(answer))
}

/// The line of an hour with families: the verdict with the list, the report buffer, and the verdict without the list.
pub fn families_line(with: Verdict, report: &[u8], without: Verdict) -> String {
    format!("{} {} {} without {} {}", with.number, with.index, hex(report), without.number, without.index)
}

/// The line of an hour's shortfalls: an answer and its numbers.
pub fn shortfall_line(answer: OutputAnswer, numbers: &[i64]) -> String {
    format!("{}{}", answer_words(answer), numbers_words(numbers))
}

/// A space before each number.
pub fn numbers_words(numbers: &[i64]) -> String {
    numbers.iter().map(|number| format!(" {number}")).collect()
}

/// An answer, and what an entry wrote into this much of the program's room.
fn lent<T: Copy + Default>(room: usize, entry: impl FnOnce(&mut [T]) -> OutputAnswer) -> (OutputAnswer, Vec<T>) {
    let mut out = vec![T::default(); room];
    let answer = entry(&mut out);
    out.truncate(answer.length as usize);
    (answer, out)
}

fn columns_lines(room: usize, file: &[u8]) -> String {
    let room = room.min(COLUMNED_ROOM);
    let line = |name, entry: fn(&[u8], &mut [u8]) -> OutputAnswer| {
        let (answer, out) = lent(room, |out| entry(file, out));
        format!("{name} {} {}\n", answer_words(answer), hex(&out))
    };
    line("columned", case_columned) + &line("restored", case_restored)
}

fn dump_lines(case: &[u8], dump: &[u8]) -> String {
    let (answer, proposal) = lent(PROPOSAL_ROOM, |out| dump_proposal(case, dump, out));
    let judged = || judge(case, &proposal, &mut [0; LEAST_BUFFER]).number;
    dump_line(answer, (answer.number == 0).then(judged)) + "\n"
}

fn families_lines(case: &[u8], proposal: &[u8], list: &[u8]) -> String {
    let mut report = [0; LEAST_BUFFER];
    let with = judge_families(case, proposal, list, &mut report);
    let without = judge(case, proposal, &mut [0; LEAST_BUFFER]);
    families_line(with, &report, without) + "\n"
}

fn shortfall_lines(room: usize, case: &[u8], proposal: &[u8]) -> String {
    let (answer, numbers) = lent(room.min(SHORTFALL_ROOM), |out| shortfalls(case, proposal, out));
    shortfall_line(answer, &numbers) + "\n"
}

fn sheet_lines(zones: usize, room: usize, sheet: &[u8]) -> String {
    let (answer, out) = lent(room.min(SHEET_ROOM), |out| sheet_branches(sheet, zones, out));
    let numbers: Vec<String> = out.chunks_exact(4).map(|number| (u32_at(number, 0) as i32).to_string()).collect();
    let branches = numbers.chunks(zones + 1).map(|branch| branch.join(" ") + "\n");
    answer_words(answer) + "\n" + &branches.collect::<String>()
}

/// Net positions or prices of a record: the highest bit is the sign.
fn numbers_of(bytes: &[u8]) -> Vec<i64> {
    let number = |bytes: &[u8]| {
        let bits = u64::from_le_bytes(bytes.try_into().expect("eight bytes"));
        let size = (bits & i64::MAX as u64) as i64;
        if bits > i64::MAX as u64 {
            -size
        } else {
            size
        }
    };
    bytes.chunks_exact(8).take(ZONES).map(number).collect()
}

/// The bytes of net positions or prices, at most as many as the program takes. The least number of 64 bits cannot
/// be written so, and becomes the one above it.
pub fn bytes_of(numbers: &[i64]) -> Vec<u8> {
    let bits = |number: &i64| number.unsigned_abs().min(i64::MAX as u64) | (*number as u64 & 1 << 63);
    numbers.iter().take(ZONES).flat_map(|number| bits(number).to_le_bytes()).collect()
}

fn exchange_lines(room: usize, small_room: usize, net: &[u8], prices: &[u8], pairs: &[u8]) -> String {
    type Entry = fn(&[i64], &[i64], &[u8], &mut [i64]) -> CarriedAnswer;
    let (net, prices) = (numbers_of(net), numbers_of(prices));
    let words = |entry: Entry, room| {
        let mut scratch = vec![SCRATCH_BEFORE; room];
        let answer = entry(&net, &prices, pairs, &mut scratch);
        let zeros = scratch.iter().take_while(|number| **number == 0).count();
        let CarriedAnswer { number, index, intuitive, total } = answer;
        format!("{number} {index} {intuitive} {total} {zeros}")
    };
    let wide = words(intuitive, room.min(SCRATCH_ROOM));
    let small = words(intuitive_small, small_room.min(SMALL_SCRATCH_ROOM));
    format!("{wide}; {small}\n")
}

fn queue_lines(events: &[u8]) -> String {
    let mut queue = [0; QUEUE_BYTES];
    let line = |event: &[u8]| {
        let (first, second) = (u32_at(event, 1), u32_at(event, 5));
        match event[0] {
            b'p' => format!("post {first} {second}: {}\n", queue_post(&mut queue, first, second)),
            b's' => {
                let ServedAnswer { number, index, area, hour } = queue_serve(&mut queue);
                format!("serve: {number} {index} {area} {hour}\n")
            }
            _ => {
                queue[first as usize % QUEUE_BYTES] = second as u8;
                format!("byte {first} {second}\n")
            }
        }
    };
    events.chunks_exact(EVENT).map(line).collect()
}

/// The bytes of an event of the queue.
pub fn event_bytes(letter: u8, first: u32, second: u32) -> Vec<u8> {
    [&[letter][..], &first.to_le_bytes(), &second.to_le_bytes()].concat()
}

#[cfg(test)]
mod tests {
    use super::*;
    use std::fs;

    fn stored(name: &str) -> Vec<u8> {
        fs::read(format!("{}/../crates/prog_records/{name}", env!("CARGO_MANIFEST_DIR"))).unwrap()
    }

    #[test]
    fn the_stored_records_print_what_is_stored() {
        let (input, due) = (stored("stdin"), stored("stdout"));
        let records = read(&input).unwrap();
        let printed: Vec<u8> = records.iter().flat_map(Record::printed).collect();
        let same = printed.iter().zip(&due).take_while(|(one, other)| one == other).count();
        assert_eq!((printed.len(), same), (due.len(), due.len()), "bytes printed, and of them as stored");
        let written: Vec<u8> = records.iter().flat_map(Record::bytes).collect();
        assert!(written == input, "the records are written as they were read");
    }

    #[test]
    fn a_record_that_is_cut_short_is_not_read() {
        let bytes = Record::new(b'h', [vec![1, 2, 3], vec![], vec![4]]).bytes();
        assert_eq!(read(&bytes).unwrap().len(), 1);
        for length in 1..bytes.len() {
            assert_eq!(read(&bytes[..length]), None);
        }
    }

    #[test]
    fn numbers_keep_their_sign() {
        let numbers = [0, 1, -1, i64::MAX, -i64::MAX];
        assert_eq!(numbers_of(&bytes_of(&numbers)), numbers);
        assert_eq!(numbers_of(&bytes_of(&[i64::MIN])), [-i64::MAX]);
    }
}
