//! The numbers that each entry must reach, and how often at least. They are read from tools/lta/numbers.txt, the
//! one table of them.

use std::sync::LazyLock;

const TABLE: &str = include_str!("../../tools/lta/numbers.txt");

/// What must be met often is met at least this many times.
pub const LEAST_TIMES: u64 = 100;
/// Each entry other than the judgement gets at least this many inputs.
pub const LEAST_INPUTS: u64 = 50_000;
/// At least this many of the inputs of S-3's entries are hours.
pub const LEAST_HOURS: u64 = 10_000;
/// More than the largest number.
pub const COUNTED: usize = 100;

pub struct Reach {
    pub numbers: Vec<u32>,
    pub times: u64,
}

/// Read from the table when it is first used.
type Lazy = LazyLock<Reach>;

fn often(numbers: Vec<u32>) -> Reach {
    Reach { numbers, times: LEAST_TIMES }
}

fn once(numbers: Vec<u32>) -> Reach {
    Reach { numbers, times: 1 }
}

/// The rows of a section, number and name, in the order in which they are asked.
fn rows(section: &str) -> impl Iterator<Item = (u32, &'static str)> {
    let heading = format!("\n[{section}]");
    let (_, from_it) = TABLE.split_once(&heading).expect("a section of numbers.txt");
    let of_it = from_it.split("\n[").next().expect("its rows");
    of_it.lines().skip(1).filter(|line| !line.is_empty()).map(|row| {
        let mut cells = row.split_whitespace();
        let number = cells.next().and_then(|cell| cell.parse().ok());
        number.zip(cells.next()).expect("a row of numbers.txt begins with a number and a name")
    })
}

/// The verdict table, and 0.
fn verdicts() -> Vec<u32> {
    rows("lta_number").map(|(number, _)| number).collect()
}

/// Those of them that only a family list has.
fn of_the_list() -> Vec<u32> {
    rows("lta_number").filter(|(_, name)| name.starts_with("LTA_FAMILY")).map(|(number, _)| number).collect()
}

/// The verdict table without a family list, and without these numbers.
fn judgement_but(left_out: &[u32]) -> Vec<u32> {
    let families = of_the_list();
    verdicts().into_iter().filter(|number| !families.contains(number) && !left_out.contains(number)).collect()
}

/// The numbers of an entry that has a section of its own, and 0.
fn own(section: &str) -> Vec<u32> {
    rows(section).map(|(number, _)| number).chain([0]).collect()
}

/// lta_judge: the verdict table without a family list.
pub static JUDGE: Lazy = Lazy::new(|| once(judgement_but(&[])));
/// The same on cases of version 2, which cannot get 3.
pub static JUDGE_VERSION_2: Lazy = Lazy::new(|| often(judgement_but(&[3])));
/// The same on a readable case with a proposal of the right length, with its orders rearranged (S-9).
pub static JUDGE_REARRANGED: Lazy = Lazy::new(|| often(judgement_but(&[1, 2, 3, 4, 5, 6, 7, 8, 9, 12])));
/// The same on proposals written from dumps: none of 1 to 14, and no volume above its quantity.
pub static JUDGE_DUMPED: Lazy =
    Lazy::new(|| once(judgement_but(&[1, 2, 3, 4, 5, 6, 7, 8, 9, 10, 11, 12, 13, 14, 21, 30])));
/// lta_judge_families: the whole verdict table.
pub static JUDGE_FAMILIES: Lazy = Lazy::new(|| often(verdicts()));
/// The numbers that only the list gives.
pub static OF_THE_LIST: LazyLock<Vec<u32>> = LazyLock::new(of_the_list);
/// lta_book_surplus.
pub static BOOK: Lazy = Lazy::new(|| often(vec![0, 4, 8, 25]));
/// lta_desk_lines.
pub static DESK: Lazy = Lazy::new(|| often(own("lta_desk_number")));
/// lta_sheet_branches.
pub static SHEET: Lazy = Lazy::new(|| often(own("lta_sheet_number")));
/// lta_intuitive and lta_intuitive_small.
pub static INTUITIVE: Lazy = Lazy::new(|| often(own("lta_intuitive_number")));
/// lta_hour_intuitive and its small one: the judgement's except 30, and the two that an accepted hour can have.
pub static HOUR_INTUITIVE: Lazy = Lazy::new(|| once([judgement_but(&[30]), vec![84, 85]].concat()));
/// lta_dump_proposal.
pub static DUMP: Lazy = Lazy::new(|| often(own("lta_dump_number")));
/// lta_case_columned, and lta_case_restored.
pub static COLUMNS: Lazy = Lazy::new(|| often(own("lta_column_number")));
/// lta_shortfalls: the judgement's except 30, and its own.
pub static SHORTFALLS: Lazy = Lazy::new(|| often([judgement_but(&[0, 30]), own("lta_shortfall_number")].concat()));
/// lta_queue_post and lta_queue_serve.
pub static QUEUE: Lazy = Lazy::new(|| often(own("lta_queue_number")));

#[cfg(test)]
mod tests {
    use super::*;

    #[test]
    fn each_entry_has_its_numbers_of_the_table() {
        assert_eq!(DESK.numbers, [31, 0]);
        assert_eq!(INTUITIVE.numbers, [81, 82, 83, 84, 85, 0]);
        assert_eq!(JUDGE_FAMILIES.numbers.first(), Some(&30));
        assert_eq!(JUDGE.numbers.len() + OF_THE_LIST.len(), JUDGE_FAMILIES.numbers.len());
        assert!(SHORTFALLS.numbers.contains(&86) && !SHORTFALLS.numbers.contains(&30));
    }
}
