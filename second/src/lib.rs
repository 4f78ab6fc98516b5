//! The second judge: documents 01 and 02 in Rust, written independently of the proved judge.
//!
//! Each entry is a file. `judgement` has rules 1 to 11, the verdict table and its causes; the other entries follow
//! their requests. An entry that is more than a few lines is a trait whose default methods are the paper's rules,
//! and [`Papers`] takes all of them unchanged. Numbers are those of the papers. Every sum is taken in 128 bits, so
//! no argument about widths is needed before the totals go into the report.
//!
//! "The paper" is document 01 as the requests of document 02 amend it.

pub mod book;
pub mod columns;
pub mod desk;
pub mod dump;
pub mod families;
pub mod files;
pub mod intuitive;
pub mod judgement;
pub mod limits;
pub mod queue;
pub mod sheet;
pub mod shortfalls;

pub use book::{book_surplus, BookAnswer, Row};
pub use columns::{case_columned, case_restored, Columns};
pub use desk::{desk_lines, desk_output};
pub use dump::{dump_proposal, DumpReading};
pub use families::{list_of, LIST_HEADER, NO_PARENT};
pub use intuitive::{
    hour_intuitive, hour_intuitive_small, intuitive, intuitive_small, CarriedAnswer, IntuitiveHours, ScratchSize,
};
pub use judgement::{judge, judge_families, Judgement};
pub use queue::{queue_post, queue_serve, DeskQueue, Queue, ServedAnswer, QUEUE_BYTES};
pub use sheet::{sheet_branches, MarginSheet};
pub use shortfalls::{hour_shortfalls, shortfalls, GapShortfalls, Shortfalls};

/// The judge that follows the papers in everything.
#[derive(Clone, Copy, Debug)]
pub struct Papers;

impl Judgement for Papers {}
impl MarginSheet for Papers {}
impl DumpReading for Papers {}
impl DeskQueue for Papers {}
impl Columns for Papers {}
impl GapShortfalls for Papers {}

/// Number and index of the verdict table.
#[derive(Clone, Copy, Debug, PartialEq, Eq)]
pub struct Verdict {
    pub number: u32,
    pub index: u32,
}

impl Verdict {
    /// An index is a row's number, or an offset in a case of at most 10,126 bytes.
    pub fn new(number: u32, index: usize) -> Verdict {
        Verdict { number, index: index as u32 }
    }
}

/// The answer of an entry that writes into an output. A refusal has length 0. The length is in bytes, or in numbers
/// if the output is a list of numbers.
#[derive(Clone, Copy, Debug, PartialEq, Eq)]
pub struct OutputAnswer {
    pub number: u32,
    pub index: u64,
    pub length: u64,
}

impl OutputAnswer {
    pub fn written(length: usize) -> OutputAnswer {
        OutputAnswer { number: 0, index: 0, length: length as u64 }
    }

    pub fn refused(number: u32, index: usize) -> OutputAnswer {
        OutputAnswer { number, index: index as u64, length: 0 }
    }
}
