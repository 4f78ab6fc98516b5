//! Wrong builds of the desk queue, S-8.

use second_judge::queue::{Queue, AREAS};
use second_judge::{DeskQueue, Papers, ServedAnswer};
use std::cell::RefCell;
use std::ops::Range;

/// A queue for one run: a build may remember what it saw.
pub type NewQueue = fn() -> Box<dyn DeskQueue>;

/// Every wrong build, with its name.
pub static BUILDS: [(NewQueue, &str); 14] = [
    (|| Box::new(AreaZeroFirst), "area 0 always first"),
    (|| Box::new(TurnStays), "turn not moved on"),
    (|| Box::new(TurnOfAnEmptyArea), "turn moved on by a 64"),
    (|| Box::new(LastInFirstOut), "last in first out"),
    (|| Box::new(OneLine), "earliest posted of all areas"),
    (|| Box::new(RefusedPostWaits), "a post refused by 63 waits"),
    (|| Box::new(Hour24Refused), "hour 24 refused"),
    (|| Box::new(Area3Refused), "area 3 refused"),
    (|| Box::new(NoRepost::default()), "repost refused after serving"),
    (|| Box::new(HourBeforeArea), "62 asked before 61"),
    (|| Box::new(WaitsInAnyArea), "63 by another area's hour"),
    (|| Box::new(RepeatedCellCounts), "repeated cell counts"),
    (|| Box::new(CellOver25Counts), "cell over 25 counts"),
    (|| Box::new(AllAreasWritten), "all areas written anew"),
];

/// From here on the builds read or write bytes wrongly; where there are no bytes they are the correct queue.
pub const OF_BYTES: usize = 11;

pub struct AreaZeroFirst;
impl DeskQueue for AreaZeroFirst {
    fn first_asked(&self, _queue: &Queue) -> u32 {
        0
    }
}

pub struct TurnStays;
impl DeskQueue for TurnStays {
    fn first_asked(&self, queue: &Queue) -> u32 {
        queue.last_served.unwrap_or(0)
    }
}

pub struct TurnOfAnEmptyArea;
impl DeskQueue for TurnOfAnEmptyArea {
    fn serve(&self, queue: &mut Queue) -> ServedAnswer {
        let turn = queue.turn();
        let answer = Papers.serve(queue);
        if answer.number == 64 {
            queue.last_served = Some(turn);
        }
        answer
    }
}

pub struct LastInFirstOut;
impl DeskQueue for LastInFirstOut {
    fn next_of(&self, queue: &Queue, area: u32) -> Option<usize> {
        queue.posted.iter().rposition(|(other, _)| *other == area)
    }
}

pub struct OneLine;
impl DeskQueue for OneLine {
    fn next(&self, queue: &Queue) -> Option<usize> {
        (!queue.posted.is_empty()).then_some(0)
    }
}

pub struct RefusedPostWaits;
impl DeskQueue for RefusedPostWaits {
    fn post(&self, queue: &mut Queue, area: u32, hour: u32) -> u32 {
        let number = Papers.post(queue, area, hour);
        if number == 63 {
            queue.posted.push((area, hour));
        }
        number
    }
}

pub struct Hour24Refused;
impl DeskQueue for Hour24Refused {
    fn post(&self, queue: &mut Queue, area: u32, hour: u32) -> u32 {
        match area <= 3 && hour == 24 {
            true => 62,
            false => Papers.post(queue, area, hour),
        }
    }
}

pub struct Area3Refused;
impl DeskQueue for Area3Refused {
    fn post(&self, queue: &mut Queue, area: u32, hour: u32) -> u32 {
        match area {
            3 => 61,
            _ => Papers.post(queue, area, hour),
        }
    }
}

/// A served hour is refused as if it still waited.
#[derive(Default)]
pub struct NoRepost {
    served: RefCell<Vec<(u32, u32)>>,
}
impl DeskQueue for NoRepost {
    fn waits_already(&self, queue: &Queue, area: u32, hour: u32) -> bool {
        Papers.waits_already(queue, area, hour) || self.served.borrow().contains(&(area, hour))
    }
    fn serve(&self, queue: &mut Queue) -> ServedAnswer {
        let answer = Papers.serve(queue);
        if answer.number == 0 {
            self.served.borrow_mut().push((answer.area, answer.hour));
        }
        answer
    }
}

pub struct HourBeforeArea;
impl DeskQueue for HourBeforeArea {
    fn post(&self, queue: &mut Queue, area: u32, hour: u32) -> u32 {
        match hour > 24 {
            true => 62,
            false => Papers.post(queue, area, hour),
        }
    }
}

pub struct WaitsInAnyArea;
impl DeskQueue for WaitsInAnyArea {
    fn waits_already(&self, queue: &Queue, _area: u32, hour: u32) -> bool {
        queue.posted.iter().any(|(_, waiting)| *waiting == hour)
    }
}

pub struct RepeatedCellCounts;
impl DeskQueue for RepeatedCellCounts {
    fn is_repeated(&self, _queue: &Queue, _pair: (u32, u32)) -> bool {
        false
    }
}

pub struct CellOver25Counts;
impl DeskQueue for CellOver25Counts {
    fn cell_counts(&self, cell: u8) -> bool {
        (1..=26).contains(&cell)
    }
}

pub struct AllAreasWritten;
impl DeskQueue for AllAreasWritten {
    fn areas_written(&self, _area: u32) -> Range<u32> {
        0..AREAS
    }
}
