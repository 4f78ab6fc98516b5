//! A day for four areas, request S-8: one list of all that was posted and not yet served, in the order posted, and
//! the area last served. Reading and writing the host's bytes is separate from it.

use crate::Papers;

/// Bytes that a host holds.
pub const QUEUE_BYTES: usize = 101;
/// Cells of an area: the hours of the long day.
pub const HOURS: usize = 25;
pub const AREAS: u32 = 4;
const TURN_AT: usize = 100;

/// What a serve answers; a refusal has zeros except for the number.
#[derive(Clone, Copy, Debug, PartialEq, Eq)]
pub struct ServedAnswer {
    pub number: u32,
    pub index: u32,
    pub area: u32,
    pub hour: u32,
}

/// What was posted and not yet served. The default is the empty queue.
#[derive(Clone, Debug, Default)]
pub struct Queue {
    /// Area and hour, the earliest posted first.
    pub posted: Vec<(u32, u32)>,
    pub last_served: Option<u32>,
}

impl Queue {
    /// What waits in an area, the earliest posted first.
    pub fn waiting(&self, area: u32) -> Vec<u32> {
        self.of(area).collect()
    }

    fn of(&self, area: u32) -> impl Iterator<Item = u32> + '_ {
        let of_it = self.posted.iter().filter(move |(other, _)| *other == area);
        of_it.map(|(_, hour)| *hour)
    }

    /// The area after the one last served, area 0 first of all.
    pub fn turn(&self) -> u32 {
        self.last_served.map_or(0, |area| (area + 1) % AREAS)
    }

    /// Whether the same hours wait in each area, in the same order, and the same area has its turn.
    pub fn waits_as(&self, other: &Queue) -> bool {
        self.turn() == other.turn()
            && self.posted.len() == other.posted.len()
            && (0..AREAS).all(|area| self.of(area).eq(other.of(area)))
    }
}

pub trait DeskQueue {
    /// Posts an area and hour number. 61 when the area is over 3, 62 when the hour is over 24, 63 when that area
    /// has it waiting already, in that order, the queue unchanged.
    fn post(&self, queue: &mut Queue, area: u32, hour: u32) -> u32 {
        if area > 3 {
            return 61;
        }
        if hour > 24 {
            return 62;
        }
        if self.waits_already(queue, area, hour) {
            return 63;
        }
        queue.posted.push((area, hour));
        0
    }

    fn waits_already(&self, queue: &Queue, area: u32, hour: u32) -> bool {
        queue.posted.contains(&(area, hour))
    }

    /// Serves the next area in turn that has an hour waiting, and its earliest posted. 64 when nothing is found.
    fn serve(&self, queue: &mut Queue) -> ServedAnswer {
        let Some(place) = self.next(queue) else {
            return ServedAnswer { number: 64, index: 0, area: 0, hour: 0 };
        };
        let (area, hour) = queue.posted.remove(place);
        queue.last_served = Some(area);
        ServedAnswer { number: 0, index: 0, area, hour }
    }

    /// The place in the list of what is served next.
    fn next(&self, queue: &Queue) -> Option<usize> {
        let first = self.first_asked(queue);
        (first..first + AREAS).find_map(|area| self.next_of(queue, area % AREAS))
    }

    /// The area that a serve asks first.
    fn first_asked(&self, queue: &Queue) -> u32 {
        queue.turn()
    }

    /// The earliest posted of an area.
    fn next_of(&self, queue: &Queue, area: u32) -> Option<usize> {
        queue.posted.iter().position(|(other, _)| *other == area)
    }

    /// The queue of any bytes: in each area a cell from 1 to 25 is hour 0 to 24, others and repeated ones are free;
    /// the last byte modulo 4 is the turn.
    fn read(&self, bytes: &[u8; QUEUE_BYTES]) -> Queue {
        let mut queue = Queue::default();
        for (area, cells) in (0..).zip(bytes[..TURN_AT].chunks(HOURS)) {
            for &cell in cells {
                let pair = (area, u32::from(cell).wrapping_sub(1));
                if self.cell_counts(cell) && !self.is_repeated(&queue, pair) {
                    queue.posted.push(pair);
                }
            }
        }
        queue.last_served = Some((u32::from(bytes[TURN_AT]) + AREAS - 1) % AREAS);
        queue
    }

    fn cell_counts(&self, cell: u8) -> bool {
        (1..=25).contains(&cell)
    }

    fn is_repeated(&self, queue: &Queue, pair: (u32, u32)) -> bool {
        queue.posted.contains(&pair)
    }

    /// The areas whose cells a call rewrites: the one posted to or served.
    fn areas_written(&self, area: u32) -> std::ops::Range<u32> {
        area..area + 1
    }

    fn write(&self, queue: &Queue, area: u32, bytes: &mut [u8; QUEUE_BYTES]) {
        for area in self.areas_written(area) {
            let cells = &mut bytes[area as usize * HOURS..][..HOURS];
            cells.fill(0);
            for (cell, hour) in cells.iter_mut().zip(queue.waiting(area)) {
                *cell = hour as u8 + 1;
            }
        }
    }

    /// The post entry, over the bytes that a host holds.
    fn queue_post(&self, bytes: &mut [u8; QUEUE_BYTES], area: u32, hour: u32) -> u32 {
        let mut queue = self.read(bytes);
        let number = self.post(&mut queue, area, hour);
        if number == 0 {
            self.write(&queue, area, bytes);
        }
        number
    }

    /// The serve entry.
    fn queue_serve(&self, bytes: &mut [u8; QUEUE_BYTES]) -> ServedAnswer {
        let mut queue = self.read(bytes);
        let answer = self.serve(&mut queue);
        if answer.number == 0 {
            self.write(&queue, answer.area, bytes);
            bytes[TURN_AT] = queue.turn() as u8;
        }
        answer
    }
}

/// Posts an area and hour number to the queue in these bytes.
pub fn queue_post(bytes: &mut [u8; QUEUE_BYTES], area: u32, hour: u32) -> u32 {
    Papers.queue_post(bytes, area, hour)
}

/// Serves from the queue in these bytes.
pub fn queue_serve(bytes: &mut [u8; QUEUE_BYTES]) -> ServedAnswer {
    Papers.queue_serve(bytes)
}
