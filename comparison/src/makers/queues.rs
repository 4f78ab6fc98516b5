//! Makes runs of posts and serves, and bytes for a queue to start from.

use crate::rng::Rng;
use second_judge::QUEUE_BYTES;

#[derive(Clone, Copy, Debug)]
pub enum Event {
    Post(u32, u32),
    Serve,
}

/// The habit of a run: which areas and hours it posts, how often it serves.
pub struct Habit {
    pub areas: u32,
    pub hours: u32,
    pub serves: usize,
    pub burst: usize,
    pub reposts: bool,
    pub strays: bool,
}

impl Habit {
    pub fn any(rng: &mut Rng) -> Habit {
        Habit {
            areas: rng.pick(&[1, 2, 4, 4, 4]),
            hours: rng.pick(&[1, 3, 12, 25, 25]),
            serves: rng.pick(&[10, 30, 45, 50, 55, 70, 95]),
            burst: rng.pick(&[1, 1, 4, 30]),
            reposts: rng.one_in(2),
            strays: rng.one_in(2),
        }
    }

    pub fn post(&self, rng: &mut Rng) -> Event {
        let area = rng.below(self.areas as usize) as u32;
        let hour = rng.below(self.hours as usize) as u32;
        if !self.strays || !rng.one_in(8) {
            return Event::Post((area + self.burst as u32) % 4, 24 - hour);
        }
        let far = |rng: &mut Rng| rng.pick(&[256, 1 << 16, u32::MAX, 1 << 31]);
        match rng.below(5) {
            0 => Event::Post(4 + rng.below(3) as u32, hour),
            1 => Event::Post(area, 25 + rng.below(3) as u32),
            2 => Event::Post(4 + rng.below(3) as u32, 25 + rng.below(3) as u32),
            3 => Event::Post(far(rng).wrapping_add(area), hour),
            _ => Event::Post(area, far(rng).wrapping_add(hour)),
        }
    }
}

/// The events of a run, drawn one by one by some habit.
pub struct Events {
    habit: Habit,
    serving: bool,
    /// Events until a burst is over.
    left: usize,
    /// The area and hour that the last event served: it may be posted again.
    pub served: Option<(u32, u32)>,
}

impl Events {
    pub fn any(rng: &mut Rng) -> Events {
        Events { habit: Habit::any(rng), serving: false, left: 0, served: None }
    }

    pub fn draw(&mut self, rng: &mut Rng) -> Event {
        if rng.one_in(100) {
            self.habit = Habit::any(rng);
        }
        if self.left == 0 {
            self.left = 1 + rng.below(self.habit.burst);
            self.serving = rng.below(100) < self.habit.serves;
        }
        self.left -= 1;
        match self.served.take() {
            Some((area, hour)) if self.habit.reposts && rng.one_in(2) => Event::Post(area, hour),
            _ if self.serving => Event::Serve,
            _ => self.habit.post(rng),
        }
    }
}

/// Bytes that a run starts from, if it is not the empty queue.
pub fn any_bytes(rng: &mut Rng) -> [u8; QUEUE_BYTES] {
    let mut bytes = [0; QUEUE_BYTES];
    let most = rng.pick(&[256, 256, 28, 27, 26, 4]);
    let zeros = rng.pick(&[1, 2, 4]);
    for byte in &mut bytes {
        if rng.below(zeros) == 0 {
            *byte = rng.below(most) as u8;
        }
    }
    bytes
}
