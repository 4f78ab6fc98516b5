//! A room lent to an entry, with guard numbers on either side: what the library leaves of it, and what the second
//! judge leaves.

use std::fmt::{Debug, Display};
use std::ops::Range;

/// Numbers kept on either side of the room.
const GUARD: usize = 32;

/// What the room and its sides hold before each call.
pub struct Lent<T> {
    filled: Vec<T>,
    room: Range<usize>,
}

/// What a call answered, and what it left in the room and on its sides.
#[derive(PartialEq)]
pub struct Left<A, T> {
    pub answer: A,
    space: Vec<T>,
    room: Range<usize>,
}

impl Lent<u8> {
    /// A different pattern for each input, so that no byte is right by luck.
    pub fn bytes(room: usize, input: u64) -> Lent<u8> {
        let salt = input.wrapping_mul(101).wrapping_add(11);
        Lent::filled(room, |n| (n * 37).wrapping_add(salt) as u8)
    }
}

impl<T: Clone> Lent<T> {
    pub fn filled(room: usize, pattern: impl Fn(u64) -> T) -> Lent<T> {
        let space = 0..(GUARD + room + GUARD) as u64;
        Lent { filled: space.map(pattern).collect(), room: GUARD..GUARD + room }
    }

    /// Lends only this much of the room: the rest becomes a guard too.
    pub fn only(mut self, room: usize) -> Lent<T> {
        self.room.end = GUARD + room;
        self
    }

    /// Calls an entry with the room.
    pub fn to<A>(&self, entry: impl FnOnce(&mut [T]) -> A) -> Left<A, T> {
        let (mut space, room) = (self.filled.clone(), self.room.clone());
        let answer = entry(&mut space[room.clone()]);
        Left { answer, space, room }
    }

    /// Counts each wrong build that differs from the library.
    pub fn tell<A: PartialEq, B: Copy>(
        &self,
        library: &Left<A, T>,
        builds: &[(B, &str)],
        times: &mut [u64],
        entry: impl Fn(B, &mut [T]) -> A,
    ) where
        T: PartialEq,
    {
        for ((build, _), times) in builds.iter().zip(times) {
            let wrong = self.to(|room| entry(*build, room));
            *times += u64::from(wrong != *library);
        }
    }
}

impl<A: PartialEq + Debug, T: PartialEq + Display> Left<A, T> {
    pub fn room(&self) -> &[T] {
        &self.space[self.room.clone()]
    }

    /// How the second judge differs from the library.
    pub fn unlike(&self, second: &Left<A, T>) -> Option<String> {
        if self == second {
            return None;
        }
        let (one, other) = (&self.answer, &second.answer);
        if one != other {
            return Some(format!("library {one:?}, second judge {other:?}"));
        }
        let mut both = self.space.iter().zip(&second.space).zip(0..);
        let ((one, other), at) = both.find(|((one, other), _)| one != other)?;
        let at: i64 = at - GUARD as i64;
        Some(format!("place {at} of the room: library {one}, second judge {other}"))
    }
}
