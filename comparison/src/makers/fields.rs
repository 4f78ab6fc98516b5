//! The fields of an hour's two files: where each stands and its range.

use super::hours::most_flow;
use crate::rng::Rng;
use paper_hours::{Hour, Version};

#[derive(Clone, Copy)]
pub struct Field {
    pub in_case: bool,
    pub at: usize,
    pub width: usize,
    pub least: i64,
    pub greatest: i64,
    /// The verdict for a value outside; number 0 when every value is allowed.
    pub number: u32,
    pub index: u32,
    /// A value inside may get the same verdict for another cause.
    pub tied: bool,
}

impl Field {
    /// Least and greatest value that the field's bytes can hold.
    pub fn room(&self) -> (i64, i64) {
        match (self.width, self.least < 0) {
            (4, true) => (i32::MIN.into(), i32::MAX.into()),
            (width, _) => (0, (1 << (8 * width)) - 1),
        }
    }

    pub fn allows(&self, value: i64) -> bool {
        self.least <= value && value <= self.greatest
    }

    pub fn put(&self, case: &mut [u8], proposal: &mut [u8], value: i64) {
        let file = if self.in_case { case } else { proposal };
        file[self.at..self.at + self.width].copy_from_slice(&value.to_le_bytes()[..self.width]);
    }
}

/// The fields found so far and the place of the next one.
struct Walk {
    list: Vec<Field>,
    in_case: bool,
    at: usize,
}

impl Walk {
    fn field(&mut self, width: usize, least: i64, greatest: i64, number: u32, index: usize) -> &mut Field {
        let (in_case, at, index) = (self.in_case, self.at, index as u32);
        self.at += width;
        self.list.push(Field { in_case, at, width, least, greatest, number, index, tied: false });
        self.list.last_mut().expect("just pushed")
    }

    fn mark(&mut self, letters: &[u8; 3], number: u32) {
        for letter in letters {
            self.field(1, (*letter).into(), (*letter).into(), number, 0);
        }
    }
}

/// Every field of both files, in file order.
pub fn fields(hour: &Hour) -> Vec<Field> {
    let mut case = Walk { list: Vec::new(), in_case: true, at: 0 };
    case.mark(b"LTC", 2);
    case.field(2, 1, 2, 3, 0);
    case.field(1, 1, 16, 4, 5);
    case.field(1, 0, 64, 4, 6);
    case.field(1, 0, 64, 4, 7);
    case.field(2, 0, 512, 4, 8);
    case.field(4, 0, 1_000_000_000, 4, 10);
    // 6, 7, 8 and 14 name the offset.
    for branch in &hour.branches {
        case.field(4, -500_000, 500_000, 6, case.at);
        for _ in &branch.ptdfs {
            case.field(4, -200_000, 200_000, 6, case.at);
        }
    }
    let last_zone = i64::from(hour.zones) - 1;
    for link in &hour.links {
        // A known zone may still make the two equal or repeat a pair.
        case.field(1, 0, last_zone, 7, case.at).tied = true;
        case.field(1, 0, last_zone, 7, case.at).tied = true;
        let capacity = case.field(4, 0, 100_000, 7, case.at);
        if hour.version == Version::Two {
            // A smaller one may be less than the contracted volume.
            capacity.tied = true;
            case.field(4, 0, link.capacity.into(), 7, case.at);
        }
    }
    for _ in &hour.orders {
        case.field(1, 0, last_zone, 8, case.at);
        case.field(1, 0, 1, 8, case.at);
        case.field(4, 1, 100_000, 8, case.at);
        case.field(4, -50_000, 400_000, 8, case.at);
    }

    let mut proposal = Walk { list: case.list, in_case: false, at: 0 };
    proposal.mark(b"LTP", 10);
    proposal.field(2, 1, 1, 11, 0);
    proposal.field(4, 0, 100_000, 13, 0);
    // The system price: no value is refused, so none is outside.
    proposal.field(4, i32::MIN.into(), i32::MAX.into(), 0, 0).tied = true;
    for (o, row) in hour.orders.iter().enumerate() {
        proposal.field(4, 0, row.quantity.into(), 21, o);
    }
    for (l, link) in hour.links.iter().enumerate() {
        proposal.field(4, 0, most_flow(hour.share, link.capacity), 23, l);
    }
    for _ in &hour.branches {
        proposal.field(4, 0, 1_000_000, 14, proposal.at);
    }
    proposal.list
}

/// A value outside the field's range, if its bytes can hold one.
pub fn outside(rng: &mut Rng, field: &Field) -> Option<i64> {
    let (lowest, highest) = field.room();
    let above = field.greatest < highest;
    let below = lowest < field.least;
    match (above, below) {
        (false, false) => None,
        (true, below) if !below || rng.one_in(2) => Some(rng.between_or_end(field.greatest + 1, highest)),
        _ => Some(rng.between_or_end(lowest, field.least - 1)),
    }
}

/// Such a field of an hour that its bytes can put out of range, and such a value.
pub fn one_outside(rng: &mut Rng, hour: &Hour, such: impl Fn(&Field) -> bool) -> Option<(Field, i64)> {
    let list: Vec<Field> = fields(hour).into_iter().filter(such).collect();
    if list.is_empty() {
        return None;
    }
    let field = rng.pick(&list);
    outside(rng, &field).map(|value| (field, value))
}

/// One bit flipped, or all eight bits random.
pub fn change_a_byte(rng: &mut Rng, file: &mut [u8]) {
    let at = rng.below(file.len());
    file[at] ^= match rng.one_in(2) {
        true => 1 << rng.below(8),
        false => rng.draw() as u8,
    };
}
