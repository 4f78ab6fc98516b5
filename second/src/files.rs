//! Case and proposal as bytes: where each field stands. Numbers are little-endian.
//!
//! Nothing is refused here. The causes of the verdict table are asked in order, so a field is read only after the
//! causes before it have shown that it is there.

use crate::book::Row;
use crate::limits::*;

pub fn u16_at(bytes: &[u8], at: usize) -> u16 {
    u16::from_le_bytes([bytes[at], bytes[at + 1]])
}

pub fn u32_at(bytes: &[u8], at: usize) -> u32 {
    u32::from_le_bytes([bytes[at], bytes[at + 1], bytes[at + 2], bytes[at + 3]])
}

pub fn i32_at(bytes: &[u8], at: usize) -> i32 {
    u32_at(bytes, at) as i32
}

/// A case: the counts of its header, and its rows read on demand.
#[derive(Clone, Copy, Debug)]
pub struct Case<'a> {
    pub bytes: &'a [u8],
    pub version: u16,
    pub zones: usize,
    pub branches: usize,
    pub links: usize,
    pub orders: usize,
    /// Cents.
    pub tolerance: i128,
    /// S-4: six bytes, or ten with a contracted volume.
    pub link_bytes: usize,
}

#[derive(Clone, Copy, Debug)]
pub struct Link {
    pub from: usize,
    pub to: usize,
    /// Tenths.
    pub capacity: i128,
    /// Tenths. S-4: the part of the capacity that was bought; in version 1 all of it.
    pub contracted: i128,
}

impl<'a> Case<'a> {
    /// The case of these bytes. A header that is cut short reads as zeros: 1 refuses it before any of it is used.
    pub fn of(bytes: &'a [u8], link_bytes: impl Fn(u16) -> usize) -> Case<'a> {
        let mut header = [0; CASE_HEADER];
        if let Some(whole) = bytes.get(..CASE_HEADER) {
            header.copy_from_slice(whole);
        }
        let version = u16_at(&header, 3);
        Case {
            bytes,
            version,
            zones: header[5].into(),
            branches: header[6].into(),
            links: header[7].into(),
            orders: u16_at(&header, 8).into(),
            tolerance: u32_at(&header, 10).into(),
            link_bytes: link_bytes(version),
        }
    }

    /// The length that the header demands.
    pub fn demanded(&self) -> usize {
        self.order_at(self.orders)
    }

    /// A branch: margin RAM, then one PTDF per zone.
    pub fn branch_bytes(&self) -> usize {
        4 + 4 * self.zones
    }

    pub fn branch_at(&self, b: usize) -> usize {
        CASE_HEADER + b * self.branch_bytes()
    }

    pub fn link_at(&self, l: usize) -> usize {
        self.branch_at(self.branches) + l * self.link_bytes
    }

    pub fn order_at(&self, o: usize) -> usize {
        self.link_at(self.links) + o * ORDER_BYTES
    }

    /// Tenths.
    pub fn ram(&self, b: usize) -> i128 {
        i32_at(self.bytes, self.branch_at(b)).into()
    }

    /// Hundred-thousandths, one per zone.
    pub fn ptdfs(&self, b: usize) -> impl Iterator<Item = i128> + 'a {
        let at = self.branch_at(b);
        let row = &self.bytes[at + 4..at + self.branch_bytes()];
        row.chunks_exact(4).map(|field| i32_at(field, 0).into())
    }

    pub fn link(&self, l: usize) -> Link {
        let at = self.link_at(l);
        let row = &self.bytes[at..at + self.link_bytes];
        let capacity = u32_at(row, 2).into();
        Link {
            from: row[0].into(),
            to: row[1].into(),
            capacity,
            contracted: match row.len() {
                10 => u32_at(row, 6).into(),
                _ => capacity,
            },
        }
    }

    /// The first earlier link with the same ordered pair.
    pub fn same_pair_before(&self, l: usize) -> Option<usize> {
        let pair = |l| &self.bytes[self.link_at(l)..][..2];
        (0..l).find(|&earlier| pair(earlier) == pair(l))
    }

    pub fn order(&self, o: usize) -> Row {
        let at = self.order_at(o);
        Row::of(&self.bytes[at..at + ORDER_BYTES])
    }
}

/// A proposal for a case of these counts.
#[derive(Clone, Copy, Debug)]
pub struct Proposal<'a> {
    pub bytes: &'a [u8],
    pub orders: usize,
    pub links: usize,
    pub branches: usize,
}

impl Proposal<'_> {
    pub fn demanded(&self) -> usize {
        PROPOSAL_HEADER + 4 * (self.orders + self.links + self.branches)
    }

    /// The LTA share in hundred-thousandths.
    pub fn share(&self) -> i128 {
        u32_at(self.bytes, 5).into()
    }

    /// Cents per MWh.
    pub fn system_price(&self) -> i128 {
        i32_at(self.bytes, 9).into()
    }

    /// Accepted, in tenths.
    pub fn volume(&self, o: usize) -> i128 {
        u32_at(self.bytes, PROPOSAL_HEADER + 4 * o).into()
    }

    /// Tenths.
    pub fn flow(&self, l: usize) -> i128 {
        u32_at(self.bytes, PROPOSAL_HEADER + 4 * (self.orders + l)).into()
    }

    pub fn shadow_price_at(&self, b: usize) -> usize {
        PROPOSAL_HEADER + 4 * (self.orders + self.links + b)
    }

    /// Cents per MWh.
    pub fn shadow_price(&self, b: usize) -> i128 {
        u32_at(self.bytes, self.shadow_price_at(b)).into()
    }
}

/// All arguments of a judgement.
#[derive(Clone, Copy, Debug)]
pub struct Hour<'a> {
    pub case: Case<'a>,
    pub proposal: Proposal<'a>,
    /// S-11: the family list; none for the entry without one.
    pub list: Option<&'a [u8]>,
    /// Bytes of the report buffer.
    pub room: usize,
}
