//! The family list of S-11: mark LTF, version 1, then for each order its parent.

use crate::files::u16_at;

/// Mark and version.
pub const LIST_HEADER: usize = 5;
pub const NO_PARENT: u16 = 65_535;

/// Whether mark, version and length are those of a list for this many orders.
pub fn well_formed(list: &[u8], orders: usize) -> bool {
    list.len() == LIST_HEADER + 2 * orders && list.starts_with(b"LTF") && u16_at(list, 3) == 1
}

/// The parents that a list names, by order.
#[derive(Clone, Debug)]
pub struct Parents(Vec<Option<usize>>);

impl Parents {
    /// For a list that is long enough for this many orders.
    pub fn of(list: &[u8], orders: usize) -> Parents {
        let named = |o| Some(u16_at(list, LIST_HEADER + 2 * o)).filter(|parent| *parent != NO_PARENT);
        Parents((0..orders).map(|o| named(o).map(usize::from)).collect())
    }

    pub fn orders(&self) -> usize {
        self.0.len()
    }

    /// The parent that the list names.
    pub fn named(&self, order: usize) -> Option<usize> {
        self.0[order]
    }

    /// The same if such an order exists.
    pub fn parent(&self, order: usize) -> Option<usize> {
        self.0[order].filter(|parent| *parent < self.orders())
    }

    /// The parent, its parent and so on. On a circle the walk does not end.
    pub fn ancestors(&self, order: usize) -> impl Iterator<Item = usize> + '_ {
        std::iter::successors(self.parent(order), |order| self.parent(*order))
    }

    /// Whether an order leads back to itself: within as many steps as there are orders, or never.
    pub fn leads_back(&self, order: usize) -> bool {
        self.ancestors(order).take(self.orders()).any(|ancestor| ancestor == order)
    }
}

/// A list that names these parents.
pub fn list_of(parents: &[Option<u16>]) -> Vec<u8> {
    let mut list = b"LTF\x01\x00".to_vec();
    for parent in parents {
        list.extend(parent.unwrap_or(NO_PARENT).to_le_bytes());
    }
    list
}
