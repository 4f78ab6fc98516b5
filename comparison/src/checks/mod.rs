//! The checks, by entry and by request: both judges get the same inputs, and everything that they leave is
//! compared.

pub mod book;
pub mod columns;
pub mod desk;
pub mod dump;
pub mod families;
pub mod families_causes;
pub mod inputs;
pub mod intuitive;
pub mod intuitive_inputs;
pub mod no_links;
pub mod offsets;
pub mod places;
pub mod promises;
pub mod queue;
pub mod rearranged;
pub mod sheet;
pub mod shortfalls;
pub mod versions;
pub mod wide;
