//! The proved judge's library against the second judge over made inputs: makers of inputs, checks, and what counts
//! them.

pub mod checks;
pub mod difference;
pub mod lent;
pub mod library;
pub mod makers;
pub mod numbers;
pub mod progress;
pub mod records;
pub mod rng;
pub mod run;
pub mod stored_lines;
pub mod table;
