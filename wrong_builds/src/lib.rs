//! Wrong builds of the second judge. Each follows the papers except in the rule that it overrides, and has the name
//! that the comparison's table gives it.

pub mod columns;
pub mod dump;
pub mod families;
pub mod intuitive;
pub mod judgement;
pub mod queue;
pub mod sheet;
pub mod shortfalls;
