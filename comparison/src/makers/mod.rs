//! Makers of inputs. Nothing is judged here.

pub mod books;
pub mod columned;
pub mod dumps;
pub mod exchanges;
pub mod families;
pub mod fields;
pub mod hours;
pub mod limits;
pub mod near;
pub mod planted;
pub mod queues;
pub mod rearranged;
pub mod records;
pub mod sheets;
