//! Reference implementation of document 01 ("The merge bench's common time: one
//! round on the CAN bus") and of the requests of document 02 that have landed,
//! written from their text alone. Clarity comes before speed, except in [`fast`],
//! which is a second form of replay and judge.

pub mod ask;
#[cfg(feature = "board")]
pub mod board;
pub mod candidates;
pub mod claim;
pub mod counter;
pub mod cover;
pub mod damage;
pub mod draft;
pub mod fast;
pub mod generate;
pub mod judge;
pub mod medians;
pub mod open;
pub mod order;
pub mod program;
pub mod random;
pub mod readers;
pub mod record;
pub mod recorder;
pub mod results;
pub mod round;
pub mod sheet;
#[cfg(feature = "sheets")]
pub mod sheets;
pub mod shortest;
pub mod step;
pub mod trace;
pub mod words;
