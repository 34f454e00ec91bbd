//! House mode of the exported library against the original Rust: the same calls on both, every answer compared. On our
//! side they are made one by one, through the wrapper and through the map of pages.

pub mod adapter;
pub mod compare;
pub mod events;
pub mod exhaustive;
pub mod histories;
pub mod images;
pub mod library;
mod load_jobs;
pub mod loads;
pub mod mapped;
pub mod original;
pub mod ours;
mod paged;
pub mod random;
pub mod recording;
pub mod report;
pub mod restore;
pub mod run;
pub mod sabotage;
pub mod shrink;
pub mod tally;
pub mod trace;
pub mod worker;
pub mod wrapped;
