//! Runs the original message buffer, unchanged, on text scenarios and on sheets.

// The original names three crates that are not here; this one answers to their names.
extern crate self as tycho_block_util;
extern crate self as tycho_types;
extern crate self as tycho_util;

mod stand_ins;

pub use stand_ins::tycho_block_util::queue;
pub use stand_ins::tycho_types::{cell, models};
pub use stand_ins::tycho_util::{FastHashMap, FastHashSet, transactional};
pub use stand_ins::types;

pub mod original;

mod codes;
pub mod demand;
mod fills;
pub mod generate;
mod harness;
mod print;
pub mod record;
pub mod replay;
mod scenario;
pub mod sheet;
