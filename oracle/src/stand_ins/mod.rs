//! What the original leans on and is not here, cut down to what it uses.

pub mod tycho_block_util;
pub mod tycho_types;
pub mod tycho_util;
pub mod types;
