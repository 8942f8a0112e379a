//! The fill: messages go from a buffer to the slots of a group.

use crate::buffer::Buffer;
use crate::code::{answer, Code};
use crate::ffi;
use crate::group::Group;
use crate::message::{Account, Hash};
use crate::skipped::Skipped;

/// Which externals are dropped on the way.
#[derive(Debug, Clone, Copy, PartialEq, Eq, Hash, Default)]
pub enum Filter {
    /// None.
    #[default]
    Off,
    /// Those of a chain time below this one.
    Below(u64),
}

/// What is said of accounts before a fill: a row is a name, a verdict (whether to skip) and the cost of looking at it. There are as many
/// rows as the shortest list has, and the first row of an account counts.
#[derive(Debug, Clone, Copy, Default)]
pub struct SkipRows<'a> {
    pub names: &'a [Account],
    pub verdicts: &'a [bool],
    pub costs: &'a [u64],
}

/// What a fill is asked for.
#[derive(Debug, Clone, Copy, Default)]
pub struct Fill<'a> {
    pub slots: u64,
    /// How many messages a slot may hold, at most 16.
    pub height: u64,
    pub filter: Filter,
    pub rows: SkipRows<'a>,
    /// The cost of an account without a row.
    pub cost: u64,
}

/// Where a fill writes created_lt and hash of each internal that it collects, from the first row on; rows past them stay as they are.
/// There are as many rows as the shorter list has, and at least as many as the buffer holds internals: else code 10.
#[derive(Debug, Default)]
pub struct Keys<'a> {
    pub lts: &'a mut [u64],
    pub hashes: &'a mut [Hash],
}

/// What a fill did.
#[derive(Debug, Clone, Copy, PartialEq, Eq, Hash, Default)]
pub struct Filled {
    /// Messages that went to the group.
    pub collected: u64,
    /// Steps made, held at `u64::MAX`.
    pub operations: u64,
    /// Externals that the filter dropped.
    pub dropped: u64,
}

impl Buffer {
    /// Fills a group from this buffer: codes 9 to 13. A rollback of the buffer does not take back what the group, the set and the key
    /// list got.
    pub fn fill(
        &mut self,
        group: &mut Group,
        skipped: &mut Skipped,
        ask: &Fill<'_>,
        keys: Keys<'_>,
    ) -> Result<Filled, Code> {
        let SkipRows {
            names,
            verdicts,
            costs,
        } = ask.rows;
        let names = names.as_flattened();
        let Keys { lts, hashes } = keys;
        let hashes = hashes.as_flattened_mut();
        let (filtered, below) = match ask.filter {
            Filter::Off => (0, 0),
            Filter::Below(time) => (1, time),
        };
        let mut out = [0; 3];
        // SAFETY: the three are set up and borrowed alone, and so is what is lent to be written; a verdict is one byte, 0 or 1; all that
        // is lent outlives the call.
        answer(unsafe {
            ffi::lintelsong_fill(
                self.state(),
                group.state(),
                skipped.state(),
                names.as_ptr(),
                names.len(),
                verdicts.as_ptr().cast(),
                verdicts.len(),
                costs.as_ptr(),
                costs.len(),
                lts.as_mut_ptr(),
                lts.len(),
                hashes.as_mut_ptr(),
                hashes.len(),
                &mut out,
                ask.slots,
                ask.height,
                ask.cost,
                filtered,
                below,
            )
        })?;
        let [collected, operations, dropped] = out;
        Ok(Filled {
            collected,
            operations,
            dropped,
        })
    }
}
