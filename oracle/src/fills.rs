//! The two calls that change a group: the fill and the join.

use std::mem;

use crate::FastHashSet;
use crate::cell::HashBytes;
use crate::codes::{self, Code, DONE, NUMBERS, OVERFULL, SHARED_ACCOUNT};
use crate::demand::{self, Broken};
use crate::harness::{Answer, World};
use crate::original::messages_buffer::{
    FillMessageGroupResult, IncludeAllMessages, MessageGroup, MessagesBuffer, MsgFilter,
    SkipExpiredExternals,
};
use crate::record::bytes;
use crate::scenario::{Fill, Row};

/// What a fill of the original gives back.
struct Filled {
    result: FillMessageGroupResult,
    dropped: u64,
}

impl World {
    pub fn fill(&mut self, ask: &Fill) -> Result<Answer, Broken> {
        let code = codes::fill(self, ask);
        if code == OVERFULL {
            let mut buffer = self.buffer.copy();
            let mut group = self.groups[ask.group].group.copy();
            let mut set = self.set.clone();
            let skip = skip_check(&self.rows, self.cost);
            demand::panics(code, || {
                run_fill(&mut buffer, &mut group, &mut set, skip, ask)
            })?;
        }
        if code != DONE {
            return Ok(Answer::Fill {
                code,
                collected: 0,
                ops: 0,
                dropped: 0,
            });
        }
        let before = self.buffer.msgs_count();
        let filled = self.accepted_fill(ask)?;
        let gone = (before - self.buffer.msgs_count()) as u64;
        let collected = filled.result.collected_count as u64;
        demand::holds(
            gone == collected + filled.dropped,
            "what left the buffer is collected or dropped",
        )?;
        let ops = filled.result.ops_count;
        let dropped = filled.dropped;
        Ok(Answer::Fill {
            code,
            collected,
            ops,
            dropped,
        })
    }

    /// An accepted fill, with everything it writes.
    fn accepted_fill(&mut self, ask: &Fill) -> Result<Filled, Broken> {
        let group = &mut self.groups[ask.group].group;
        let skip = skip_check(&self.rows, self.cost);
        let (buffer, set) = (&mut self.buffer, &mut self.set);
        let filled = demand::answers(|| run_fill(buffer, group, set, skip, ask))?;
        demand::buffer_agrees(&self.buffer)?;
        demand::group_agrees(group)?;
        let keys = &filled.result.collected_int_msgs;
        self.keys[..keys.len()].copy_from_slice(keys);
        Ok(filled)
    }

    pub fn join(&mut self, left: usize, right: usize) -> Result<Code, Broken> {
        let code = codes::join(&self.groups[left], &self.groups[right]);
        if code == SHARED_ACCOUNT || code == NUMBERS {
            let a = self.groups[left].group.copy();
            let b = self.groups[right].group.copy();
            demand::panics(code, || a + b)?;
        }
        if code == DONE {
            let a = mem::take(&mut self.groups[left].group);
            let b = mem::take(&mut self.groups[right].group);
            self.groups[left].group = demand::answers(|| a + b)?;
            demand::group_agrees(&self.groups[left].group)?;
        }
        Ok(code)
    }
}

/// The skip closure as rows: the first row of an account counts.
fn skip_check(rows: &[Row], cost: u64) -> impl Fn(&HashBytes) -> (bool, u64) {
    move |account| {
        let row = rows.iter().find(|row| bytes(row.account) == *account);
        row.map_or((false, cost), |row| (row.skip, row.cost))
    }
}

/// The original's fill. Its running sum of skipped messages starts at 0 for each call.
fn run_fill(
    buffer: &mut MessagesBuffer,
    group: &mut MessageGroup,
    set: &mut FastHashSet<HashBytes>,
    skip: impl Fn(&HashBytes) -> (bool, u64),
    ask: &Fill,
) -> Filled {
    let mut dropped = 0;
    let filter = if ask.filter {
        MsgFilter::SkipExpiredExternals(SkipExpiredExternals {
            chain_time_threshold_ms: ask.threshold,
            total_skipped: &mut dropped,
        })
    } else {
        MsgFilter::IncludeAll(IncludeAllMessages)
    };
    let (slots, height) = (ask.slots as usize, ask.height as usize);
    let result = buffer.fill_message_group(group, slots, height, set, skip, filter);
    Filled { result, dropped }
}
