//! The work done by the original.

use std::hint::black_box;

use oracle::cell::HashBytes;
use oracle::original::messages_buffer::{
    IncludeAllMessages, MessageGroup, MessagesBuffer, MsgFilter, SkipExpiredExternals,
};
use oracle::original::types::ParsedMessage;
use oracle::record::{bytes, Record};
use oracle::transactional::Transactional;
use oracle::FastHashSet;

use crate::meter::Meter;
use crate::work::{internal, mixed, Shape, Size, Task, Work, COST};
use crate::Told;

fn message(record: Record) -> ParsedMessage {
    record.message().expect("kinds 0 and 1 have a message")
}

fn buffer_of(records: impl Iterator<Item = Record>) -> MessagesBuffer {
    let mut buffer = MessagesBuffer::default();
    records.for_each(|record| buffer.add_message(message(record)));
    buffer
}

/// The fill alone, with the counts that it answers.
fn fill(
    buffer: &mut MessagesBuffer,
    group: &mut MessageGroup,
    shape: Shape,
    below: Option<u64>,
) -> [u64; 3] {
    let mut dropped = 0;
    let filter = match below {
        Some(chain_time_threshold_ms) => MsgFilter::SkipExpiredExternals(SkipExpiredExternals {
            chain_time_threshold_ms,
            total_skipped: &mut dropped,
        }),
        None => MsgFilter::IncludeAll(IncludeAllMessages),
    };
    let mut set = FastHashSet::default();
    let skip = |_: &HashBytes| (false, COST);
    let (slots, height) = (shape.slots as usize, shape.height as usize);
    let result = buffer.fill_message_group(group, slots, height, &mut set, skip, filter);
    let told = [result.collected_count as u64, result.ops_count, dropped];
    black_box(result);
    told
}

fn held(buffer: &MessagesBuffer) -> [u64; 3] {
    [
        buffer.ints() as u64,
        buffer.exts() as u64,
        buffer.accounts() as u64,
    ]
}

fn grouped(group: &MessageGroup) -> [u64; 3] {
    [
        group.len() as u64,
        group.accounts_count() as u64,
        group.messages_count() as u64,
    ]
}

pub fn run(work: &Work, meter: Meter) -> (u64, Told) {
    let size = work.size;
    match work.task {
        Task::Add { inside } => add(size, inside, meter),
        Task::Fill { shape, expired } => {
            let (mut buffer, mut group) = (loaded(size), MessageGroup::default());
            let below = expired.threshold(size.messages);
            let (cost, told) = meter.measure(|| fill(&mut buffer, &mut group, shape, below));
            (cost, [told, held(&buffer), grouped(&group)].concat())
        }
        Task::SecondFill { shape } => second_fill(size, shape, meter),
        Task::RolledBack { shape } => rolled_back(size, shape, meter),
        Task::Join { slots } => join(size, slots, meter),
        Task::Remove { accounts } => {
            let records = (0..size.messages).map(|i| internal(i, size.accounts, 0));
            let mut buffer = buffer_of(records);
            let names: FastHashSet<HashBytes> = (0..accounts).map(|n| bytes(2 * n)).collect();
            let (cost, ()) = meter.measure(|| buffer.remove_int_messages_by_accounts(&names));
            (cost, held(&buffer).to_vec())
        }
    }
}

fn loaded(size: Size) -> MessagesBuffer {
    buffer_of((0..size.messages).map(|i| mixed(i, size.accounts)))
}

fn add(size: Size, inside: bool, meter: Meter) -> (u64, Told) {
    let before = if inside { size.messages / 2 } else { 0 };
    let mut buffer = buffer_of((0..before).map(|i| mixed(i, size.accounts)));
    let rest: Vec<_> = (before..size.messages)
        .map(|i| message(mixed(i, size.accounts)))
        .collect();
    if inside {
        buffer.begin();
    }
    let (cost, ()) = meter.measure(|| rest.into_iter().for_each(|m| buffer.add_message(m)));
    (cost, held(&buffer).to_vec())
}

fn second_fill(size: Size, shape: Shape, meter: Meter) -> (u64, Told) {
    let (mut buffer, mut group) = (loaded(size), MessageGroup::default());
    let [collected, ..] = fill(&mut buffer, &mut group, shape, None);
    for i in 0..collected {
        buffer.add_message(message(mixed(i, size.accounts)));
    }
    let (cost, told) = meter.measure(|| fill(&mut buffer, &mut group, shape, None));
    (cost, [told, held(&buffer), grouped(&group)].concat())
}

fn rolled_back(size: Size, shape: Shape, meter: Meter) -> (u64, Told) {
    let (mut buffer, mut group) = (loaded(size), MessageGroup::default());
    let (cost, told) = meter.measure(|| {
        buffer.begin();
        let told = fill(&mut buffer, &mut group, shape, None);
        buffer.rollback();
        told
    });
    (cost, [told, held(&buffer), grouped(&group)].concat())
}

fn join(size: Size, slots: u64, meter: Meter) -> (u64, Told) {
    let (shape, half) = (Shape { slots, height: 16 }, size.accounts / 2);
    let [left, right] = [0, half].map(|first| {
        let mut group = MessageGroup::default();
        let records = (0..size.messages / 2).map(|i| internal(i, half, first));
        fill(&mut buffer_of(records), &mut group, shape, None);
        group
    });
    let (cost, joined) = meter.measure(|| left + right);
    (cost, grouped(&joined).to_vec())
}
