//! The table of codes, read off the rules and decided before the original is called.
//! Within a call the tests stand in the order in which the rules give the codes.

use crate::cell::HashBytes;
use crate::harness::{Group, Room, World};
use crate::original::messages_buffer::MessageGroup;
use crate::record::{Record, bytes};
use crate::scenario::Fill;
use crate::transactional::Transactional;

pub type Code = u8;

pub const DONE: Code = 0;
pub const SET_UP: Code = 1;
pub const SPECIAL: Code = 2;
pub const KIND: Code = 3;
pub const MESSAGES: Code = 4;
pub const ACCOUNTS: Code = 5;
pub const NO_TRANSACTION: Code = 6;
pub const TRANSACTION_OPEN: Code = 7;
pub const HOLDS_EXTERNAL: Code = 8;
pub const ASKED_TOO_MUCH: Code = 9;
pub const KEY_ROWS: Code = 10;
pub const SKIP_ROWS: Code = 11;
pub const NUMBERS: Code = 12;
pub const OVERFULL: Code = 13;
pub const SLOTS: Code = 14;
pub const SHARED_ACCOUNT: Code = 15;

const MOST_HEIGHT: u64 = 16;
const MOST_SKIP_ROWS: usize = 256;
const MOST_SKIPPED: usize = 512;
const LAST_NUMBER: u64 = 65_535;

/// The code of the first test that is met.
fn first(tests: &[(bool, Code)]) -> Code {
    tests.iter().find(|test| test.0).map_or(DONE, |test| test.1)
}

pub fn set_up_buffer(room: &Room) -> Code {
    let fits = (1..=1_024).contains(&room.messages) && (1..=256).contains(&room.accounts);
    first(&[(!fits, SET_UP)])
}

pub fn set_up_group(slots: u64) -> Code {
    first(&[(!(1..=64).contains(&slots), SET_UP)])
}

pub fn add(world: &World, record: &Record) -> Code {
    let buffer = &world.buffer;
    let held = (buffer.ints() + buffer.exts()) as u64;
    let new = buffer.queue(&record.queue()).is_none();
    first(&[
        (record.special, SPECIAL),
        (record.kind > 1, KIND),
        (held >= world.room.messages, MESSAGES),
        (
            new && buffer.accounts() as u64 >= world.room.accounts,
            ACCOUNTS,
        ),
    ])
}

pub fn remove(world: &World, names: &[u64]) -> Code {
    let holds_external = |name: &u64| {
        let queue = world.buffer.queue(&bytes(*name));
        queue.is_some_and(|queue| queue.iter().any(|msg| msg.is_external()))
    };
    first(&[(names.iter().any(holds_external), HOLDS_EXTERNAL)])
}

pub fn begin(world: &World) -> Code {
    first(&[(world.buffer.in_tx(), TRANSACTION_OPEN)])
}

pub fn end(world: &World) -> Code {
    first(&[(!world.buffer.in_tx(), NO_TRANSACTION)])
}

pub fn fill(world: &World, ask: &Fill) -> Code {
    let group = &world.groups[ask.group];
    if ask.slots > group.slots || ask.height > MOST_HEIGHT {
        return ASKED_TOO_MUCH;
    }
    let skips = world.rows.iter().filter(|row| row.skip).count();
    let too_many_rows = world.rows.len() > MOST_SKIP_ROWS || world.set.len() + skips > MOST_SKIPPED;
    first(&[
        (world.keys.len() < world.buffer.ints(), KEY_ROWS),
        (too_many_rows, SKIP_ROWS),
        (numbers_run_out(&group.group, ask.slots), NUMBERS),
        (lists_overfull(&group.group, ask.height), OVERFULL),
    ])
}

/// Early on purpose: the original stops only if it really opens that many slots.
fn numbers_run_out(group: &MessageGroup, slots: u64) -> bool {
    let more = slots.saturating_sub(group.len() as u64);
    let last = u64::from(group.last_number().unwrap_or(0));
    more > 0 && last + more > LAST_NUMBER
}

fn lists_overfull(group: &MessageGroup, height: u64) -> bool {
    let below = group.buckets().iter().take(height as usize);
    let mut listed = below.flatten().filter_map(|number| group.slot(*number));
    listed.any(|slot| slot.held() as u64 > height)
}

pub fn join(left: &Group, right: &Group) -> Code {
    let slots = (left.group.len() + right.group.len()) as u64;
    let in_left = |account: &HashBytes| left.group.contains_account(account);
    let first_new = left.group.last_number().map_or(0, |n| u64::from(n) + 1);
    first(&[
        (slots > left.slots, SLOTS),
        (right.group.account_ids().any(in_left), SHARED_ACCOUNT),
        (first_new + right.group.len() as u64 >= LAST_NUMBER, NUMBERS),
    ])
}
