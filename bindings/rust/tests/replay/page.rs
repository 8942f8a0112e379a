//! The state as a scenario prints it.

use std::io::Write;

use lintelsong::{Group, Message};

use super::World;

/// The number that 32 bytes were made of.
fn number(bytes: &[u8; 32]) -> u64 {
    bytes[24..]
        .iter()
        .fold(0, |sum, byte| sum << 8 | u64::from(*byte))
}

/// Items with something between each two.
fn list<T: ToString>(items: impl Iterator<Item = T>, between: &str) -> String {
    items
        .map(|item| item.to_string())
        .collect::<Vec<_>>()
        .join(between)
}

fn messages(messages: impl Iterator<Item = Message>) -> String {
    let told = messages.map(|m| format!("{}:{}:{}", u8::from(m.kind), m.time, number(&m.hash)));
    list(told, " ")
}

pub fn state(world: &World, out: &mut Vec<u8>) {
    write(world, out).expect("a vector takes all that is written");
}

fn write(world: &World, out: &mut Vec<u8>) -> std::io::Result<()> {
    let held = world.buffer.counts();
    let min = world.buffer.min_ext_chain_time();
    writeln!(
        out,
        "buffer M={} A={} int={} ext={} accounts={} min={} marked={} tx={}",
        held.room_for_messages,
        held.room_for_accounts,
        held.internals,
        held.externals,
        held.accounts,
        min.unwrap_or(u64::MAX),
        u8::from(min.is_some()),
        u8::from(world.buffer.in_tx()),
    )?;
    for queue in world.buffer.queues() {
        writeln!(
            out,
            "  queue {} = {}",
            number(&queue.account()),
            messages(queue.messages())
        )?;
    }
    for (place, each) in world.groups.iter().enumerate() {
        group(place, each, out)?;
    }
    let mut skipped: Vec<_> = world.skipped.accounts().collect();
    skipped.sort_unstable();
    writeln!(out, "skipped [{}]", list(skipped.iter().map(number), ", "))?;
    let keys: Vec<_> = world.lts.iter().zip(&world.hashes).collect();
    let zero = |key: &(&u64, &[u8; 32])| *key.0 == 0 && *key.1 == [0; 32];
    let shown = keys
        .iter()
        .rposition(|key| !zero(key))
        .map_or(0, |last| last + 1);
    let told = keys[..shown]
        .iter()
        .map(|(lt, hash)| format!("{lt}:{}", number(hash)));
    writeln!(out, "keys {} = {}", keys.len(), list(told, " "))
}

fn group(place: usize, group: &Group, out: &mut Vec<u8>) -> std::io::Result<()> {
    let held = group.counts();
    let last = group
        .last_slot()
        .map_or("-".to_string(), |id| id.0.to_string());
    let (int, ext) = (held.internals, held.externals);
    let (accounts, slots) = (held.accounts, held.slots);
    let room = held.room_for_slots;
    // The line that the library writes says the same.
    let line = format!("int={int}, ext={ext}, accounts={accounts}, slots={slots}");
    assert_eq!(group.to_string(), line);
    writeln!(
        out,
        "group {place} S={room} int={int} ext={ext} accounts={accounts} slots={slots} last={last}"
    )?;
    for slot in group.slots() {
        let accounts = list(slot.accounts().map(|a| number(&a)), " ");
        let (int, ext) = (slot.internals(), slot.externals());
        writeln!(
            out,
            "  slot {} int={int} ext={ext} accounts {accounts}",
            slot.id().0
        )?;
    }
    for bucket in group.buckets() {
        let slots = list(bucket.slots().map(|id| id.0), " ");
        if !slots.is_empty() {
            writeln!(out, "  bucket {} = {slots}", bucket.count())?;
        }
    }
    let mut lists: Vec<_> = group.lists().collect();
    lists.sort_by_key(|list| list.account());
    for list in lists {
        writeln!(
            out,
            "  list {} = {}",
            number(&list.account()),
            messages(list.messages())
        )?;
    }
    Ok(())
}
