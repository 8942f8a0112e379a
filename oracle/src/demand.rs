//! What is asked of the original while it runs: panics exactly where the rules expect
//! them, and a state that agrees with itself after every accepted call.

use std::cell::RefCell;
use std::collections::VecDeque;
use std::panic::{self, AssertUnwindSafe};

use crate::FastHashSet;
use crate::cell::HashBytes;
use crate::codes::{Code, NUMBERS, OVERFULL};
use crate::original::SlotView;
use crate::original::messages_buffer::{MessageGroup, MessagesBuffer};
use crate::original::types::ParsedMessage;

/// The original and the rules part: the comparison is worth nothing from here on.
#[derive(Debug)]
pub struct Broken(pub String);

thread_local! {
    static LAST_PANIC: RefCell<String> = const { RefCell::new(String::new()) };
}

/// Expected panics would flood the error stream, so their text is kept instead of printed.
pub fn keep_panics() {
    panic::set_hook(Box::new(|info| LAST_PANIC.set(info.to_string())));
}

/// The answer, or the text of the panic.
pub fn attempt<T>(call: impl FnOnce() -> T) -> Result<T, String> {
    panic::catch_unwind(AssertUnwindSafe(call)).map_err(|_| LAST_PANIC.take())
}

/// For calls the rules accept.
pub fn answers<T>(call: impl FnOnce() -> T) -> Result<T, Broken> {
    attempt(call).map_err(|text| Broken(format!("an accepted call panics: {text}")))
}

/// For calls the rules refuse because the original cannot go on; `call` runs on a copy.
pub fn panics<T>(code: Code, call: impl FnOnce() -> T) -> Result<(), Broken> {
    let overflow = code == NUMBERS || code == OVERFULL;
    match attempt(call) {
        Ok(_) => Err(Broken(format!("code {code}, and no panic"))),
        Err(text) if overflow && !text.contains("overflow") => {
            Err(Broken(format!("code {code}, and another panic: {text}")))
        }
        Err(_) => Ok(()),
    }
}

/// A plain check of our own.
pub fn holds(truth: bool, what: &str) -> Result<(), Broken> {
    if truth {
        Ok(())
    } else {
        Err(Broken(format!("does not hold: {what}")))
    }
}

/// Internals and externals among these.
fn counts<'a>(messages: impl Iterator<Item = &'a ParsedMessage>) -> (usize, usize) {
    messages.fold((0, 0), |(ints, exts), message| {
        let external = message.is_external() as usize;
        (ints + 1 - external, exts + external)
    })
}

pub fn buffer_agrees(buffer: &MessagesBuffer) -> Result<(), Broken> {
    let queues = || buffer.iter().map(|(_, queue)| queue);
    let found = counts(queues().flatten());
    holds(
        found == (buffer.ints(), buffer.exts()),
        "the buffer's counts are those of its queues",
    )?;
    holds(!queues().any(VecDeque::is_empty), "no queue is empty")?;
    let oldest = queues().flatten().filter_map(|m| m.ext_msg_chain_time());
    holds(
        oldest
            .min()
            .is_none_or(|time| buffer.minimum().is_some_and(|min| min <= time)),
        "the minimum is not above an external held",
    )
}

pub fn group_agrees(group: &MessageGroup) -> Result<(), Broken> {
    let mut met = FastHashSet::<HashBytes>::default();
    let mut total = (0, 0);
    for slot in group.slots() {
        let lists = slot.accounts.iter().filter_map(|a| group.msgs().get(a));
        holds(
            counts(lists.flatten()) == (slot.ints, slot.exts),
            "a slot's counts are those of its accounts' lists",
        )?;
        holds(
            slot.accounts.iter().all(|account| met.insert(*account)),
            "an account stands in one slot, once",
        )?;
        total = (total.0 + slot.ints, total.1 + slot.exts);
    }
    holds(
        met.len() == group.accounts_count() && met.iter().all(|a| group.contains_account(a)),
        "accounts in slots are the accounts with lists",
    )?;
    holds(
        total == (group.ints(), group.exts()),
        "the group's counts are those of its slots",
    )?;
    index_agrees(group)
}

fn index_agrees(group: &MessageGroup) -> Result<(), Broken> {
    for (count, bucket) in group.buckets().iter().enumerate() {
        let mut slots = bucket.iter().map(|number| group.slot(*number));
        holds(
            slots.all(|slot| slot.is_some_and(|slot| slot.held() >= count)),
            "a listed slot exists and is not listed above its count",
        )?;
    }
    let listed = |slot: SlotView<'_>| {
        let bucket = group.buckets().get(slot.held());
        bucket.is_some_and(|bucket| bucket.contains(&slot.number))
    };
    holds(
        group.slots().all(listed),
        "each slot is listed in the bucket of its count",
    )
}

/// The original's own line about a group says what the state shows of it.
pub fn display_agrees(group: &MessageGroup) -> Result<(), Broken> {
    let (ints, exts) = (group.ints(), group.exts());
    let (accounts, slots) = (group.accounts_count(), group.len());
    let line = format!("int={ints}, ext={exts}, accounts={accounts}, slots={slots}");
    holds(group.display_line() == line, "the display line")
}
