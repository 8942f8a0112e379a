//! The group: slots with their accounts, a list of messages for each account, and the buckets of slots by count.

use std::fmt;

use crate::code::{answer, Code};
use crate::ffi;
use crate::layout::GroupState;
use crate::message::{Account, Message, Parts};
use crate::state::State;

/// The number of a slot.
#[derive(Debug, Clone, Copy, PartialEq, Eq, Hash, PartialOrd, Ord)]
pub struct SlotId(pub u16);

/// The highest count of a slot, and so the last bucket.
const HIGHEST: u64 = 16;

/// Longer than any Display line: four words and four numbers of at most 1,024.
const LINE: usize = 64;

/// The room of a group, and what it holds.
#[derive(Debug, Clone, Copy, PartialEq, Eq, Hash)]
pub struct GroupCounts {
    pub room_for_slots: u64,
    pub slots: u64,
    pub accounts: u64,
    pub messages: u64,
    pub internals: u64,
    pub externals: u64,
}

/// A group of at most 64 slots.
pub struct Group(State<GroupState>);

impl Group {
    /// A group for so many slots, 1 to 64: else code 1.
    pub fn new(slots: u64) -> Result<Group, Code> {
        let mut group = Group(State::zeroed());
        group.set_up(slots)?;
        Ok(group)
    }

    /// Makes it a fresh group. A refused set-up (code 1) makes it one for one slot.
    pub fn set_up(&mut self, slots: u64) -> Result<(), Code> {
        // SAFETY: set_up takes any memory of a state's size, and nobody else is in it.
        answer(unsafe { ffi::lintelsong_group_set_up(self.state(), slots) })
    }

    /// The state, for one call. It was set up before anybody could have it: `new` gives it out only after.
    pub(crate) fn state(&self) -> *mut GroupState {
        self.0.get()
    }

    /// Joins the slots, accounts and messages of another group to this one: codes 14, 15, 12, tested in this order. The other is fresh
    /// afterwards and keeps its room.
    pub fn join(&mut self, right: &mut Group) -> Result<(), Code> {
        // SAFETY: both are set up, nobody else is in them, and two exclusive borrows are two groups.
        answer(unsafe { ffi::lintelsong_group_join(self.state(), right.state()) })
    }

    pub fn counts(&self) -> GroupCounts {
        let mut out = [0; 6];
        // SAFETY: the state is set up, and in a cell that no other thread sees: nobody else is in it.
        unsafe { ffi::lintelsong_group_counts(self.state(), &mut out) };
        let [room_for_slots, slots, accounts, messages, internals, externals] = out;
        GroupCounts {
            room_for_slots,
            slots,
            accounts,
            messages,
            internals,
            externals,
        }
    }

    /// Whether it has no slot.
    pub fn is_empty(&self) -> bool {
        // SAFETY: as above.
        unsafe { ffi::lintelsong_group_is_empty(self.state()) != 0 }
    }

    /// Whether an account has a list.
    pub fn contains_account(&self, account: &Account) -> bool {
        // SAFETY: as above.
        unsafe { ffi::lintelsong_group_contains_account(self.state(), account) != 0 }
    }

    /// Whether it has at least so many slots, and no bucket below the height lists one.
    pub fn check_is_filled(&self, slots: u64, height: u64) -> bool {
        // SAFETY: as above.
        unsafe { ffi::lintelsong_group_check_is_filled(self.state(), slots, height) != 0 }
    }

    /// The last slot number that was given, also to a slot that is gone. It is not the number of slots.
    pub fn last_slot(&self) -> Option<SlotId> {
        let mut out = [0];
        // SAFETY: as above.
        let found = unsafe { ffi::lintelsong_group_last_slot(self.state(), &mut out) };
        (found != 0).then_some(SlotId(out[0]))
    }

    /// The slot at a position, by rising number.
    pub fn slot_at(&self, position: u64) -> Option<Slot<'_>> {
        let mut out = [0; 3];
        // SAFETY: as above.
        let found = unsafe { ffi::lintelsong_group_slot_at(self.state(), &mut out, position) };
        let [number, internals, externals] = out;
        (found != 0).then_some(Slot {
            group: self,
            position,
            // It is proved that what was written is a slot number.
            id: SlotId(number as u16),
            internals,
            externals,
        })
    }

    /// The account with the list at a position.
    pub fn account_at(&self, position: u64) -> Option<Account> {
        let mut out = [0; 32];
        // SAFETY: as above.
        let found = unsafe { ffi::lintelsong_group_account_at(self.state(), &mut out, position) };
        (found != 0).then_some(out)
    }

    /// The account at a position of the slot at a position.
    pub fn slot_account_at(&self, slot: u64, position: u64) -> Option<Account> {
        let mut out = [0; 32];
        // SAFETY: as above.
        let found = unsafe {
            ffi::lintelsong_group_slot_account_at(self.state(), &mut out, slot, position)
        };
        (found != 0).then_some(out)
    }

    /// The message at a position of an account's list.
    pub fn message_at(&self, account: &Account, position: u64) -> Option<Message> {
        let mut parts = Parts::default();
        let Parts {
            facts,
            address,
            hash,
        } = &mut parts;
        // SAFETY: as above.
        let found = unsafe {
            ffi::lintelsong_group_message_at(self.state(), account, facts, address, hash, position)
        };
        (found != 0).then(|| parts.message())
    }

    /// The slot number at a position of the bucket of a count.
    pub fn bucket_at(&self, count: u64, position: u64) -> Option<SlotId> {
        let mut out = [0];
        // SAFETY: as above.
        let found =
            unsafe { ffi::lintelsong_group_bucket_at(self.state(), &mut out, count, position) };
        (found != 0).then_some(SlotId(out[0]))
    }

    /// The slots, by rising number.
    pub fn slots(&self) -> impl Iterator<Item = Slot<'_>> {
        (0..).map_while(move |position| self.slot_at(position))
    }

    /// The lists of messages, in the order in which their accounts came.
    pub fn lists(&self) -> impl Iterator<Item = List<'_>> {
        (0..).map_while(move |position| {
            let account = self.account_at(position)?;
            Some(List {
                group: self,
                account,
            })
        })
    }

    /// The seventeen buckets, for counts 0 to 16, empty ones included.
    pub fn buckets(&self) -> impl Iterator<Item = Bucket<'_>> {
        (0..=HIGHEST).map(move |count| Bucket { group: self, count })
    }
}

/// The Display line of the original: `int=2, ext=0, accounts=1, slots=1`.
impl fmt::Display for Group {
    fn fmt(&self, f: &mut fmt::Formatter<'_>) -> fmt::Result {
        let mut line = [0; LINE];
        // SAFETY: the state is set up and nobody else is in it; the line's room outlives the call.
        let long = unsafe { ffi::lintelsong_group_display(self.state(), line.as_mut_ptr(), LINE) };
        let written = line.get(..long as usize).ok_or(fmt::Error)?;
        f.write_str(std::str::from_utf8(written).map_err(|_| fmt::Error)?)
    }
}

impl fmt::Debug for Group {
    fn fmt(&self, f: &mut fmt::Formatter<'_>) -> fmt::Result {
        f.debug_struct("Group")
            .field("counts", &self.counts())
            .field("last_slot", &self.last_slot())
            .finish_non_exhaustive()
    }
}

/// A slot of a group.
#[derive(Debug, Clone, Copy)]
pub struct Slot<'a> {
    group: &'a Group,
    position: u64,
    id: SlotId,
    internals: u64,
    externals: u64,
}

impl<'a> Slot<'a> {
    pub fn id(&self) -> SlotId {
        self.id
    }

    pub fn internals(&self) -> u64 {
        self.internals
    }

    pub fn externals(&self) -> u64 {
        self.externals
    }

    /// How many messages it holds. The counts of a slot are at most 16 together.
    pub fn messages(&self) -> u64 {
        self.internals.saturating_add(self.externals)
    }

    /// Its accounts, in the order in which they came to it.
    pub fn accounts(&self) -> impl Iterator<Item = Account> + 'a {
        let Slot {
            group, position, ..
        } = *self;
        (0..).map_while(move |k| group.slot_account_at(position, k))
    }
}

/// The messages that were collected for an account.
#[derive(Debug, Clone, Copy)]
pub struct List<'a> {
    group: &'a Group,
    account: Account,
}

impl<'a> List<'a> {
    pub fn account(&self) -> Account {
        self.account
    }

    /// Its messages, in the order in which they were collected.
    pub fn messages(&self) -> impl Iterator<Item = Message> + 'a {
        let List { group, account } = *self;
        (0..).map_while(move |position| group.message_at(&account, position))
    }
}

/// The bucket of a count: the slots that it lists, and now and then one that has left it (the rules say which).
#[derive(Debug, Clone, Copy)]
pub struct Bucket<'a> {
    group: &'a Group,
    count: u64,
}

impl<'a> Bucket<'a> {
    pub fn count(&self) -> u64 {
        self.count
    }

    /// The slot numbers that it lists, in the order in which they came to it.
    pub fn slots(&self) -> impl Iterator<Item = SlotId> + 'a {
        let Bucket { group, count } = *self;
        (0..).map_while(move |position| group.bucket_at(count, position))
    }
}
