//! The buffer: queues of messages, an account each, in the order in which the accounts came.

use std::fmt;

use crate::code::{answer, Code};
use crate::ffi;
use crate::layout::BufferState;
use crate::message::{Account, Form, Message, Parts};
use crate::state::State;

/// A place in the account order, from 0.
#[derive(Debug, Clone, Copy, PartialEq, Eq, Hash, PartialOrd, Ord)]
pub struct Place(pub u16);

/// The room of a buffer, and what it holds.
#[derive(Debug, Clone, Copy, PartialEq, Eq, Hash)]
pub struct BufferCounts {
    pub room_for_messages: u64,
    pub room_for_accounts: u64,
    pub messages: u64,
    pub accounts: u64,
    pub internals: u64,
    pub externals: u64,
}

/// Whether a buffer is full by the count of its messages.
#[derive(Debug, Clone, Copy, PartialEq, Eq, Hash)]
pub enum FillByCount {
    IsFull,
    NotFull,
}

/// Whether the slots can be filled already. By today's rules the answer is always `CanNotFill`.
#[derive(Debug, Clone, Copy, PartialEq, Eq, Hash)]
pub enum FillBySlots {
    CanFill,
    CanNotFill,
}

/// A buffer for at most 1,024 messages of at most 256 accounts.
pub struct Buffer(State<BufferState>);

impl Buffer {
    /// A buffer for so many messages, 1 to 1,024, of so many accounts, 1 to 256: else code 1.
    pub fn new(messages: u64, accounts: u64) -> Result<Buffer, Code> {
        let mut buffer = Buffer(State::zeroed());
        buffer.set_up(messages, accounts)?;
        Ok(buffer)
    }

    /// Makes it a fresh buffer. A refused set-up (code 1) makes it one for one message of one account.
    pub fn set_up(&mut self, messages: u64, accounts: u64) -> Result<(), Code> {
        // SAFETY: set_up takes any memory of a state's size, and nobody else is in it.
        answer(unsafe { ffi::lintelsong_buffer_set_up(self.state(), messages, accounts) })
    }

    /// The state, for one call. It was set up before anybody could have it: `new` gives it out only after.
    pub(crate) fn state(&self) -> *mut BufferState {
        self.0.get()
    }

    /// Adds a message to the end of its account's queue: codes 2 to 5.
    pub fn add(&mut self, message: &Message) -> Result<(), Code> {
        let kind = message.kind.into();
        let special = u8::from(message.special);
        let form = u8::from(message.form == Form::Other);
        let Message {
            address,
            hash,
            time,
            ..
        } = message;
        // SAFETY: the state is set up and nobody else is in it.
        answer(unsafe {
            ffi::lintelsong_buffer_add(self.state(), address, hash, *time, kind, special, form)
        })
    }

    /// Removes the queues of the named accounts: code 8 if one of them holds an external. Names without a queue, and names given twice,
    /// do nothing.
    pub fn remove(&mut self, names: &[Account]) -> Result<(), Code> {
        let bytes = names.as_flattened();
        // SAFETY: as above; the bytes outlive the call.
        answer(unsafe { ffi::lintelsong_buffer_remove(self.state(), bytes.as_ptr(), bytes.len()) })
    }

    /// Opens a transaction: code 7 if one is open.
    pub fn begin(&mut self) -> Result<(), Code> {
        // SAFETY: the state is set up and nobody else is in it.
        answer(unsafe { ffi::lintelsong_buffer_begin(self.state()) })
    }

    /// Ends the transaction and leaves the buffer as it is: code 6 if none is open.
    pub fn commit(&mut self) -> Result<(), Code> {
        // SAFETY: as above.
        answer(unsafe { ffi::lintelsong_buffer_commit(self.state()) })
    }

    /// Ends the transaction and gives back every queue, the order, the counts and the minimum as at begin: code 6 if none is open.
    pub fn rollback(&mut self) -> Result<(), Code> {
        // SAFETY: as above.
        answer(unsafe { ffi::lintelsong_buffer_rollback(self.state()) })
    }

    /// Whether a transaction is open.
    pub fn in_tx(&self) -> bool {
        // SAFETY: the state is set up, and in a cell that no other thread sees: nobody else is in it.
        unsafe { ffi::lintelsong_buffer_in_tx(self.state()) != 0 }
    }

    pub fn counts(&self) -> BufferCounts {
        let mut out = [0; 6];
        // SAFETY: as above.
        unsafe { ffi::lintelsong_buffer_counts(self.state(), &mut out) };
        let [room_for_messages, room_for_accounts, messages, accounts, internals, externals] = out;
        BufferCounts {
            room_for_messages,
            room_for_accounts,
            messages,
            accounts,
            internals,
            externals,
        }
    }

    /// The least chain time that an external set, until a fill drains the buffer. Present at `u64::MAX` and absent are two states.
    pub fn min_ext_chain_time(&self) -> Option<u64> {
        // SAFETY: as above.
        unsafe {
            let present = ffi::lintelsong_buffer_has_min_ext_chain_time(self.state()) != 0;
            present.then(|| ffi::lintelsong_buffer_min_ext_chain_time(self.state()))
        }
    }

    /// How many messages the queue of an account holds; 0 if it has none.
    pub fn account_messages_count(&self, account: &Account) -> u64 {
        // SAFETY: as above.
        unsafe { ffi::lintelsong_buffer_account_messages_count(self.state(), account) }
    }

    /// Whether it is full: by count, it holds at least `max_count` messages.
    pub fn check_is_filled(&self, max_count: u64) -> (FillByCount, FillBySlots) {
        // SAFETY: as above.
        let (full, fills) = unsafe {
            (
                ffi::lintelsong_buffer_is_filled_by_count(self.state(), max_count) != 0,
                ffi::lintelsong_buffer_is_filled_by_slots(self.state()) != 0,
            )
        };
        let by_count = if full {
            FillByCount::IsFull
        } else {
            FillByCount::NotFull
        };
        let by_slots = if fills {
            FillBySlots::CanFill
        } else {
            FillBySlots::CanNotFill
        };
        (by_count, by_slots)
    }

    /// The account at a place of the order.
    pub fn account_at(&self, place: Place) -> Option<Account> {
        let mut out = [0; 32];
        // SAFETY: as above.
        let found = unsafe { ffi::lintelsong_buffer_account_at(self.state(), &mut out, place.0) };
        (found != 0).then_some(out)
    }

    /// The message at a position of the queue at a place of the order.
    pub fn message_at(&self, place: Place, position: u64) -> Option<Message> {
        let mut parts = Parts::default();
        let Parts {
            facts,
            address,
            hash,
        } = &mut parts;
        // SAFETY: as above.
        let found = unsafe {
            ffi::lintelsong_buffer_message_at(self.state(), facts, address, hash, place.0, position)
        };
        (found != 0).then(|| parts.message())
    }

    /// The queues in the account order.
    pub fn queues(&self) -> impl Iterator<Item = Queue<'_>> {
        (0..=u16::MAX).map_while(move |n| {
            let place = Place(n);
            let account = self.account_at(place)?;
            Some(Queue {
                buffer: self,
                place,
                account,
            })
        })
    }
}

impl fmt::Debug for Buffer {
    fn fmt(&self, f: &mut fmt::Formatter<'_>) -> fmt::Result {
        f.debug_struct("Buffer")
            .field("counts", &self.counts())
            .field("min_ext_chain_time", &self.min_ext_chain_time())
            .field("in_tx", &self.in_tx())
            .finish_non_exhaustive()
    }
}

/// The queue of an account.
#[derive(Debug, Clone, Copy)]
pub struct Queue<'a> {
    buffer: &'a Buffer,
    place: Place,
    account: Account,
}

impl<'a> Queue<'a> {
    pub fn account(&self) -> Account {
        self.account
    }

    pub fn place(&self) -> Place {
        self.place
    }

    /// Its messages, first come first.
    pub fn messages(&self) -> impl Iterator<Item = Message> + 'a {
        let Queue { buffer, place, .. } = *self;
        (0..).map_while(move |position| buffer.message_at(place, position))
    }
}
