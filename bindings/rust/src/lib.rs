//! A proved message buffer for collators: messages wait in a [`Buffer`], a queue for each account, and a fill moves them, account by
//! account, into the slots of a [`Group`].
//!
//! The calls are functions of archives in which each of them is proved to keep to its contract; this crate makes them safe to call. A
//! state lies on the heap, is set up before anybody sees it, and is changed through these calls alone, so what a contract asks for always
//! holds. A call that cannot be done says why by a [`Code`] and changes nothing. No input makes a call panic.
//!
//! # Example
//!
//! ```
//! use lintelsong::{Buffer, Code, Fill, Filled, Filter, Group, Keys, Message, Skipped};
//!
//! let (alice, bob) = ([1; 32], [2; 32]);
//! let mut buffer = Buffer::new(8, 4)?;
//! buffer.add(&Message::external(alice, 90, [10; 32]))?;
//! buffer.add(&Message::internal(alice, 5, [11; 32]))?;
//! buffer.add(&Message::internal(bob, 6, [12; 32]))?;
//!
//! // two slots of at most one message each; externals older than 100 are dropped
//! let mut group = Group::new(2)?;
//! let mut skipped = Skipped::new();
//! let (mut lts, mut hashes) = ([0; 8], [[0; 32]; 8]);
//! let ask = Fill { slots: 2, height: 1, filter: Filter::Below(100), ..Fill::default() };
//! let keys = Keys { lts: &mut lts, hashes: &mut hashes };
//! let filled = buffer.fill(&mut group, &mut skipped, &ask, keys)?;
//!
//! assert_eq!(filled, Filled { collected: 2, operations: 9, dropped: 1 });
//! assert_eq!(group.to_string(), "int=2, ext=0, accounts=2, slots=2");
//! assert_eq!(lts[..2], [5, 6]);
//! for slot in group.slots() {
//!     println!("{:?} holds {} of {:?}", slot.id(), slot.messages(), slot.accounts().count());
//! }
//! assert!(group.check_is_filled(2, 1));
//! assert_eq!(buffer.queues().count(), 0);
//!
//! // what cannot be done is refused, and nothing has changed
//! assert_eq!(buffer.rollback(), Err(Code::NoTransaction));
//! # Ok::<(), Code>(())
//! ```
//!
//! # Threads
//!
//! A state may be sent to another thread, and is not shared between two: the calls of the archives take a state for themselves, also to
//! read. A lock around it makes it shared.
//!
//! ```compile_fail
//! fn shared<T: Sync>(_: T) {}
//! shared(lintelsong::Skipped::new());
//! ```

#![warn(missing_debug_implementations)]

mod buffer;
mod code;
#[rustfmt::skip]
mod ffi;
mod fill;
mod group;
// Declared to have its offsets compared; nothing reads a field.
#[allow(dead_code)]
#[rustfmt::skip]
mod layout;
mod message;
mod skipped;
mod state;

pub use buffer::{Buffer, BufferCounts, FillByCount, FillBySlots, Place, Queue};
pub use code::Code;
pub use fill::{Fill, Filled, Filter, Keys, SkipRows};
pub use group::{Bucket, Group, GroupCounts, List, Slot, SlotId};
pub use message::{Account, Form, Hash, Kind, Message, RefusedKind};
pub use skipped::Skipped;
