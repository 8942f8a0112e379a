//! What is measured: pieces of work that both sides do on the same messages.

use std::fmt;

use oracle::record::Record;

/// How many messages a buffer is filled with, and of how many accounts.
#[derive(Clone, Copy, PartialEq)]
pub struct Size {
    pub messages: u64,
    pub accounts: u64,
}

/// As much as a buffer can hold.
pub const FULL: Size = Size {
    messages: 1024,
    accounts: 256,
};

/// The time of the first message; the i-th comes i later.
const FIRST_TIME: u64 = 1000;

/// What an account without a skip row costs.
pub const COST: u64 = 1;

/// Which externals a fill finds expired.
#[derive(Clone, Copy)]
pub enum Expired {
    /// The filter is off.
    Off,
    Nobody,
    Half,
    All,
}

impl Expired {
    /// The threshold of the filter, if it is on, among so many messages.
    pub fn threshold(self, messages: u64) -> Option<u64> {
        match self {
            Expired::Off => None,
            Expired::Nobody => Some(FIRST_TIME),
            Expired::Half => Some(FIRST_TIME + messages / 2),
            Expired::All => Some(u64::MAX),
        }
    }
}

#[derive(Clone, Copy)]
pub struct Shape {
    pub slots: u64,
    pub height: u64,
}

pub const SHAPES: [Shape; 2] = [
    Shape {
        slots: 16,
        height: 4,
    },
    Shape {
        slots: 64,
        height: 16,
    },
];

/// A task, on a buffer of this size.
#[derive(Clone, Copy)]
pub struct Work {
    pub size: Size,
    pub task: Task,
}

#[derive(Clone, Copy)]
pub enum Task {
    /// Adds to a buffer: all messages, or, inside a transaction, the second half.
    Add { inside: bool },
    /// A fill of a fresh group.
    Fill { shape: Shape, expired: Expired },
    /// A fill of a group that one such fill has left, what was collected added again.
    SecondFill { shape: Shape },
    /// Begin, a fill and a rollback.
    RolledBack { shape: Shape },
    /// A join of two groups of so many slots, 16 messages each.
    Join { slots: u64 },
    /// A removal of so many accounts, every other one from the first on, of a buffer of internals.
    Remove { accounts: u64 },
}

impl Work {
    /// By how much what is measured is divided: adds are measured many at a time.
    pub fn calls(&self) -> u64 {
        match self.task {
            Task::Add { inside: false } => self.size.messages,
            Task::Add { inside: true } => self.size.messages / 2,
            _ => 1,
        }
    }

    /// The rows of the table.
    pub fn all() -> Vec<Work> {
        let adds = [64, FULL.accounts].map(|accounts| Size { accounts, ..FULL });
        let adds = adds
            .iter()
            .flat_map(|&size| [false, true].map(|inside| (size, Task::Add { inside })));
        let mut rest = Vec::new();
        for shape in SHAPES {
            let each = [Expired::Off, Expired::Nobody, Expired::Half, Expired::All];
            rest.extend(each.map(|expired| Task::Fill { shape, expired }));
        }
        rest.extend(SHAPES.map(|shape| Task::SecondFill { shape }));
        rest.extend(SHAPES.map(|shape| Task::RolledBack { shape }));
        rest.extend([8, 32].map(|slots| Task::Join { slots }));
        rest.extend([16, 128].map(|accounts| Task::Remove { accounts }));
        adds.chain(rest.into_iter().map(|task| (FULL, task)))
            .map(|(size, task)| Work { size, task })
            .collect()
    }
}

impl fmt::Display for Shape {
    fn fmt(&self, f: &mut fmt::Formatter<'_>) -> fmt::Result {
        write!(f, "({},{})", self.slots, self.height)
    }
}

impl fmt::Display for Work {
    fn fmt(&self, f: &mut fmt::Formatter<'_>) -> fmt::Result {
        let held = self.size.accounts;
        match self.task {
            Task::Add { inside } => {
                let place = if inside { "inside" } else { "outside" };
                write!(f, "add, {held} accounts, {place} a transaction")
            }
            Task::Fill { shape, expired } => {
                let filter = match expired {
                    Expired::Off => "filter off",
                    Expired::Nobody => "filter on, no external expired",
                    Expired::Half => "filter on, half of the externals expired",
                    Expired::All => "filter on, all externals expired",
                };
                write!(f, "fill {shape}, {filter}")
            }
            Task::SecondFill { shape } => write!(f, "fill {shape} of a filled group"),
            Task::RolledBack { shape } => write!(f, "begin, fill {shape}, rollback"),
            Task::Join { slots } => write!(f, "join, 2 x {slots} slots"),
            Task::Remove { accounts } => write!(f, "remove {accounts} of {held} accounts"),
        }
    }
}

/// Message i of so many accounts: they take turns, and along each queue internals and externals do.
pub fn mixed(i: u64, accounts: u64) -> Record {
    Record {
        kind: ((i + i / accounts) % 2) as u8,
        special: false,
        other: false,
        account: i % accounts,
        time: FIRST_TIME + i,
        hash: i,
    }
}

/// The same, all internals, of accounts from `first` on.
pub fn internal(i: u64, accounts: u64, first: u64) -> Record {
    let message = mixed(i, accounts);
    Record {
        kind: 0,
        account: first + message.account,
        ..message
    }
}
