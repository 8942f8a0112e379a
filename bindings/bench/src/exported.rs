//! The same work done by the exported calls, through the crate's wrappers.

use lintelsong::{Account, Buffer, Fill, Filled, Filter, Group, Hash, Keys, Message, Skipped};
use oracle::record::{bytes, Record};

use crate::meter::Meter;
use crate::work::{internal, mixed, Shape, Size, Task, Work, COST, FULL};
use crate::Told;

/// Everything lent, made once: a collator has it too.
pub struct Desk {
    buffer: Buffer,
    left: Group,
    right: Group,
    skipped: Skipped,
    lts: Vec<u64>,
    hashes: Vec<Hash>,
}

fn message(record: &Record) -> Message {
    let (address, hash) = (bytes(record.account).0, bytes(record.hash).0);
    match record.kind {
        0 => Message::internal(address, record.time, hash),
        _ => Message::external(address, record.time, hash),
    }
}

fn grouped(group: &Group) -> [u64; 3] {
    let counts = group.counts();
    [counts.slots, counts.accounts, counts.messages]
}

const TAKEN: &str = "no call of this work is refused";

impl Desk {
    pub fn new() -> Desk {
        Desk {
            buffer: Buffer::new(FULL.messages, FULL.accounts).expect(TAKEN),
            left: Group::new(64).expect(TAKEN),
            right: Group::new(64).expect(TAKEN),
            skipped: Skipped::new(),
            lts: vec![0; FULL.messages as usize],
            hashes: vec![[0; 32]; FULL.messages as usize],
        }
    }

    /// A fresh buffer of these messages, with all the room that there can be, and two fresh groups.
    fn load(&mut self, records: impl Iterator<Item = Record>) {
        let room = self.buffer.set_up(FULL.messages, FULL.accounts);
        room.expect(TAKEN);
        self.left.set_up(64).expect(TAKEN);
        self.right.set_up(64).expect(TAKEN);
        self.skipped.clear();
        records.for_each(|record| self.buffer.add(&message(&record)).expect(TAKEN));
    }

    /// The fill of the left group alone, with the counts that it answers.
    fn fill(&mut self, shape: Shape, below: Option<u64>) -> [u64; 3] {
        let ask = Fill {
            slots: shape.slots,
            height: shape.height,
            filter: below.map_or(Filter::Off, Filter::Below),
            cost: COST,
            ..Fill::default()
        };
        let keys = Keys {
            lts: &mut self.lts,
            hashes: &mut self.hashes,
        };
        let told = self
            .buffer
            .fill(&mut self.left, &mut self.skipped, &ask, keys);
        let Filled {
            collected,
            operations,
            dropped,
        } = told.expect(TAKEN);
        [collected, operations, dropped]
    }

    fn held(&self) -> [u64; 3] {
        let counts = self.buffer.counts();
        [counts.internals, counts.externals, counts.accounts]
    }

    pub fn run(&mut self, work: &Work, meter: Meter) -> (u64, Told) {
        let size = work.size;
        match work.task {
            Task::Add { inside } => self.add(size, inside, meter),
            Task::Fill { shape, expired } => {
                self.load_mixed(size);
                let below = expired.threshold(size.messages);
                let (cost, told) = meter.measure(|| self.fill(shape, below));
                (cost, [told, self.held(), grouped(&self.left)].concat())
            }
            Task::SecondFill { shape } => self.second_fill(size, shape, meter),
            Task::RolledBack { shape } => self.rolled_back(size, shape, meter),
            Task::Join { slots } => self.join(size, slots, meter),
            Task::Remove { accounts } => {
                self.load((0..size.messages).map(|i| internal(i, size.accounts, 0)));
                let names: Vec<Account> = (0..accounts).map(|n| bytes(2 * n).0).collect();
                let (cost, ()) = meter.measure(|| self.buffer.remove(&names).expect(TAKEN));
                (cost, self.held().to_vec())
            }
        }
    }

    fn load_mixed(&mut self, size: Size) {
        self.load((0..size.messages).map(|i| mixed(i, size.accounts)));
    }

    fn add(&mut self, size: Size, inside: bool, meter: Meter) -> (u64, Told) {
        let before = if inside { size.messages / 2 } else { 0 };
        self.load((0..before).map(|i| mixed(i, size.accounts)));
        let rest: Vec<_> = (before..size.messages)
            .map(|i| message(&mixed(i, size.accounts)))
            .collect();
        if inside {
            self.buffer.begin().expect(TAKEN);
        }
        let (cost, ()) =
            meter.measure(|| rest.iter().for_each(|m| self.buffer.add(m).expect(TAKEN)));
        (cost, self.held().to_vec())
    }

    fn second_fill(&mut self, size: Size, shape: Shape, meter: Meter) -> (u64, Told) {
        self.load_mixed(size);
        let [collected, ..] = self.fill(shape, None);
        for i in 0..collected {
            let again = message(&mixed(i, size.accounts));
            self.buffer.add(&again).expect(TAKEN);
        }
        let (cost, told) = meter.measure(|| self.fill(shape, None));
        (cost, [told, self.held(), grouped(&self.left)].concat())
    }

    fn rolled_back(&mut self, size: Size, shape: Shape, meter: Meter) -> (u64, Told) {
        self.load_mixed(size);
        let (cost, told) = meter.measure(|| {
            self.buffer.begin().expect(TAKEN);
            let told = self.fill(shape, None);
            self.buffer.rollback().expect(TAKEN);
            told
        });
        (cost, [told, self.held(), grouped(&self.left)].concat())
    }

    fn join(&mut self, size: Size, slots: u64, meter: Meter) -> (u64, Told) {
        let (shape, half) = (Shape { slots, height: 16 }, size.accounts / 2);
        // The right group is filled in the left one's place, and set aside.
        self.load((0..size.messages / 2).map(|i| internal(i, half, half)));
        self.fill(shape, None);
        let mut right = Group::new(64).expect(TAKEN);
        std::mem::swap(&mut self.left, &mut right);
        self.load((0..size.messages / 2).map(|i| internal(i, half, 0)));
        self.fill(shape, None);
        self.right = right;
        let (cost, ()) = meter.measure(|| self.left.join(&mut self.right).expect(TAKEN));
        (cost, grouped(&self.left).to_vec())
    }
}
