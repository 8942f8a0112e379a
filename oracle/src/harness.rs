//! Everything a scenario works on, and each command: first its code, then the original.

use crate::FastHashSet;
use crate::cell::HashBytes;
use crate::codes::{self, Code, DONE, KIND, SPECIAL};
use crate::demand::{self, Broken};
use crate::original::messages_buffer::{
    BufferFillStateByCount, BufferFillStateBySlots, MessageGroup, MessagesBuffer,
    MessagesBufferLimits,
};
use crate::queue::QueueKey;
use crate::record::{Record, bytes};
use crate::scenario::{Command, Row};
use crate::transactional::Transactional;

/// So many skip rows are kept: more than a fill takes, so that its refusal can be met.
const ROWS_KEPT: usize = 300;

/// The size of what a refused set-up gives.
const SMALLEST: u64 = 1;

pub struct Room {
    pub messages: u64,
    pub accounts: u64,
}

pub struct Group {
    pub group: MessageGroup,
    pub slots: u64,
}

impl Group {
    fn fresh(slots: u64) -> Self {
        let group = MessageGroup::default();
        Self { group, slots }
    }
}

pub struct World {
    pub buffer: MessagesBuffer,
    pub room: Room,
    pub groups: Vec<Group>,
    pub rows: Vec<Row>,
    pub cost: u64,
    pub set: FastHashSet<HashBytes>,
    pub keys: Vec<QueueKey>,
    pub loud: bool,
}

pub enum Answer {
    Code(Code),
    Fill {
        code: Code,
        collected: u64,
        ops: u64,
        dropped: u64,
    },
    IsFilled(bool),
    Full {
        by_count: bool,
        by_slots: bool,
    },
    Display(String),
}

impl World {
    pub fn new() -> Self {
        Self {
            buffer: MessagesBuffer::default(),
            room: Room {
                messages: SMALLEST,
                accounts: SMALLEST,
            },
            groups: Vec::new(),
            rows: Vec::new(),
            cost: 0,
            set: FastHashSet::default(),
            keys: Vec::new(),
            loud: true,
        }
    }

    /// A command that names a group which is not there is none.
    pub fn knows(&self, command: &Command) -> bool {
        let held = self.groups.len();
        match command {
            Command::Fill(ask) => ask.group < held,
            Command::Join { left, right } => *left < held && *right < held,
            Command::IsFilled { group, .. } | Command::Display { group } => *group < held,
            Command::Times(_, repeated) => self.knows(repeated),
            _ => true,
        }
    }

    pub fn run(&mut self, command: &Command) -> Result<Answer, Broken> {
        match command {
            Command::Add(record) => self.add(record).map(Answer::Code),
            Command::Remove(names) => self.remove(names).map(Answer::Code),
            Command::Begin => self.begin().map(Answer::Code),
            Command::Commit => self.end(MessagesBuffer::commit).map(Answer::Code),
            Command::Rollback => self.end(MessagesBuffer::rollback).map(Answer::Code),
            Command::Fill(ask) => self.fill(ask),
            Command::Join { left, right } => self.join(*left, *right).map(Answer::Code),
            Command::IsFilled {
                group,
                slots,
                height,
            } => {
                let group = &self.groups[*group].group;
                let (slots, height) = (*slots as usize, *height as usize);
                demand::answers(|| group.check_is_filled(slots, height)).map(Answer::IsFilled)
            }
            Command::Full(most) => self.full(*most),
            Command::Display { group } => self.display(*group),
            Command::Times(count, repeated) => {
                for _ in 1..*count {
                    self.run(repeated)?;
                }
                self.run(repeated)
            }
            set_up => Ok(Answer::Code(self.prepare(set_up))),
        }
    }

    /// Commands that only lay something ready.
    fn prepare(&mut self, command: &Command) -> Code {
        match command {
            Command::Buffer { messages, accounts } => {
                return self.set_up_buffer(*messages, *accounts);
            }
            Command::Group { group, slots } => return self.set_up_group(*group, *slots),
            Command::Rows => self.rows.clear(),
            Command::Row(row) => {
                self.rows.push(row.clone());
                self.rows.truncate(ROWS_KEPT);
            }
            Command::Cost(cost) => self.cost = *cost,
            Command::Set => self.set.clear(),
            Command::Keys(rows) => self.keys = vec![zero_row(); *rows],
            Command::Quiet => self.loud = false,
            Command::Loud => self.loud = true,
            other => unreachable!("{other:?} is not a preparation"),
        }
        DONE
    }

    fn set_up_buffer(&mut self, messages: u64, accounts: u64) -> Code {
        self.buffer = MessagesBuffer::default();
        self.room = Room { messages, accounts };
        let code = codes::set_up_buffer(&self.room);
        if code != DONE {
            self.room = Room {
                messages: SMALLEST,
                accounts: SMALLEST,
            };
        }
        code
    }

    fn set_up_group(&mut self, group: usize, slots: u64) -> Code {
        while self.groups.len() <= group {
            self.groups.push(Group::fresh(SMALLEST));
        }
        let code = codes::set_up_group(slots);
        let size = if code == DONE { slots } else { SMALLEST };
        self.groups[group] = Group::fresh(size);
        code
    }

    fn add(&mut self, record: &Record) -> Result<Code, Broken> {
        let code = codes::add(self, record);
        let message = record.message();
        match (code, message) {
            (DONE, Some(message)) => {
                demand::answers(|| self.buffer.add_message(message))?;
                demand::buffer_agrees(&self.buffer)?;
            }
            (SPECIAL | KIND, Some(message)) => {
                let mut copy = self.buffer.copy();
                demand::panics(code, || copy.add_message(message))?;
            }
            _ => {}
        }
        Ok(code)
    }

    fn remove(&mut self, names: &[u64]) -> Result<Code, Broken> {
        let code = codes::remove(self, names);
        if code == DONE {
            let names: FastHashSet<HashBytes> = names.iter().copied().map(bytes).collect();
            demand::answers(|| self.buffer.remove_int_messages_by_accounts(&names))?;
            demand::buffer_agrees(&self.buffer)?;
        }
        Ok(code)
    }

    fn begin(&mut self) -> Result<Code, Broken> {
        let code = codes::begin(self);
        self.transact(code, MessagesBuffer::begin)
    }

    fn end(&mut self, how: fn(&mut MessagesBuffer)) -> Result<Code, Broken> {
        let code = codes::end(self);
        self.transact(code, how)
    }

    fn transact(&mut self, code: Code, call: fn(&mut MessagesBuffer)) -> Result<Code, Broken> {
        if code == DONE {
            demand::answers(|| call(&mut self.buffer))?;
            demand::buffer_agrees(&self.buffer)?;
        } else {
            let mut copy = self.buffer.copy();
            demand::panics(code, || call(&mut copy))?;
        }
        Ok(code)
    }

    /// The original's own line, which has to say the group's numbers.
    fn display(&self, group: usize) -> Result<Answer, Broken> {
        let group = &self.groups[group].group;
        demand::display_agrees(group)?;
        demand::answers(|| group.display_line()).map(Answer::Display)
    }

    fn full(&self, most: u64) -> Result<Answer, Broken> {
        let limits = MessagesBufferLimits {
            max_count: most as usize,
            slots_count: 0,
            slot_vert_size: 0,
        };
        let (count, slots) = demand::answers(|| self.buffer.check_is_filled(&limits))?;
        Ok(Answer::Full {
            by_count: count == BufferFillStateByCount::IsFull,
            by_slots: slots == BufferFillStateBySlots::CanFill,
        })
    }
}

fn zero_row() -> QueueKey {
    QueueKey {
        lt: 0,
        hash: HashBytes::default(),
    }
}
