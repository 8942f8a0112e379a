//! Reads one line of a scenario.

use crate::record::Record;

/// Longer lines are no commands, whatever they begin with.
pub const LONGEST_LINE: usize = 65_536;
pub const GROUPS: u64 = 4;
const MOST_KEYS: u64 = 2_048;

#[derive(Debug, Clone)]
pub struct Fill {
    pub group: usize,
    pub slots: u64,
    pub height: u64,
    pub filter: bool,
    pub threshold: u64,
}

#[derive(Debug, Clone)]
pub struct Row {
    pub account: u64,
    pub skip: bool,
    pub cost: u64,
}

#[derive(Debug, Clone)]
pub enum Command {
    Buffer {
        messages: u64,
        accounts: u64,
    },
    Group {
        group: usize,
        slots: u64,
    },
    Add(Record),
    Remove(Vec<u64>),
    Begin,
    Commit,
    Rollback,
    Rows,
    Row(Row),
    Cost(u64),
    Set,
    Keys(usize),
    Fill(Fill),
    Join {
        left: usize,
        right: usize,
    },
    IsFilled {
        group: usize,
        slots: u64,
        height: u64,
    },
    Full(u64),
    Quiet,
    Loud,
    Times(u64, Box<Command>),
    Display {
        group: usize,
    },
}

/// A line, read.
pub enum Line {
    Silent,
    Command(Command),
    Bad,
}

pub fn read(line: &[u8]) -> Line {
    if line.len() > LONGEST_LINE {
        return Line::Bad;
    }
    let mut words = line.split(|byte| *byte == b' ').filter(|w| !w.is_empty());
    match words.next() {
        None => Line::Silent,
        Some(word) if word[0] == b'#' => Line::Silent,
        Some(b"times") => times(words).map_or(Line::Bad, Line::Command),
        Some(name) => command(name, words).map_or(Line::Bad, Line::Command),
    }
}

fn times<'a>(mut words: impl Iterator<Item = &'a [u8]>) -> Option<Command> {
    let count = number(words.next()?).filter(|count| *count > 0)?;
    let repeated = command(words.next()?, words)?;
    Some(Command::Times(count, Box::new(repeated)))
}

/// Every word after a command's name is a number.
fn command<'a>(name: &[u8], words: impl Iterator<Item = &'a [u8]>) -> Option<Command> {
    let numbers: Vec<u64> = words.map(number).collect::<Option<_>>()?;
    let command = match (name, numbers.as_slice()) {
        (b"buffer", &[messages, accounts]) => Command::Buffer { messages, accounts },
        (b"group", &[group, slots]) => Command::Group {
            group: place(group)?,
            slots,
        },
        (b"add", numbers) => Command::Add(record(numbers)?),
        (b"remove", _) => Command::Remove(numbers),
        (b"begin", []) => Command::Begin,
        (b"commit", []) => Command::Commit,
        (b"rollback", []) => Command::Rollback,
        (b"rows", []) => Command::Rows,
        (b"row", &[account, skip, cost]) => Command::Row(Row {
            account,
            skip: flag(skip)?,
            cost,
        }),
        (b"cost", &[cost]) => Command::Cost(cost),
        (b"set", []) => Command::Set,
        (b"keys", &[rows]) if rows <= MOST_KEYS => Command::Keys(rows as usize),
        (b"fill", numbers) => Command::Fill(fill(numbers)?),
        (b"join", &[left, right]) if left != right => Command::Join {
            left: place(left)?,
            right: place(right)?,
        },
        (b"isfilled", &[group, slots, height]) => Command::IsFilled {
            group: place(group)?,
            slots,
            height,
        },
        (b"full", &[most]) => Command::Full(most),
        (b"quiet", []) => Command::Quiet,
        (b"loud", []) => Command::Loud,
        (b"display", &[group]) => Command::Display {
            group: place(group)?,
        },
        _ => return None,
    };
    Some(command)
}

fn record(numbers: &[u64]) -> Option<Record> {
    let &[kind, special, other, account, time, hash] = numbers else {
        return None;
    };
    Some(Record {
        kind: u8::try_from(kind).ok()?,
        special: flag(special)?,
        other: flag(other)?,
        account,
        time,
        hash,
    })
}

fn fill(numbers: &[u64]) -> Option<Fill> {
    let &[group, slots, height, filter, threshold] = numbers else {
        return None;
    };
    Some(Fill {
        group: place(group)?,
        slots,
        height,
        filter: flag(filter)?,
        threshold,
    })
}

fn place(group: u64) -> Option<usize> {
    (group < GROUPS).then_some(group as usize)
}

pub fn flag(number: u64) -> Option<bool> {
    (number < 2).then_some(number == 1)
}

pub fn number(word: &[u8]) -> Option<u64> {
    word.iter().try_fold(0_u64, |value, byte| {
        let digit = byte.is_ascii_digit().then(|| u64::from(byte - b'0'))?;
        value.checked_mul(10)?.checked_add(digit)
    })
}
