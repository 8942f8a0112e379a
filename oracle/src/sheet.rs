//! Reads a sheet, and has the original answer it.

use crate::demand::{self, Broken};
use crate::harness::{Answer, World};
use crate::print::Page;
use crate::record::Record;
use crate::scenario::{self, Command, Fill, Row};

/// In bytes. A longer sheet is wrong from its first line, whatever it holds.
pub const LONGEST: usize = 16_384;

const MOST_ROWS: u64 = 64;
const MOST_MESSAGES: u64 = 512;
const MOST_FILLS: u64 = 64;
const MOST_ACCOUNT: u64 = 65_535;

/// What the program of sheets sets up: M, A and S, and the rows of the key list.
const MESSAGES: u64 = 256;
const ACCOUNTS: u64 = 64;
const SLOTS: u64 = 16;
const KEYS: usize = 256;

/// Every sheet works on this one group.
const GROUP: usize = 0;

struct Sheet {
    rows: Vec<Row>,
    messages: Vec<Record>,
    fills: Vec<Fill>,
}

/// The number of the first broken, missing or extra line.
struct BadLine(u64);

/// All that the program prints on this text.
pub fn answer(text: &[u8]) -> Result<Vec<u8>, Broken> {
    let mut page = Page::default();
    match read(text) {
        Ok(sheet) => play(&sheet, &mut page)?,
        Err(BadLine(number)) => {
            page.text("sheet line ").number(number).text("\n");
        }
    }
    Ok(page.0)
}

fn read(text: &[u8]) -> Result<Sheet, BadLine> {
    if text.len() > LONGEST {
        return Err(BadLine(1));
    }
    let mut lines = Lines {
        rest: text,
        number: 0,
    };
    let sheet = Sheet {
        rows: lines.section(MOST_ROWS, row)?,
        messages: lines.section(MOST_MESSAGES, message)?,
        fills: lines.section(MOST_FILLS, fill)?,
    };
    if lines.rest.is_empty() {
        Ok(sheet)
    } else {
        Err(BadLine(lines.number + 1))
    }
}

/// What is still to be read, and the number of the line before it.
struct Lines<'a> {
    rest: &'a [u8],
    number: u64,
}

impl Lines<'_> {
    /// A count on its own line, then so many lines. Each is made of its place, from 1, and its numbers.
    fn section<const WORDS: usize, T>(
        &mut self,
        most: u64,
        make: fn(u64, [u64; WORDS]) -> Option<T>,
    ) -> Result<Vec<T>, BadLine> {
        let count = self.line(|[count]| (count <= most).then_some(count))?;
        let places = 1..=count;
        places
            .map(|place| self.line(|numbers| make(place, numbers)))
            .collect()
    }

    /// One line: numbers one space apart, an LF at its end.
    fn line<const WORDS: usize, T>(
        &mut self,
        make: impl FnOnce([u64; WORDS]) -> Option<T>,
    ) -> Result<T, BadLine> {
        self.number += 1;
        self.numbers().and_then(make).ok_or(BadLine(self.number))
    }

    fn numbers<const WORDS: usize>(&mut self) -> Option<[u64; WORDS]> {
        let end = self.rest.iter().position(|byte| *byte == b'\n')?;
        let line = &self.rest[..end];
        self.rest = &self.rest[end + 1..];
        let words = line.split(|byte| *byte == b' ');
        let numbers: Vec<u64> = words.map(number).collect::<Option<_>>()?;
        numbers.try_into().ok()
    }
}

/// Stricter than a scenario's: nothing is no number, and neither is one with a zero in front.
fn number(word: &[u8]) -> Option<u64> {
    match word {
        [] | [b'0', _, ..] => None,
        word => scenario::number(word),
    }
}

fn row(_: u64, [account, verdict, cost]: [u64; 3]) -> Option<Row> {
    Some(Row {
        account: named(account)?,
        skip: scenario::flag(verdict)?,
        cost,
    })
}

fn message(place: u64, [kind, time, account]: [u64; 3]) -> Option<Record> {
    Some(Record {
        kind: u8::from(scenario::flag(kind)?),
        special: false,
        other: false,
        account: named(account)?,
        time,
        hash: place,
    })
}

fn fill(_: u64, [slots, height, filter, threshold]: [u64; 4]) -> Option<Fill> {
    Some(Fill {
        group: GROUP,
        slots,
        height,
        filter: scenario::flag(filter)?,
        threshold,
    })
}

fn named(account: u64) -> Option<u64> {
    (account <= MOST_ACCOUNT).then_some(account)
}

/// The calls of a sheet are commands of the scenario harness, with all that it demands of the original.
fn play(sheet: &Sheet, page: &mut Page) -> Result<(), Broken> {
    let mut world = World::new();
    set_up(&mut world, &sheet.rows)?;
    for record in &sheet.messages {
        let answer = run(&mut world, Command::Add(record.clone()))?;
        if !matches!(answer, Answer::Code(0)) {
            page.text("add ").number(record.hash).text(" ");
            page.answer(&answer);
        }
    }
    for (ask, place) in sheet.fills.iter().zip(1..) {
        let answer = run(&mut world, Command::Fill(ask.clone()))?;
        page.text("fill ").number(place).text(" ");
        page.answer(&answer);
        let group = &world.groups[GROUP].group;
        demand::display_agrees(group)?;
        page.text(&group.display_line()).text("\n");
    }
    left(&world, page);
    Ok(())
}

fn set_up(world: &mut World, rows: &[Row]) -> Result<(), Broken> {
    let room = Command::Buffer {
        messages: MESSAGES,
        accounts: ACCOUNTS,
    };
    let group = Command::Group {
        group: GROUP,
        slots: SLOTS,
    };
    let fixed = [room, group, Command::Keys(KEYS), Command::Cost(0)];
    let rows = rows.iter().cloned().map(Command::Row);
    for command in fixed.into_iter().chain(rows) {
        let answer = run(world, command)?;
        demand::holds(matches!(answer, Answer::Code(0)), "the set-up is accepted")?;
    }
    Ok(())
}

/// A panic of the harness itself is no answer of the original, and as loud.
fn run(world: &mut World, command: Command) -> Result<Answer, Broken> {
    demand::attempt(|| world.run(&command)).map_err(Broken)?
}

/// What the buffer holds at the end, and its minimum.
fn left(world: &World, page: &mut Page) {
    let buffer = &world.buffer;
    page.text("left int=").number(buffer.ints() as u64);
    page.text(" ext=").number(buffer.exts() as u64);
    page.text(" accounts=").number(buffer.accounts() as u64);
    page.text(" min=").number(buffer.min_ext_chain_time());
    page.text("\n");
}
