//! Answers a scenario (docs/SCENARIOS.md) through this crate's calls, in the very bytes that the original's answers are written in.

mod page;
mod read;

use lintelsong::{
    Account, Buffer, Code, Fill, FillByCount, FillBySlots, Filled, Filter, Form, Group, Hash, Keys,
    Kind, Message, SkipRows, Skipped,
};
use read::Line;

/// So many skip rows are kept, more than a fill takes.
const ROWS_KEPT: usize = 300;

/// Everything that a scenario works on.
pub struct World {
    buffer: Buffer,
    groups: Vec<Group>,
    names: Vec<Account>,
    verdicts: Vec<bool>,
    costs: Vec<u64>,
    cost: u64,
    skipped: Skipped,
    lts: Vec<u64>,
    hashes: Vec<Hash>,
    loud: bool,
}

/// A number as 32 bytes: big-endian in the last 8.
fn bytes(number: u64) -> [u8; 32] {
    let mut bytes = [0; 32];
    bytes[24..].copy_from_slice(&number.to_be_bytes());
    bytes
}

/// The answers to a scenario, up to its end or its first line that is no command.
pub fn replay(scenario: &[u8]) -> Vec<u8> {
    let mut world = World::new();
    let mut out = Vec::new();
    // A last line without its end is a line; nothing after the last end is none.
    let lines = scenario.strip_suffix(b"\n").unwrap_or(scenario);
    if scenario.is_empty() {
        return out;
    }
    for (place, line) in lines.split(|byte| *byte == b'\n').enumerate() {
        let answer = match read::line(line) {
            Line::Silent => continue,
            Line::Command {
                times,
                verb,
                numbers,
            } => world.answer(times, verb, &numbers),
            Line::Bad => None,
        };
        let Some(answer) = answer else {
            out.extend_from_slice(format!("bad line {}\n", place + 1).as_bytes());
            break;
        };
        out.extend_from_slice(b"> ");
        out.extend_from_slice(line);
        out.extend_from_slice(format!("\n{answer}\n").as_bytes());
        if world.loud {
            page::state(&world, &mut out);
        }
    }
    out
}

/// An answer of a code alone.
fn code(answer: Result<(), Code>) -> String {
    format!("code {}", answer.err().map_or(0, Code::number))
}

impl World {
    fn new() -> World {
        World {
            buffer: Buffer::new(1, 1).unwrap(),
            groups: Vec::new(),
            names: Vec::new(),
            verdicts: Vec::new(),
            costs: Vec::new(),
            cost: 0,
            skipped: Skipped::new(),
            lts: Vec::new(),
            hashes: Vec::new(),
            loud: true,
        }
    }

    /// The last answer of a command that is given so many times; none if it is no command.
    fn answer(&mut self, times: u64, verb: &[u8], numbers: &[u64]) -> Option<String> {
        for _ in 1..times {
            self.command(verb, numbers)?;
        }
        self.command(verb, numbers)
    }

    /// A command with its numbers in their ranges, or nothing, and then nothing has changed.
    fn command(&mut self, verb: &[u8], numbers: &[u64]) -> Option<String> {
        match verb {
            b"fill" | b"isfilled" | b"full" | b"display" => self.counted(verb, numbers),
            _ => Some(code(self.coded(verb, numbers)?)),
        }
    }

    /// Commands that answer more than a code.
    fn counted(&mut self, verb: &[u8], numbers: &[u64]) -> Option<String> {
        match (verb, numbers) {
            (b"fill", &[group, slots, height, filter @ 0..=1, threshold]) => {
                let filter = if filter == 1 {
                    Filter::Below(threshold)
                } else {
                    Filter::Off
                };
                self.fill(group, slots, height, filter)
            }
            (b"isfilled", &[group, slots, height]) => {
                let group = self.groups.get(usize::try_from(group).ok()?)?;
                Some(format!(
                    "filled {}",
                    u8::from(group.check_is_filled(slots, height))
                ))
            }
            (b"full", &[most]) => {
                let (by_count, by_slots) = self.buffer.check_is_filled(most);
                let full = u8::from(by_count == FillByCount::IsFull);
                let fills = u8::from(by_slots == FillBySlots::CanFill);
                Some(format!("full {full} canfill {fills}"))
            }
            (b"display", &[group]) => {
                let group = self.groups.get(usize::try_from(group).ok()?)?;
                Some(group.to_string())
            }
            _ => None,
        }
    }

    /// Commands that answer a code.
    fn coded(&mut self, verb: &[u8], numbers: &[u64]) -> Option<Result<(), Code>> {
        Some(match (verb, numbers) {
            (b"buffer", &[messages, accounts]) => self.buffer.set_up(messages, accounts),
            (b"group", &[group @ 0..=3, slots]) => self.set_up_group(group as usize, slots),
            (b"add", &[kind @ 0..=255, special @ 0..=1, other @ 0..=1, account, time, hash]) => {
                self.buffer.add(&Message {
                    kind: Kind::from(kind as u8),
                    special: special == 1,
                    form: if other == 1 {
                        Form::Other
                    } else {
                        Form::Standard
                    },
                    address: bytes(account),
                    time,
                    hash: bytes(hash),
                })
            }
            (b"remove", names) => {
                let names: Vec<_> = names.iter().copied().map(bytes).collect();
                self.buffer.remove(&names)
            }
            (b"begin", []) => self.buffer.begin(),
            (b"commit", []) => self.buffer.commit(),
            (b"rollback", []) => self.buffer.rollback(),
            (b"join", &[left, right]) => self.join(left, right)?,
            _ => {
                self.prepare(verb, numbers)?;
                Ok(())
            }
        })
    }

    /// Commands that only lay something ready.
    fn prepare(&mut self, verb: &[u8], numbers: &[u64]) -> Option<()> {
        match (verb, numbers) {
            (b"rows", []) => {
                self.names.clear();
                self.verdicts.clear();
                self.costs.clear();
            }
            (b"row", &[account, verdict @ 0..=1, cost]) => {
                if self.names.len() < ROWS_KEPT {
                    self.names.push(bytes(account));
                    self.verdicts.push(verdict == 1);
                    self.costs.push(cost);
                }
            }
            (b"cost", &[cost]) => self.cost = cost,
            (b"set", []) => self.skipped.clear(),
            (b"keys", &[rows @ 0..=2048]) => {
                self.lts = vec![0; rows as usize];
                self.hashes = vec![[0; 32]; rows as usize];
            }
            (b"quiet", []) => self.loud = false,
            (b"loud", []) => self.loud = true,
            _ => return None,
        }
        Some(())
    }

    fn set_up_group(&mut self, group: usize, slots: u64) -> Result<(), Code> {
        while self.groups.len() <= group {
            self.groups.push(Group::new(1)?);
        }
        self.groups[group].set_up(slots)
    }

    fn join(&mut self, left: u64, right: u64) -> Option<Result<(), Code>> {
        let (left, right) = (usize::try_from(left).ok()?, usize::try_from(right).ok()?);
        let [left, right] = self.groups.get_disjoint_mut([left, right]).ok()?;
        Some(left.join(right))
    }

    fn fill(&mut self, group: u64, slots: u64, height: u64, filter: Filter) -> Option<String> {
        let group = self.groups.get_mut(usize::try_from(group).ok()?)?;
        let rows = SkipRows {
            names: &self.names,
            verdicts: &self.verdicts,
            costs: &self.costs,
        };
        let ask = Fill {
            slots,
            height,
            filter,
            rows,
            cost: self.cost,
        };
        let keys = Keys {
            lts: &mut self.lts,
            hashes: &mut self.hashes,
        };
        let told = self.buffer.fill(group, &mut self.skipped, &ask, keys);
        let Filled {
            collected,
            operations,
            dropped,
        } = told.unwrap_or_default();
        let code = code(told.map(|_| ()));
        Some(format!(
            "{code} collected {collected} ops {operations} dropped {dropped}"
        ))
    }
}
