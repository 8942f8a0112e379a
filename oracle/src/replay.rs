//! Walks a scenario line by line and writes the answers.

use std::io::{self, BufRead, Write};

use crate::demand::{self, Broken};
use crate::harness::World;
use crate::print::Page;
use crate::scenario::{self, Command, Line};

/// Written out in large pieces: streams run to gigabytes.
const PIECE: usize = 1 << 20;

pub enum Stop {
    Io(io::Error),
    /// The line, as text, and what is wrong with it.
    Broken {
        number: u64,
        line: String,
        why: String,
    },
}

impl From<io::Error> for Stop {
    fn from(error: io::Error) -> Self {
        Self::Io(error)
    }
}

/// To the end of the input, or to the first line that is no command.
pub fn replay(mut input: impl BufRead, mut output: impl Write) -> Result<(), Stop> {
    let mut world = World::new();
    let mut page = Page::default();
    let mut line = Vec::new();
    let mut number = 0;
    loop {
        line.clear();
        if input.read_until(b'\n', &mut line)? == 0 {
            break;
        }
        line.pop_if(|byte| *byte == b'\n');
        number += 1;
        let went_on = step(&mut world, &line, number, &mut page);
        if page.0.len() >= PIECE || !matches!(went_on, Ok(true)) {
            output.write_all(&page.0)?;
            page.0.clear();
        }
        let text = || String::from_utf8_lossy(&line).into_owned();
        match went_on {
            Ok(true) => {}
            Ok(false) => break,
            Err(Broken(why)) => {
                return Err(Stop::Broken {
                    number,
                    line: text(),
                    why,
                });
            }
        }
    }
    output.write_all(&page.0)?;
    Ok(output.flush()?)
}

/// False if the line is no command, which ends the run.
fn step(world: &mut World, line: &[u8], number: u64, page: &mut Page) -> Result<bool, Broken> {
    match scenario::read(line) {
        Line::Silent => Ok(true),
        Line::Command(command) if world.knows(&command) => {
            act(world, &command, line, page)?;
            Ok(true)
        }
        _ => {
            page.bad_line(number);
            Ok(false)
        }
    }
}

fn act(world: &mut World, command: &Command, line: &[u8], page: &mut Page) -> Result<(), Broken> {
    // A panic of the harness itself is no answer of the original, and as loud.
    let answer = demand::attempt(|| world.run(command)).map_err(Broken)??;
    page.echo(line);
    page.answer(&answer);
    if world.loud {
        page.state(world);
        let mut groups = world.groups.iter();
        groups.try_for_each(|each| demand::display_agrees(&each.group))?;
    }
    Ok(())
}
