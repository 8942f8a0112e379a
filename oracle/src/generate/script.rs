//! Scenario text. In a terse script the state is printed only where something of
//! interest has happened, to keep stored answers small.

use std::fmt::{Arguments, Write};

use super::random::Random;

/// In a terse script one in so many plain lines shows the state all the same.
const NOW_AND_THEN: u64 = 12;

pub struct Script {
    pub text: String,
    terse: bool,
    loud: bool,
    /// Apart from the scenario's own chance: both forms hold the same calls.
    chance: Random,
}

impl Script {
    pub fn new(terse: bool, chance: Random) -> Self {
        Self {
            text: String::new(),
            terse,
            loud: true,
            chance,
        }
    }

    fn line(&mut self, line: Arguments<'_>) {
        self.text.write_fmt(line).expect("a string takes all");
        self.text.push('\n');
    }

    pub fn comment(&mut self, text: Arguments<'_>) {
        self.line(format_args!("# {text}"));
    }

    pub fn quiet(&mut self) {
        if self.loud {
            self.line(format_args!("quiet"));
            self.loud = false;
        }
    }

    pub fn loud(&mut self) {
        if !self.loud {
            self.line(format_args!("loud"));
            self.loud = true;
        }
    }

    /// The first lines of a scenario, quiet. They take nothing for granted, not even
    /// the voice; a terse script then waits for something to show.
    pub fn open(&mut self, lines: &[String]) {
        self.loud = true;
        self.bulk(lines);
    }

    /// A line that lays something ready.
    pub fn plain(&mut self, line: Arguments<'_>) {
        if self.terse && self.chance.one_in(NOW_AND_THEN) {
            return self.shown(line);
        }
        if self.terse {
            self.quiet();
        }
        self.line(line);
    }

    /// A line whose outcome is always shown.
    pub fn shown(&mut self, line: Arguments<'_>) {
        self.line(line);
        if self.terse {
            self.loud();
        }
    }

    /// A run of lines without their states, in both forms.
    pub fn bulk(&mut self, lines: &[String]) {
        self.quiet();
        for line in lines {
            self.line(format_args!("{line}"));
        }
        if !self.terse {
            self.loud();
        }
    }
}
