//! Reads a scenario on standard input and prints what the original answers.

use std::io;
use std::process::ExitCode;

use oracle::demand;
use oracle::replay::{Stop, replay};

/// The original and the rules part.
const BROKEN: u8 = 3;

fn main() -> ExitCode {
    demand::keep_panics();
    match replay(io::stdin().lock(), io::stdout().lock()) {
        Ok(()) => ExitCode::SUCCESS,
        Err(Stop::Io(error)) => {
            eprintln!("oracle: {error}");
            ExitCode::FAILURE
        }
        Err(Stop::Broken { number, line, why }) => {
            eprintln!("oracle: line {number}: `{line}`: {why}");
            ExitCode::from(BROKEN)
        }
    }
}
