//! Measures the exported calls beside the original's.
//!
//! `lintelsong-bench [ROUNDS [REPEATS]]` prints a table of times in Markdown. In each of ROUNDS rounds (31 if not given) every piece of
//! work is done REPEATS times (20) by the original and by the exports, in turn; the clock is around the calls alone, and the least time
//! counts. *Noise* is how far the middle round's least lies above the least of all, the larger of the two.
//! `growth [ROUNDS [REPEATS]]` takes times in the same way of smaller and larger buffers, a line each.
//! `stack` prints a table of the bytes of stack that each call takes.
//! `rows` and `count SIDE ROW REPEATS` are for counting instructions from outside: SIDE is `original` or `exported`, rows go from 0.
//!
//! What both hold and answer after a call must agree, or it stops.

mod counted;
mod exported;
mod growth;
mod meter;
mod original;
mod painted;
mod stack;
mod times;
mod work;

use std::process::ExitCode;

use exported::Desk;
use meter::Meter;
use times::Rounds;
use work::Work;

/// Counts that both sides must agree on.
pub type Told = Vec<u64>;

/// Why it ends early.
pub enum Stop {
    Usage,
    /// The two sides part.
    Parted(String),
}

pub type Done = Result<(), Stop>;

const USAGE: &str = "usage: lintelsong-bench [ROUNDS [REPEATS]] | growth [ROUNDS [REPEATS]] | stack | rows | count original|exported ROW REPEATS";

fn main() -> ExitCode {
    let words: Vec<String> = std::env::args().skip(1).collect();
    let words: Vec<&str> = words.iter().map(String::as_str).collect();
    let done = match words[..] {
        ["stack"] => stack::table(),
        ["rows"] => counted::rows(),
        ["count", side, row, repeats] => counted::run(side, row, repeats),
        ["growth", ref rest @ ..] => rounds_of(rest).and_then(growth::print),
        ref rest => rounds_of(rest).and_then(times::table),
    };
    match done {
        Ok(()) => ExitCode::SUCCESS,
        Err(Stop::Usage) => {
            eprintln!("{USAGE}");
            ExitCode::from(2)
        }
        Err(Stop::Parted(how)) => {
            eprintln!("{how}");
            ExitCode::FAILURE
        }
    }
}

fn rounds_of(words: &[&str]) -> Result<Rounds, Stop> {
    let numbers: Result<Vec<usize>, _> = words.iter().map(|word| word.parse()).collect();
    let (rounds, repeats) = match numbers.as_deref() {
        Ok([]) => (31, 20),
        Ok(&[rounds]) => (rounds, 20),
        Ok(&[rounds, repeats]) => (rounds, repeats),
        _ => (0, 0),
    };
    if rounds == 0 || repeats == 0 {
        return Err(Stop::Usage);
    }
    Ok(Rounds { rounds, repeats })
}

/// A piece of work done by the original and by the exports, and what each of them took.
pub fn both(work: &Work, desk: &mut Desk, meter: Meter) -> Result<(u64, u64), Stop> {
    let (their, right) = original::run(work, meter);
    let (our, told) = desk.run(work, meter);
    if told == right {
        return Ok((their, our));
    }
    let how = format!("{work}: the original says {right:?}, the exports {told:?}");
    Err(Stop::Parted(how))
}
