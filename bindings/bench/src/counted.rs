//! One row done by one side alone, so that its instructions can be counted from outside (tools/calls).

use crate::exported::Desk;
use crate::meter::Meter;
use crate::original;
use crate::work::Work;
use crate::{Done, Stop};

/// A line for each row: how many calls it makes, and its name.
pub fn rows() -> Done {
    for work in Work::all() {
        println!("{} {work}", work.calls());
    }
    Ok(())
}

/// Does a row so many times and prints what the last time answered.
pub fn run(side: &str, row: &str, repeats: &str) -> Done {
    let row: usize = row.parse().map_err(|_| Stop::Usage)?;
    let repeats: usize = repeats.parse().map_err(|_| Stop::Usage)?;
    let work = *Work::all().get(row).ok_or(Stop::Usage)?;
    let mut desk = Desk::new();
    let mut told = Vec::new();
    for _ in 0..repeats {
        (_, told) = match side {
            "original" => original::run(&work, Meter::Clock),
            "exported" => desk.run(&work, Meter::Clock),
            _ => return Err(Stop::Usage),
        };
    }
    println!("{told:?}");
    Ok(())
}
