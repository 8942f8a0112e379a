//! The stack that each call takes, in bytes.

use crate::exported::Desk;
use crate::meter::Meter;
use crate::work::Work;
use crate::{both, Done};

/// The most of so many counts.
const REPEATS: usize = 5;

/// The table of all rows, in Markdown.
pub fn table() -> Done {
    let (empty, ()) = Meter::Stack.measure(|| ());
    println!("Most of {REPEATS} counts; a call that does nothing is told as {empty} bytes.\n");
    println!("| work | original bytes of stack | exported bytes of stack |");
    println!("|---|---|---|");
    let mut desk = Desk::new();
    for work in Work::all() {
        let mut most = (0, 0);
        for _ in 0..REPEATS {
            let (their, our) = both(&work, &mut desk, Meter::Stack)?;
            most = (most.0.max(their), most.1.max(our));
        }
        println!("| {work} | {} | {} |", most.0, most.1);
    }
    Ok(())
}
