//! Reads a sheet on standard input and prints what the original answers.

use std::io::{self, Read, Write};
use std::process::ExitCode;

use oracle::{demand, sheet};

/// The original and the rules part.
const BROKEN: u8 = 3;

fn main() -> ExitCode {
    demand::keep_panics();
    let text = match text() {
        Ok(text) => text,
        Err(error) => return stop(&error.to_string(), ExitCode::FAILURE),
    };
    match sheet::answer(&text) {
        Ok(page) => match io::stdout().lock().write_all(&page) {
            Ok(()) => ExitCode::SUCCESS,
            Err(error) => stop(&error.to_string(), ExitCode::FAILURE),
        },
        Err(demand::Broken(why)) => stop(&why, ExitCode::from(BROKEN)),
    }
}

/// One byte more than a sheet may have is enough to see that it is too long.
fn text() -> io::Result<Vec<u8>> {
    let mut text = Vec::new();
    let most = sheet::LONGEST as u64 + 1;
    io::stdin().lock().take(most).read_to_end(&mut text)?;
    Ok(text)
}

fn stop(why: &str, status: ExitCode) -> ExitCode {
    eprintln!("sheet: {why}");
    status
}
