//! Prints seeded scenarios as one stream: `scenarios PROFILE SEED COUNT [--terse]`.

use std::io::{self, BufWriter, Write};
use std::process::ExitCode;

use oracle::generate::{PROFILES, scenario};

/// The arguments cannot be read.
const USAGE: u8 = 2;

struct Wish {
    profile: String,
    seed: u64,
    count: u64,
    terse: bool,
}

fn main() -> ExitCode {
    let words: Vec<String> = std::env::args().skip(1).collect();
    let Some(wish) = read(&words) else {
        let names: Vec<_> = PROFILES.iter().map(|(name, _)| *name).collect();
        eprintln!("usage: scenarios PROFILE SEED COUNT [--terse]");
        eprintln!("profiles: {}", names.join(", "));
        return ExitCode::from(USAGE);
    };
    match print(&wish) {
        Ok(()) => ExitCode::SUCCESS,
        // Whoever reads may stop early.
        Err(error) if error.kind() == io::ErrorKind::BrokenPipe => ExitCode::SUCCESS,
        Err(error) => {
            eprintln!("scenarios: {error}");
            ExitCode::FAILURE
        }
    }
}

fn read(words: &[String]) -> Option<Wish> {
    let (words, terse) = match words {
        [words @ .., last] if last == "--terse" => (words, true),
        words => (words, false),
    };
    let [profile, seed, count] = words else {
        return None;
    };
    PROFILES.iter().find(|(name, _)| name == profile)?;
    Some(Wish {
        profile: profile.clone(),
        seed: seed.parse().ok()?,
        count: count.parse().ok()?,
        terse,
    })
}

fn print(wish: &Wish) -> io::Result<()> {
    let mut out = BufWriter::new(io::stdout().lock());
    for index in 0..wish.count {
        let text = scenario(&wish.profile, wish.seed, index, wish.terse);
        out.write_all(text.unwrap_or_default().as_bytes())?;
    }
    out.flush()
}
