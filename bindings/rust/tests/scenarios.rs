//! Scenarios answered through this crate's calls, byte for byte as the original Rust answers them: stored ones, and random ones where
//! the oracle is at hand.
//!
//! ORACLE names the folder of the programs `oracle` and `scenarios`, which oracle/build makes; without it the random ones are left out.
//! SCENARIOS is how many of each profile are made (250 if not given), SEED where the seeds begin (1).

mod replay;

use std::env;
use std::fs;
use std::io::Write;
use std::path::{Path, PathBuf};
use std::process::{Command, Stdio};
use std::thread;

/// The profiles of the generator, and of how many scenarios asked for one is made: one of `numbers` takes some 65,000 fills.
const PROFILES: [(&str, u64); 9] = [
    ("dense", 1),
    ("stale", 1),
    ("rows", 1),
    ("externals", 1),
    ("transactions", 1),
    ("joins", 1),
    ("limits", 1),
    ("numbers", 100),
    ("mixed", 1),
];

/// Scenarios of one run: what they print is held in memory.
const PIECE: u64 = 25;

/// What a program prints on an input.
fn printed(program: &Path, words: &[&str], input: Vec<u8>) -> Vec<u8> {
    let mut child = Command::new(program)
        .args(words)
        .stdin(Stdio::piped())
        .stdout(Stdio::piped())
        .spawn()
        .unwrap_or_else(|error| panic!("{}: {error}", program.display()));
    let mut pipe = child.stdin.take().expect("asked for");
    // It may print before it has read all.
    let writer = thread::spawn(move || pipe.write_all(&input));
    let output = child.wait_with_output().expect("a child can be waited for");
    writer
        .join()
        .expect("no panic")
        .expect("the program reads all");
    assert!(
        output.status.success(),
        "{}: {}",
        program.display(),
        output.status
    );
    output.stdout
}

/// Stops at the first line that differs, with the command that it answers.
fn compare(what: &str, ours: &[u8], right: &[u8]) {
    if ours == right {
        return;
    }
    let ours: Vec<_> = ours.split(|byte| *byte == b'\n').collect();
    let mut command: &[u8] = b"";
    for (place, line) in right.split(|byte| *byte == b'\n').enumerate() {
        if line.starts_with(b"> ") {
            command = line;
        }
        let text = |bytes: &[u8]| String::from_utf8_lossy(bytes).into_owned();
        let our = ours.get(place).copied().unwrap_or(b"(nothing)");
        let said = (text(command), text(line), text(our));
        assert!(
            our == line,
            "{what}, line {}: {}\n  {}\nours:\n  {}",
            place + 1,
            said.0,
            said.1,
            said.2
        );
    }
    panic!("{what}: more is printed than the original does");
}

fn commands(answers: &[u8]) -> usize {
    answers
        .split(|byte| *byte == b'\n')
        .filter(|line| line.starts_with(b"> "))
        .count()
}

fn number(name: &str, usual: u64) -> u64 {
    env::var(name).map_or(usual, |text| text.parse().expect("a number"))
}

#[test]
fn stored_scenarios() {
    let stored = Path::new(env!("CARGO_MANIFEST_DIR")).join("../../crates/replay");
    let read = |name| fs::read(stored.join(name)).expect("the stored scenarios are there");
    compare("stored", &replay::replay(&read("stdin")), &read("stdout"));
}

#[test]
fn random_scenarios() {
    let Some(oracle) = env::var_os("ORACLE").map(PathBuf::from) else {
        println!("ORACLE is not set: no random scenarios are compared");
        return;
    };
    let (count, seed) = (number("SCENARIOS", 250), number("SEED", 1));
    let (mut compared, mut answered) = (0, 0);
    for (profile, one_in) in PROFILES {
        let mut left = count.div_ceil(one_in);
        for piece in 0.. {
            let now = left.min(PIECE);
            if now == 0 {
                break;
            }
            let (from, now_text) = ((seed + piece).to_string(), now.to_string());
            // Every other piece makes the same kind of calls and prints fewer states.
            let words = [profile, &from, &now_text, "--terse"];
            let words = &words[..if piece % 2 == 0 { 3 } else { 4 }];
            let scenarios = printed(&oracle.join("scenarios"), words, Vec::new());
            let ours = replay::replay(&scenarios);
            let right = printed(&oracle.join("oracle"), &[], scenarios);
            compare(&format!("{words:?}"), &ours, &right);
            compared += now;
            answered += commands(&right);
            left -= now;
        }
    }
    println!("{compared} scenarios, {answered} commands compared, 0 differ (seed {seed})");
}
