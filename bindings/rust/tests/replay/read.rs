//! A line of a scenario, read into a verb and numbers. What a verb takes is said where it is obeyed.

/// Longer lines are no commands.
const LONGEST: usize = 65_536;

pub enum Line<'a> {
    Silent,
    Command {
        times: u64,
        verb: &'a [u8],
        numbers: Vec<u64>,
    },
    Bad,
}

pub fn line(line: &[u8]) -> Line<'_> {
    if line.len() > LONGEST {
        return Line::Bad;
    }
    let words: Vec<&[u8]> = line
        .split(|byte| *byte == b' ')
        .filter(|w| !w.is_empty())
        .collect();
    match words[..] {
        [] | [[b'#', ..], ..] => Line::Silent,
        // Nothing repeats a repetition: `times` is no verb of its own.
        [b"times", times, verb, ref numbers @ ..] => match number(times) {
            None | Some(0) => Line::Bad,
            Some(times) => command(times, verb, numbers),
        },
        [verb, ref numbers @ ..] => command(1, verb, numbers),
    }
}

fn command<'a>(times: u64, verb: &'a [u8], numbers: &[&[u8]]) -> Line<'a> {
    match numbers.iter().map(|word| number(word)).collect() {
        Some(numbers) => Line::Command {
            times,
            verb,
            numbers,
        },
        None => Line::Bad,
    }
}

/// Digits alone, up to 2^64 - 1: a sign, which the library would take, is no digit.
fn number(word: &[u8]) -> Option<u64> {
    let digits = word.iter().all(u8::is_ascii_digit);
    digits.then(|| std::str::from_utf8(word).ok()?.parse().ok())?
}
