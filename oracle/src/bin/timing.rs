//! Times the original's fill on a full buffer: reads `slots height filter refused repeats`,
//! prints what all fills collected and what the last one left, then nanoseconds a call.
//! crates/timing does the same fills, on the same messages, without the clock.

use std::hint::black_box;
use std::io;
use std::process::ExitCode;
use std::time::Instant;

use oracle::FastHashSet;
use oracle::original::messages_buffer::{
    FillMessageGroupResult, IncludeAllMessages, MessageGroup, MessagesBuffer, MsgFilter,
    SkipExpiredExternals,
};
use oracle::record::Record;

const MESSAGES: u64 = 1024;
const ACCOUNTS: u64 = 256;

/// Drops the externals among the first 512 messages: half of them all.
const THRESHOLD: u64 = 1512;

/// What an account without a skip row costs.
const COST: u64 = 1;

struct Wish {
    slots: usize,
    height: usize,
    filter: bool,
    refused: bool,
    repeats: u64,
}

#[derive(Default)]
struct Sums {
    collected: u64,
    operations: u64,
    dropped: u64,
}

/// What the last fill left: messages in the buffer; slots, accounts and messages in the group.
type Left = [usize; 4];

fn main() -> ExitCode {
    let mut line = String::new();
    let read = io::stdin().read_line(&mut line);
    let Some(wish) = read.ok().and_then(|_| wish_of(&line)) else {
        eprintln!("timing: one line `slots height filter refused repeats`");
        return ExitCode::FAILURE;
    };
    let mut sums = Sums::default();
    let mut times = Vec::new();
    let mut left = [MESSAGES as usize, 0, 0, 0];
    // A limit of our room is none of the original's, so nothing is called.
    let calls = if wish.refused { 0 } else { wish.repeats.max(1) };
    for _ in 0..calls {
        let (time, state) = timed(&wish, &mut sums);
        times.push(time);
        left = state;
    }
    let Sums {
        collected,
        operations,
        dropped,
    } = sums;
    let [held, slots, accounts, messages] = left;
    println!("{collected} {operations} {dropped} {held} {slots} {accounts} {messages}");
    times.sort_unstable();
    let best = times.first().copied().unwrap_or(0);
    let middle = times.get(times.len() / 2).copied().unwrap_or(0);
    let mean = times.iter().sum::<u64>() / (times.len() as u64).max(1);
    println!("best {best} middle {middle} mean {mean}");
    ExitCode::SUCCESS
}

fn wish_of(line: &str) -> Option<Wish> {
    let numbers: Result<Vec<u64>, _> = line.split_whitespace().map(str::parse).collect();
    let [slots, height, filter, refused, repeats] = numbers.ok()?[..] else {
        return None;
    };
    Some(Wish {
        slots: slots as usize,
        height: height as usize,
        filter: filter == 1,
        refused: refused == 1,
        repeats,
    })
}

/// Message i is for account i mod 256; along each queue internals and externals take turns.
fn message(i: u64) -> Record {
    Record {
        kind: ((i + i / ACCOUNTS) % 2) as u8,
        special: false,
        other: false,
        account: i % ACCOUNTS,
        time: 1000 + i,
        hash: i,
    }
}

fn full() -> MessagesBuffer {
    let mut buffer = MessagesBuffer::default();
    for i in 0..MESSAGES {
        buffer.add_message(message(i).message().expect("kinds 0 and 1 have a message"));
    }
    buffer
}

/// One fill of a buffer made anew; the call alone is timed, and what it made is let go of later.
fn timed(wish: &Wish, sums: &mut Sums) -> (u64, Left) {
    let mut buffer = full();
    let mut group = MessageGroup::default();
    let mut dropped = 0;
    let start = Instant::now();
    let result = fill_alone(&mut buffer, &mut group, &mut dropped, wish);
    let time = start.elapsed().as_nanos() as u64;
    sums.collected += result.collected_count as u64;
    sums.operations += result.ops_count;
    sums.dropped += dropped;
    let held = buffer.msgs_count();
    let left = [
        held,
        group.len(),
        group.accounts_count(),
        group.messages_count(),
    ];
    black_box((buffer, group, result));
    (time, left)
}

/// A name of its own, so that its instructions can be counted.
#[inline(never)]
fn fill_alone(
    buffer: &mut MessagesBuffer,
    group: &mut MessageGroup,
    dropped: &mut u64,
    wish: &Wish,
) -> FillMessageGroupResult {
    let filter = if wish.filter {
        MsgFilter::SkipExpiredExternals(SkipExpiredExternals {
            chain_time_threshold_ms: THRESHOLD,
            total_skipped: dropped,
        })
    } else {
        MsgFilter::IncludeAll(IncludeAllMessages)
    };
    let mut set = FastHashSet::default();
    let skip = |_: &_| (false, COST);
    buffer.fill_message_group(group, wish.slots, wish.height, &mut set, skip, filter)
}
