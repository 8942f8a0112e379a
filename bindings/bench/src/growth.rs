//! How the times grow with the messages and with the accounts.

use crate::times::{take, Rounds, Taken};
use crate::work::{Expired, Size, Task, Work, FULL, SHAPES};
use crate::Done;

/// Messages doubled up to a full buffer, four of each account; then accounts doubled among as many messages as it holds.
fn sizes() -> Vec<Size> {
    let steps = [16, 8, 4, 2, 1];
    let both = steps.map(|part| Size {
        messages: FULL.messages / part,
        accounts: FULL.accounts / part,
    });
    let accounts = steps.map(|part| Size {
        accounts: FULL.accounts / part,
        ..FULL
    });
    // The full buffer is the end of both.
    let fewer = accounts.into_iter().filter(|&size| size != FULL);
    both.into_iter().chain(fewer).collect()
}

/// What is done at a size, under names that are the same at every size.
fn tasks(size: Size) -> Vec<(String, Task)> {
    let mut all = Vec::new();
    for shape in SHAPES {
        for (filter, expired) in [("off", Expired::Off), ("on", Expired::Half)] {
            let name = format!("fill {shape}, filter {filter}");
            all.push((name, Task::Fill { shape, expired }));
        }
    }
    for shape in SHAPES {
        let name = format!("begin, fill {shape}, rollback");
        all.push((name, Task::RolledBack { shape }));
    }
    all.push(("add one message".into(), Task::Add { inside: false }));
    let accounts = size.accounts / 2;
    let name = "remove half of the accounts".into();
    all.push((name, Task::Remove { accounts }));
    all
}

/// A line for each task and size, its parts set apart by semicolons.
pub fn print(many: Rounds) -> Done {
    let (mut names, mut works) = (Vec::new(), Vec::new());
    for size in sizes() {
        for (name, task) in tasks(size) {
            names.push(name);
            works.push(Work { size, task });
        }
    }
    let taken = take(&works, many)?;
    println!("work;messages;accounts;original ns a call;exported ns a call;noise %");
    for ((name, work), taken) in names.iter().zip(&works).zip(taken) {
        let Size { messages, accounts } = work.size;
        let Taken {
            original,
            exported,
            noise,
        } = taken;
        println!("{name};{messages};{accounts};{original:.1};{exported:.1};{noise:.0}");
    }
    Ok(())
}
