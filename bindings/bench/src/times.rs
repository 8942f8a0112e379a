//! Times of both sides, taken in turn, and the table of them.

use crate::exported::Desk;
use crate::meter::Meter;
use crate::work::Work;
use crate::{both, Done, Stop};

/// How often all is done, and how often each piece of work in a round.
#[derive(Clone, Copy)]
pub struct Rounds {
    pub rounds: usize,
    pub repeats: usize,
}

/// The least time of each round, divided by the calls.
#[derive(Default, Clone)]
struct Times(Vec<f64>);

impl Times {
    fn sorted(&self) -> Vec<f64> {
        let mut sorted = self.0.clone();
        sorted.sort_unstable_by(f64::total_cmp);
        sorted
    }

    fn best(&self) -> f64 {
        self.sorted()[0]
    }

    fn noise(&self) -> f64 {
        let sorted = self.sorted();
        sorted[sorted.len() / 2] / sorted[0] - 1.0
    }
}

/// The nanoseconds of a call, by both, and how noisy they were in percent.
pub struct Taken {
    pub original: f64,
    pub exported: f64,
    pub noise: f64,
}

/// Takes the times of all these, in order.
pub fn take(all: &[Work], Rounds { rounds, repeats }: Rounds) -> Result<Vec<Taken>, Stop> {
    let mut times = vec![(Times::default(), Times::default()); all.len()];
    let mut desk = Desk::new();
    for _ in 0..rounds {
        for (work, (theirs, ours)) in all.iter().zip(&mut times) {
            let mut least = (u64::MAX, u64::MAX);
            for _ in 0..repeats {
                let (their, our) = both(work, &mut desk, Meter::Clock)?;
                least = (least.0.min(their), least.1.min(our));
            }
            let calls = work.calls() as f64;
            theirs.0.push(least.0 as f64 / calls);
            ours.0.push(least.1 as f64 / calls);
        }
    }
    let taken = times.iter().map(|(theirs, ours)| Taken {
        original: theirs.best(),
        exported: ours.best(),
        noise: 100.0 * theirs.noise().max(ours.noise()),
    });
    Ok(taken.collect())
}

/// The table of all rows, in Markdown.
pub fn table(many: Rounds) -> Done {
    let all = Work::all();
    let taken = take(&all, many)?;
    let Rounds { rounds, repeats } = many;
    println!("Best of {rounds} rounds of {repeats}; what both hold and answer agreed each time.\n");
    println!("| work | original ns a call | exported ns a call | exported / original | noise |");
    println!("|---|---|---|---|---|");
    for (work, taken) in all.iter().zip(taken) {
        let Taken {
            original,
            exported,
            noise,
        } = taken;
        println!(
            "| {work} | {original:.0} | {exported:.0} | {:.2} | {noise:.0} % |",
            exported / original
        );
    }
    Ok(())
}
