//! How a call is measured: by the clock, or by the stack that it takes.

use std::hint::black_box;
use std::time::Instant;

use crate::painted;

#[derive(Clone, Copy)]
pub enum Meter {
    Clock,
    Stack,
}

impl Meter {
    /// The nanoseconds of a call, or its bytes of stack, and what it makes.
    pub fn measure<T: Send>(self, call: impl FnOnce() -> T + Send) -> (u64, T) {
        match self {
            Meter::Clock => {
                let start = Instant::now();
                let made = alone(call);
                (start.elapsed().as_nanos() as u64, made)
            }
            Meter::Stack => painted::run(|| alone(call)),
        }
    }
}

/// A name of its own, so that the instructions inside can be counted (tools/calls).
#[inline(never)]
fn alone<T>(call: impl FnOnce() -> T) -> T {
    // Something is left to do after the call: it does not become a jump out of here.
    black_box(call())
}
