//! How a thread waits.

use std::thread::{sleep, yield_now};
use std::time::Duration;

/// How often it yields before it sleeps.
const YIELDS: u32 = 16;

/// How often it then sleeps shortest: most stops take some milliseconds, and may want help later on.
const NAPS: u32 = 64;

/// How long it sleeps shortest, in microseconds, and longest.
const SHORTEST: u64 = 50;
pub(crate) const LONGEST: u64 = 1000;

/// The rests of a thread that waits: it yields some times, sleeps shortest some times, and longer and longer from then on.
#[derive(Default)]
pub(crate) struct Rests {
    taken: u32,
}

impl Rests {
    pub fn rest(&mut self) {
        let longer = (self.taken + 1).saturating_sub(YIELDS + NAPS);
        if self.taken < YIELDS {
            yield_now();
        } else {
            sleep(Duration::from_micros((SHORTEST << longer).min(LONGEST)));
        }
        self.taken = (self.taken + 1).min(YIELDS + NAPS + 4);
    }
}
