//! Tracers.

use crate::error::{Error, DISMISSED, IDLE, NO_HELP, STOPPED};
use crate::library::Handle;
use crate::resting::{Rests, LONGEST};
use crate::world::Shared;
use std::sync::Arc;
use std::thread::{sleep, yield_now};
use std::time::Duration;

/// What a turn of a tracer came to.
#[derive(Clone, Copy, Debug, PartialEq, Eq)]
pub enum Turn {
    /// It marked, beside the mutators.
    Marked,
    /// No cycle is marking.
    Idle,
    /// A collection is under way, and it did nothing. [`Tracer::help_turn`] helps in it.
    Stopped,
    /// The tracers are dismissed, and it did nothing.
    Dismissed,
}

/// How many objects or blocks it does in a step of help.
pub(crate) const HELP: u32 = 1024;

/// What a thread marks through beside the mutators, if a processor is free for it.
///
/// ```compile_fail
/// fn shared<T: Sync>() {}
/// shared::<managed_heap::Tracer>();
/// ```
// It is written with each turn, so it shares no line of the processor's cache with another, nor two lines that are fetched together.
#[repr(align(128))]
pub struct Tracer {
    handle: Handle,
    shared: Arc<Shared>,
    /// How many objects it has told as traced.
    told: u64,
}

impl Tracer {
    pub(crate) fn new(mut handle: Handle, shared: Arc<Shared>) -> Tracer {
        let told = handle.traced();
        Tracer { handle, shared, told }
    }

    /// One turn, which waits for nobody and marks at most 64 objects.
    pub fn turn(&mut self) -> Result<Turn, Error> {
        match self.handle.trace_turn() {
            STOPPED => Ok(Turn::Stopped),
            IDLE => Ok(Turn::Idle),
            DISMISSED => Ok(Turn::Dismissed),
            other => {
                Error::of(other)?;
                let traced = self.handle.traced();
                self.shared.cycles.trace(traced - self.told);
                self.told = traced;
                Ok(Turn::Marked)
            }
        }
    }

    /// Helps in a mutator's collection, if that is open to helpers: it traces at most so many objects, or sweeps at most so many blocks of 64 cells (one stretch at
    /// least), and that collection waits until it has. True if it did some of the work. What it traces so isn't told in [`Cycle::tracers`](crate::Cycle::tracers).
    pub fn help_turn(&mut self, most: u32) -> Result<bool, Error> {
        match self.handle.help_turn(most) {
            NO_HELP => Ok(false),
            other => Error::of(other).map(|()| true),
        }
    }

    /// Turn by turn, and with help in collections, until the tracers are dismissed: what a thread with a tracer runs.
    pub fn trace(&mut self) -> Result<(), Error> {
        let mut rests = Rests::default();
        loop {
            match self.turn()? {
                Turn::Dismissed => return Ok(()),
                Turn::Stopped if self.help_turn(HELP)? => rests = Rests::default(),
                Turn::Stopped => rests.rest(),
                Turn::Idle => sleep(Duration::from_micros(LONGEST)),
                Turn::Marked => {
                    rests = Rests::default();
                    (0..16).for_each(|_| yield_now());
                }
            }
        }
    }
}

impl Drop for Tracer {
    fn drop(&mut self) {
        let mut world = self.shared.lock();
        self.handle.give_back_tracer(&mut world);
    }
}
