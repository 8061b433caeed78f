//! What is told of the cycles of a world.

use crate::library::{RawCourse, RawWork};
use std::sync::atomic::{AtomicBool, AtomicU64, Ordering};
use std::sync::{Mutex, PoisonError};
use std::time::{Duration, Instant};

/// Why a cycle ended.
#[derive(Clone, Copy, Debug, PartialEq, Eq)]
pub enum Why {
    /// A collection was asked for.
    Asked,
    /// No cell was free for an object.
    Lacked,
}

/// A cycle that has ended. Times are between two steps of the collecting thread, and end before the step that lets the world go on.
#[derive(Clone, Copy, Debug, PartialEq, Eq)]
#[non_exhaustive]
pub struct Cycle {
    /// How many cycles had ended in this world, with this one.
    pub number: u64,
    /// Why it ended.
    pub why: Why,
    /// Whether a cycle was marking beside the program as the world stopped. What it had marked was finished.
    pub beside: bool,
    /// How long a cycle was seen to mark beside the program, until the stop was asked for. A mutator looks with each 64th object that it makes.
    pub marked: Duration,
    /// How many objects tracers traced beside the program since the cycle before.
    pub tracers: u64,
    /// From the moment that the stop was asked for until the world stood still.
    pub waited: Duration,
    /// How long the world stood still.
    pub stopped: Duration,
    /// How long of that it was swept, and the cells in use were counted.
    pub swept: Duration,
    /// How many cells the collecting thread freed: those that helpers freed aren't among them.
    pub freed: u32,
    /// How many cells are in use.
    pub kept: u32,
    /// How many objects mutators traced beside the program since the cycle before, to pay for the cells that they took.
    pub mutators: u64,
    /// How many objects the collecting thread traced while the world stood still: those that helpers traced aren't among them.
    pub traced: u32,
    /// How many cards of 16 cells it cleaned then, since they were dirty.
    pub cleaned: u32,
    /// How many objects of those cards it scanned again.
    pub rescanned: u32,
    /// Whether it left no garbage, since it was precise or no cycle was marking beside the program. If not, what died since the cycle began may be kept until
    /// the next one.
    pub exact: bool,
    /// How many objects were traced for nothing beside the program, since a precise collection marked all anew: `tracers` and `mutators` together if `beside`
    /// and `exact` are true, else 0.
    pub wasted: u64,
}

const STOP: u32 = 2;
const ROOTS: u32 = 3;
const SWEEP: u32 = 8;
/// The stage before the last step of a collection.
pub(crate) const END: u32 = 10;
/// The stages at which it waits for helpers, of the sweep and of the drain.
pub(crate) const PART: u32 = 11;
pub(crate) const CLOSE: u32 = 15;

/// The collection under way, and the last cycle.
struct Course {
    stage: u32,
    why: Why,
    beside: bool,
    began: Option<Instant>,
    asked: Instant,
    stopped: Instant,
    swept: Instant,
    traced_before: u64,
    paid_before: u64,
    last: Option<Cycle>,
}

/// What a world knows of its cycles.
pub(crate) struct Cycles {
    course: Mutex<Course>,
    /// How many have ended.
    ended: AtomicU64,
    /// Whether a cycle was seen to mark since the last one ended.
    seen: AtomicBool,
    /// How many objects all tracers have told as traced.
    traced: AtomicU64,
    /// How many all mutators have, to pay for their cells.
    paid: AtomicU64,
}

impl Cycles {
    pub fn new() -> Cycles {
        let now = Instant::now();
        let course = Course {
            stage: 0,
            why: Why::Asked,
            beside: false,
            began: None,
            asked: now,
            stopped: now,
            swept: now,
            traced_before: 0,
            paid_before: 0,
            last: None,
        };
        let (ended, traced, paid) = (AtomicU64::new(0), AtomicU64::new(0), AtomicU64::new(0));
        Cycles { course: Mutex::new(course), ended, seen: AtomicBool::new(false), traced, paid }
    }

    /// The last cycle that has ended.
    pub fn last(&self) -> Option<Cycle> {
        self.course.lock().unwrap_or_else(PoisonError::into_inner).last
    }

    /// How many have ended.
    pub fn ended(&self) -> u64 {
        self.ended.load(Ordering::SeqCst)
    }

    /// A tracer has traced so many objects more.
    pub fn trace(&self, more: u64) {
        self.traced.fetch_add(more, Ordering::SeqCst);
    }

    /// A mutator has traced so many objects more to pay for its cells.
    pub fn pay(&self, more: u64) {
        self.paid.fetch_add(more, Ordering::SeqCst);
    }

    /// Whether a cycle was seen to mark.
    pub fn saw_marking(&self) -> bool {
        self.seen.load(Ordering::Relaxed)
    }

    /// A cycle is seen to mark.
    pub fn see_marking(&self) {
        if !self.seen.swap(true, Ordering::Relaxed) {
            self.course.lock().unwrap_or_else(PoisonError::into_inner).began = Some(Instant::now());
        }
    }

    /// What is noted after a step of a collection, by the mutator that has the stop.
    pub fn note(&self, now: &RawCourse, work: &RawWork, why: Why) {
        let mut course = self.course.lock().unwrap_or_else(PoisonError::into_inner);
        let before = course.stage;
        if now.stage == before {
            return;
        }
        course.stage = now.stage;
        match now.stage {
            STOP => {
                course.asked = Instant::now();
                course.why = why;
            }
            ROOTS if before == STOP => {
                course.stopped = Instant::now();
                course.beside = now.marking == 1;
            }
            SWEEP => course.swept = Instant::now(),
            END => {
                course.end(now, work, self.traced.load(Ordering::SeqCst), self.paid.load(Ordering::SeqCst));
                self.ended.fetch_add(1, Ordering::SeqCst);
                self.seen.store(false, Ordering::Relaxed);
            }
            _ => (),
        }
    }
}

impl Course {
    /// The cycle is about to end by these counts.
    fn end(&mut self, counts: &RawCourse, work: &RawWork, traced: u64, paid: u64) {
        let now = Instant::now();
        let tracers = traced - self.traced_before;
        let mutators = paid - self.paid_before;
        let exact = counts.exact == 1;
        self.last = Some(Cycle {
            number: self.last.map_or(0, |cycle| cycle.number) + 1,
            why: self.why,
            beside: self.beside,
            marked: self.began.map_or(Duration::ZERO, |began| self.asked.saturating_duration_since(began)),
            tracers,
            waited: self.stopped - self.asked,
            stopped: now - self.stopped,
            swept: now - self.swept,
            freed: counts.freed,
            kept: counts.kept,
            mutators,
            traced: work.traced,
            cleaned: work.cleaned,
            rescanned: counts.rescanned,
            exact,
            wasted: if self.beside && exact { tracers + mutators } else { 0 },
        });
        self.traced_before = traced;
        self.paid_before = paid;
        self.began = None;
    }
}
