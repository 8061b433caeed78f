//! Worlds.

use crate::cycles::{Cycle, Cycles};
use crate::error::{Error, STOPPED};
use crate::library::{Handle, RawSizes};
use crate::mutator::Mutator;
use crate::resting::Rests;
use crate::tracer::Tracer;
use std::sync::atomic::{AtomicU32, Ordering};
use std::sync::{Arc, Mutex, MutexGuard, PoisonError};

/// The sizes of a world.
#[derive(Clone, Copy, Debug, PartialEq, Eq)]
pub struct Sizes {
    cells: u32,
    fields: u32,
    mutators: u32,
    tracers: u32,
    shared: bool,
    slots: u32,
}

impl Sizes {
    /// So many cells, 64 to 16,777,216 in multiples of 64: as many objects fit. Objects have two fields, and there is one mutator and no tracer, if
    /// nothing else is said; objects aren't shared, and there are no slots.
    pub fn of_cells(cells: u32) -> Sizes {
        Sizes { cells, fields: 2, mutators: 1, tracers: 0, shared: false, slots: 0 }
    }

    /// With so many references in an object, 1 to 16.
    pub fn fields(self, fields: u32) -> Sizes {
        Sizes { fields, ..self }
    }

    /// With so many mutators, 1 to 32.
    pub fn mutators(self, mutators: u32) -> Sizes {
        Sizes { mutators, ..self }
    }

    /// With so many tracers, 0 to 8.
    pub fn tracers(self, tracers: u32) -> Sizes {
        Sizes { tracers, ..self }
    }

    /// Whether all mutators share the world's objects, beginning at its root, or each has objects of its own.
    pub fn shared(self, shared: bool) -> Sizes {
        Sizes { shared, ..self }
    }

    /// With so many slots for each mutator, 0 to 65,536, in a shared world; in any other there are none.
    pub fn slots(self, slots: u32) -> Sizes {
        Sizes { slots, ..self }
    }
}

/// Numbers of a world, each as it was read.
#[derive(Clone, Copy, Debug, PartialEq, Eq)]
pub struct Statistics {
    /// Cells in all.
    pub cells: u32,
    /// Cells free in blocks that no mutator has claimed.
    pub free: u64,
    /// Cells that the last cycle marked.
    pub marked: u64,
}

/// How many worlds were opened: each has a name of its own, so that none takes back what another lent.
static OPENED: AtomicU32 = AtomicU32::new(0);

/// The names of this crate's worlds. Those of C's begin below.
const NAMES: u32 = 0xc000_0000;

/// A world's handle, which its mutators and tracers share. It closes when the last of them is gone.
pub(crate) struct Shared {
    handle: Mutex<Handle>,
    /// How many slots each mutator has.
    pub slots: u32,
    /// What is known of its cycles.
    pub cycles: Cycles,
}

impl Shared {
    pub fn lock(&self) -> MutexGuard<'_, Handle> {
        self.handle.lock().unwrap_or_else(PoisonError::into_inner)
    }
}

impl Drop for Shared {
    fn drop(&mut self) {
        self.lock().close();
    }
}

/// A heap that threads share. Its memory is taken when it opens, and freed when it and all its mutators and tracers are dropped.
pub struct World {
    shared: Arc<Shared>,
}

impl World {
    /// Opens a world. [`Error::OutOfRange`] if a size is, and [`Error::OutOfMemory`].
    pub fn open(sizes: Sizes) -> Result<World, Error> {
        let Sizes { cells, fields, mutators, tracers, shared, slots } = sizes;
        let name = NAMES | (OPENED.fetch_add(1, Ordering::Relaxed) & !NAMES);
        let handle = Handle::open(&RawSizes { cells, fields, mutators, name, tracers, shared: shared.into(), slots })?;
        Ok(World { shared: Arc::new(Shared { handle: Mutex::new(handle), slots, cycles: Cycles::new() }) })
    }

    /// One of its mutators, outside the world, whose variables and slots all refer to nothing. [`Error::NoneLeft`] if all are taken. One that is dropped is the
    /// world's again.
    pub fn mutator(&self) -> Result<Mutator, Error> {
        let handle = self.shared.lock().take_mutator()?;
        Ok(Mutator::new(handle, Arc::clone(&self.shared)))
    }

    /// One of its tracers. [`Error::NoneLeft`] if all are taken. One that is dropped is the world's again.
    pub fn tracer(&self) -> Result<Tracer, Error> {
        let handle = self.shared.lock().take_tracer()?;
        Ok(Tracer::new(handle, Arc::clone(&self.shared)))
    }

    /// Dismisses the tracers, for good: each [`Tracer::trace`] ends. It waits while a collection is under way.
    pub fn dismiss_tracers(&self) -> Result<(), Error> {
        let mut rests = Rests::default();
        loop {
            let status = self.shared.lock().dismiss_step();
            match status {
                STOPPED => rests.rest(),
                other => return Error::of(other),
            }
        }
    }

    /// How many cells it has, how many are free, and how many the last cycle marked.
    pub fn statistics(&self) -> Result<Statistics, Error> {
        let numbers = self.shared.lock().statistics()?;
        Ok(Statistics { cells: numbers.cells, free: numbers.free, marked: numbers.marked })
    }

    /// The last cycle that has ended; `None` if none has.
    pub fn last_cycle(&self) -> Option<Cycle> {
        self.shared.cycles.last()
    }
}
