//! Mutators.

use crate::cycles::{Why, CLOSE, END, PART};
use crate::error::{Error, DEAD, NOT_YET, NO_CACHE, NO_CELL, OK, STOPPED};
use crate::library::{Handle, RawCourse};
use crate::resting::Rests;
use crate::stamp::Stamp;
use crate::tracer::HELP;
use crate::weak::Weak;
use crate::world::Shared;
use std::ops::Range;
use std::sync::Arc;

/// How many variables a mutator has.
pub const VARIABLES: u32 = 32;

/// How many roots, objects, cards or blocks it does between two looks at what it waits for.
const STEP: u32 = 4096;

/// How many references an object has at most.
const FIELDS: usize = 16;

/// What stands for no variable if one may be given.
const NOTHING: u32 = u32::MAX;

/// With each of so many objects it looks whether a cycle is marking: it gets cells for as many at most at a time, and reads the phase then.
const LOOK: u64 = 64;

/// How many collections of its own it makes for one object. The first is ordinary, and the others are precise.
const TRIES: u32 = 3;

/// What [`Mutator::look`] tells of an object.
#[repr(C)]
#[derive(Clone, Copy, Debug, Default, PartialEq, Eq)]
pub struct Object {
    /// Where it lies, as [`Mutator::place`] tells.
    pub place: u32,
    /// Its value.
    pub value: u32,
}

/// What a thread acts on a world through. It has 32 variables, 0 to 31, which are its roots: an object that can be reached from them is kept, and all else is
/// garbage. It may move to another thread, and is used by one at a time.
///
/// ```compile_fail
/// fn shared<T: Sync>() {}
/// shared::<managed_heap::Mutator>();
/// ```
// It is written with each object, so it shares no line of the processor's cache with another, nor two lines that are fetched together.
#[repr(align(128))]
pub struct Mutator {
    handle: Handle,
    shared: Arc<Shared>,
    /// How many objects it has made.
    made: u64,
    /// How many objects it has told as traced to pay for its cells.
    told: u64,
}

impl Mutator {
    pub(crate) fn new(handle: Handle, shared: Arc<Shared>) -> Mutator {
        Mutator { handle, shared, made: 0, told: 0 }
    }

    /// Enters the world, as soon as no collection is under way, and helps in that meanwhile.
    pub fn enter(&mut self) -> Result<(), Error> {
        let mut rests = Rests::default();
        loop {
            match self.handle.enter_step() {
                STOPPED if self.handle.help_step(HELP) == OK => rests = Rests::default(),
                STOPPED => rests.rest(),
                other => return Error::of(other),
            }
        }
    }

    /// Leaves the world. What its variables refer to is kept. A thread leaves before it waits for anything: others' collections wait for whoever is inside.
    pub fn leave(&mut self) -> Result<(), Error> {
        self.tell();
        Error::of(self.handle.leave())
    }

    /// Tells what it has traced to pay for its cells since it told last: with each 64th object, when a stop is under way, and before it leaves.
    fn tell(&mut self) {
        let paid = self.handle.work().paid;
        if paid != self.told {
            self.shared.cycles.pay(paid - self.told);
            self.told = paid;
        }
    }

    /// Goes in again, if a stop made it leave.
    fn come_back(&mut self) -> Result<(), Error> {
        self.tell();
        self.enter()
    }

    /// A safe point, at which another's collection may go on. A loop that runs long and makes nothing has one.
    pub fn safe_point(&mut self) -> Result<(), Error> {
        match self.handle.pass() {
            STOPPED => self.come_back(),
            other => Error::of(other),
        }
    }

    /// An object is made by this call, with a collection if no cell is free.
    fn makes(&mut self, mut make: impl FnMut(&mut Handle) -> u32) -> Result<(), Error> {
        let mut tries = 0;
        loop {
            match make(&mut self.handle) {
                STOPPED => self.come_back()?,
                NO_CELL if tries < TRIES => {
                    let last = self.collect_once(tries > 0, Why::Lacked)?;
                    tries += u32::from(last.stage == END);
                }
                other => return self.counts(other),
            }
        }
    }

    /// An object was made, if the call says so: with some of them it looks whether a cycle is marking, and tells what it has traced.
    fn counts(&mut self, status: u32) -> Result<(), Error> {
        Error::of(status)?;
        self.made += 1;
        if self.made % LOOK == 0 {
            self.notice();
        }
        Ok(())
    }

    /// Looks whether a cycle is marking, and tells what it has traced.
    fn notice(&mut self) {
        if !self.shared.cycles.saw_marking() && self.handle.course().marking == 1 {
            self.shared.cycles.see_marking();
        }
        self.tell();
    }

    /// Variable v refers to a new object of this value, whose fields refer to nothing. If no cell is free it collects. It is a safe point too.
    pub fn make(&mut self, v: u32, value: u32) -> Result<(), Error> {
        self.makes(|handle| handle.make(v, value))
    }

    /// Makes an object as [`Mutator::make`] does, of a cell that is free in the mutator's cache. It looks for no cell: false if none is free there, and nothing
    /// is made. Then [`Mutator::refill_step`] is to be called until it is true.
    pub fn make_cached(&mut self, v: u32, value: u32) -> Result<bool, Error> {
        loop {
            match self.handle.make_cached(v, value) {
                NO_CACHE => return Ok(false),
                STOPPED => self.come_back()?,
                other => return self.counts(other).map(|()| true),
            }
        }
    }

    /// The next step on the way to a cache with a free cell: it looks at no more than so many blocks of 64 cells, which are at least 1. True if the mutator has
    /// such a cache, and false if it is to take the next step. [`Error::NoCell`] if no block has a free cell, or a cycle is done with marking: [`Mutator::finish`], and
    /// if that leaves none, [`Mutator::collect`].
    pub fn refill_step(&mut self, most: u32) -> Result<bool, Error> {
        match self.handle.refill_step(most) {
            NOT_YET => Ok(false),
            STOPPED => self.come_back().map(|()| false),
            other => {
                self.tell();
                Error::of(other).map(|()| true)
            }
        }
    }

    /// Variable v refers to a new object of this value, whose first fields become what these variables are, or refer to nothing for `None`; so do the others. v
    /// itself stands for the new object there. All of it is done, or nothing: [`Error::OutOfRange`] if a variable isn't below 32, or if an object has
    /// fewer fields. Else as [`Mutator::make`].
    pub fn make_with(&mut self, v: u32, value: u32, fields: &[Option<u32>]) -> Result<(), Error> {
        let mut numbers = [NOTHING; FIELDS];
        let numbers = numbers.get_mut(..fields.len()).ok_or(Error::OutOfRange)?;
        for (number, field) in numbers.iter_mut().zip(fields) {
            *number = field.map_or(NOTHING, |n| n.min(NOTHING - 1));
        }
        self.makes(|handle| handle.make_with(v, value, numbers))
    }

    /// Field i of variable v's object becomes what variable w refers to. [`Error::Nil`] if v refers to nothing.
    pub fn set(&mut self, v: u32, i: u32, w: u32) -> Result<(), Error> {
        Error::of(self.handle.set(v, i, w))
    }

    /// Variable w becomes what field i of variable v's object refers to; nothing, if v refers to nothing.
    pub fn get(&mut self, w: u32, v: u32, i: u32) -> Result<(), Error> {
        Error::of(self.handle.get(w, v, i))
    }

    /// Variable w becomes what variable v is.
    pub fn copy(&mut self, w: u32, v: u32) -> Result<(), Error> {
        Error::of(self.handle.copy(w, v))
    }

    /// Variable v refers to nothing any more.
    pub fn forget(&mut self, v: u32) -> Result<(), Error> {
        Error::of(self.handle.forget(v))
    }

    /// The value of variable v's object becomes this one. [`Error::Nil`] if v refers to nothing.
    pub fn put(&mut self, v: u32, value: u32) -> Result<(), Error> {
        Error::of(self.handle.put(v, value))
    }

    /// The value of variable v's object. [`Error::Nil`] if v refers to nothing.
    pub fn value(&mut self, v: u32) -> Result<u32, Error> {
        self.handle.value(v)
    }

    /// Whether variable v refers to nothing.
    pub fn is_nil(&mut self, v: u32) -> Result<bool, Error> {
        self.handle.is_nil(v)
    }

    /// Whether variables v and w refer to one object, or both to nothing.
    pub fn same(&mut self, v: u32, w: u32) -> Result<bool, Error> {
        self.handle.same(v, w)
    }

    /// Where variable v's object lies, and its value, at once. [`Error::Nil`] if v refers to nothing.
    pub fn look(&mut self, v: u32) -> Result<Object, Error> {
        self.handle.look(v)
    }

    /// These variables become the first fields of variable v's object, as by [`Mutator::get`] in this order. All of it is done or nothing:
    /// [`Error::OutOfRange`] if there are not so many variables or fields, or if v is one of these variables.
    pub fn fields(&mut self, v: u32, into: Range<u32>) -> Result<(), Error> {
        Error::of(self.handle.fields(v, into.start, into.end.saturating_sub(into.start)))
    }

    /// Variable v becomes the root of a shared world: the object that the world made as it opened, by which its mutators find each other's objects.
    pub fn root(&mut self, v: u32) -> Result<(), Error> {
        Error::of(self.handle.root(v))
    }

    /// If field i of variable v's object is what variable `expected` is, it becomes what variable `next` is, in one step: true if it was. Either may refer
    /// to nothing. [`Error::Nil`] if v does.
    pub fn exchange(&mut self, v: u32, i: u32, expected: u32, next: u32) -> Result<bool, Error> {
        self.handle.exchange(v, i, expected, next)
    }

    /// If the value of variable v's object is `expected` it becomes `next`, in one step: true if it was. [`Error::Nil`] if v refers to nothing.
    pub fn exchange_value(&mut self, v: u32, expected: u32, next: u32) -> Result<bool, Error> {
        self.handle.exchange_value(v, expected, next)
    }

    /// Slot k becomes what variable v is, and keeps that reachable.
    pub fn spill(&mut self, v: u32, k: u32) -> Result<(), Error> {
        Error::of(self.handle.spill(v, k))
    }

    /// Variable v becomes what slot k is.
    pub fn fill(&mut self, v: u32, k: u32) -> Result<(), Error> {
        Error::of(self.handle.fill(v, k))
    }

    /// These slots refer to nothing any more.
    pub fn forget_slots(&mut self, slots: Range<u32>) -> Result<(), Error> {
        Error::of(self.handle.forget_slots(slots.start, slots.end))
    }

    /// The place of variable v's object, a number below the world's number of cells. The object stays there as long as it is reachable, and meanwhile no other
    /// is there: keep a variable on it while you use what you have under that number. [`Error::Nil`] if v refers to nothing.
    pub fn place(&mut self, v: u32) -> Result<u32, Error> {
        self.handle.place(v)
    }

    /// Which object variable v's is: the number of the mutator that made it, from 1 on, and how many that one had made before; 0 and 0 for the root. No other
    /// object of the world ever has both. [`Error::Nil`] if v refers to nothing.
    pub fn number(&mut self, v: u32) -> Result<(u32, u32), Error> {
        self.handle.number(v)
    }

    /// A weak reference to variable v's object. If the mutator made the object it publishes first what it made. [`Error::Unpublished`]: another mutator made
    /// the object and hasn't published it, which it does at the next stop at the latest. [`Error::Nil`] if v refers to nothing.
    pub fn weak(&mut self, v: u32) -> Result<Weak, Error> {
        self.handle.weak(v)
    }

    /// Variable v becomes the weak reference's object, and keeps it: true. False: no path leads to the object from any variable, slot or field that is
    /// reached, none ever will, and v is nil. [`Error::OtherWorld`] if the weak reference is another world's.
    pub fn upgrade(&mut self, weak: &Weak, v: u32) -> Result<bool, Error> {
        match self.handle.upgrade(weak, v) {
            DEAD => Ok(false),
            status => Error::of(status).map(|()| true),
        }
    }

    /// A stamp of this moment, for other mutators to come after: all that this one has done is before it.
    pub fn stamp(&mut self) -> Result<Stamp, Error> {
        self.handle.stamp()
    }

    /// The mutator goes on from all that had happened in its world at a moment of this call: in the one order that explains what each call found, its later steps
    /// stand behind that, so behind all that the stamp's mutator had done. No object or variable changes, and nobody waits. [`Error::OtherWorld`] if the stamp is
    /// another world's.
    pub fn after(&mut self, stamp: &Stamp) -> Result<(), Error> {
        Error::of(self.handle.after(stamp))
    }

    /// How many cycles have ended in its world. While the number is the same, what [`Mutator::upgrade`] found alive isn't dead.
    pub fn cycles(&self) -> u64 {
        self.shared.cycles.ended()
    }

    /// Which of these weak references have dead objects: `dead` becomes their numbers in the slice, in order. Variable v is nil afterwards. It has no safe point,
    /// so a large table is gone through in pieces, with a safe point between two. If one is refused, as by [`Mutator::upgrade`], those before it are told.
    pub fn deaths(&mut self, weaks: &[Weak], v: u32, dead: &mut Vec<usize>) -> Result<(), Error> {
        self.forget(v)?;
        dead.clear();
        let told = weaks.iter().enumerate().try_for_each(|(k, weak)| {
            if !self.upgrade(weak, v)? {
                dead.push(k);
            }
            Ok(())
        });
        told.and(self.forget(v))
    }

    /// All variables refer to nothing any more, and all slots.
    pub fn forget_all(&mut self) -> Result<(), Error> {
        (0..VARIABLES).try_for_each(|v| self.forget(v))?;
        match self.shared.slots {
            0 => Ok(()),
            slots => self.forget_slots(0..slots),
        }
    }

    /// A precise collection: exactly the objects that can be reached are kept. What a cycle had marked beside the program is marked anew, so the world stands still
    /// for as long as it takes to trace all that is kept. If another's collection comes first it begins anew.
    pub fn collect(&mut self) -> Result<(), Error> {
        loop {
            let last = self.collect_once(true, Why::Asked)?;
            if last.stage == END && last.exact == 1 {
                return Ok(());
            }
        }
    }

    /// An ordinary collection, in a short stop: it finishes the cycle that is marking, if one is, and what died since that began may be kept. Or another's, if
    /// that comes first.
    pub fn finish(&mut self) -> Result<(), Error> {
        self.collect_once(false, Why::Asked).map(|_| ())
    }

    /// A collection. The answer: how far it was before its last step, at [`END`] unless another's came first.
    fn collect_once(&mut self, precise: bool, why: Why) -> Result<RawCourse, Error> {
        let mut rests = Rests::default();
        let mut last = RawCourse::default();
        loop {
            match if precise { self.handle.collect_step(STEP) } else { self.handle.finish_step(STEP) } {
                NOT_YET => {
                    self.tell();
                    last = self.handle.course();
                    self.shared.cycles.note(&last, &self.handle.work(), why);
                    if self.handle.is_stopping() {
                        rests.rest();
                    } else if last.stage == PART || last.stage == CLOSE {
                        std::thread::yield_now();
                    }
                }
                STOPPED => return self.come_back().map(|()| last),
                other => return Error::of(other).map(|()| last),
            }
        }
    }
}

impl Drop for Mutator {
    /// Its variables and slots are forgotten, and it is the world's again.
    fn drop(&mut self) {
        if self.enter().is_ok() {
            let _ = self.forget_all();
        }
        let _ = self.leave();
        let mut world = self.shared.lock();
        self.handle.give_back(&mut world);
    }
}
