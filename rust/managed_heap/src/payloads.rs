//! Values of the program beside the heap, each of which belongs to an object.

use crate::error::Error;
use crate::mutator::Mutator;
use crate::weak::Weak;
use std::collections::HashMap;

/// How many values a sweep looks at between two safe points.
const BETWEEN: usize = 4096;

/// A table of values that belong to objects of a shared world: texts, files, memory of another library. It keeps no object, and drops each value once, by the first
/// [`Payloads::sweep`] after its object's death.
///
/// ```
/// use managed_heap::{Error, Payloads, Sizes, World};
///
/// # fn main() -> Result<(), Error> {
/// let world = World::open(Sizes::of_cells(64).shared(true))?;
/// let mut m = world.mutator()?;
/// let mut texts = Payloads::new();
/// m.enter()?;
/// m.make(0, 7)?;
/// texts.insert(&mut m, 0, String::from("seven"))?;
/// assert_eq!(texts.get(&mut m, 0)?.unwrap(), "seven");
/// m.forget(0)?;
/// m.collect()?;
/// assert_eq!(texts.sweep(&mut m, 31)?, 1); // the text is dropped
/// assert!(texts.is_empty());
/// # Ok(())
/// # }
/// ```
#[derive(Debug)]
pub struct Payloads<T> {
    /// The values, in no order, and where each lies.
    values: Vec<(Weak, T)>,
    at: HashMap<Weak, usize>,
    /// How many of the first values the sweep that is under way has still to look at.
    left: usize,
}

impl<T> Default for Payloads<T> {
    fn default() -> Payloads<T> {
        Payloads { values: Vec::new(), at: HashMap::new(), left: 0 }
    }
}

impl<T> Payloads<T> {
    /// A table without values.
    pub fn new() -> Payloads<T> {
        Payloads::default()
    }

    /// How many values there are, with those of dead objects that no sweep has come to.
    pub fn len(&self) -> usize {
        self.values.len()
    }

    /// Whether there is no value.
    pub fn is_empty(&self) -> bool {
        self.values.is_empty()
    }

    /// The value belongs to variable v's object from now on; the one that did before is handed back. Nothing is done if there is no weak reference to the
    /// object ([`Mutator::weak`]).
    pub fn insert(&mut self, m: &mut Mutator, v: u32, value: T) -> Result<Option<T>, Error> {
        let weak = m.weak(v)?;
        if let Some(&at) = self.at.get(&weak) {
            return Ok(Some(std::mem::replace(&mut self.values[at].1, value)));
        }
        self.at.insert(weak, self.values.len());
        self.values.push((weak, value));
        Ok(None)
    }

    /// Where the value of variable v's object lies.
    fn find(&self, m: &mut Mutator, v: u32) -> Result<Option<usize>, Error> {
        match m.weak(v) {
            Ok(weak) => Ok(self.at.get(&weak).copied()),
            Err(Error::Unpublished) => Ok(None),
            Err(why) => Err(why),
        }
    }

    /// What belongs to variable v's object.
    pub fn get(&mut self, m: &mut Mutator, v: u32) -> Result<Option<&mut T>, Error> {
        Ok(self.find(m, v)?.map(|at| &mut self.values[at].1))
    }

    /// Takes the value away from variable v's object.
    pub fn remove(&mut self, m: &mut Mutator, v: u32) -> Result<Option<T>, Error> {
        Ok(self.find(m, v)?.map(|at| self.take(at)))
    }

    /// Takes the value that lies here. Those that a sweep has still to look at stay the first ones: the last of them comes here, and the last of all to its place.
    fn take(&mut self, at: usize) -> T {
        let mut gap = at;
        if at < self.left {
            self.left -= 1;
            self.values.swap(at, self.left);
            self.at.insert(self.values[at].0, at);
            gap = self.left;
        }
        let (weak, value) = self.values.swap_remove(gap);
        if let Some((moved, _)) = self.values.get(gap) {
            self.at.insert(*moved, gap);
        }
        self.at.remove(&weak);
        value
    }

    /// A piece of a sweep: looks at so many values at most, and drops those of dead objects. True if the sweep is done, and the next piece begins another. Variable
    /// `spare` refers to nothing afterwards. If it ends with an error the values that are left stay.
    pub fn sweep_step(&mut self, m: &mut Mutator, spare: u32, most: usize) -> Result<bool, Error> {
        m.forget(spare)?;
        if self.left == 0 {
            self.left = self.values.len();
        }
        let to = self.left.saturating_sub(most);
        while self.left > to {
            let weak = self.values[self.left - 1].0;
            if m.upgrade(&weak, spare)? {
                self.left -= 1;
            } else {
                self.take(self.left - 1);
            }
        }
        m.forget(spare).map(|()| self.left == 0)
    }

    /// Drops the values of dead objects, and says how many. There is something to do only if a cycle has ended since ([`Mutator::cycles`]). A piece of a sweep that was
    /// made before is finished first. There is a safe point every few thousand values; else it is as [`Payloads::sweep_step`].
    pub fn sweep(&mut self, m: &mut Mutator, spare: u32) -> Result<usize, Error> {
        let before = self.values.len();
        while self.left > 0 {
            self.sweep_step(m, spare, BETWEEN)?;
            m.safe_point()?;
        }
        while !self.sweep_step(m, spare, BETWEEN)? {
            m.safe_point()?;
        }
        Ok(before - self.values.len())
    }
}
