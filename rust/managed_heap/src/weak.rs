//! Weak references.

/// A weak reference to an object of a shared world: plain numbers, which any thread may copy, compare and keep. It keeps no object.
/// [`Mutator::weak`](crate::Mutator::weak) takes one, and [`Mutator::upgrade`](crate::Mutator::upgrade) has its object again, or tells that it is dead.
#[derive(Clone, Copy, Debug, Default, PartialEq, Eq, PartialOrd, Ord, Hash)]
#[repr(C)]
pub struct Weak {
    world: u32,
    place: u32,
    section: u32,
    number: u32,
}

impl Weak {
    /// The object's place, as of [`Mutator::place`](crate::Mutator::place).
    pub fn place(&self) -> u32 {
        self.place
    }

    /// Which object it is, as of [`Mutator::number`](crate::Mutator::number).
    pub fn number(&self) -> (u32, u32) {
        (self.section, self.number)
    }
}
