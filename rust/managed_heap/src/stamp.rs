//! Which calls came before.

/// A stamp of a moment in a world: a plain number, which any thread may copy and keep. [`Mutator::stamp`](crate::Mutator::stamp) takes one, and a mutator that
/// comes [`after`](crate::Mutator::after) it acts behind all that the stamp's mutator had done by then.
#[derive(Clone, Copy, Debug, Default, PartialEq, Eq, Hash)]
#[repr(C)]
pub struct Stamp {
    world: u32,
}
