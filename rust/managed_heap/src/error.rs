//! Why a call did nothing.

use std::fmt;

pub(crate) const OK: u32 = 0;
pub(crate) const NOT_YET: u32 = 1;
pub(crate) const STOPPED: u32 = 2;
pub(crate) const NO_CELL: u32 = 3;
pub(crate) const IDLE: u32 = 15;
pub(crate) const DISMISSED: u32 = 16;
pub(crate) const NO_CACHE: u32 = 20;
pub(crate) const DEAD: u32 = 21;
pub(crate) const NO_HELP: u32 = 24;

/// Why a call did nothing: objects and variables are as before.
#[derive(Clone, Copy, Debug, PartialEq, Eq, Hash)]
#[non_exhaustive]
pub enum Error {
    /// Collections left no cell for this mutator. Once something is forgotten, it may try again.
    NoCell,
    /// The mutator is outside the world: it is to enter first.
    Outside,
    /// A variable is not below 32, a field or a slot not below the world's, or a size is not in its range.
    OutOfRange,
    /// The variable refers to no object.
    Nil,
    /// The world isn't shared, and the call is for a shared one.
    NotShared,
    /// Another mutator made the object and hasn't published it yet, so that nothing would tell its death.
    Unpublished,
    /// The weak reference, or the stamp, is another world's.
    OtherWorld,
    /// The reachable objects fill all cells, for good.
    Full,
    /// The mutator has made 4,294,967,295 objects, which are all that have numbers.
    Spent,
    /// There is no memory for the world, the mutator or the tracer.
    OutOfMemory,
    /// All mutators, or all tracers, are taken.
    NoneLeft,
    /// A status that no call of this crate is to come to.
    Unexpected(u32),
}

impl Error {
    pub(crate) fn of(status: u32) -> Result<(), Error> {
        match status {
            OK => Ok(()),
            NO_CELL => Err(Error::NoCell),
            4 => Err(Error::Outside),
            6 => Err(Error::OutOfRange),
            7 => Err(Error::Nil),
            8 => Err(Error::Full),
            9 => Err(Error::Spent),
            10 => Err(Error::OutOfMemory),
            13 => Err(Error::NoneLeft),
            14 => Err(Error::OtherWorld),
            19 => Err(Error::NotShared),
            22 => Err(Error::Unpublished),
            other => Err(Error::Unexpected(other)),
        }
    }
}

impl fmt::Display for Error {
    fn fmt(&self, f: &mut fmt::Formatter<'_>) -> fmt::Result {
        match self {
            Error::NoCell => f.write_str("no cell is free for this mutator"),
            Error::Outside => f.write_str("the mutator is outside the world"),
            Error::OutOfRange => f.write_str("a number is out of range"),
            Error::Nil => f.write_str("the variable refers to no object"),
            Error::NotShared => f.write_str("the world isn't shared"),
            Error::Unpublished => f.write_str("another mutator hasn't published the object yet"),
            Error::OtherWorld => f.write_str("the weak reference or the stamp is another world's"),
            Error::Full => f.write_str("the reachable objects fill all cells, for good"),
            Error::Spent => f.write_str("the mutator has made all objects that it can"),
            Error::OutOfMemory => f.write_str("there is no memory"),
            Error::NoneLeft => f.write_str("all are taken"),
            Error::Unexpected(status) => write!(f, "the library came to {status}"),
        }
    }
}

impl std::error::Error for Error {}
