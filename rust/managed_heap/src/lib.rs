//! A heap of small objects that threads share and that collects its own garbage, beside the program and in short stops. What each call does is proved in the
//! library below (`docs/EMBEDDING_C.md` of the repository); this crate is only tested.
//!
//! A [`World`] is a heap. A thread acts on it through a [`Mutator`], which has 32 variables. An object has a value of 32 bits and as many references as the
//! world's [`Sizes`] say. No call hands out an address of an object.
//!
//! ```
//! use managed_heap::{Sizes, World};
//!
//! # fn main() -> Result<(), managed_heap::Error> {
//! let world = World::open(Sizes::of_cells(4096).fields(2))?;
//! let mut m = world.mutator()?;
//! m.enter()?;
//! m.make(0, 7)?; // variable 0 refers to a new object of value 7
//! m.set(0, 1, 0)?; // its field 1 refers to itself
//! m.get(5, 0, 1)?; // variable 5 becomes what that field is
//! assert_eq!(m.value(5)?, 7);
//! assert!(m.same(0, 5)?);
//! # Ok(())
//! # }
//! ```
//!
//! If the sizes say nothing else, each mutator has objects of its own. It may go to a thread:
//!
//! ```
//! use managed_heap::{Error, Sizes, World};
//! use std::thread;
//!
//! # fn main() -> Result<(), Error> {
//! let world = World::open(Sizes::of_cells(1024).mutators(2).tracers(1))?;
//! let mut tracer = world.tracer()?;
//! let tracing = thread::spawn(move || tracer.trace());
//! let working: Vec<_> = (0..2)
//!     .map(|k| {
//!         let mut m = world.mutator()?;
//!         Ok(thread::spawn(move || {
//!             m.enter()?;
//!             for n in 0..10_000 {
//!                 m.make(0, n + k)?; // what the variable referred to before is garbage
//!             }
//!             m.value(0)
//!         }))
//!     })
//!     .collect::<Result<_, Error>>()?;
//! let values: Vec<u32> = working.into_iter().map(|t| t.join().unwrap()).collect::<Result<_, _>>()?;
//! assert_eq!(values, [9_999, 10_000]);
//! world.dismiss_tracers()?;
//! tracing.join().unwrap()
//! # }
//! ```
//!
//! In a shared world all mutators read and store in all objects, and begin at one object, the *root*:
//!
//! ```
//! use managed_heap::{Error, Sizes, World};
//! use std::thread;
//!
//! # fn main() -> Result<(), Error> {
//! let world = World::open(Sizes::of_cells(1024).mutators(4).shared(true))?;
//! let raising: Vec<_> = (0..4)
//!     .map(|_| {
//!         let mut m = world.mutator()?;
//!         Ok(thread::spawn(move || {
//!             m.enter()?;
//!             m.root(0)?;
//!             for _ in 0..1_000 {
//!                 loop {
//!                     let n = m.value(0)?;
//!                     m.safe_point()?;
//!                     if m.exchange_value(0, n, n + 1)? {
//!                         break;
//!                     }
//!                 }
//!             }
//!             Ok(())
//!         }))
//!     })
//!     .collect::<Result<_, Error>>()?;
//! for thread in raising {
//!     thread.join().unwrap()?;
//! }
//! let mut m = world.mutator()?;
//! m.enter()?;
//! m.root(0)?;
//! assert_eq!(m.value(0)?, 4_000);
//! # Ok(())
//! # }
//! ```
#![warn(missing_docs)]

mod cycles;
mod error;
mod library;
mod mutator;
mod payloads;
mod resting;
mod stamp;
mod tracer;
mod weak;
mod world;

pub use cycles::{Cycle, Why};
pub use error::Error;
pub use mutator::{Mutator, Object, VARIABLES};
pub use payloads::Payloads;
pub use stamp::Stamp;
pub use tracer::{Tracer, Turn};
pub use weak::Weak;
pub use world::{Sizes, Statistics, World};
