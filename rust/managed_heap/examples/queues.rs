//! Two threads, each with a queue of its own that it moves through the heap.

use managed_heap::{Error, Mutator, Sizes, World};
use std::thread;

/// The variables: the queue's head, its tail, and the object that comes in.
const HEAD: u32 = 0;
const TAIL: u32 = 1;
const NEW: u32 = 2;

/// How many objects a queue holds.
const LONG: u32 = 100;

/// Moves so many objects through a queue, each of which comes out in its turn.
fn queue(m: &mut Mutator, many: u32) -> Result<u32, Error> {
    m.enter()?;
    let mut out = 0;
    for k in 0..many {
        m.make(NEW, k)?;
        if k == 0 {
            m.copy(HEAD, NEW)?;
        } else {
            m.set(TAIL, 0, NEW)?;
        }
        m.copy(TAIL, NEW)?;
        if k >= LONG {
            out = m.value(HEAD)?;
            assert_eq!(out, k - LONG);
            m.get(HEAD, HEAD, 0)?;
        }
    }
    m.leave()?;
    Ok(out)
}

fn main() -> Result<(), Error> {
    let world = World::open(Sizes::of_cells(1024).mutators(2))?;
    let mut threads = Vec::new();
    for many in [300_000, 400_000] {
        let mut m = world.mutator()?;
        threads.push(thread::spawn(move || queue(&mut m, many)));
    }
    let lasts: Vec<u32> = threads.into_iter().map(|t| t.join().unwrap()).collect::<Result<_, _>>()?;
    assert_eq!(lasts, [299_899, 399_899]);
    println!("rust          managed_heap 700000 objects through two queues in 1024 cells, in their turns");
    Ok(())
}
