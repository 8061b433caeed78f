//! Weak references: an object is had again as long as it lives, and its death is told.

use managed_heap::{Error, Payloads, Sizes, Weak, World};
use std::rc::Rc;
use std::thread;

const ROOT: u32 = 0;
const NEW: u32 = 1;
const AGAIN: u32 = 2;

#[test]
fn has_its_object_again_until_it_is_dead() -> Result<(), Error> {
    let world = World::open(Sizes::of_cells(128).shared(true))?;
    let mut m = world.mutator()?;
    m.enter()?;
    m.make(NEW, 7)?;
    let weak = m.weak(NEW)?;
    assert_eq!((weak.place(), weak.number()), (m.place(NEW)?, m.number(NEW)?));
    m.collect()?;
    assert!(m.upgrade(&weak, AGAIN)?);
    assert!(m.same(NEW, AGAIN)?);
    m.forget(NEW)?;
    m.collect()?;
    assert!(m.upgrade(&weak, AGAIN)?, "the variable that it was had again in keeps it");
    m.forget(AGAIN)?;
    m.collect()?;
    m.make(NEW, 8)?;
    assert!(!m.upgrade(&weak, NEW)?);
    assert!(m.is_nil(NEW)?);
    Ok(())
}

#[test]
fn refuses_by_name() -> Result<(), Error> {
    let world = World::open(Sizes::of_cells(64).shared(true))?;
    let other = World::open(Sizes::of_cells(64).shared(true))?;
    let alone = World::open(Sizes::of_cells(64))?;
    let (mut m, mut n, mut o) = (world.mutator()?, other.mutator()?, alone.mutator()?);
    m.enter()?;
    n.enter()?;
    o.enter()?;
    m.make(NEW, 7)?;
    let weak = m.weak(NEW)?;
    assert_eq!(m.weak(AGAIN), Err(Error::Nil));
    assert_eq!(m.weak(32), Err(Error::OutOfRange));
    assert_eq!(m.upgrade(&weak, 32), Err(Error::OutOfRange));
    assert_eq!(n.upgrade(&weak, AGAIN), Err(Error::OtherWorld));
    assert_eq!(o.weak(NEW), Err(Error::NotShared));
    m.leave()?;
    assert_eq!(m.weak(NEW), Err(Error::Outside));
    assert_eq!(m.upgrade(&weak, AGAIN), Err(Error::Outside));
    Ok(())
}

#[test]
fn tells_deaths_in_pieces() -> Result<(), Error> {
    let world = World::open(Sizes::of_cells(1024).fields(1).shared(true))?;
    let other = World::open(Sizes::of_cells(64).shared(true))?;
    let (mut m, mut n) = (world.mutator()?, other.mutator()?);
    let (mut weaks, mut dead) = (Vec::new(), vec![77]);
    m.enter()?;
    n.enter()?;
    for k in 0..300 {
        m.make(NEW, k)?;
        weaks.push(m.weak(NEW)?);
        if k % 3 == 0 {
            m.set(NEW, 0, 3)?;
            m.copy(3, NEW)?;
        }
    }
    m.forget(NEW)?;
    let before = m.cycles();
    m.collect()?;
    assert_eq!(m.cycles(), before + 1);
    for (piece, from) in weaks.chunks(64).zip((0..).step_by(64)) {
        m.deaths(piece, AGAIN, &mut dead)?;
        let wanted: Vec<_> = (0..piece.len()).filter(|k| (from + k) % 3 != 0).collect();
        assert_eq!(dead, wanted);
        assert!(m.is_nil(AGAIN)?);
    }
    n.make(NEW, 0)?;
    weaks[4] = n.weak(NEW)?;
    assert_eq!(m.deaths(&weaks, AGAIN, &mut dead), Err(Error::OtherWorld));
    assert_eq!(dead, [1, 2]);
    assert_eq!(m.deaths(&weaks, 32, &mut dead), Err(Error::OutOfRange));
    m.leave()?;
    assert_eq!(m.deaths(&[], AGAIN, &mut dead), Err(Error::Outside));
    assert_eq!(dead, [1, 2]);
    Ok(())
}

/// Each thread makes objects, keeps every tenth in a list in a field of the root, and takes a weak reference to each.
#[test]
fn tells_exactly_the_dead_of_four_threads() -> Result<(), Error> {
    let world = World::open(Sizes::of_cells(4096).fields(4).mutators(4).tracers(1).shared(true))?;
    let mut tracer = world.tracer()?;
    let tracing = thread::spawn(move || tracer.trace());
    let working: Vec<_> = (0..4)
        .map(|k| {
            let mut m = world.mutator()?;
            Ok(thread::spawn(move || -> Result<(Vec<Weak>, Vec<Weak>), Error> {
                let (mut kept, mut let_go) = (Vec::new(), Vec::new());
                m.enter()?;
                for i in 0..2000 {
                    m.make(NEW, i + k)?;
                    if i % 10 == 0 {
                        m.set(NEW, 0, 3)?;
                        m.copy(3, NEW)?;
                        kept.push(m.weak(NEW)?);
                    } else {
                        let_go.push(m.weak(NEW)?);
                    }
                }
                m.root(ROOT)?;
                m.set(ROOT, k, 3)?;
                m.leave()?;
                Ok((kept, let_go))
            }))
        })
        .collect::<Result<_, Error>>()?;
    let weak: Vec<_> = working.into_iter().map(|t| t.join().unwrap()).collect::<Result<_, _>>()?;
    let mut m = world.mutator()?;
    m.enter()?;
    m.collect()?;
    for (kept, let_go) in &weak {
        for it in kept {
            assert!(m.upgrade(it, AGAIN)?);
        }
        for it in let_go {
            assert!(!m.upgrade(it, AGAIN)?);
        }
    }
    m.leave()?;
    world.dismiss_tracers()?;
    tracing.join().unwrap()
}

#[test]
fn drops_each_payload_once_after_its_death() -> Result<(), Error> {
    let world = World::open(Sizes::of_cells(4096).fields(1).shared(true))?;
    let mut m = world.mutator()?;
    let (counted, mut payloads) = (Rc::new(()), Payloads::new());
    m.enter()?;
    for i in 0..3000 {
        m.make(NEW, i)?;
        payloads.insert(&mut m, NEW, Rc::clone(&counted))?;
        if i % 3 == 0 {
            m.set(NEW, 0, 3)?;
            m.copy(3, NEW)?;
        }
    }
    m.forget(NEW)?;
    assert_eq!(payloads.sweep(&mut m, 32), Err(Error::OutOfRange));
    m.collect()?;
    payloads.sweep(&mut m, AGAIN)?;
    assert_eq!((payloads.len(), Rc::strong_count(&counted)), (1000, 1001));
    assert_eq!(payloads.sweep(&mut m, AGAIN)?, 0);
    while !m.is_nil(3)? {
        assert!(payloads.get(&mut m, 3)?.is_some());
        m.get(3, 3, 0)?;
    }
    m.collect()?;
    assert_eq!(payloads.sweep(&mut m, AGAIN)?, 1000);
    assert!(payloads.is_empty());
    assert_eq!(Rc::strong_count(&counted), 1);
    Ok(())
}

/// Values come and go while a sweep is under way: each dead one is dropped by its end, and none of a living object.
#[test]
fn sweeps_in_pieces() -> Result<(), Error> {
    let world = World::open(Sizes::of_cells(1024).fields(1).slots(200).shared(true))?;
    let mut m = world.mutator()?;
    let mut payloads = Payloads::new();
    m.enter()?;
    for k in 0..200 {
        m.make(NEW, k)?;
        payloads.insert(&mut m, NEW, k)?;
        m.spill(NEW, k)?;
    }
    for k in (0..200).filter(|k| k % 4 == 1) {
        m.forget_slots(k..k + 1)?;
    }
    m.forget(NEW)?;
    m.collect()?;
    assert!(!payloads.sweep_step(&mut m, AGAIN, 100)?);
    assert_eq!(payloads.len(), 175);
    for k in [0, 2, 150, 198] {
        m.fill(NEW, k)?;
        assert_eq!(payloads.remove(&mut m, NEW)?, Some(k));
    }
    m.make(NEW, 200)?;
    assert_eq!(payloads.insert(&mut m, NEW, 200)?, None);
    assert_eq!(payloads.insert(&mut m, NEW, 201)?, Some(200));
    assert!(payloads.sweep_step(&mut m, AGAIN, 98)?);
    assert_eq!(payloads.len(), 147);
    assert_eq!(payloads.get(&mut m, NEW)?.copied(), Some(201));
    for k in (0..200).filter(|k| k % 4 != 1 && ![0, 2, 150, 198].contains(k)) {
        m.fill(NEW, k)?;
        assert_eq!(payloads.get(&mut m, NEW)?.copied(), Some(k));
    }
    Ok(())
}
