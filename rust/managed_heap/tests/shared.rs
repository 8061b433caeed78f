//! Shared worlds: each call once, each refusal, and threads that count, lock and hand objects over.

use managed_heap::{Error, Mutator, Sizes, World};
use std::collections::HashSet;
use std::sync::atomic::{AtomicBool, Ordering};
use std::sync::mpsc;
use std::thread;

/// The variables: the root, and others.
const ROOT: u32 = 0;
const NIL: u32 = 31;

fn inside(world: &World) -> Mutator {
    let mut m = world.mutator().unwrap();
    m.enter().unwrap();
    m
}

fn at_root(world: &World) -> Mutator {
    let mut m = inside(world);
    m.root(ROOT).unwrap();
    m
}

#[test]
fn sizes_out_of_range_are_refused() {
    for sizes in [Sizes::of_cells(64).slots(1), Sizes::of_cells(64).shared(true).slots(65_537)] {
        assert_eq!(World::open(sizes).err(), Some(Error::OutOfRange));
    }
    assert!(World::open(Sizes::of_cells(64).shared(true).slots(65_536)).is_ok());
}

#[test]
fn what_one_stores_the_other_finds() {
    let world = World::open(Sizes::of_cells(64).mutators(2).shared(true)).unwrap();
    let mut one = at_root(&world);
    let mut two = at_root(&world);
    one.make(1, 7).unwrap();
    one.set(ROOT, 1, 1).unwrap();
    two.get(5, ROOT, 1).unwrap();
    two.put(5, 8).unwrap();
    assert_eq!(one.value(1), Ok(8));
    assert_eq!(one.number(1), two.number(5));
    assert_eq!(one.place(1), two.place(5));
    assert_ne!(one.place(1), one.place(ROOT));
    assert_eq!(one.number(ROOT), Ok((0, 0)));
}

#[test]
fn an_exchange_is_won_where_what_is_expected_is_found() {
    let world = World::open(Sizes::of_cells(64).shared(true)).unwrap();
    let mut m = at_root(&world);
    m.make(1, 7).unwrap();
    assert_eq!(m.exchange(ROOT, 0, NIL, 1), Ok(true));
    assert_eq!(m.exchange(ROOT, 0, NIL, NIL), Ok(false));
    m.get(2, ROOT, 0).unwrap();
    assert_eq!(m.same(1, 2), Ok(true));
    assert_eq!(m.exchange_value(1, 7, 9), Ok(true));
    assert_eq!(m.exchange_value(1, 7, 9), Ok(false));
    assert_eq!(m.value(1), Ok(9));
    assert_eq!(m.exchange(NIL, 0, NIL, 1), Err(Error::Nil));
    assert_eq!(m.exchange_value(NIL, 0, 1), Err(Error::Nil));
    assert_eq!(m.exchange(ROOT, 2, NIL, 1), Err(Error::OutOfRange));
    assert_eq!(m.place(NIL), Err(Error::Nil));
    assert_eq!(m.number(NIL), Err(Error::Nil));
}

#[test]
fn slots_keep_what_they_have_until_they_are_forgotten() {
    let world = World::open(Sizes::of_cells(128).shared(true).slots(50)).unwrap();
    let mut m = inside(&world);
    for k in 0..50 {
        m.make(1, k).unwrap();
        m.spill(1, k).unwrap();
    }
    m.forget(1).unwrap();
    m.collect().unwrap();
    assert_eq!(world.statistics().unwrap().marked, 51);
    for k in 0..50 {
        m.fill(2, k).unwrap();
        assert_eq!(m.value(2), Ok(k));
    }
    assert_eq!(m.spill(2, 50), Err(Error::OutOfRange));
    assert_eq!(m.fill(2, 50), Err(Error::OutOfRange));
    assert_eq!(m.forget_slots(40..51), Err(Error::OutOfRange));
    m.forget_slots(10..50).unwrap();
    m.forget(2).unwrap();
    m.collect().unwrap();
    assert_eq!(world.statistics().unwrap().marked, 11);
    drop(m);
    let mut next = inside(&world);
    next.collect().unwrap();
    assert_eq!(world.statistics().unwrap().marked, 1);
}

#[test]
fn a_world_that_isnt_shared_refuses_by_name() {
    let world = World::open(Sizes::of_cells(64)).unwrap();
    let mut m = inside(&world);
    m.make(0, 7).unwrap();
    assert_eq!(m.root(0), Err(Error::NotShared));
    assert_eq!(m.exchange(0, 0, 1, 0), Err(Error::NotShared));
    assert_eq!(m.exchange_value(0, 7, 8), Err(Error::NotShared));
    assert_eq!(m.spill(0, 0), Err(Error::NotShared));
    assert_eq!(m.fill(0, 0), Err(Error::NotShared));
    assert_eq!(m.forget_slots(0..0), Err(Error::NotShared));
    assert_eq!(m.number(0), Err(Error::NotShared));
    assert!(m.place(0).unwrap() < 64);
    assert_eq!(m.value(0), Ok(7));
}

#[test]
fn who_comes_after_a_stamp_finds_what_was_stored_before_it() {
    let world = World::open(Sizes::of_cells(64).mutators(2).shared(true)).unwrap();
    let mut one = at_root(&world);
    let mut two = at_root(&world);
    let (hand_on, handed_on) = mpsc::channel();
    let storing = thread::spawn(move || {
        for n in 1..=1_000 {
            one.put(ROOT, n).unwrap();
            hand_on.send((n, one.stamp().unwrap())).unwrap();
            one.safe_point().unwrap();
        }
    });
    for (n, stamp) in handed_on {
        two.after(&stamp).unwrap();
        assert!(two.value(ROOT).unwrap() >= n);
    }
    storing.join().unwrap();
    assert_eq!(two.value(ROOT), Ok(1_000));
}

#[test]
fn a_stamp_of_another_world_is_refused() {
    let world = World::open(Sizes::of_cells(64).shared(true)).unwrap();
    let other = World::open(Sizes::of_cells(64)).unwrap();
    let (mut m, mut n) = (inside(&world), inside(&other));
    let (stamp, others) = (m.stamp().unwrap(), n.stamp().unwrap());
    assert_eq!(m.after(&others), Err(Error::OtherWorld));
    assert_eq!(n.after(&stamp), Err(Error::OtherWorld));
    m.leave().unwrap();
    assert_eq!(m.after(&others), Err(Error::OtherWorld));
    assert_eq!(m.after(&stamp), Ok(()));
    assert_eq!(n.after(&others), Ok(()));
}

/// Whether somebody has the lock. It is no part of the lock: who has it finds nobody else, also after others had their turn.
static LOCKED: AtomicBool = AtomicBool::new(false);

/// Takes the lock that the root's value is, waiting outside.
fn lock(m: &mut Mutator) {
    while !m.exchange_value(ROOT, 0, 1).unwrap() {
        m.leave().unwrap();
        thread::yield_now();
        m.enter().unwrap();
    }
    assert!(!LOCKED.swap(true, Ordering::SeqCst), "two have the lock");
    thread::yield_now();
}

/// Says that nobody has the lock, before it is given back.
fn before_unlock() {
    assert!(LOCKED.swap(false, Ordering::SeqCst), "two had the lock");
}

#[test]
fn threads_push_and_pop_behind_a_lock_beside_a_tracer() {
    let world = World::open(Sizes::of_cells(512).mutators(3).tracers(1).shared(true)).unwrap();
    let mut tracer = world.tracer().unwrap();
    let tracing = thread::spawn(move || tracer.trace());
    let working: Vec<_> = (0..3)
        .map(|k| {
            let mut m = at_root(&world);
            thread::spawn(move || {
                let mut popped = Vec::new();
                for n in 0..3_000 {
                    m.make(1, 3 * n + k).unwrap();
                    lock(&mut m);
                    m.get(2, ROOT, 0).unwrap();
                    m.set(1, 0, 2).unwrap();
                    m.set(ROOT, 0, 1).unwrap();
                    before_unlock();
                    assert_eq!(m.exchange_value(ROOT, 1, 0), Ok(true));
                    lock(&mut m);
                    m.get(2, ROOT, 0).unwrap();
                    m.get(3, 2, 0).unwrap();
                    m.set(ROOT, 0, 3).unwrap();
                    before_unlock();
                    m.put(ROOT, 0).unwrap();
                    popped.push(m.value(2).unwrap());
                }
                popped
            })
        })
        .collect();
    let all: Vec<u32> = working.into_iter().flat_map(|t| t.join().unwrap()).collect();
    assert_eq!(all.len(), 9_000);
    assert_eq!(all.into_iter().collect::<HashSet<_>>(), (0..9_000).collect());
    let mut m = at_root(&world);
    m.get(1, ROOT, 0).unwrap();
    assert_eq!(m.is_nil(1), Ok(true));
    world.dismiss_tracers().unwrap();
    assert_eq!(tracing.join().unwrap(), Ok(()));
}
