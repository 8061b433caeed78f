//! The crate over the library: each call once, each refusal, and what dropping gives back.

use managed_heap::{Error, Mutator, Object, Sizes, Tracer, Turn, Why, World, VARIABLES};
use std::thread;

fn inside(world: &World) -> Mutator {
    let mut m = world.mutator().unwrap();
    m.enter().unwrap();
    m
}

#[test]
fn handles_may_move_to_other_threads() {
    fn moves<T: Send>() {}
    moves::<World>();
    moves::<Mutator>();
    moves::<Tracer>();
}

#[test]
fn sizes_out_of_range_are_refused() {
    for sizes in [
        Sizes::of_cells(0),
        Sizes::of_cells(65),
        Sizes::of_cells(16_777_280),
        Sizes::of_cells(64).fields(0),
        Sizes::of_cells(64).fields(17),
        Sizes::of_cells(64).mutators(33),
        Sizes::of_cells(64).tracers(9),
    ] {
        assert_eq!(World::open(sizes).err(), Some(Error::OutOfRange));
    }
}

#[test]
fn each_call_does_what_it_says() {
    let world = World::open(Sizes::of_cells(64).fields(3)).unwrap();
    let mut m = inside(&world);
    m.make(0, 7).unwrap();
    m.make(1, 8).unwrap();
    m.set(0, 2, 1).unwrap();
    m.get(3, 0, 2).unwrap();
    assert_eq!(m.same(1, 3), Ok(true));
    assert_eq!(m.same(0, 3), Ok(false));
    m.put(3, 9).unwrap();
    assert_eq!(m.value(1), Ok(9));
    m.copy(4, 0).unwrap();
    m.forget(0).unwrap();
    assert_eq!((m.is_nil(0), m.is_nil(4)), (Ok(true), Ok(false)));
    m.get(5, 4, 0).unwrap();
    assert_eq!(m.is_nil(5), Ok(true));
    m.collect().unwrap();
    m.safe_point().unwrap();
    assert_eq!(m.value(4), Ok(7));
    m.leave().unwrap();
    assert_eq!(world.statistics().unwrap().cells, 64);
    assert_eq!(world.statistics().unwrap().marked, 2);
}

#[test]
fn an_object_is_looked_at_and_its_fields_are_taken() {
    let world = World::open(Sizes::of_cells(64).fields(3)).unwrap();
    let mut m = inside(&world);
    m.make(0, 7).unwrap();
    m.make(1, 8).unwrap();
    m.set(0, 0, 0).unwrap();
    m.set(0, 2, 1).unwrap();
    let place = m.place(0).unwrap();
    assert_eq!(m.look(0), Ok(Object { place, value: 7 }));
    assert_eq!(m.look(5), Err(Error::Nil));
    m.fields(0, 10..13).unwrap();
    assert_eq!((m.same(10, 0), m.is_nil(11), m.same(12, 1)), (Ok(true), Ok(true), Ok(true)));
    for refused in [0..1, 10..14, 30..33] {
        assert_eq!(m.fields(0, refused), Err(Error::OutOfRange));
    }
    m.leave().unwrap();
    assert_eq!((m.look(0), m.fields(0, 10..13)), (Err(Error::Outside), Err(Error::Outside)));
}

#[test]
fn all_variables_are_forgotten() {
    let world = World::open(Sizes::of_cells(64)).unwrap();
    let mut m = inside(&world);
    for v in 0..VARIABLES {
        m.make(v, v).unwrap();
    }
    m.forget_all().unwrap();
    for v in 0..VARIABLES {
        assert_eq!(m.is_nil(v), Ok(true));
    }
    m.leave().unwrap();
    assert_eq!(m.forget_all(), Err(Error::Outside));
}

#[test]
fn the_last_cycle_is_told() {
    let world = World::open(Sizes::of_cells(1024)).unwrap();
    assert_eq!(world.last_cycle(), None);
    let mut m = inside(&world);
    for value in 0..10 {
        m.make(0, value).unwrap();
    }
    m.collect().unwrap();
    let first = world.last_cycle().unwrap();
    assert_eq!((first.number, first.why, first.beside), (1, Why::Asked, false));
    assert_eq!((first.freed, first.kept, first.tracers), (9, 1, 0));
    assert_eq!((first.mutators, first.traced, first.cleaned), (0, 1, 0));
    assert!(first.swept <= first.stopped);
    for value in 0..4096 {
        m.make(0, value).unwrap();
    }
    let last = world.last_cycle().unwrap();
    assert_eq!((last.why, last.kept), (Why::Lacked, 1));
    assert!(last.number > 1);
}

#[test]
fn an_ordinary_cycle_traces_each_object_once_and_a_precise_one_tells_what_was_wasted() {
    const KEPT: u32 = 2000;
    let world = World::open(Sizes::of_cells(8192)).unwrap();
    let mut m = inside(&world);
    for value in 0..KEPT {
        m.make(1, value).unwrap();
        m.set(1, 0, 0).unwrap();
        m.copy(0, 1).unwrap();
    }
    m.collect().unwrap();
    let mut last = world.last_cycle().unwrap();
    assert_eq!((last.beside, last.exact, last.wasted, last.kept), (false, true, 0, KEPT));
    let mut ordinary = 0;
    while ordinary < 10 {
        m.make(1, 0).unwrap();
        let cycle = world.last_cycle().unwrap();
        if cycle.number > last.number {
            assert_eq!((cycle.why, cycle.beside, cycle.exact, cycle.wasted), (Why::Lacked, true, false, 0));
            assert_eq!(cycle.mutators + u64::from(cycle.traced), u64::from(cycle.kept));
            assert!(cycle.kept >= KEPT && 50 * cycle.traced <= cycle.kept);
            ordinary += 1;
            last = cycle;
        }
    }
    m.finish().unwrap();
    let idle = world.last_cycle().unwrap();
    assert_eq!((idle.why, idle.beside, idle.exact, idle.kept), (Why::Asked, false, true, KEPT + 1));
    let mut wasted = 0;
    for objects in (0..8192).step_by(64) {
        for _ in 0..objects {
            m.make(1, 0).unwrap();
        }
        m.collect().unwrap();
        let cycle = world.last_cycle().unwrap();
        assert_eq!((cycle.exact, cycle.kept), (true, KEPT + 1));
        assert_eq!(cycle.wasted, if cycle.beside { cycle.mutators } else { 0 });
        wasted += cycle.wasted;
        if wasted > 0 {
            break;
        }
    }
    assert!(wasted > 0);
}

#[test]
fn an_object_is_made_with_its_references() {
    let world = World::open(Sizes::of_cells(64).fields(3)).unwrap();
    let mut m = inside(&world);
    m.make(0, 7).unwrap();
    m.make_with(1, 8, &[Some(0), None, Some(1)]).unwrap();
    m.get(2, 1, 0).unwrap();
    assert_eq!(m.same(0, 2), Ok(true));
    m.get(2, 1, 1).unwrap();
    assert_eq!(m.is_nil(2), Ok(true));
    m.get(2, 1, 2).unwrap();
    assert_eq!(m.same(1, 2), Ok(true));
    for fields in [&[Some(32)][..], &[Some(u32::MAX)], &[None; 4], &[None; 17]] {
        assert_eq!(m.make_with(1, 9, fields), Err(Error::OutOfRange));
    }
    assert_eq!(m.make_with(32, 9, &[]), Err(Error::OutOfRange));
    assert_eq!(m.value(1), Ok(8));
    for value in 0..1_000 {
        m.make_with(1, value, &[Some(0)]).unwrap();
    }
    m.get(2, 1, 0).unwrap();
    assert_eq!((m.value(1), m.value(2)), (Ok(999), Ok(7)));
}

#[test]
fn a_cache_comes_in_steps_and_objects_are_made_of_it() {
    const CELLS: u32 = 256;
    let world = World::open(Sizes::of_cells(CELLS)).unwrap();
    let mut m = inside(&world);
    assert_eq!(m.make_cached(VARIABLES, 1), Err(Error::OutOfRange));
    assert_eq!(m.refill_step(0), Err(Error::OutOfRange));
    assert_eq!(m.make_cached(0, 0), Ok(false));
    assert_eq!(m.is_nil(0), Ok(true));
    let mut made = 0;
    while made < CELLS {
        if m.make_cached(1, made).unwrap() {
            m.set(1, 0, 0).unwrap();
            m.copy(0, 1).unwrap();
            made += 1;
            continue;
        }
        match m.refill_step(1) {
            Ok(false) => {}
            Ok(true) => assert_eq!(m.refill_step(1), Ok(true)),
            Err(refused) => {
                assert_eq!(refused, Error::NoCell);
                m.collect().unwrap();
            }
        }
    }
    assert_eq!(m.value(0), Ok(CELLS - 1));
    assert_eq!(m.make_cached(1, 0), Ok(false));
}

#[test]
fn wrong_calls_are_refused_by_name() {
    let world = World::open(Sizes::of_cells(64)).unwrap();
    let mut m = world.mutator().unwrap();
    assert_eq!(world.mutator().err(), Some(Error::NoneLeft));
    assert_eq!(world.tracer().err(), Some(Error::NoneLeft));
    assert_eq!(m.make(0, 7), Err(Error::Outside));
    m.enter().unwrap();
    for v in [32, 255, 256, 288, u32::MAX] {
        assert_eq!(m.make(v, 7), Err(Error::OutOfRange));
        assert_eq!(m.copy(v, 0), Err(Error::OutOfRange));
        assert_eq!(m.value(v), Err(Error::OutOfRange));
    }
    m.make(0, 7).unwrap();
    assert_eq!(m.set(0, 2, 0), Err(Error::OutOfRange));
    assert_eq!(m.set(0, 256, 0), Err(Error::OutOfRange));
    assert_eq!(m.set(1, 0, 0), Err(Error::Nil));
    assert_eq!(m.put(1, 5), Err(Error::Nil));
    assert_eq!(m.value(1), Err(Error::Nil));
    assert_eq!(m.value(0), Ok(7));
}

#[test]
fn what_a_dropped_mutator_referred_to_is_garbage() {
    let world = World::open(Sizes::of_cells(64)).unwrap();
    for _ in 0..3 {
        let mut m = inside(&world);
        for v in 0..VARIABLES {
            assert_eq!(m.is_nil(v), Ok(true));
            m.make(v, v).unwrap();
        }
    }
    let mut m = inside(&world);
    m.collect().unwrap();
    assert_eq!(world.statistics().unwrap().marked, 0);
}

#[test]
fn a_heap_without_a_free_cell_goes_on_once_something_is_forgotten() {
    let world = World::open(Sizes::of_cells(64).fields(1)).unwrap();
    let mut m = inside(&world);
    for value in 0..64 {
        m.make(1, value).unwrap();
        m.set(1, 0, 0).unwrap();
        m.copy(0, 1).unwrap();
    }
    assert_eq!(m.make(1, 64), Err(Error::NoCell));
    assert_eq!(m.value(0), Ok(63));
    m.get(0, 0, 0).unwrap();
    m.forget(1).unwrap();
    m.make(1, 64).unwrap();
    assert_eq!((m.value(0), m.value(1)), (Ok(62), Ok(64)));
}

#[test]
fn a_world_outlives_its_handle_while_a_mutator_is_out() {
    let world = World::open(Sizes::of_cells(64)).unwrap();
    let mut m = inside(&world);
    drop(world);
    m.make(0, 5).unwrap();
    assert_eq!(m.value(0), Ok(5));
}

#[test]
fn threads_collect_beside_a_tracer() {
    let world = World::open(Sizes::of_cells(1024).mutators(3).tracers(1)).unwrap();
    let mut tracer = world.tracer().unwrap();
    assert_eq!(tracer.help_turn(0), Err(Error::OutOfRange));
    assert_eq!(tracer.help_turn(1), Ok(false));
    let tracing = thread::spawn(move || {
        tracer.trace().unwrap();
        tracer.turn()
    });
    let working: Vec<_> = (0..3)
        .map(|_| {
            let mut m = world.mutator().unwrap();
            thread::spawn(move || {
                m.enter().unwrap();
                for n in 0..50_000 {
                    m.make(0, n).unwrap();
                    if n % 100 == 0 {
                        m.copy(1, 0).unwrap();
                    } else {
                        m.set(0, 0, 1).unwrap();
                        m.copy(1, 0).unwrap();
                    }
                }
                let mut count = 1;
                loop {
                    m.get(1, 1, 0).unwrap();
                    if m.is_nil(1).unwrap() {
                        return count;
                    }
                    count += 1;
                }
            })
        })
        .collect();
    for each in working {
        assert_eq!(each.join().unwrap(), 100);
    }
    world.dismiss_tracers().unwrap();
    assert_eq!(tracing.join().unwrap(), Ok(Turn::Dismissed));
}

#[test]
fn an_error_is_an_error_of_std() {
    let error: Box<dyn std::error::Error + Send + Sync> = Box::new(Error::Nil);
    assert_eq!(error.to_string(), "the variable refers to no object");
}
