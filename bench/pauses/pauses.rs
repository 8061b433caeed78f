//! The work of `bench/pauses/pauses.c` by the crate for Rust: mutators that keep orders below a directory, and replace one with each transaction and look at another,
//! in rounds with a rest before each. `pauses CELLS LIVE MUTATORS TRACERS TRANSACTIONS` prints the same words. A mutator whose transaction took long looks which
//! cycle ended; the stops after the first mutator is done aren't counted.

use managed_heap::{Cycle, Error, Mutator, Sizes, World};
use std::collections::BTreeMap;
use std::sync::atomic::{AtomicBool, AtomicU32, Ordering};
use std::sync::{Barrier, Mutex};
use std::thread;
use std::time::{Duration, Instant};

const DIRECTORY: u32 = 0;
const LIST: u32 = 1;
const ITEM: u32 = 2;
const ORDER: u32 = 3;
const TREE: u32 = 4;
const AT: u32 = 5;
const NEXT: u32 = 6;
const LINE: u32 = 7;
const LEAF: u32 = 8;
const ROUND: Duration = Duration::from_millis(600);
const REST: Duration = Duration::from_millis(100);

/// A transaction that took less waited for no stop.
const LONG: Duration = Duration::from_micros(30);

/// What the threads share beside the heap.
struct Crowd {
    world: World,
    filled: Barrier,
    begins: Barrier,
    ends: Barrier,
    working: AtomicBool,
    /// How many mutators have made all their transactions.
    done: AtomicU32,
    stops: Mutex<BTreeMap<u64, Cycle>>,
}

struct Worker {
    m: Mutator,
    orders: u32,
    levels: u32,
    number: u64,
    transactions: usize,
    times: Vec<u64>,
}

fn order(m: &mut Mutator, number: u32) -> Result<(), Error> {
    m.make(ORDER, number)?;
    m.forget(LIST)?;
    for _ in 0..5 {
        m.make(ITEM, number)?;
        m.make_with(LINE, number, &[Some(LIST), Some(ITEM)])?;
        m.copy(LIST, LINE)?;
    }
    m.set(ORDER, 0, LIST)?;
    m.make(TREE, number)?;
    for k in 0..4 {
        m.make(LEAF, number)?;
        m.set(TREE, k, LEAF)?;
    }
    m.set(ORDER, 1, TREE)?;
    [LIST, ITEM, LINE, TREE, LEAF].iter().try_for_each(|v| m.forget(*v))
}

impl Worker {
    /// The lowest node above the order of this number.
    fn lowest(&mut self, at: u32) -> Result<(), Error> {
        self.m.copy(AT, DIRECTORY)?;
        for level in (1..self.levels).rev() {
            let way = (at >> (2 * level)) % 4;
            self.m.get(NEXT, AT, way)?;
            if self.m.is_nil(NEXT)? {
                self.m.make(NEXT, 0)?;
                self.m.set(AT, way, NEXT)?;
            }
            self.m.copy(AT, NEXT)?;
        }
        Ok(())
    }

    fn replace(&mut self, at: u32, number: u32) -> Result<(), Error> {
        order(&mut self.m, number)?;
        self.lowest(at)?;
        self.m.set(AT, at % 4, ORDER)?;
        [ORDER, AT, NEXT].iter().try_for_each(|v| self.m.forget(*v))
    }

    /// Looks at an order: all its values are one.
    fn look(&mut self, at: u32) -> Result<(), Error> {
        self.lowest(at)?;
        self.m.get(ORDER, AT, at % 4)?;
        let number = self.m.value(ORDER)?;
        self.m.get(LIST, ORDER, 0)?;
        let mut lines = 0;
        while !self.m.is_nil(LIST)? {
            self.m.get(ITEM, LIST, 1)?;
            assert_eq!((self.m.value(LIST)?, self.m.value(ITEM)?), (number, number), "LOST: a line");
            lines += 1;
            self.m.get(LIST, LIST, 0)?;
        }
        assert_eq!(lines, 5, "LOST: lines");
        self.m.get(TREE, ORDER, 1)?;
        for k in 0..4 {
            self.m.get(LEAF, TREE, k)?;
            assert_eq!(self.m.value(LEAF)?, number, "LOST: a leaf");
        }
        (LIST..=LEAF).try_for_each(|v| self.m.forget(v))
    }

    fn some_order(&mut self) -> u32 {
        self.number ^= self.number << 13;
        self.number ^= self.number >> 7;
        self.number ^= self.number << 17;
        ((self.number >> 20) % u64::from(self.orders)) as u32
    }

    /// Transactions until all are made or the time of the round is over.
    fn make_round(&mut self, crowd: &Crowd) -> Result<(), Error> {
        let began = Instant::now();
        let mut before = began;
        self.m.enter()?;
        while self.times.len() < self.transactions && before - began < ROUND {
            let at = self.some_order();
            self.replace(at, self.times.len() as u32)?;
            let at = self.some_order();
            self.look(at)?;
            let now = Instant::now();
            self.times.push((now - before).as_nanos() as u64);
            if now - before > LONG && crowd.done.load(Ordering::SeqCst) == 0 {
                crowd.stops.lock().unwrap().extend(crowd.world.last_cycle().map(|c| (c.number, c)));
            }
            before = Instant::now();
        }
        if self.times.len() == self.transactions && before > began {
            crowd.done.fetch_add(1, Ordering::SeqCst);
        }
        self.m.leave()
    }

    /// All that a thread does. What comes of it: how long each transaction took.
    fn work(mut self, crowd: &Crowd) -> Result<Vec<u64>, Error> {
        self.m.enter()?;
        while self.orders >> (2 * self.levels) != 0 {
            self.levels += 1;
        }
        self.m.make(DIRECTORY, 0)?;
        for k in 0..self.orders {
            self.replace(k, k)?;
        }
        self.m.leave()?;
        crowd.filled.wait();
        self.m.enter()?;
        self.m.collect()?;
        self.m.leave()?;
        crowd.filled.wait();
        loop {
            crowd.begins.wait();
            if !crowd.working.load(Ordering::SeqCst) {
                return Ok(self.times);
            }
            self.make_round(crowd)?;
            crowd.ends.wait();
        }
    }
}

/// The rounds: how long they took together. The first stops are those of the collections before.
fn make_rounds(crowd: &Crowd, threads: u32) -> Duration {
    crowd.filled.wait();
    crowd.filled.wait();
    let before = crowd.world.last_cycle().map_or(0, |c| c.number);
    let mut took = Duration::ZERO;
    loop {
        thread::sleep(REST);
        let working = crowd.done.load(Ordering::SeqCst) < threads;
        crowd.working.store(working, Ordering::SeqCst);
        crowd.begins.wait();
        if !working {
            crowd.stops.lock().unwrap().retain(|number, _| *number > before);
            return took;
        }
        let began = Instant::now();
        crowd.ends.wait();
        took += began.elapsed();
    }
}

fn tell(took: Duration, mut times: Vec<u64>, stops: &BTreeMap<u64, Cycle>) {
    times.sort_unstable();
    let all = times.len();
    let count = stops.len().max(1) as u128;
    let sum: u128 = stops.values().map(|c| c.stopped.as_micros()).sum();
    let longest = stops.values().map(|c| c.stopped.as_micros()).max().unwrap_or(0);
    let (traced, kept): (u64, u64) = stops.values().fold((0, 0), |(t, k), c| (t + u64::from(c.traced), k + u64::from(c.kept)));
    let (paid, helped) = stops.values().fold((0, 0), |(p, h), c| (p + c.mutators, h + c.tracers));
    println!(
        "rate {} stops {} mean {} longest {longest} p50 {} p99 {} p999 {} slowest {} cycles {} mutators {paid} tracers {helped} left {traced} kept {kept}",
        all as u128 * 1_000_000_000 / took.as_nanos().max(1),
        stops.len(),
        sum / count,
        times[all / 2],
        times[all * 99 / 100],
        times[all * 999 / 1000],
        times[all - 1],
        stops.len()
    );
}

fn run(n: &[u32]) -> Result<(), Error> {
    let [cells, live, threads, tracers, transactions] = *n else { panic!("usage: pauses CELLS LIVE MUTATORS TRACERS TRANSACTIONS") };
    let world = World::open(Sizes::of_cells(cells).fields(4).mutators(threads).tracers(tracers))?;
    let orders = (u64::from(cells) * u64::from(live) / 100 / u64::from(threads) * 3 / 49) as u32;
    let mut workers = Vec::new();
    for k in 0..threads {
        let transactions = (transactions / threads) as usize;
        let number = 88_172_645_463_325_252 + u64::from(k);
        workers.push(Worker { m: world.mutator()?, orders, levels: 1, number, transactions, times: Vec::with_capacity(transactions) });
    }
    let mut marks = Vec::new();
    for _ in 0..tracers {
        marks.push(world.tracer()?);
    }
    let barrier = || Barrier::new(threads as usize + 1);
    let crowd = Crowd {
        world,
        filled: barrier(),
        begins: barrier(),
        ends: barrier(),
        working: AtomicBool::new(false),
        done: AtomicU32::new(0),
        stops: Mutex::new(BTreeMap::new()),
    };
    let (took, times) = thread::scope(|s| {
        for mark in &mut marks {
            s.spawn(|| mark.trace().unwrap());
        }
        let working: Vec<_> = workers.into_iter().map(|worker| s.spawn(|| worker.work(&crowd).unwrap())).collect();
        let took = make_rounds(&crowd, threads);
        let times = working.into_iter().flat_map(|thread| thread.join().unwrap()).collect();
        crowd.world.dismiss_tracers().unwrap();
        (took, times)
    });
    let stops = crowd.stops.into_inner().unwrap();
    tell(took, times, &stops);
    Ok(())
}

fn main() -> Result<(), Error> {
    let numbers: Vec<u32> = std::env::args().skip(1).map(|w| w.parse().expect("a number")).collect();
    run(&numbers)
}
