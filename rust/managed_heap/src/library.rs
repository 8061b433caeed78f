//! The exports of the library, and its handles. All that isn't safe is here.

use crate::error::Error;
use crate::mutator::Object;
use crate::stamp::Stamp;
use crate::weak::Weak;
use std::os::raw::c_void;
use std::ptr::null_mut;

/// Sizes, as the library reads them.
#[repr(C)]
pub(crate) struct RawSizes {
    pub cells: u32,
    pub fields: u32,
    pub mutators: u32,
    pub name: u32,
    pub tracers: u32,
    pub shared: u32,
    pub slots: u32,
}

/// Numbers, as the library writes them.
#[repr(C)]
#[derive(Default)]
pub(crate) struct RawNumbers {
    pub cells: u32,
    pub free: u64,
    pub marked: u64,
}

/// How far the collection of a mutator is, as the library writes it.
#[repr(C)]
#[derive(Default)]
pub(crate) struct RawCourse {
    pub stage: u32,
    pub again: u32,
    pub marking: u32,
    pub freed: u32,
    pub kept: u32,
    pub rescanned: u32,
    pub exact: u32,
}

/// How much a mutator has traced and cleaned, as the library writes it.
#[repr(C)]
#[derive(Default)]
pub(crate) struct RawWork {
    pub paid: u64,
    pub traced: u32,
    pub cleaned: u32,
}

/// A handle: the address of what the library keeps behind it.
#[repr(C)]
pub(crate) struct Handle {
    at: *mut c_void,
}

// What is behind a handle is used by one call at a time, since each call takes the handle by `&mut`; the library lets it move to another thread. The address
// keeps it from being shared.
unsafe impl Send for Handle {}

extern "C" {
    fn mhl_open(sizes: *const RawSizes, world: *mut Handle) -> u32;
    fn mhl_close(world: *mut Handle) -> u32;
    fn mhl_take_mutator(world: *mut Handle, m: *mut Handle) -> u32;
    fn mhl_give_back(world: *mut Handle, m: *mut Handle) -> u32;
    fn mhl_take_tracer(world: *mut Handle, t: *mut Handle) -> u32;
    fn mhl_give_back_tracer(world: *mut Handle, t: *mut Handle) -> u32;
    fn mhl_statistics(world: *mut Handle, numbers: *mut RawNumbers) -> u32;
    fn mhl_dismiss_step(world: *mut Handle) -> u32;
    fn mhl_enter_step(m: *mut Handle) -> u32;
    fn mhl_leave(m: *mut Handle) -> u32;
    fn mhl_pass(m: *mut Handle) -> u32;
    fn mhl_make(m: *mut Handle, v: u32, value: u32) -> u32;
    fn mhl_make_cached(m: *mut Handle, v: u32, value: u32) -> u32;
    fn mhl_refill_step(m: *mut Handle, most: u32) -> u32;
    fn mhl_make_with(m: *mut Handle, v: u32, value: u32, fields: *const u32, count: usize) -> u32;
    fn mhl_set(m: *mut Handle, v: u32, i: u32, w: u32) -> u32;
    fn mhl_get(m: *mut Handle, w: u32, v: u32, i: u32) -> u32;
    fn mhl_copy(m: *mut Handle, w: u32, v: u32) -> u32;
    fn mhl_forget(m: *mut Handle, v: u32) -> u32;
    fn mhl_put(m: *mut Handle, v: u32, value: u32) -> u32;
    fn mhl_value(m: *mut Handle, v: u32, out: *mut u32) -> u32;
    fn mhl_is_nil(m: *mut Handle, v: u32, out: *mut u32) -> u32;
    fn mhl_same(m: *mut Handle, v: u32, w: u32, out: *mut u32) -> u32;
    fn mhl_look(m: *mut Handle, v: u32, what: *mut Object) -> u32;
    fn mhl_fields(m: *mut Handle, v: u32, first: u32, count: u32) -> u32;
    fn mhl_collect_step(m: *mut Handle, most: u32) -> u32;
    fn mhl_finish_step(m: *mut Handle, most: u32) -> u32;
    fn mhl_help_step(m: *mut Handle, most: u32) -> u32;
    fn mhl_is_stopping(m: *mut Handle, out: *mut u32) -> u32;
    fn mhl_root(m: *mut Handle, v: u32) -> u32;
    fn mhl_exchange(m: *mut Handle, v: u32, i: u32, expected: u32, next: u32, won: *mut u32) -> u32;
    fn mhl_exchange_value(m: *mut Handle, v: u32, expected: u32, next: u32, won: *mut u32) -> u32;
    fn mhl_spill(m: *mut Handle, v: u32, k: u32) -> u32;
    fn mhl_fill(m: *mut Handle, v: u32, k: u32) -> u32;
    fn mhl_forget_slots(m: *mut Handle, from: u32, to: u32) -> u32;
    fn mhl_place(m: *mut Handle, v: u32, place: *mut u32) -> u32;
    fn mhl_number(m: *mut Handle, v: u32, section: *mut u32, number: *mut u32) -> u32;
    fn mhl_weak_of(m: *mut Handle, v: u32, out: *mut Weak) -> u32;
    fn mhl_upgrade(m: *mut Handle, weak: *const Weak, v: u32) -> u32;
    fn mhl_stamp_of(m: *mut Handle, out: *mut Stamp) -> u32;
    fn mhl_after(m: *mut Handle, stamp: *const Stamp) -> u32;
    fn mhl_course(m: *mut Handle, out: *mut RawCourse) -> u32;
    fn mhl_work(m: *mut Handle, out: *mut RawWork) -> u32;
    fn mhl_trace_turn(t: *mut Handle) -> u32;
    fn mhl_help_turn(t: *mut Handle, most: u32) -> u32;
    fn mhl_traced(t: *mut Handle, out: *mut u64) -> u32;
    fn free(at: *mut c_void);
}

// Each call below is by a handle that is filled: `open`, `take_mutator` and `take_tracer` are the only ways to one, and `spend` takes it. A handle that is
// handed in to be filled is empty. What is written through is a whole value of the type that the library writes.
impl Handle {
    fn filled(by: impl FnOnce(*mut Handle) -> u32) -> Result<Handle, Error> {
        let mut handle = Handle { at: null_mut() };
        Error::of(by(&mut handle)).map(|()| handle)
    }

    pub fn open(sizes: &RawSizes) -> Result<Handle, Error> {
        Handle::filled(|out| unsafe { mhl_open(sizes, out) })
    }

    pub fn take_mutator(&mut self) -> Result<Handle, Error> {
        Handle::filled(|out| unsafe { mhl_take_mutator(self, out) })
    }

    pub fn take_tracer(&mut self) -> Result<Handle, Error> {
        Handle::filled(|out| unsafe { mhl_take_tracer(self, out) })
    }

    /// Frees what was behind a handle that is given back, or of a world that is closed. If it isn't, nobody could use it any more, and it is left.
    fn spend(&mut self, status: u32) {
        if status == 0 {
            unsafe { free(self.at) };
            self.at = null_mut();
        }
    }

    pub fn close(&mut self) {
        let status = unsafe { mhl_close(self) };
        self.spend(status);
    }

    pub fn give_back(&mut self, world: &mut Handle) {
        let status = unsafe { mhl_give_back(world, self) };
        self.spend(status);
    }

    pub fn give_back_tracer(&mut self, world: &mut Handle) {
        let status = unsafe { mhl_give_back_tracer(world, self) };
        self.spend(status);
    }

    pub fn statistics(&mut self) -> Result<RawNumbers, Error> {
        let mut numbers = RawNumbers::default();
        Error::of(unsafe { mhl_statistics(self, &mut numbers) }).map(|()| numbers)
    }

    pub fn dismiss_step(&mut self) -> u32 {
        unsafe { mhl_dismiss_step(self) }
    }

    pub fn enter_step(&mut self) -> u32 {
        unsafe { mhl_enter_step(self) }
    }

    pub fn leave(&mut self) -> u32 {
        unsafe { mhl_leave(self) }
    }

    pub fn pass(&mut self) -> u32 {
        unsafe { mhl_pass(self) }
    }

    pub fn make(&mut self, v: u32, value: u32) -> u32 {
        unsafe { mhl_make(self, v, value) }
    }

    pub fn make_cached(&mut self, v: u32, value: u32) -> u32 {
        unsafe { mhl_make_cached(self, v, value) }
    }

    pub fn refill_step(&mut self, most: u32) -> u32 {
        unsafe { mhl_refill_step(self, most) }
    }

    pub fn make_with(&mut self, v: u32, value: u32, fields: &[u32]) -> u32 {
        unsafe { mhl_make_with(self, v, value, fields.as_ptr(), fields.len()) }
    }

    pub fn set(&mut self, v: u32, i: u32, w: u32) -> u32 {
        unsafe { mhl_set(self, v, i, w) }
    }

    pub fn get(&mut self, w: u32, v: u32, i: u32) -> u32 {
        unsafe { mhl_get(self, w, v, i) }
    }

    pub fn copy(&mut self, w: u32, v: u32) -> u32 {
        unsafe { mhl_copy(self, w, v) }
    }

    pub fn forget(&mut self, v: u32) -> u32 {
        unsafe { mhl_forget(self, v) }
    }

    pub fn put(&mut self, v: u32, value: u32) -> u32 {
        unsafe { mhl_put(self, v, value) }
    }

    fn written(by: impl FnOnce(*mut u32) -> u32) -> Result<u32, Error> {
        let mut out = 0;
        Error::of(by(&mut out)).map(|()| out)
    }

    pub fn value(&mut self, v: u32) -> Result<u32, Error> {
        Handle::written(|out| unsafe { mhl_value(self, v, out) })
    }

    pub fn is_nil(&mut self, v: u32) -> Result<bool, Error> {
        Handle::written(|out| unsafe { mhl_is_nil(self, v, out) }).map(|told| told == 1)
    }

    pub fn same(&mut self, v: u32, w: u32) -> Result<bool, Error> {
        Handle::written(|out| unsafe { mhl_same(self, v, w, out) }).map(|told| told == 1)
    }

    pub fn look(&mut self, v: u32) -> Result<Object, Error> {
        let mut what = Object::default();
        Error::of(unsafe { mhl_look(self, v, &mut what) }).map(|()| what)
    }

    pub fn fields(&mut self, v: u32, first: u32, count: u32) -> u32 {
        unsafe { mhl_fields(self, v, first, count) }
    }

    pub fn collect_step(&mut self, most: u32) -> u32 {
        unsafe { mhl_collect_step(self, most) }
    }

    pub fn finish_step(&mut self, most: u32) -> u32 {
        unsafe { mhl_finish_step(self, most) }
    }

    pub fn help_step(&mut self, most: u32) -> u32 {
        unsafe { mhl_help_step(self, most) }
    }

    pub fn is_stopping(&mut self) -> bool {
        Handle::written(|out| unsafe { mhl_is_stopping(self, out) }) == Ok(1)
    }

    pub fn root(&mut self, v: u32) -> u32 {
        unsafe { mhl_root(self, v) }
    }

    pub fn exchange(&mut self, v: u32, i: u32, expected: u32, next: u32) -> Result<bool, Error> {
        Handle::written(|won| unsafe { mhl_exchange(self, v, i, expected, next, won) }).map(|won| won == 1)
    }

    pub fn exchange_value(&mut self, v: u32, expected: u32, next: u32) -> Result<bool, Error> {
        Handle::written(|won| unsafe { mhl_exchange_value(self, v, expected, next, won) }).map(|won| won == 1)
    }

    pub fn spill(&mut self, v: u32, k: u32) -> u32 {
        unsafe { mhl_spill(self, v, k) }
    }

    pub fn fill(&mut self, v: u32, k: u32) -> u32 {
        unsafe { mhl_fill(self, v, k) }
    }

    pub fn forget_slots(&mut self, from: u32, to: u32) -> u32 {
        unsafe { mhl_forget_slots(self, from, to) }
    }

    pub fn place(&mut self, v: u32) -> Result<u32, Error> {
        Handle::written(|place| unsafe { mhl_place(self, v, place) })
    }

    pub fn number(&mut self, v: u32) -> Result<(u32, u32), Error> {
        let mut maker = 0;
        Handle::written(|number| unsafe { mhl_number(self, v, &mut maker, number) }).map(|number| (maker, number))
    }

    pub fn weak(&mut self, v: u32) -> Result<Weak, Error> {
        let mut weak = Weak::default();
        Error::of(unsafe { mhl_weak_of(self, v, &mut weak) }).map(|()| weak)
    }

    pub fn upgrade(&mut self, weak: &Weak, v: u32) -> u32 {
        unsafe { mhl_upgrade(self, weak, v) }
    }

    pub fn stamp(&mut self) -> Result<Stamp, Error> {
        let mut stamp = Stamp::default();
        Error::of(unsafe { mhl_stamp_of(self, &mut stamp) }).map(|()| stamp)
    }

    pub fn after(&mut self, stamp: &Stamp) -> u32 {
        unsafe { mhl_after(self, stamp) }
    }

    pub fn course(&mut self) -> RawCourse {
        let mut course = RawCourse::default();
        unsafe { mhl_course(self, &mut course) };
        course
    }

    pub fn work(&mut self) -> RawWork {
        let mut work = RawWork::default();
        unsafe { mhl_work(self, &mut work) };
        work
    }

    pub fn trace_turn(&mut self) -> u32 {
        unsafe { mhl_trace_turn(self) }
    }

    pub fn help_turn(&mut self, most: u32) -> u32 {
        unsafe { mhl_help_turn(self, most) }
    }

    pub fn traced(&mut self) -> u64 {
        let mut traced = 0;
        unsafe { mhl_traced(self, &mut traced) };
        traced
    }
}
