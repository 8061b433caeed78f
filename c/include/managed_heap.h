/*
 * managed_heap.h: a heap that collects its own garbage, for programs in C and whatever calls C.
 *
 * A *world* is a heap that threads share. A thread acts on it through a *mutator* of its own, which has 32 variables, 0 to 31. They are its roots: what
 * can be reached from them is kept, and all else is garbage. An object has a value of 32 bits and as many references as the world's sizes say. No call
 * hands out an address of an object, so the collector misses none. Marking goes on as the mutators make objects. If a processor is free, a thread marks
 * beside them with a *tracer*.
 *
 * In a world that isn't shared each mutator has objects of its own. In a *shared* world all mutators read and store in all objects, and begin at one object,
 * the *root*. There a mutator may have *slots* too: roots besides its variables, for the frames of a stack.
 *
 * No call of the library waits. What may take long is done in steps: the functions whose names end in _step or _turn do one and return. The others of the same
 * name go on until it is done, and rest meanwhile: they yield some times, and then sleep.
 *
 * The header compiles as C99, C11 and C++17, by gcc and clang, and includes what it needs.
 */
#ifndef MANAGED_HEAP_H
#define MANAGED_HEAP_H

#include <sched.h>
#include <stdint.h>
#include <stdio.h>
#include <stdlib.h>
#include <sys/select.h>
#include <sys/time.h>
#include <time.h>

#if defined(__linux__) && defined(__LP64__)
#include <sys/syscall.h>
#define MH_FUTEX
#endif

#ifdef __cplusplus
extern "C" {
#endif

/* The version of these calls. The first number rises if a program has to be changed or compiled again. */
#define MH_VERSION "4.4"

/* What a call came to. If it isn't MH_OK, objects and variables are as before, but for what a line here says. */
typedef enum mh_status {
    MH_OK = 0,            /* it is done */
    MH_NOT_YET = 1,       /* a step more is to be made: call again */
    MH_STOPPED = 2,       /* another's collection is under way: the mutator is outside now, or stays there. Help or rest, and enter again. A tracer helps or
                             rests, and takes its next turn */
    MH_NO_CELL = 3,       /* no cell is free for this mutator now: mh_finish, and if that leaves none, mh_collect. Of mh_make: its collections left none for
                             it; forget something, or try later */
    MH_OUTSIDE = 4,       /* the mutator is outside the world: enter first */
    MH_COLLECTING = 5,    /* the mutator is between two steps of its collection: mh_collect_step or mh_finish_step first */
    MH_OUT_OF_RANGE = 6,  /* a variable is not below 32, a field or a slot not below the world's, a size not in its range, or the bound of a step is 0 */
    MH_NIL = 7,           /* the variable refers to no object: there is no value, no place and no number, and nothing is stored */
    MH_FULL = 8,          /* the reachable objects fill all cells, for good, as a mutator in Rattle has found: none enters any more. If C has all mutators,
                             MH_NO_CELL comes instead, and isn't final */
    MH_SPENT = 9,         /* the mutator has made 4,294,967,295 objects, which are all that have numbers */
    MH_OUT_OF_MEMORY = 10, /* there is no memory for the world or the handle */
    MH_GIVEN_BACK = 11,   /* the handle was given back, or was never taken */
    MH_IN_USE = 12,       /* another call uses this handle now */
    MH_NONE_LEFT = 13,    /* all mutators, or all tracers, are taken */
    MH_REFUSED = 14,      /* the world doesn't take the mutator or the tracer back: it has another world's name, all are back, or there is no memory. It stays
                             the handle's. Of mh_upgrade and mh_after: the weak reference, or the stamp, is another world's */
    MH_IDLE = 15,         /* of a tracer: no cycle is marking, so there is nothing to do now */
    MH_DISMISSED = 16,    /* of a tracer: the world has dismissed its tracers */
    MH_STILL_LENT = 17,   /* of mh_close: not all mutators and tracers are given back */
    MH_TAKEN = 18,        /* the handle that is to be filled is filled already */
    MH_NOT_SHARED = 19,   /* the world isn't shared, and the call is for a shared one */
    MH_NO_CACHE = 20,     /* of mh_make_cached: no cell of the mutator's cache is free: mh_refill_step first */
    MH_DEAD = 21,         /* of mh_upgrade: the object is dead, and the variable is nil */
    MH_UNPUBLISHED = 22,  /* of mh_weak_of: another mutator made the object and hasn't published it yet, so that nothing would tell its death. It does so at the
                             next stop at the latest, or when it takes a weak reference to the object itself */
    MH_INSIDE = 23,       /* of mh_help_step: the mutator is inside the world, and only one outside helps */
    MH_NO_HELP = 24       /* of mh_help_step and mh_help_turn: no stop is open to helpers, or nothing was left to do in it. Rest, and enter again; a tracer
                             takes its next turn */
} mh_status;

/* A status in words. */
static inline const char *mh_status_text(mh_status s) {
    switch (s) {
    case MH_OK: return "done";
    case MH_NOT_YET: return "a step more is to be made";
    case MH_STOPPED: return "another's collection is under way";
    case MH_NO_CELL: return "no cell is free for this mutator now";
    case MH_OUTSIDE: return "the mutator is outside the world";
    case MH_COLLECTING: return "the mutator is between two steps of its collection";
    case MH_OUT_OF_RANGE: return "a number is out of range";
    case MH_NIL: return "the variable refers to no object";
    case MH_FULL: return "the reachable objects fill all cells, for good";
    case MH_SPENT: return "the mutator has made all objects that it can";
    case MH_OUT_OF_MEMORY: return "there is no memory";
    case MH_GIVEN_BACK: return "the handle was given back, or was never taken";
    case MH_IN_USE: return "another call uses the handle";
    case MH_NONE_LEFT: return "all are taken";
    case MH_REFUSED: return "the world doesn't take it back";
    case MH_IDLE: return "no cycle is marking";
    case MH_DISMISSED: return "the tracers are dismissed";
    case MH_STILL_LENT: return "not all mutators and tracers are given back";
    case MH_TAKEN: return "the handle is filled already";
    case MH_NOT_SHARED: return "the world isn't shared";
    case MH_NO_CACHE: return "no cell of the mutator's cache is free";
    case MH_DEAD: return "the weak reference's object is dead";
    case MH_UNPUBLISHED: return "another mutator hasn't published the object yet";
    case MH_INSIDE: return "the mutator is inside the world";
    case MH_NO_HELP: return "there is nothing to help in";
    }
    return "no status of managed_heap";
}

/* Handles. One that is all zero is given back, or was never taken. A handle is not copied: a copy doesn't know that the other was given back.
 *
 * One thread uses a handle at a time. A call marks what is behind its handle, and a second one that finds the mark is MH_IN_USE: one that comes while a step of
 * a collection runs, or that a signal handler makes. Two threads whose calls begin within some nanoseconds may both miss it, and then the heap may be spoiled.
 * If MH_CHECKED is defined, for all files of a program, each call exchanges a word of the handle, and a second one is always MH_IN_USE. That is for tests: it
 * adds some 7 nanoseconds to a call.
 *
 * A thread writes into its handle. So handles end in bytes that nobody uses: two of an array share no line of the processor's cache, nor two lines that are
 * fetched together.
 */
enum { MH_APART = 128 };

typedef struct mh_world { void *at; struct mh_book *book; } mh_world;
#ifdef MH_CHECKED
typedef struct mh_mutator { void *at; struct mh_book *book; uint32_t made, used; uint64_t told; unsigned char apart[MH_APART]; } mh_mutator;
typedef struct mh_tracer { void *at; struct mh_book *book; uint64_t told; uint32_t used; unsigned char apart[MH_APART]; } mh_tracer;
#else
typedef struct mh_mutator { void *at; struct mh_book *book; uint32_t made; uint64_t told; unsigned char apart[MH_APART]; } mh_mutator;
typedef struct mh_tracer { void *at; struct mh_book *book; uint64_t told; unsigned char apart[MH_APART]; } mh_tracer;
#endif

/* How many variables a mutator has. */
enum { MH_VARIABLES = 32 };

/* Names from this one on are those that mh_open gives. */
#define MH_NAMES 0x80000000u

/* Sizes of a world: cells 64 to 16,777,216, a multiple of 64; references in an object 1 to 16; mutators 1 to 32; a name below MH_NAMES; tracers 0 to 8;
   1 where its objects are shared, else 0; and the slots of a mutator, 0 to 65,536 in a shared world and 0 in any other. A world takes no mutator and no tracer
   back from a world with another name. One whose name is 0 here gets a name that no other has. */
typedef struct mh_sizes {
    uint32_t cells;
    uint32_t fields;
    uint32_t mutators;
    uint32_t name;
    uint32_t tracers;
    uint32_t shared;
    uint32_t slots;
} mh_sizes;

/* Numbers of a world, each as it was read. */
typedef struct mh_numbers {
    uint32_t cells;  /* cells in all */
    uint64_t free;   /* cells free in blocks that no mutator has claimed */
    uint64_t marked; /* cells that the last cycle marked */
} mh_numbers;

/* A cycle that has ended. Times are in nanoseconds. */
typedef struct mh_cycle {
    uint64_t number;  /* how many cycles had ended in this world, with this one */
    uint64_t why;     /* MH_ASKED or MH_LACKED */
    uint64_t beside;  /* 1 if a cycle was marking beside the program as the world stopped, else 0. What it had marked was finished */
    uint64_t marked;  /* how long one was seen to mark beside the program, before the stop was asked for; 0 if none was seen */
    uint64_t tracers; /* how many objects tracers traced beside the program since the cycle before */
    uint64_t waited;  /* how long the world took to stop */
    uint64_t stopped; /* how long it stood still, */
    uint64_t swept;   /* and how long of that it was swept, and the cells in use were counted */
    uint64_t freed;   /* how many cells the collecting thread freed: those that helpers freed aren't among them */
    uint64_t kept;    /* how many cells are in use */
    uint64_t mutators; /* how many objects mutators traced beside the program since the cycle before, to pay for the cells that they took */
    uint64_t traced;  /* how many objects the collecting thread traced while the world stood still: those that helpers traced aren't among them; */
    uint64_t cleaned; /* and how many cards of 16 cells it cleaned then, since they were dirty */
    uint64_t rescanned; /* how many objects of those cards it scanned again */
    uint64_t exact;   /* 1 if it left no garbage, since it was precise or none was marking beside the program. 0: what died since the cycle began may be kept
                         until the next one */
    uint64_t wasted;  /* how many objects were traced for nothing beside the program, since a precise collection marked all anew: `tracers` and `mutators`
                         together if `beside` and `exact` are 1, else 0 */
} mh_cycle;

/* Why a cycle ended: a collection was asked for, or no cell was free for an object. */
enum { MH_ASKED = 0, MH_LACKED = 1 };

/* What mh_log_cycles has called with each cycle. */
typedef void mh_sink(void *context, const mh_cycle *cycle);

/* How far the collection of a mutator is: where it stands; 1 if it is to mark once more, and 1 if it read last that a cycle is marking, else 0; how many cells
   it has freed by its own sweep, how many in use it has counted, and how many objects it has scanned again; and, from the roots on, 1 if it leaves no garbage,
   else 0. At MH_AT_END its next step ends the cycle by these numbers. */
typedef struct mh_course {
    uint32_t stage;
    uint32_t again;
    uint32_t marking;
    uint32_t freed;
    uint32_t kept;
    uint32_t rescanned;
    uint32_t exact;
} mh_course;

/* How much a mutator has traced: objects, to pay for the cells that it took, since it was taken; and what its collection has done from the roots on: how many
   objects it has traced, and how many cards it has cleaned. */
typedef struct mh_work {
    uint64_t paid;
    uint32_t traced;
    uint32_t cleaned;
} mh_work;

/* A weak reference to an object of a shared world: plain numbers, which any thread may copy, compare and keep, and which keep no object. They are the world's
   name, the object's place, and what mh_number tells of it. */
typedef struct mh_weak {
    uint32_t world;
    uint32_t place;
    uint32_t section;
    uint32_t number;
} mh_weak;

/* What mh_look tells of an object: where it lies, as mh_place does, and its value. */
typedef struct mh_object {
    uint32_t place;
    uint32_t value;
} mh_object;

/* A stamp of a moment in a world: a plain number, which any thread may copy and keep. */
typedef struct mh_stamp {
    uint32_t world;
} mh_stamp;

/* Where a mutator stands: outside, inside, or between two steps of its collection. */
enum {
    MH_AT_OUTSIDE = 0, MH_AT_INSIDE = 1, MH_AT_STOP = 2, MH_AT_ROOTS = 3, MH_AT_DRAIN = 4, MH_AT_LOOK = 5, MH_AT_CLEAN = 6, MH_AT_CLEAR = 7, MH_AT_SWEEP = 8,
    MH_AT_COUNT = 9, MH_AT_END = 10, MH_AT_PART = 11, MH_AT_SHARE = 12, MH_AT_PASS = 13, MH_AT_EMPTY = 14, MH_AT_CLOSE = 15
};

/* What the library exports. Each takes a handle that isn't all zero: call the functions below. */
mh_status mhl_open(const mh_sizes *sizes, mh_world *world);
mh_status mhl_take_mutator(mh_world *world, mh_mutator *m);
mh_status mhl_give_back(mh_world *world, mh_mutator *m);
mh_status mhl_statistics(mh_world *world, mh_numbers *numbers);
mh_status mhl_close(mh_world *world);
mh_status mhl_enter_step(mh_mutator *m);
mh_status mhl_leave(mh_mutator *m);
mh_status mhl_pass(mh_mutator *m);
mh_status mhl_make(mh_mutator *m, uint32_t v, uint32_t value);
mh_status mhl_make_cached(mh_mutator *m, uint32_t v, uint32_t value);
mh_status mhl_refill_step(mh_mutator *m, uint32_t most);
mh_status mhl_make_with(mh_mutator *m, uint32_t v, uint32_t value, const uint32_t *fields, size_t count);
mh_status mhl_set(mh_mutator *m, uint32_t v, uint32_t i, uint32_t w);
mh_status mhl_get(mh_mutator *m, uint32_t w, uint32_t v, uint32_t i);
mh_status mhl_copy(mh_mutator *m, uint32_t w, uint32_t v);
mh_status mhl_forget(mh_mutator *m, uint32_t v);
mh_status mhl_put(mh_mutator *m, uint32_t v, uint32_t value);
mh_status mhl_value(mh_mutator *m, uint32_t v, uint32_t *out);
mh_status mhl_is_nil(mh_mutator *m, uint32_t v, uint32_t *out);
mh_status mhl_same(mh_mutator *m, uint32_t v, uint32_t w, uint32_t *out);
mh_status mhl_look(mh_mutator *m, uint32_t v, mh_object *what);
mh_status mhl_fields(mh_mutator *m, uint32_t v, uint32_t first, uint32_t count);
mh_status mhl_collect_step(mh_mutator *m, uint32_t most);
mh_status mhl_finish_step(mh_mutator *m, uint32_t most);
mh_status mhl_help_step(mh_mutator *m, uint32_t most);
mh_status mhl_is_stopping(mh_mutator *m, uint32_t *out);
mh_status mhl_root(mh_mutator *m, uint32_t v);
mh_status mhl_exchange(mh_mutator *m, uint32_t v, uint32_t i, uint32_t expected, uint32_t next, uint32_t *won);
mh_status mhl_exchange_value(mh_mutator *m, uint32_t v, uint32_t expected, uint32_t next, uint32_t *won);
mh_status mhl_spill(mh_mutator *m, uint32_t v, uint32_t k);
mh_status mhl_fill(mh_mutator *m, uint32_t v, uint32_t k);
mh_status mhl_forget_slots(mh_mutator *m, uint32_t from, uint32_t to);
mh_status mhl_place(mh_mutator *m, uint32_t v, uint32_t *place);
mh_status mhl_number(mh_mutator *m, uint32_t v, uint32_t *section, uint32_t *number);
mh_status mhl_weak_of(mh_mutator *m, uint32_t v, mh_weak *out);
mh_status mhl_upgrade(mh_mutator *m, const mh_weak *weak, uint32_t v);
mh_status mhl_deaths(mh_mutator *m, const mh_weak *weaks, size_t count, uint32_t v, uint32_t *dead, size_t room, uint32_t *many);
mh_status mhl_stamp_of(mh_mutator *m, mh_stamp *out);
mh_status mhl_after(mh_mutator *m, const mh_stamp *stamp);
mh_status mhl_take_tracer(mh_world *world, mh_tracer *t);
mh_status mhl_give_back_tracer(mh_world *world, mh_tracer *t);
mh_status mhl_trace_turn(mh_tracer *t);
mh_status mhl_help_turn(mh_tracer *t, uint32_t most);
mh_status mhl_dismiss_step(mh_world *world);
mh_status mhl_course(mh_mutator *m, mh_course *course);
mh_status mhl_work(mh_mutator *m, mh_work *work);
mh_status mhl_traced(mh_tracer *t, uint64_t *traced);

/* A call by the handle of a mutator or of a tracer. */
#ifdef MH_CHECKED
static inline uint32_t mh_is_used(uint32_t *used) { return __atomic_exchange_n(used, 1u, __ATOMIC_SEQ_CST); }
static inline mh_status mh_was_used(uint32_t *used, mh_status s) {
    __atomic_store_n(used, 0u, __ATOMIC_RELEASE);
    return s;
}
#define MH_BY(h, call) (mh_is_used(&(h)->used) ? MH_IN_USE : mh_was_used(&(h)->used, (h)->at ? (call) : MH_GIVEN_BACK))
#else
#define MH_BY(h, call) ((h)->at ? (call) : MH_GIVEN_BACK)
#endif

/* What the header itself keeps of a world, by atomic words: how many slots a mutator has, and the cycles. */

enum { MH_CYCLE_NUMBERS = 16 };

/* What threads wait for: that a mutator has left, that a stop ends, and that a cycle begins to mark. */
enum { MH_LEAVING = 0, MH_GOING_ON = 1, MH_MARKING = 2, MH_BELLS = 3 };

/* How often it has come while a thread slept that waits for it, and how many sleep. */
typedef struct mh_bell { uint32_t rung, sleepers; } mh_bell;

typedef struct mh_book {
    uint64_t (*watch)(void);
    mh_sink *sink;                   /* what is called with each cycle that has ended, */
    void *context;                   /* and with what besides */
    uint32_t prints;                 /* whether it is written besides */
    uint32_t slots;
    uint32_t turns;                  /* is raised before and after the last cycle is written */
    uint64_t last[MH_CYCLE_NUMBERS]; /* that cycle */
    uint64_t stage, why, beside;     /* of the collection under way */
    uint64_t began, asked, stopped, swept; /* when marking was first seen, and when it got so far */
    uint64_t traced, traced_before;  /* what all tracers have told, and had as the last cycle ended */
    uint64_t paid, paid_before;      /* and all mutators */
    uint64_t cells;
    mh_bell bells[MH_BELLS];
    uint64_t pressure, most_pressure; /* bytes told by mh_pressure since the last cycle, and how many bring a collection: 0 if none do */
} mh_book;

static inline uint64_t mh_noted(const uint64_t *number) { return __atomic_load_n(number, __ATOMIC_ACQUIRE); }
static inline void mh_note(uint64_t *number, uint64_t n) { __atomic_store_n(number, n, __ATOMIC_RELEASE); }
static inline void mh_add(uint64_t *number, uint64_t n) { __atomic_fetch_add(number, n, __ATOMIC_SEQ_CST); }

/* How long a thread that waits sleeps at most, in microseconds, though it isn't woken; and what it sleeps by, if the program sets that: it is handed how long, in
   microseconds. No call of the library is under way then, so a program may leave by longjmp from there, or let in a signal that is blocked elsewhere. Each file
   that includes this has the variable, and the linker keeps one. */
enum { MH_LONGEST = 1000 };
extern void (*mh_sleeps_by)(uint32_t microseconds);
__attribute__((weak)) void (*mh_sleeps_by)(uint32_t microseconds) = 0;

static inline void mh_sleep(uint32_t microseconds) {
    struct timeval t;
    if (mh_sleeps_by) { mh_sleeps_by(microseconds); return; }
    t.tv_sec = 0;
    t.tv_usec = (suseconds_t)microseconds;
    select(0, 0, 0, 0, &t);
}

/* Threads that sleep until something has come, and who wakes them. A thread that begins to sleep just as it comes may sleep as long as it does otherwise. */
#ifdef MH_FUTEX
extern long mh_system(long number, ...) __asm__("syscall");
enum { MH_WAIT = 128, MH_WAKE = 129, MH_ALL = 0x7fffffff };
static inline void mh_ring(mh_book *book, int which) {
    mh_bell *bell = &book->bells[which];
    if (!__atomic_load_n(&bell->sleepers, __ATOMIC_SEQ_CST)) return;
    __atomic_fetch_add(&bell->rung, 1u, __ATOMIC_SEQ_CST);
    mh_system(SYS_futex, &bell->rung, (long)MH_WAKE, (long)MH_ALL, 0l, 0l, 0l);
}
static inline void mh_sleep_until(mh_book *book, int which, uint32_t microseconds) {
    mh_bell *bell = &book->bells[which];
    struct { long seconds, nanoseconds; } most;
    uint32_t rung = __atomic_load_n(&bell->rung, __ATOMIC_SEQ_CST);
    if (mh_sleeps_by) { mh_sleeps_by(microseconds); return; }
    most.seconds = 0;
    most.nanoseconds = (long)microseconds * 1000;
    __atomic_fetch_add(&bell->sleepers, 1u, __ATOMIC_SEQ_CST);
    mh_system(SYS_futex, &bell->rung, (long)MH_WAIT, (long)rung, &most, 0l, 0l);
    __atomic_fetch_sub(&bell->sleepers, 1u, __ATOMIC_SEQ_CST);
    mh_sleep(0); /* where a thread may be cancelled */
}
#else
static inline void mh_ring(mh_book *book, int which) { (void)book; (void)which; }
static inline void mh_sleep_until(mh_book *book, int which, uint32_t microseconds) { (void)book; (void)which; mh_sleep(microseconds); }
#endif

/* The time, in nanoseconds: by a clock that nobody sets, if <time.h> has it, as under -std=gnu11 or with _POSIX_C_SOURCE. */
static inline uint64_t mh_now(void) {
#ifdef CLOCK_MONOTONIC
    struct timespec t;
    clock_gettime(CLOCK_MONOTONIC, &t);
    return (uint64_t)t.tv_sec * 1000000000u + (uint64_t)t.tv_nsec;
#else
    struct timeval t;
    gettimeofday(&t, 0);
    return (uint64_t)t.tv_sec * 1000000000u + (uint64_t)t.tv_usec * 1000u;
#endif
}

/* How long it was between two moments: 0 if the clock was set back meanwhile. */
static inline uint64_t mh_since(uint64_t from, uint64_t to) { return from < to ? to - from : 0; }

/* The cycle that the mutator is about to end is written. Nobody else writes one meanwhile, since the world stands still. */
static inline void mh_write_cycle(mh_book *book, const mh_course *course, const mh_work *work) {
    uint64_t now = book->watch(), began = mh_noted(&book->began), asked = mh_noted(&book->asked), stopped = mh_noted(&book->stopped);
    uint64_t traced = mh_noted(&book->traced), paid = mh_noted(&book->paid), number = mh_noted(&book->last[0]) + 1;
    uint64_t tracers = traced - mh_noted(&book->traced_before), mutators = paid - mh_noted(&book->paid_before), beside = mh_noted(&book->beside);
    __atomic_store_n(&book->turns, __atomic_load_n(&book->turns, __ATOMIC_RELAXED) + 1u, __ATOMIC_RELAXED);
    mh_note(&book->last[0], number);
    mh_note(&book->last[1], mh_noted(&book->why));
    mh_note(&book->last[2], beside);
    mh_note(&book->last[3], began ? mh_since(began, asked) : 0);
    mh_note(&book->last[4], tracers);
    mh_note(&book->last[5], mh_since(asked, stopped));
    mh_note(&book->last[6], mh_since(stopped, now));
    mh_note(&book->last[7], mh_since(mh_noted(&book->swept), now));
    mh_note(&book->last[8], course->freed);
    mh_note(&book->last[9], course->kept);
    mh_note(&book->last[10], mutators);
    mh_note(&book->last[11], work->traced);
    mh_note(&book->last[12], work->cleaned);
    mh_note(&book->last[13], course->rescanned);
    mh_note(&book->last[14], course->exact);
    mh_note(&book->last[15], beside && course->exact ? tracers + mutators : 0);
    __atomic_store_n(&book->turns, __atomic_load_n(&book->turns, __ATOMIC_RELAXED) + 1u, __ATOMIC_RELEASE);
    mh_note(&book->traced_before, traced);
    mh_note(&book->paid_before, paid);
    mh_note(&book->began, 0);
    mh_note(&book->pressure, 0);
}

/* What is noted of a collection after a step of it, by the mutator that has the stop. */
static inline void mh_note_course(mh_book *book, const mh_course *course, const mh_work *work, uint64_t why) {
    uint64_t before = mh_noted(&book->stage);
    if (course->stage == before) return;
    mh_note(&book->stage, course->stage);
    switch (course->stage) {
    case MH_AT_STOP:
        mh_note(&book->asked, book->watch());
        mh_note(&book->why, why);
        return;
    case MH_AT_ROOTS:
        if (before != MH_AT_STOP) return;
        mh_note(&book->stopped, book->watch());
        mh_note(&book->beside, course->marking);
        return;
    case MH_AT_SWEEP: mh_note(&book->swept, book->watch()); return;
    case MH_AT_END: mh_write_cycle(book, course, work); return;
    default: return;
    }
}

/* Adds what the mutator has traced to pay for its cells since it told last. It tells with each 64th object, when a call makes none, and before it leaves. */
static inline void mh_tell(mh_mutator *m, const mh_work *work) {
    mh_add(&m->book->paid, work->paid - m->told);
    m->told = work->paid;
}
static inline void mh_tell_paid(mh_mutator *m) {
    mh_work work;
    if (mhl_work(m, &work) == MH_OK && work.paid != m->told) mh_tell(m, &work);
}

/* A sink: writes the cycle as one line of words NAME=VALUE to a stream, the context, or to standard error if that is 0. docs/EMBEDDING_C.md has the names. */
static inline void mh_print_cycle(void *stream, const mh_cycle *c) {
    fprintf(stream ? (FILE *)stream : stderr,
            "mh: cycle=%llu why=%s beside=%llu marked_us=%.1f mutators=%llu tracers=%llu waited_us=%.1f stopped_us=%.1f swept_us=%.1f traced=%llu cleaned=%llu "
            "rescanned=%llu freed=%llu kept=%llu exact=%llu wasted=%llu\n",
            (unsigned long long)c->number, c->why == MH_ASKED ? "asked" : "lacked", (unsigned long long)c->beside, (double)c->marked / 1e3,
            (unsigned long long)c->mutators, (unsigned long long)c->tracers, (double)c->waited / 1e3, (double)c->stopped / 1e3, (double)c->swept / 1e3,
            (unsigned long long)c->traced, (unsigned long long)c->cleaned, (unsigned long long)c->rescanned, (unsigned long long)c->freed,
            (unsigned long long)c->kept, (unsigned long long)c->exact, (unsigned long long)c->wasted);
}
#ifdef MH_TRACED
/* Whether the environment asks for these lines. */
static inline int mh_is_traced(void) {
    const char *asked = getenv("MH_TRACE");
    return asked && *asked && (*asked != '0' || asked[1]);
}
#endif

/* The world: for one thread at a time. */

/* How many worlds got their names here. Each file that includes this has the variable, and the linker keeps one. */
extern uint32_t mh_names_given;
__attribute__((weak)) uint32_t mh_names_given = 0;

/* Opens a world. If MH_TRACED is defined, and the environment has MH_TRACE, neither empty nor 0, each cycle of the world is written to standard error as a line
   (mh_print_cycle). */
static inline mh_status mh_open(const mh_sizes *sizes, mh_world *w) {
    mh_sizes named = *sizes;
    mh_book *book;
    mh_status s;
    if (w->at) return MH_TAKEN;
    if (named.name >= MH_NAMES) return MH_OUT_OF_RANGE;
    if (!named.name) named.name = MH_NAMES + __atomic_fetch_add(&mh_names_given, 1u, __ATOMIC_RELAXED) % (MH_NAMES / 2u);
    book = (mh_book *)calloc(1, sizeof *book);
    if (!book) return MH_OUT_OF_MEMORY;
    book->watch = mh_now;
    book->slots = named.slots;
    book->cells = named.cells;
#ifdef MH_TRACED
    book->prints = (uint32_t)mh_is_traced();
#endif
    s = mhl_open(&named, w);
    if (s == MH_OK) w->book = book;
    else free(book);
    return s;
}
/* Takes one of its mutators: it is outside, with the variables as who had it last left them, or all nil. */
static inline mh_status mh_take_mutator(mh_world *w, mh_mutator *m) {
    mh_status s = !w->at ? MH_GIVEN_BACK : m->at ? MH_TAKEN : mhl_take_mutator(w, m);
    if (s == MH_OK) { m->book = w->book; m->made = 0; m->told = 0; }
    return s;
}
/* What lay behind a handle that was given back is the program's to free. */
static inline mh_status mh_emptied(void **at, mh_status s) {
    if (s == MH_OK) { free(*at); *at = 0; }
    return s;
}
static inline mh_status mh_given(mh_world *w, mh_mutator *m) {
    mh_status s;
    mh_tell_paid(m);
    s = mhl_give_back(w, m);
    if (s == MH_OK) { m->book = 0; m->told = 0; }
    return mh_emptied(&m->at, s);
}
/* Gives a mutator back, which leaves first. Its handle is all zero afterwards. What its variables refer to is kept, for whoever takes it next. */
static inline mh_status mh_give_back(mh_world *w, mh_mutator *m) { return MH_BY(m, w->at ? mh_given(w, m) : MH_GIVEN_BACK); }
static inline mh_status mh_statistics(mh_world *w, mh_numbers *numbers) { return w->at ? mhl_statistics(w, numbers) : MH_GIVEN_BACK; }
/* Takes one of its tracers. */
static inline mh_status mh_take_tracer(mh_world *w, mh_tracer *t) {
    mh_status s = !w->at ? MH_GIVEN_BACK : t->at ? MH_TAKEN : mhl_take_tracer(w, t);
    if (s == MH_OK) { t->book = w->book; mhl_traced(t, &t->told); }
    return s;
}
static inline mh_status mh_given_tracer(mh_tracer *t, mh_status s) {
    if (s == MH_OK) { t->book = 0; t->told = 0; }
    return mh_emptied(&t->at, s);
}
/* Gives a tracer back. Its handle is all zero afterwards. */
static inline mh_status mh_give_back_tracer(mh_world *w, mh_tracer *t) { return MH_BY(t, w->at ? mh_given_tracer(t, mhl_give_back_tracer(w, t)) : MH_GIVEN_BACK); }
/* Tells the tracers that they are dismissed, for good; MH_STOPPED if a stop is under way, and nothing is told. */
static inline mh_status mh_dismiss_step(mh_world *w) {
    mh_status s = w->at ? mhl_dismiss_step(w) : MH_GIVEN_BACK;
    if (s == MH_OK) mh_ring(w->book, MH_MARKING);
    return s;
}
/* Frees the heap; MH_STILL_LENT if a mutator or a tracer isn't back. The handle is all zero afterwards. */
static inline mh_status mh_close(mh_world *w) {
    mh_status s = w->at ? mh_emptied(&w->at, mhl_close(w)) : MH_GIVEN_BACK;
    if (s == MH_OK) { free(w->book); w->book = 0; }
    return s;
}
/* A whole cycle is read: again, while one is written. */
static inline mh_status mh_read_cycle(const mh_book *book, mh_cycle *cycle) {
    uint64_t n[MH_CYCLE_NUMBERS];
    uint32_t before, k;
    do {
        before = __atomic_load_n(&book->turns, __ATOMIC_ACQUIRE);
        for (k = 0; k < MH_CYCLE_NUMBERS; k++) n[k] = mh_noted(&book->last[k]);
    } while (before % 2u || before != __atomic_load_n(&book->turns, __ATOMIC_RELAXED));
    if (!n[0]) return MH_NOT_YET;
    cycle->number = n[0];
    cycle->why = n[1];
    cycle->beside = n[2];
    cycle->marked = n[3];
    cycle->tracers = n[4];
    cycle->waited = n[5];
    cycle->stopped = n[6];
    cycle->swept = n[7];
    cycle->freed = n[8];
    cycle->kept = n[9];
    cycle->mutators = n[10];
    cycle->traced = n[11];
    cycle->cleaned = n[12];
    cycle->rescanned = n[13];
    cycle->exact = n[14];
    cycle->wasted = n[15];
    return MH_OK;
}
/* The last cycle that has ended; MH_NOT_YET if none has, and nothing is written. Any thread may ask, while the world is open. */
static inline mh_status mh_last_cycle(const mh_world *w, mh_cycle *cycle) { return w->book ? mh_read_cycle(w->book, cycle) : MH_GIVEN_BACK; }

/* How full the world is: how many of 100 cells were in use as the last cycle ended, rounded up. What was garbage then counts too unless the cycle was exact.
   MH_NOT_YET if none has ended, and nothing is written. It takes no step. Any thread may ask, while the world is open. */
static inline mh_status mh_percent_kept(const mh_world *w, uint32_t *percent) {
    mh_cycle cycle;
    mh_status s = mh_last_cycle(w, &cycle);
    if (s == MH_OK) *percent = (uint32_t)((cycle.kept * 100u + w->book->cells - 1u) / w->book->cells);
    return s;
}

/* So many bytes, told by mh_pressure since the last cycle ended, bring a collection; 0, as at first: none do. Any thread may set it, while the world is open. */
static inline mh_status mh_limit_pressure(mh_world *w, uint64_t bytes) {
    if (!w->book) return MH_GIVEN_BACK;
    mh_note(&w->book->most_pressure, bytes);
    return MH_OK;
}

/* From now on the sink is called with each cycle that ends, once, by the thread that made the last step of its collection, in that call and after the world went
   on; no sink, and none is. It is set before the world's mutators are at work. Cycles that end one behind the other may be told beside each other or in another
   order: each has its number. The mutator of that thread may be inside meanwhile, so a sink that waits holds up the others' collections. */
static inline mh_status mh_log_cycles(mh_world *w, mh_sink *sink, void *context) {
    if (!w->book) return MH_GIVEN_BACK;
    w->book->context = context;
    w->book->sink = sink;
    return MH_OK;
}

/* A mutator: for one thread at a time. */

/* Enters the world, if no stop is under way. */
static inline mh_status mh_enter_step(mh_mutator *m) { return MH_BY(m, mhl_enter_step(m)); }
/* Leaves the world. What its variables refer to is kept. */
static inline mh_status mh_left(mh_mutator *m, mh_status s) {
    if (s == MH_OK) mh_ring(m->book, MH_LEAVING);
    return s;
}
static inline mh_status mh_leave(mh_mutator *m) { return MH_BY(m, (mh_tell_paid(m), mh_left(m, mhl_leave(m)))); }
/* What it has paid is told by a call that wasn't done, and that it left if it did. */
static inline void mh_tell_undone(mh_mutator *m, mh_status s) {
    mh_book *book = m->book; /* read before s is looked at: gcc 12 has -fsanitize=null test a thread's variable by flags that a comparison left */
    mh_tell_paid(m);
    if (s == MH_STOPPED || s == MH_FULL) mh_ring(book, MH_LEAVING);
}
static inline mh_status mh_told_unless_done(mh_mutator *m, mh_status s) {
    if (s != MH_OK) mh_tell_undone(m, s);
    return s;
}
/* A safe point: MH_STOPPED if the mutator left, as a stop is under way. */
static inline mh_status mh_safe_point_step(mh_mutator *m) { return MH_BY(m, mh_told_unless_done(m, mhl_pass(m))); }

/* Notes when a cycle is seen to mark first. Each 64th object of a mutator is looked at: it gets cells for as many at most at a time, and reads the phase then. */
static inline void mh_see_marking(mh_mutator *m) {
    mh_course course;
    uint64_t none = 0;
    if (mh_noted(&m->book->began) || mhl_course(m, &course) != MH_OK || !course.marking) return;
    __atomic_compare_exchange_n(&m->book->began, &none, m->book->watch(), 0, __ATOMIC_RELEASE, __ATOMIC_RELAXED);
    mh_ring(m->book, MH_MARKING);
}
/* An object is counted within the call that made it, so that no other call by the handle comes between. */
static inline mh_status mh_counted(mh_mutator *m, mh_status s) {
    if (s == MH_OK && ++m->made % 64u) return s;
    if (s == MH_OK) mh_see_marking(m);
    mh_tell_undone(m, s);
    return s;
}

/* v refers to a new object, whose fields are nil; MH_NO_CELL if no cell is free. It is a safe point too. */
static inline mh_status mh_make_step(mh_mutator *m, uint32_t v, uint32_t value) { return MH_BY(m, mh_counted(m, mhl_make(m, v, value))); }
/* As mh_make_step, but it looks for no cell: MH_NO_CACHE if no cell of the mutator's cache is free. So it takes few steps, whatever the heap's size. */
static inline mh_status mh_make_cached(mh_mutator *m, uint32_t v, uint32_t value) { return MH_BY(m, mh_counted(m, mhl_make_cached(m, v, value))); }
static inline mh_status mh_told_at_end(mh_mutator *m, mh_status s) {
    if (s != MH_NOT_YET) mh_tell_undone(m, s);
    return s;
}
/* The next step on the way to a cache with a free cell: MH_OK if the mutator has one, and MH_NOT_YET if there are more blocks to look at. It looks at no
   more than so many blocks of 64 cells. MH_NO_CELL where its steps looked at as many blocks as there are and found none, or where a cycle is done with marking:
   mh_finish or mh_finish_step, and if that leaves none, mh_collect or mh_collect_step. Where the cache has no free cell yet it is a safe point too. */
static inline mh_status mh_refill_step(mh_mutator *m, uint32_t most) { return MH_BY(m, mh_told_at_end(m, mhl_refill_step(m, most))); }

/* Stands for no variable among the fields of mh_make_with: that field stays nil. */
#define MH_NOTHING 0xffffffffu

/* v refers to a new object. Its first `count` fields become what the variables of these numbers are, as by mh_set in this order; the others stay nil. v itself
   stands for the new object there. All of it is done or nothing: MH_OUT_OF_RANGE where a number is neither below 32 nor MH_NOTHING, or where an object has fewer
   fields; else as mh_make_step. */
static inline mh_status mh_make_with_step(mh_mutator *m, uint32_t v, uint32_t value, const uint32_t *fields, uint32_t count) {
    uint32_t none = MH_NOTHING;
    return MH_BY(m, mh_counted(m, mhl_make_with(m, v, value, count ? fields : &none, count)));
}
/* Field i of v's object becomes w; MH_NIL if v is nil. */
static inline mh_status mh_set(mh_mutator *m, uint32_t v, uint32_t i, uint32_t w) { return MH_BY(m, mhl_set(m, v, i, w)); }
/* w becomes field i of v's object; nil if v is. */
static inline mh_status mh_get(mh_mutator *m, uint32_t w, uint32_t v, uint32_t i) { return MH_BY(m, mhl_get(m, w, v, i)); }
/* w becomes v. */
static inline mh_status mh_copy(mh_mutator *m, uint32_t w, uint32_t v) { return MH_BY(m, mhl_copy(m, w, v)); }
/* v becomes nil. */
static inline mh_status mh_forget(mh_mutator *m, uint32_t v) { return MH_BY(m, mhl_forget(m, v)); }
/* The value of v's object becomes this; MH_NIL if v is nil. */
static inline mh_status mh_put(mh_mutator *m, uint32_t v, uint32_t value) { return MH_BY(m, mhl_put(m, v, value)); }
/* The value of v's object; MH_NIL if v is nil. */
static inline mh_status mh_value(mh_mutator *m, uint32_t v, uint32_t *out) { return MH_BY(m, mhl_value(m, v, out)); }
/* 1 if v refers to nothing, else 0. */
static inline mh_status mh_is_nil(mh_mutator *m, uint32_t v, uint32_t *out) { return MH_BY(m, mhl_is_nil(m, v, out)); }
/* 1 if v and w refer to one object, or both to nothing, else 0. */
static inline mh_status mh_same(mh_mutator *m, uint32_t v, uint32_t w, uint32_t *out) { return MH_BY(m, mhl_same(m, v, w, out)); }
/* Where v's object lies, and its value, by one call: what mh_place and mh_value tell. MH_NIL if v is nil. */
static inline mh_status mh_look(mh_mutator *m, uint32_t v, mh_object *what) { return MH_BY(m, mhl_look(m, v, what)); }
/* The variables from `first` on become the first `count` fields of v's object, as by mh_get in this order: nil if v is. All of it is done or nothing:
   MH_OUT_OF_RANGE where there are not so many variables or fields, or where v is one of these variables. */
static inline mh_status mh_fields(mh_mutator *m, uint32_t v, uint32_t first, uint32_t count) { return MH_BY(m, mhl_fields(m, v, first, count)); }
static inline mh_status mh_noted_step(mh_mutator *m, mh_status s, uint64_t why) {
    mh_course course;
    mh_work work;
    if (s == MH_STOPPED) mh_tell_undone(m, s);
    if (s == MH_OK || s == MH_FULL) mh_ring(m->book, MH_GOING_ON);
    if (s != MH_NOT_YET || mhl_course(m, &course) != MH_OK || mhl_work(m, &work) != MH_OK) return s;
    mh_tell(m, &work);
    mh_note_course(m->book, &course, &work, why);
    return s;
}
/* What the mutator's next step ends is read before it, since others' cycles may end behind it. */
static inline void mh_see_end(mh_mutator *m, mh_cycle *ending) {
    mh_course course;
    if ((m->book->sink || m->book->prints) && mhl_course(m, &course) == MH_OK && course.stage == MH_AT_END) mh_read_cycle(m->book, ending);
}
static inline mh_status mh_logged(mh_mutator *m, const mh_cycle *ended, mh_status s) {
    if (!ended->number || (s != MH_OK && s != MH_STOPPED && s != MH_FULL)) return s;
    if (m->book->prints) mh_print_cycle(0, ended);
    if (m->book->sink) m->book->sink(m->book->context, ended);
    return s;
}
static inline mh_status mh_step_of(mh_mutator *m, int precise, uint32_t most) { return precise ? mhl_collect_step(m, most) : mhl_finish_step(m, most); }
static inline mh_status mh_step_for(mh_mutator *m, int precise, uint32_t most, uint64_t why) {
    mh_cycle ending;
    ending.number = 0;
    return mh_logged(m, &ending, MH_BY(m, (mh_see_end(m, &ending), mh_noted_step(m, mh_step_of(m, precise, most), why))));
}
/* The next step of a precise collection of the mutator's own, which leaves no garbage: at most so many roots, objects, cards of 16 cells or blocks of 64 are done
   in it. Blocks are cleared and swept in stretches (of 1 to 128, by the heap's size), and one at least. What a cycle had marked beside the program is finished,
   and all is marked anew: so the world stands still for as long as it takes to trace all that is kept. */
static inline mh_status mh_collect_step(mh_mutator *m, uint32_t most) { return mh_step_for(m, 1, most, MH_ASKED); }
/* The same of an ordinary collection: what a cycle had marked beside the program stays marked. So the world stands still shortly, and what died since the cycle
   began may be kept until the next one. A collection goes on as it was begun, by whichever of the two its steps are taken. */
static inline mh_status mh_finish_step(mh_mutator *m, uint32_t most) { return mh_step_for(m, 0, most, MH_ASKED); }
/* A mutator outside helps in another's collection, if that is open to helpers: it traces at most so many objects while it marks, or sweeps at most so many blocks
   of 64 cells (one stretch at least) while it sweeps. It is no helper any more when the call ends; until then that collection waits for it, as for a step of its
   own. MH_OK if it did some of the work. */
static inline mh_status mh_help_step(mh_mutator *m, uint32_t most) { return MH_BY(m, mhl_help_step(m, most)); }
/* 1 if its collection waits for the mutators that are inside, so that a rest is due before its next step, else 0. */
static inline mh_status mh_is_stopping(mh_mutator *m, uint32_t *out) { return MH_BY(m, mhl_is_stopping(m, out)); }

/* A stamp of this moment, for other mutators to come after: all that this one has done is before it. */
static inline mh_status mh_stamp_of(mh_mutator *m, mh_stamp *out) { return MH_BY(m, mhl_stamp_of(m, out)); }
/* The mutator goes on from all that had happened in its world at a moment of this call: in the one order that explains what each call found, its later steps stand
   behind that. So they stand behind all that the stamp's mutator had done, if the stamp was handed on as other memory is, by atomics, a lock or a join. No object or
   variable changes, and nobody waits. MH_REFUSED if the stamp is another world's, MH_COLLECTING while the mutator collects. */
static inline mh_status mh_after(mh_mutator *m, const mh_stamp *stamp) { return MH_BY(m, mhl_after(m, stamp)); }

/* What a mutator does only in a shared world, but for mh_place. Elsewhere each other is MH_NOT_SHARED. */

/* v becomes the root: the object that the world made as it opened, by which its mutators find each other's objects. */
static inline mh_status mh_root(mh_mutator *m, uint32_t v) { return MH_BY(m, mhl_root(m, v)); }
/* If field i of v's object is what the variable `expected` is, it becomes what the variable `next` is, in one step, and `won` 1, else 0. Either variable may
   be nil; MH_NIL where v is. */
static inline mh_status mh_exchange(mh_mutator *m, uint32_t v, uint32_t i, uint32_t expected, uint32_t next, uint32_t *won) {
    return MH_BY(m, mhl_exchange(m, v, i, expected, next, won));
}
/* If the value of v's object is the number `expected` it becomes the number `next`, in one step, and `won` 1, else 0. MH_NIL if v is nil. */
static inline mh_status mh_exchange_value(mh_mutator *m, uint32_t v, uint32_t expected, uint32_t next, uint32_t *won) {
    return MH_BY(m, mhl_exchange_value(m, v, expected, next, won));
}
/* Slot k becomes what v is, and keeps it reachable. */
static inline mh_status mh_spill(mh_mutator *m, uint32_t v, uint32_t k) { return MH_BY(m, mhl_spill(m, v, k)); }
/* v becomes what slot k is. */
static inline mh_status mh_fill(mh_mutator *m, uint32_t v, uint32_t k) { return MH_BY(m, mhl_fill(m, v, k)); }
/* The slots from `from` on and below `to` become nil. */
static inline mh_status mh_forget_slots(mh_mutator *m, uint32_t from, uint32_t to) { return MH_BY(m, mhl_forget_slots(m, from, to)); }
/* All variables become nil, and all slots. */
static inline mh_status mh_forget_all(mh_mutator *m) {
    mh_status s = MH_OK;
    uint32_t v;
    for (v = 0; s == MH_OK && v < MH_VARIABLES; v++) s = mh_forget(m, v);
    return s == MH_OK && m->book->slots ? mh_forget_slots(m, 0, m->book->slots) : s;
}
/* The place of v's object, a number below the world's number of cells. The object stays there as long as it is reachable, and meanwhile no other is there.
   MH_NIL where v is nil. */
static inline mh_status mh_place(mh_mutator *m, uint32_t v, uint32_t *place) { return MH_BY(m, mhl_place(m, v, place)); }
/* Which object v's is: the number of the mutator that made it, from 1 on, and how many that one had made before. The root's are 0 and 0. No two objects of a
   world have the same two. MH_NIL where v is nil. */
static inline mh_status mh_number(mh_mutator *m, uint32_t v, uint32_t *section, uint32_t *number) { return MH_BY(m, mhl_number(m, v, section, number)); }
/* A weak reference to v's object. If the mutator made the object it publishes first what it made. MH_UNPUBLISHED: another mutator made it and hasn't; MH_NIL
   where v is nil. */
static inline mh_status mh_weak_of(mh_mutator *m, uint32_t v, mh_weak *out) { return MH_BY(m, mhl_weak_of(m, v, out)); }
/* v becomes the weak reference's object, and keeps it: MH_OK. MH_DEAD: no path leads to the object from any variable, slot or field that is reached, none ever
   will, and v is nil. An object that is reached is never found dead; one that isn't lives until a cycle frees it. MH_OUT_OF_RANGE where the world has no such
   place, section or number, MH_REFUSED where the weak reference is another world's: nothing is done. */
static inline mh_status mh_upgrade(mh_mutator *m, const mh_weak *weak, uint32_t v) { return MH_BY(m, mhl_upgrade(m, weak, v)); }
/* How many cycles have ended in the mutator's world. It takes no step. While the number is the same, what mh_upgrade found alive isn't dead. */
static inline mh_status mh_cycles(mh_mutator *m, uint64_t *cycles) { return MH_BY(m, (*cycles = mh_noted(m->book->last), MH_OK)); }
/* Which of so many weak references have dead objects: `dead`, which has room for all, gets their numbers, from 0 on and in order, and `many` is how many they
   are. One that is all zero is none yet, and is passed over. v is nil afterwards. It takes 3 steps for each at most, one where nothing is in its cell, and 1
   more, and has no safe point: a large table is gone through in pieces, with a safe point between two. If one is refused, as by mh_upgrade, that is the answer,
   and those before it are told. Where the mutator isn't inside, or v is out of range, nothing is written. */
static inline mh_status mh_deaths(mh_mutator *m, const mh_weak *weaks, uint32_t count, uint32_t v, uint32_t *dead, uint32_t *many) {
    static const mh_weak none = {0, 0, 0, 0};
    uint32_t nowhere = 0;
    return MH_BY(m, mhl_deaths(m, count ? weaks : &none, count, v, count ? dead : &nowhere, count, many));
}

/* A tracer: for one thread at a time. */

static inline mh_status mh_told_turn(mh_tracer *t, mh_status s) {
    uint64_t traced;
    if (s == MH_OK && mhl_traced(t, &traced) == MH_OK) {
        mh_add(&t->book->traced, traced - t->told);
        t->told = traced;
    }
    return s;
}
/* One turn, which marks at most 64 objects and passes at most 1,024 cards: MH_OK if a cycle is marking, MH_IDLE if none is, MH_STOPPED if a stop is
   under way, MH_DISMISSED and MH_FULL where no turn is to follow. */
static inline mh_status mh_trace_turn(mh_tracer *t) { return MH_BY(t, mh_told_turn(t, mhl_trace_turn(t))); }
/* A tracer helps in a mutator's collection, as mh_help_step does: a turn after one that came to MH_STOPPED. */
static inline mh_status mh_help_turn(mh_tracer *t, uint32_t most) { return MH_BY(t, mhl_help_turn(t, most)); }

/* The calls that wait. Each goes on until it is done, and so rests on the other threads' safe points. */

/* How often a thread that waits yields, how often it then sleeps shortest, since most stops take some milliseconds and may want help later on, and how long
   that is, in microseconds. */
enum { MH_YIELDS = 16, MH_NAPS = 64, MH_SHORTEST = 50 };

/* A rest of a thread that waits begins: it yields, or else this is how long it sleeps at most. The count says how many went before, and is 0 at first. */
static inline uint32_t mh_begin_rest(uint32_t *count) {
    uint32_t before = *count, naps = MH_YIELDS + MH_NAPS;
    if (before < naps + 4) ++*count;
    if (before < MH_YIELDS) { sched_yield(); return 0; }
    if (before < naps) return MH_SHORTEST;
    return before < naps + 4 ? (uint32_t)MH_SHORTEST << (before - naps + 1) : (uint32_t)MH_LONGEST;
}
/* One rest of a thread that waits for what rings no bell. */
static inline void mh_rest(uint32_t *count) {
    uint32_t sleep = mh_begin_rest(count);
    if (sleep) mh_sleep(sleep);
}
/* One rest of a thread that waits until a bell rings. */
static inline void mh_rest_until(mh_book *book, int which, uint32_t *count) {
    uint32_t sleep = mh_begin_rest(count);
    if (sleep) mh_sleep_until(book, which, sleep);
}

/* How many objects or blocks a step of help does. */
enum { MH_HELP = 1024 };

/* Enters the world, as soon as no stop is under way, and helps meanwhile. */
static inline mh_status mh_enter(mh_mutator *m) {
    uint32_t rests = 0;
    mh_status s;
    while ((s = mh_enter_step(m)) == MH_STOPPED) {
        if (mh_help_step(m, MH_HELP) == MH_OK) rests = 0;
        else mh_rest_until(m->book, MH_GOING_ON, &rests);
    }
    return s;
}

/* A safe point: each loop that runs long and makes nothing has one. */
static inline mh_status mh_safe_point(mh_mutator *m) {
    mh_status s = mh_safe_point_step(m);
    return s == MH_STOPPED ? mh_enter(m) : s;
}

/* How many roots, objects, cards or blocks a step of mh_collect does. */
enum { MH_STEP = 4096 };

/* A collection, with rests while others are inside, or help. `last` becomes how far it was before its last step: at MH_AT_END, unless another's collection came
   first. */
static inline mh_status mh_collect_once(mh_mutator *m, int precise, uint64_t why, mh_course *last) {
    uint32_t rests = 0, stopping;
    mh_status s;
    last->stage = MH_AT_OUTSIDE;
    while ((s = mh_step_for(m, precise, MH_STEP, why)) == MH_NOT_YET) {
        (void)MH_BY(m, mhl_course(m, last));
        if (mh_is_stopping(m, &stopping) == MH_OK && stopping) mh_rest_until(m->book, MH_LEAVING, &rests);
        else if (last->stage == MH_AT_PART || last->stage == MH_AT_CLOSE) sched_yield();
    }
    return s == MH_STOPPED ? mh_enter(m) : s;
}

/* A precise collection of the mutator's own, which leaves no garbage. If another's comes first it begins anew. */
static inline mh_status mh_collect(mh_mutator *m) {
    mh_course last;
    mh_status s;
    do s = mh_collect_once(m, 1, MH_ASKED, &last);
    while (s == MH_OK && !(last.stage == MH_AT_END && last.exact));
    return s;
}

/* An ordinary collection: it finishes the cycle that is marking, if one is, and what died since that began may be kept. MH_OK too if another's came first. */
static inline mh_status mh_finish(mh_mutator *m) {
    mh_course last;
    return mh_collect_once(m, 0, MH_ASKED, &last);
}

/* Tells that the program has allocated so many bytes beside the heap that it frees once an object is dead. If all that mutators told since the last cycle ended
   are as many as mh_limit_pressure says, it makes an ordinary collection, whose end sets the count to 0. Then what died since its cycle began may be kept, and
   the bytes beside it; if no cycle was marking, all is marked in the stop. Where it collects it is a safe point. MH_OUTSIDE: the bytes are counted, and a
   collection is due, which a mutator inside makes. */
static inline mh_status mh_pressure(mh_mutator *m, uint64_t bytes) {
    uint64_t told = 0, most = 0;
    mh_status s = MH_BY(m, (told = __atomic_add_fetch(&m->book->pressure, bytes, __ATOMIC_SEQ_CST), most = mh_noted(&m->book->most_pressure), MH_OK));
    return s == MH_OK && most && told >= most ? mh_finish(m) : s;
}

/* How many collections of its own mh_make makes for one object, before it answers MH_NO_CELL. The first is ordinary, and the others are precise. */
enum { MH_TRIES = 3 };

/* What a call does that makes an object, if a step came to s and made none: MH_OK if it is to take the next step. */
static inline mh_status mh_make_room(mh_mutator *m, mh_status s, int *tries) {
    mh_course last;
    if (s == MH_STOPPED) return mh_enter(m);
    if (s != MH_NO_CELL || *tries == MH_TRIES) return s;
    s = mh_collect_once(m, *tries > 0, MH_LACKED, &last);
    if (last.stage == MH_AT_END) ++*tries;
    return s;
}

/* v refers to a new object, whose fields are nil, with a collection if no cell is free. MH_NO_CELL: the collections left none for this mutator; others have
   taken what they freed. */
static inline mh_status mh_make(mh_mutator *m, uint32_t v, uint32_t value) {
    int tries = 0;
    mh_status s;
    while ((s = mh_make_step(m, v, value)) != MH_OK && (s = mh_make_room(m, s, &tries)) == MH_OK) {}
    return s;
}

/* v refers to a new object, whose first `count` fields become what the variables of these numbers are: mh_make_with_step, with a collection if no cell is
   free. */
static inline mh_status mh_make_with(mh_mutator *m, uint32_t v, uint32_t value, const uint32_t *fields, uint32_t count) {
    int tries = 0;
    mh_status s;
    while ((s = mh_make_with_step(m, v, value, fields, count)) != MH_OK && (s = mh_make_room(m, s, &tries)) == MH_OK) {}
    return s;
}

/* One step of mh_abandon, which doesn't wait: MH_NOT_YET if a step more is to be made, MH_STOPPED if another's collection is under way. A step of a collection
   that was begun does at most so many roots, objects, cards or blocks. */
static inline mh_status mh_abandon_step(mh_world *w, mh_mutator *m, int keeps, uint32_t most) {
    mh_status s;
    if (!w->at) return MH_GIVEN_BACK;
    if (m->at && m->book != w->book) return MH_REFUSED;
    s = mh_leave(m);
    if (s == MH_COLLECTING) {
        s = mh_collect_step(m, most);
        return s == MH_OK || s == MH_STOPPED || s == MH_FULL ? MH_NOT_YET : s;
    }
    if (s == MH_OK && !keeps) s = mh_enter_step(m);
    if (s == MH_OK && !keeps) s = mh_forget_all(m);
    return s == MH_OK || s == MH_FULL ? mh_give_back(w, m) : s;
}

/* Gives up a handle that no thread uses any more, as the caller says: its thread has ended, or has jumped away over the calls of this header. A collection
   that it had begun is made to its end; its variables and slots stay as they are for who takes the mutator next, or become nil where `keeps` is 0 and the heap
   isn't full for good; it leaves, and goes back. The handle is all zero afterwards. MH_IN_USE: the thread was in a call of the library itself, and nothing was
   done; what that call did isn't known, and there is no way out. MH_REFUSED: the mutator is another world's. The caller is outside by its own handle, since it
   may wait here. */
static inline mh_status mh_abandon(mh_world *w, mh_mutator *m, int keeps) {
    uint32_t rests = 0, stopping;
    mh_status s;
    while ((s = mh_abandon_step(w, m, keeps, MH_STEP)) == MH_NOT_YET || s == MH_STOPPED)
        if (s == MH_STOPPED) mh_rest_until(w->book, MH_GOING_ON, &rests);
        else if (mh_is_stopping(m, &stopping) == MH_OK && stopping) mh_rest_until(w->book, MH_LEAVING, &rests);
    return s;
}

/* What a tracer does between two turns, the first of which came to s: it yields if a cycle is marking, rests if a stop is under way, and sleeps longest
   where there is nothing to do. The count is as for mh_rest. */
static inline void mh_rest_turn(mh_status s, uint32_t *count) {
    int k;
    if (s == MH_STOPPED) { mh_rest(count); return; }
    *count = 0;
    if (s == MH_IDLE) mh_sleep(MH_LONGEST);
    else for (k = 0; k < MH_YIELDS; k++) sched_yield();
}

/* Marks beside the mutators, turn by turn, and helps in their collections, until the world dismisses its tracers (MH_DISMISSED) or the heap is full (MH_FULL): what a
   thread with a tracer runs. */
static inline mh_status mh_trace(mh_tracer *t) {
    uint32_t rests = 0;
    mh_status s;
    while ((s = mh_trace_turn(t)) == MH_OK || s == MH_IDLE || s == MH_STOPPED) {
        if (s == MH_STOPPED && mh_help_turn(t, MH_HELP) == MH_OK) rests = 0;
        else if (s == MH_STOPPED) mh_rest_until(t->book, MH_GOING_ON, &rests);
        else if (s == MH_IDLE) mh_sleep_until(t->book, MH_MARKING, MH_LONGEST);
        else mh_rest_turn(s, &rests);
    }
    return s;
}

/* Tells the tracers that they are dismissed: each mh_trace ends, and so does each later one. */
static inline mh_status mh_dismiss(mh_world *w) {
    uint32_t rests = 0;
    mh_status s;
    while ((s = mh_dismiss_step(w)) == MH_STOPPED) mh_rest_until(w->book, MH_GOING_ON, &rests);
    return s;
}

#ifdef __cplusplus
}
#endif
#endif
