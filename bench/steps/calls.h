/* The kinds of call that bench/steps/longest.c tells apart, by the call and by the kinds of the steps that it took, and what the longest of each came to. */
#ifndef CALLS_H
#define CALLS_H

#include "kinds.h"
#include <inttypes.h>
#include <string.h>

/* How many steps of each kind this thread took. */
extern _Thread_local uint64_t mh_steps_taken[ROOM];

enum call {
    NOTHING, SETS, GETS, PUTS, COPIES, FORGETS, ASKS_VALUE, ASKS_NIL, ASKS_SAME, ROOTS, EXCHANGES, EXCHANGES_VALUE, SPILLS, FILLS, FORGETS_SLOTS, PLACES, NUMBERS,
    ENTERS, ENTERS_NOT, LEAVES, PASSES, PASSES_NOT, MAKES, MAKES_SEARCHING, MAKES_NOT, MAKES_CACHED, LACKS_CACHE, CACHED_NOT, REFILLS,
    REFILLS_NOT, TRACES_TURN,
    COLLECTS, ASKS, WAITS, BEGINS, SEES_ROOTS, TRACES, LOOKS, CLEANS, CLEARS, SWEEPS, COUNTS, ENDS, CALLS
};
static const char *const call_names[CALLS] = {
    "nothing", "set", "get", "put", "copy", "forget", "value", "is_nil", "same", "root", "exchange", "exchange_value", "spill", "fill", "forget_slots", "place",
    "number", "enter", "enter: stopped", "leave", "safe_point", "safe_point: stopped", "make", "make: searched", "make: none", "make_cached",
    "make_cached: no cache", "make_cached: stopped", "refill", "refill: not yet", "trace_turn", "collect", "collect: asks", "collect: waits", "collect: begins",
    "collect: roots", "collect: traces", "collect: looks", "collect: cleans", "collect: clears", "collect: sweeps", "collect: counts", "collect: ends"
};

/* Calls of a kind: how many, the longest time and the most steps of one, and of which kinds these were. A call in which the kernel took the processor from its
   thread says nothing of its time: these are disturbed. A call that is shorter than SWITCH, in nanoseconds, isn't. */
struct longest { uint64_t calls, disturbed, nanos, steps, kinds[KINDS]; };
enum { SWITCH = 10000 };

/* A thread, its mutator or tracer, and its calls. */
struct caller {
    mh_mutator m;
    mh_tracer t;
    mh_status answer;
    pthread_t thread;
    uint64_t from, seed, switches;
    struct longest of[CALLS];
};

static inline uint64_t nanos(void) {
    struct timespec t;
    clock_gettime(CLOCK_MONOTONIC, &t);
    return (uint64_t)t.tv_sec * 1000000000u + (uint64_t)t.tv_nsec;
}

static inline uint32_t random_below(struct caller *t, uint32_t n) {
    t->seed ^= t->seed << 13;
    t->seed ^= t->seed >> 7;
    t->seed ^= t->seed << 17;
    return (uint32_t)(t->seed >> 32) % n;
}

/* Which step of a collection a call was, by its steps. */
static inline enum call stage(const uint64_t *took) {
    if (took[RaiseStep]) return ASKS;
    if (took[DropStep]) return ENDS;
    if (took[StoreAlloc]) return SWEEPS;
    if (took[ClearMarks]) return CLEARS;
    if (took[ReadRoot] || took[LoadSlot]) return SEES_ROOTS;
    if (took[ReadCard]) return took[Take] || took[Give] || took[ClearCard] ? CLEANS : LOOKS;
    if (took[Pop] || took[Look] || took[Take]) return TRACES;
    return took[ReadAlloc] ? COUNTS : took[StorePhase] ? BEGINS : WAITS;
}

/* The kind of a call that came to this, with its steps. */
static inline enum call kind(enum call by, mh_status answer, const uint64_t *took) {
    switch (by) {
    case COLLECTS: return stage(took);
    case MAKES: return answer != MH_OK ? MAKES_NOT : took[ReadAlloc] || took[ClaimBlock] || took[ReadStat] ? MAKES_SEARCHING : MAKES;
    case MAKES_CACHED: return answer == MH_OK ? MAKES_CACHED : answer == MH_NO_CACHE ? LACKS_CACHE : CACHED_NOT;
    case REFILLS: return answer == MH_NOT_YET || answer == MH_NO_CELL ? REFILLS_NOT : REFILLS;
    case ENTERS: return answer == MH_OK ? ENTERS : ENTERS_NOT;
    case PASSES: return answer == MH_OK ? PASSES : PASSES_NOT;
    default: return by;
    }
}

/* Whether the kernel took the processor from this thread since it was asked last. */
static inline int was_switched(struct caller *t) {
    struct rusage u;
    uint64_t before = t->switches;
    getrusage(RUSAGE_THREAD, &u);
    t->switches = (uint64_t)(u.ru_nvcsw + u.ru_nivcsw);
    return t->switches != before;
}

static inline void begin_call(struct caller *t) {
    memset(mh_steps_taken, 0, sizeof mh_steps_taken);
    t->from = nanos();
}

static inline mh_status end_call(struct caller *t, enum call by, mh_status answer) {
    uint64_t took = nanos() - t->from, steps = 0, k;
    struct longest *it = &t->of[kind(by, answer, mh_steps_taken)];
    for (k = 0; k < KINDS; k++) steps += mh_steps_taken[k];
    it->calls++;
    if (took > SWITCH && was_switched(t)) it->disturbed++;
    else if (took > it->nanos) it->nanos = took;
    if (steps > it->steps) {
        it->steps = steps;
        memcpy(it->kinds, mh_steps_taken, sizeof it->kinds);
    }
    return t->answer = answer;
}

#define BY(t, kind, call) (begin_call(t), end_call(t, kind, call))
#define DOES(t, kind, call) must(BY(t, kind, call), MH_OK, #call, __FILE__, __LINE__)

/* The calls of another thread come to those of this one. */
static inline void add_calls(struct caller *t, const struct caller *other) {
    uint32_t k;
    for (k = 0; k < CALLS; k++) {
        const struct longest *from = &other->of[k];
        struct longest *it = &t->of[k];
        it->calls += from->calls;
        it->disturbed += from->disturbed;
        if (from->nanos > it->nanos) it->nanos = from->nanos;
        if (from->steps > it->steps) {
            it->steps = from->steps;
            memcpy(it->kinds, from->kinds, sizeof it->kinds);
        }
    }
}

/* A line for each kind of call: its name, calls, disturbed ones, most steps, longest time; and of which kinds the steps were. */
static inline void tell_calls(const struct caller *t) {
    uint32_t k, i;
    for (k = 0; k < CALLS; k++) {
        const struct longest *it = &t->of[k];
        if (!it->calls) continue;
        printf("%s;%" PRIu64 ";%" PRIu64 ";%" PRIu64 ";%" PRIu64 ";", call_names[k], it->calls, it->disturbed, it->steps, it->nanos);
        for (i = 0; i < KINDS; i++) if (it->kinds[i]) printf(" %s %" PRIu64, kind_names[i], it->kinds[i]);
        printf("\n");
    }
}

#endif
