/* Threads that share the objects of one world. Each has a mutator and a number; tracers mark beside them. */
#ifndef TEAM_H
#define TEAM_H

#include "heap.h"

/* What a thread does by its mutator, inside the world. */
typedef void work_of(mh_mutator *m, uint32_t number);

struct member { mh_mutator m; uint32_t number; work_of *work; };

/* How many cycles marked something beside the program while threads acted together. */
static uint64_t beside;

/* The world is left while a thread waits for others, since their collections wait for it. */
static inline void rest(mh_mutator *m) {
    MUST(mh_leave(m));
    sched_yield();
    MUST(mh_enter(m));
}

/* A new object. If the others' objects fill all cells it waits until they let go of some. */
static inline void make(mh_mutator *m, uint32_t v, uint32_t value) {
    mh_status s;
    while ((s = mh_make(m, v, value)) == MH_NO_CELL) rest(m);
    must(s, MH_OK, "mh_make", __FILE__, __LINE__);
}

static inline uint32_t value_of(mh_mutator *m, uint32_t v) {
    uint32_t value = 0;
    MUST(mh_value(m, v, &value));
    return value;
}

static inline int is_nil(mh_mutator *m, uint32_t v) {
    uint32_t nil = 0;
    MUST(mh_is_nil(m, v, &nil));
    return nil != 0;
}

static inline int are_one(mh_mutator *m, uint32_t v, uint32_t w) {
    uint32_t one = 0;
    MUST(mh_same(m, v, w, &one));
    return one != 0;
}

/* Whether field i of v's object was what the variable `expected` is, and is `next` now. */
static inline int exchange(mh_mutator *m, uint32_t v, uint32_t i, uint32_t expected, uint32_t next) {
    uint32_t won = 2;
    MUST(mh_exchange(m, v, i, expected, next, &won));
    if (won > 1) wrong("whether an exchange was won", won, 1);
    return won != 0;
}

/* Whether the value of v's object was this, and is the next now. */
static inline int exchange_value(mh_mutator *m, uint32_t v, uint32_t expected, uint32_t next) {
    uint32_t won = 2;
    MUST(mh_exchange_value(m, v, expected, next, &won));
    if (won > 1) wrong("whether an exchange was won", won, 1);
    return won != 0;
}

static inline uint32_t random_below(uint64_t *seed, uint32_t n) {
    *seed ^= *seed << 13;
    *seed ^= *seed >> 7;
    *seed ^= *seed << 17;
    return (uint32_t)(*seed >> 32) % n;
}

static void *act(void *p) {
    struct member *e = p;
    MUST(mh_enter(&e->m));
    e->work(&e->m, e->number);
    MUST(mh_leave(&e->m));
    return 0;
}

static void *mark_beside(void *p) {
    MUST_BE(MH_DISMISSED, mh_trace((mh_tracer *)p));
    return 0;
}

/* Opens a shared world, lets mutator 0 begin alone, then all work at once, then mutator 0 end alone, and closes the world. What mutator 0's variables refer to
   it has from one part to the next. */
static void act_together(uint32_t cells, uint32_t fields, uint32_t slots, uint32_t threads, uint32_t tracers, work_of *begin, work_of *work, work_of *end) {
    static struct member members[THREADS];
    static mh_tracer marks[8];
    mh_sizes sizes = {.cells = cells, .fields = fields, .mutators = threads, .tracers = tracers, .shared = 1, .slots = slots};
    mh_world world = {0};
    pthread_t acting[THREADS], marking[8];
    uint32_t k;
    MUST(mh_open(&sizes, &world));
    MUST(mh_log_cycles(&world, count_beside, &beside));
    for (k = 0; k < threads; k++) {
        MUST(mh_take_mutator(&world, &members[k].m));
        members[k].number = k;
        members[k].work = begin;
    }
    for (k = 0; k < tracers; k++) {
        MUST(mh_take_tracer(&world, &marks[k]));
        if (pthread_create(&marking[k], 0, mark_beside, &marks[k])) exit(2);
    }
    act(&members[0]);
    for (k = 0; k < threads; k++) {
        members[k].work = work;
        if (pthread_create(&acting[k], 0, act, &members[k])) exit(2);
    }
    for (k = 0; k < threads; k++) pthread_join(acting[k], 0);
    members[0].work = end;
    act(&members[0]);
    MUST_BE(MH_STILL_LENT, mh_close(&world));
    MUST(mh_dismiss(&world));
    for (k = 0; k < tracers; k++) {
        pthread_join(marking[k], 0);
        MUST(mh_give_back_tracer(&world, &marks[k]));
    }
    for (k = 0; k < threads; k++) MUST(mh_give_back(&world, &members[k].m));
    MUST(mh_close(&world));
}

#endif
