/*
 * What each thread of torture.c and map.c has for itself, so that they notice a lost barrier or root: a shelf, which is an object in a variable, and short lists, each
 * in a slot. While a cycle marks, which comes to slots only in the stop, the lists move, each by its one reference, from the slots to the shelf's fields, and after the
 * cycle back. Then each of their objects is to be alive, and the one that was put there.
 */
#ifndef SHELF_H
#define SHELF_H

#include "going_on.h"
#include "team.h"

enum { SHELVED = 3, LISTED = 4 };

#ifdef OVER_BOEHM
/* That collector tells no cycles, and there are no slots. */
struct shelf { uint32_t shelf, moved, found, nil, exchanges; };
static inline void begin_shelf(mh_mutator *m, struct shelf *s) { (void)m; (void)s; }
static inline int tend_shelf(mh_mutator *m, struct shelf *s) { (void)m; (void)s; return 0; }
static inline void collect_slowly(mh_mutator *m, uint32_t most, uint32_t precise) { (void)m; (void)most; (void)precise; }
#else
/* The variables that it has, and whether it stores by exchanges; weak references to the shelf and to the lists' objects; how many lists are in its fields, and how many
   cycles had ended by then. */
struct shelf {
    uint32_t shelf, moved, found, nil, exchanges;
    mh_weak itself, of[SHELVED][LISTED];
    uint32_t filled;
    uint64_t cycles;
};

/* Slot k has the k-th list. */
static inline void begin_shelf(mh_mutator *m, struct shelf *s) {
    uint32_t k, i;
    make(m, s->shelf, 0);
    MUST(mh_weak_of(m, s->shelf, &s->itself));
    for (k = 0; k < SHELVED; k++) {
        MUST(mh_forget(m, s->found));
        for (i = LISTED; i--; MUST(mh_copy(m, s->found, s->moved))) {
            make(m, s->moved, k);
            MUST(mh_weak_of(m, s->moved, &s->of[k][i]));
            MUST(mh_set(m, s->moved, 0, s->found));
        }
        MUST(mh_spill(m, s->moved, k));
    }
    MUST(mh_forget(m, s->moved));
    MUST(mh_forget(m, s->found));
    MUST(mh_cycles(m, &s->cycles));
}

/* Field k, which is what one variable is, becomes what the other is. */
static inline void put_on_shelf(mh_mutator *m, const struct shelf *s, uint32_t k, uint32_t from, uint32_t to) {
    if (!s->exchanges) MUST(mh_set(m, s->shelf, k, to));
    else wrong("whether an exchange in an object of one's own was won", (uint64_t)exchange(m, s->shelf, k, from, to), 1);
}

/* v's object is alive, and the one of the weak reference. */
static inline void is_kept(mh_mutator *m, const struct shelf *s, uint32_t v, const mh_weak *weak) {
    mh_status alive = mh_upgrade(m, weak, s->found);
    wrong("whether an object that is kept is dead", alive == MH_DEAD, 0);
    must(alive, MH_OK, "mh_upgrade", __FILE__, __LINE__);
    wrong("whether it is the one that was kept", (uint64_t)are_one(m, v, s->found), 1);
    MUST(mh_forget(m, s->found));
}

static inline void fill_shelf(mh_mutator *m, struct shelf *s) {
    uint32_t k = s->filled++;
    MUST(mh_fill(m, s->moved, k));
    MUST(mh_forget_slots(m, k, k + 1));
    put_on_shelf(m, s, k, s->nil, s->moved);
    MUST(mh_forget(m, s->moved));
}

/* The k-th list begins at the object of `moved` then. */
static inline void take_list(mh_mutator *m, const struct shelf *s, uint32_t k) {
    if (k < s->filled) MUST(mh_get(m, s->moved, s->shelf, k));
    else MUST(mh_fill(m, s->moved, k));
}

static inline void look_at_shelf(mh_mutator *m, struct shelf *s) {
    uint32_t k, i;
    is_kept(m, s, s->shelf, &s->itself);
    for (k = 0; k < SHELVED; k++) {
        take_list(m, s, k);
        for (i = 0; i < LISTED; i++, MUST(mh_get(m, s->moved, s->moved, 0))) is_kept(m, s, s->moved, &s->of[k][i]);
        take_list(m, s, k);
        MUST(mh_spill(m, s->moved, k));
        if (k < s->filled) put_on_shelf(m, s, k, s->moved, s->nil);
    }
    MUST(mh_forget(m, s->moved));
    s->filled = 0;
}

/* Looks after each cycle at all of it; and while one marks moves the next list. Whether a cycle has ended since the last call. */
static inline int tend_shelf(mh_mutator *m, struct shelf *s) {
    mh_course course = {0};
    uint64_t cycles = 0;
    MUST(mh_cycles(m, &cycles));
    if (cycles != s->cycles) {
        s->cycles = cycles;
        look_at_shelf(m, s);
        return 1;
    }
    if (s->filled < SHELVED && mhl_course(m, &course) == MH_OK && course.marking) fill_shelf(m, s);
    return 0;
}

/* A collection in small steps, precise or ordinary: MH_OK too if another's came first. */
static inline void collect_slowly(mh_mutator *m, uint32_t most, uint32_t precise) {
    uint32_t stopping;
    mh_status s;
    while ((s = precise ? mh_collect_step(m, most) : mh_finish_step(m, most)) == MH_NOT_YET) {
        MUST(mh_is_stopping(m, &stopping));
        if (stopping) sched_yield();
    }
    if (s == MH_STOPPED) MUST(mh_enter(m));
    else must(s, MH_OK, "a step of a collection", __FILE__, __LINE__);
}
#endif

#endif
