/* The calls at random of fuzz.c by which all roots are let go of, and handles are given up, and what is known of the cycles meanwhile. */
#ifndef GIVING_UP_H
#define GIVING_UP_H

#include "shadow.h"

/* A world that has none of the handles. */
static mh_world elsewhere;

static void forget_roots(struct job *j) {
    uint32_t k;
    for (k = 0; k < VARIABLES; k++) j->variable[k] = -1;
    for (k = 0; k < SLOTS; k++) j->slot[k] = -1;
}

static void forget_all(struct job *j) {
    mh_status wanted = expected(j, 1);
    SAYS(wanted, mh_forget_all(&j->m));
    if (wanted == MH_OK) forget_roots(j);
}

/* One step by which the handle is given up; if it was the last, the mutator is taken again, by which it can't be another's. */
static mh_status abandon_step(struct job *j, int keeps) {
    mh_status s;
    pthread_mutex_lock(&lending);
    s = told(j, mh_abandon_step(&world, &j->m, keeps, 1 + random_below(j, 1000)));
    if (s == MH_OK) MUST(mh_take_mutator(&world, &j->m));
    pthread_mutex_unlock(&lending);
    return s;
}

/* The handle is given up, wherever its mutator stands, with the variables kept or dropped. */
static void abandon(struct job *j) {
    int keeps = random_below(j, 4) != 0;
    mh_status s;
    SAYS(MH_REFUSED, mh_abandon_step(&elsewhere, &j->m, keeps, 1));
    if (j->place == COLLECTING) SAYS(MH_OUT_OF_RANGE, mh_abandon_step(&world, &j->m, keeps, 0));
    while ((s = abandon_step(j, keeps)) != MH_OK) {
        if (s != MH_STOPPED) must(s, MH_NOT_YET, "mh_abandon_step", __FILE__, __LINE__);
        sched_yield();
    }
    j->place = OUTSIDE;
    if (!keeps) forget_roots(j);
}

/* The last cycle has no smaller number than one that was told before, and no more cells than there are. */
static void look_at_cycle(struct job *j) {
    mh_cycle cycle = {0, 77, 77, 0, 0, 0, 0, 0, 0, 0, 0, 0, 0, 0, 0, 0};
    uint64_t cycles = 77;
    mh_status s = told(j, mh_last_cycle(&world, &cycle));
    SAYS(MH_OK, mh_cycles(&j->m, &cycles));
    if (s == MH_NOT_YET) { wrong("a cycle that is written where none has ended", cycle.why, 77); wrong("how many were told", j->cycles, 0); return; }
    must(s, MH_OK, "mh_last_cycle", __FILE__, __LINE__);
    if (cycle.number < j->cycles) wrong("the number of the last cycle", cycle.number, j->cycles);
    if (cycles < cycle.number) wrong("how many cycles have ended", cycles, cycle.number);
    if (cycle.why > MH_LACKED || cycle.beside > 1) wrong("why it ended", cycle.why, MH_LACKED);
    if (cycle.freed + cycle.kept > cells) wrong("the cells that it freed and kept", cycle.freed + cycle.kept, cells);
    if (cycle.swept > cycle.stopped) wrong("how long it was swept", cycle.swept, cycle.stopped);
    j->cycles = cycle.number;
}

#endif
