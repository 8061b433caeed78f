/*
 * A collection of a spoiled heap may not end, nor a walk of one. So a program that is to notice lost objects ends with status 1, and says why, if its threads have taken
 * SPUN seconds of processors since one of them last went on.
 */
#ifndef GOING_ON_H
#define GOING_ON_H

#include "heap.h"
#include <unistd.h>

enum { SPUN = 5 };

static uint32_t went_on;

/* Some work is done. */
static inline void go_on(void) { __atomic_fetch_add(&went_on, 1u, __ATOMIC_RELAXED); }

static inline void *look_on(void *none) {
    uint32_t seen = 0, now_on;
    double since = processor();
    for (;;) {
        usleep(100000);
        now_on = __atomic_load_n(&went_on, __ATOMIC_RELAXED);
        if (now_on != seen) since = processor();
        seen = now_on;
        if (processor() - since > SPUN) break;
    }
    printf("nothing went on in %d seconds of processors: the heap is spoiled\n", SPUN);
    fflush(stdout);
    _exit(1);
    return none;
}

static inline void end_if_it_spins(void) {
    pthread_t looking;
    if (pthread_create(&looking, 0, look_on, 0) || pthread_detach(looking)) exit(2);
}

#endif
