/* Which collector a program is built over, and what the programs share: a check that ends them, a clock, and a world that is opened and closed. */
#ifndef HEAP_H
#define HEAP_H

#ifdef OVER_BOEHM
#include "mh_boehm.h"
#define COLLECTOR "boehm"
#else
#include "managed_heap.h"
#define COLLECTOR "managed_heap"
#endif

#include <pthread.h>
#include <stdio.h>
#include <stdlib.h>
#include <sys/resource.h>
#include <time.h>

/* Ends the program if a call came to something else. */
#define MUST(call) must((call), MH_OK, #call, __FILE__, __LINE__)
#define MUST_BE(wanted, call) must((call), (wanted), #call, __FILE__, __LINE__)

static inline void must(mh_status got, mh_status wanted, const char *call, const char *file, int line) {
    if (got == wanted) return;
    printf("%s:%d: %s came to %d and not to %d\n", file, line, call, (int)got, (int)wanted);
    exit(1);
}

static inline void wrong(const char *what, uint64_t got, uint64_t wanted) {
    if (got == wanted) return;
    printf("%s: %llu and not %llu\n", what, (unsigned long long)got, (unsigned long long)wanted);
    exit(1);
}

static inline double now(void) {
    struct timespec t;
    clock_gettime(CLOCK_MONOTONIC, &t);
    return (double)t.tv_sec + (double)t.tv_nsec * 1e-9;
}

/* The most memory that the program had, in MB. */
static inline double megabytes(void) {
    struct rusage u;
    getrusage(RUSAGE_SELF, &u);
    return (double)u.ru_maxrss / 1024.0;
}

/* The processor time of the program, in seconds. */
static inline double processor(void) {
    struct rusage u;
    getrusage(RUSAGE_SELF, &u);
    return (double)(u.ru_utime.tv_sec + u.ru_stime.tv_sec) + (double)(u.ru_utime.tv_usec + u.ru_stime.tv_usec) * 1e-6;
}

/* The longest time that one call took, in seconds: what a thread waited for the collector. */
struct pause { double longest; };

static inline mh_status timed_make(struct pause *p, mh_mutator *m, uint32_t v, uint32_t value) {
    double from = now(), took;
    mh_status s = mh_make(m, v, value);
    took = now() - from;
    if (took > p->longest) p->longest = took;
    return s;
}

enum { THREADS = 32 };

static inline void open_with(mh_world *world, uint32_t cells, uint32_t fields, uint32_t mutators, uint32_t tracers) {
    mh_sizes sizes = {.cells = cells, .fields = fields, .mutators = mutators, .tracers = tracers};
    MUST(mh_open(&sizes, world));
}

static inline void open_world(mh_world *world, uint32_t cells, uint32_t fields, uint32_t mutators) { open_with(world, cells, fields, mutators, 0); }

/* What mh_log_cycles has called: counts the cycles that kept what was marked beside the program. Only these try the barrier. */
static inline void count_beside(void *count, const mh_cycle *c) {
    if (c->beside && !c->exact && c->mutators + c->tracers) __atomic_fetch_add((uint64_t *)count, 1, __ATOMIC_SEQ_CST);
}

/* Ends the program if fewer cycles than so many tried the barrier: then the run shows less than it says. */
static inline void enough_beside(uint64_t got, uint64_t least) {
    if (got >= least) return;
    printf("cycles that marked beside the program: %llu and not %llu\n", (unsigned long long)got, (unsigned long long)least);
    exit(1);
}

/* A number of a command line, or this one. */
static inline uint32_t number(int count, char **words, int at, uint32_t otherwise) {
    return at < count ? (uint32_t)strtoul(words[at], 0, 10) : otherwise;
}

#endif
