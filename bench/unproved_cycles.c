/* Tells each cycle of a play in one line of standard error, when it ends. A build that bench/unproved_cycles.sh makes calls mh_step before each step, with the
   step: its first byte is its kind, by the order of kinds.h, and the second of StorePhase is the phase.

   The words mean what they do in docs/EMBEDDING_C.md, but for two. `stopped_us` is from the move to Drain to the one that ends the cycle, and `traced_beside` counts
   the objects that were traced beside the program since the cycle before, by whomever. */
#include <stdint.h>
#include <stdio.h>
#include <time.h>

#include "kinds.h"

enum phase { IDLE, MARKING, DRAIN, SWEEP, CLEAR, FULL };

static uint64_t steps[KINDS];
static uint64_t moved[FULL + 1]; /* when the phase was stored last, in nanoseconds */
static uint64_t traced; /* as the cycle before ended */
static uint64_t beside_traced, beside_cleaned; /* as the world stopped */
static unsigned phase = IDLE, cycles, exact;

static uint64_t now(void) {
    struct timespec it;
    clock_gettime(CLOCK_MONOTONIC, &it);
    return (uint64_t)it.tv_sec * 1000000000u + (uint64_t)it.tv_nsec;
}

static double microseconds(uint64_t from, uint64_t to) { return (double)(to - from) / 1e3; }

/* How many steps of a kind there were. */
static uint64_t many(unsigned kind) { return __atomic_load_n(&steps[kind], __ATOMIC_SEQ_CST); }

static void tell(uint64_t end) {
    char line[256];
    int is_beside = moved[MARKING] != 0;
    double marked = is_beside ? microseconds(moved[MARKING], moved[DRAIN]) : 0;
    snprintf(line, sizeof line, "play: cycle=%u beside=%d marked_us=%.1f traced_beside=%lu stopped_us=%.1f swept_us=%.1f traced=%lu cleaned=%lu exact=%u\n", ++cycles, is_beside,
             marked, (unsigned long)(beside_traced - traced), microseconds(moved[DRAIN], end), microseconds(moved[SWEEP], end),
             (unsigned long)(many(Pop) - beside_traced), (unsigned long)(many(ClearCard) - beside_cleaned), exact);
    fputs(line, stderr);
    traced = many(Pop);
    moved[MARKING] = 0;
}

/* The world has stopped, and marking is finished; from Clear it begins anew. */
static void drain(uint64_t at) {
    exact = phase != MARKING;
    if (phase == CLEAR) return;
    moved[DRAIN] = at;
    beside_traced = many(Pop);
    beside_cleaned = many(ClearCard);
}

/* In a stop one seat moves the phase. Of several that try to begin marking one does, and the first is taken for it. */
static void move(unsigned to) {
    uint64_t at = now();
    if (to == MARKING) {
        unsigned idle = IDLE;
        if (__atomic_compare_exchange_n(&phase, &idle, MARKING, 0, __ATOMIC_SEQ_CST, __ATOMIC_SEQ_CST)) moved[MARKING] = at;
        return;
    }
    if (to == DRAIN) drain(at);
    if (to == SWEEP) moved[SWEEP] = at;
    if (to == IDLE) tell(at);
    __atomic_store_n(&phase, to, __ATOMIC_SEQ_CST);
}

void mh_step(const unsigned char *step) {
    __atomic_add_fetch(&steps[step[0]], 1, __ATOMIC_RELAXED);
    if (step[0] == StorePhase) move(step[1]);
}
