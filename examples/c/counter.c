/*
 * A counter that threads raise together by exchanges, and a lock made of a value. The root's value is the counter; field 0 of the root is the lock's object, whose
 * value is 1 while a thread is inside; fields 1 and 2 are two objects that only who is inside raises, one after the other. Arguments: threads, raises of each
 * thread, tracers.
 */
#include "team.h"

enum { ROOT, LOCK, ONE, TWO };

static uint32_t threads, raises;
static uint32_t inside;

static void begin(mh_mutator *m, uint32_t number) {
    uint32_t v;
    (void)number;
    MUST(mh_root(m, ROOT));
    for (v = LOCK; v <= TWO; v++) {
        make(m, v, 0);
        MUST(mh_set(m, ROOT, v - LOCK, v));
    }
}

static void count(mh_mutator *m) {
    uint32_t n;
    do {
        n = value_of(m, ROOT);
        MUST(mh_safe_point(m));
    } while (!exchange_value(m, ROOT, n, n + 1));
}

static void lock(mh_mutator *m) { while (!exchange_value(m, LOCK, 0, 1)) rest(m); }

static void unlock(mh_mutator *m) { if (!exchange_value(m, LOCK, 1, 0)) wrong("the lock of who is inside", 0, 1); }

/* Raises both, with an object between them that is garbage at once. */
static void raise_both(mh_mutator *m) {
    uint32_t n;
    lock(m);
    wrong("how many are inside besides", __atomic_fetch_add(&inside, 1, __ATOMIC_RELAXED), 0);
    n = value_of(m, ONE);
    MUST(mh_put(m, ONE, n + 1));
    make(m, TWO + 1, n);
    wrong("the second where the first was raised", value_of(m, TWO), n);
    MUST(mh_put(m, TWO, n + 1));
    wrong("how many are inside with this one", __atomic_fetch_sub(&inside, 1, __ATOMIC_RELAXED), 1);
    unlock(m);
}

static void work(mh_mutator *m, uint32_t number) {
    uint32_t k, v;
    (void)number;
    MUST(mh_root(m, ROOT));
    for (v = LOCK; v <= TWO; v++) MUST(mh_get(m, v, ROOT, v - LOCK));
    for (k = 0; k < raises; k++) {
        count(m);
        raise_both(m);
    }
}

static void end(mh_mutator *m, uint32_t number) {
    (void)number;
    wrong("the counter", value_of(m, ROOT), threads * raises);
    wrong("the first", value_of(m, ONE), threads * raises);
    wrong("the second", value_of(m, TWO), threads * raises);
    wrong("the lock", value_of(m, LOCK), 0);
}

int main(int count_of, char **words) {
    uint32_t tracers = number(count_of, words, 3, 0);
    threads = number(count_of, words, 1, 4);
    raises = number(count_of, words, 2, 20000);
    if (threads < 1 || threads > THREADS) return 2;
    act_together(64 * (threads + 1), 3, 0, threads, tracers, begin, work, end);
    printf("%-13s %-12s threads %u tracers %u: a counter raised %u times by exchanges, and two objects behind a lock as often\n", "counter", COLLECTOR, threads, tracers,
           threads * raises);
    return 0;
}
