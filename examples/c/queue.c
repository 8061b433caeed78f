/*
 * Michael and Scott's queue, in which producers put numbers and consumers take them, all at once. Field 0 of the root is the queue's head, whose value was taken,
 * field 1 the tail or one before it; field 0 of an object is the next one. Each number comes out once, and those of one producer come out in their order. The
 * root's value is how many were taken. Arguments: producers, consumers, numbers of each producer, cells, tracers.
 */
#include "team.h"

enum { ROOT, HEAD, TAIL, NEXT, NEW, NIL };
enum { FIRST = 0, LAST = 1 };

static uint32_t producers, consumers, many;
static unsigned char *taken;

static void open_queue(mh_mutator *m, uint32_t number) {
    (void)number;
    MUST(mh_root(m, ROOT));
    make(m, NEW, 0);
    MUST(mh_set(m, ROOT, FIRST, NEW));
    MUST(mh_set(m, ROOT, LAST, NEW));
    MUST(mh_forget(m, NEW));
}

/* What a variable that is left refers to would keep all that was put behind it. */
static void let_go(mh_mutator *m) {
    uint32_t v;
    for (v = HEAD; v <= NEW; v++) MUST(mh_forget(m, v));
}

static void put(mh_mutator *m, uint32_t value) {
    make(m, NEW, value);
    for (;;) {
        MUST(mh_get(m, TAIL, ROOT, LAST));
        MUST(mh_get(m, NEXT, TAIL, 0));
        if (!is_nil(m, NEXT)) exchange(m, ROOT, LAST, TAIL, NEXT);
        else if (exchange(m, TAIL, 0, NIL, NEW)) break;
        MUST(mh_safe_point(m));
    }
    exchange(m, ROOT, LAST, TAIL, NEW);
    let_go(m);
}

/* Takes the first number; 0 if there is none. */
static int take(mh_mutator *m, uint32_t *value) {
    int some = 0;
    for (;;) {
        MUST(mh_get(m, HEAD, ROOT, FIRST));
        MUST(mh_get(m, TAIL, ROOT, LAST));
        MUST(mh_get(m, NEXT, HEAD, 0));
        if (is_nil(m, NEXT)) break;
        if (are_one(m, HEAD, TAIL)) exchange(m, ROOT, LAST, TAIL, NEXT);
        else {
            *value = value_of(m, NEXT);
            if ((some = exchange(m, ROOT, FIRST, HEAD, NEXT))) break;
        }
        MUST(mh_safe_point(m));
    }
    let_go(m);
    return some;
}

/* Counts one more that was taken. */
static void count(mh_mutator *m) {
    uint32_t n;
    do {
        n = value_of(m, ROOT);
        MUST(mh_safe_point(m));
    } while (!exchange_value(m, ROOT, n, n + 1));
}

static void consume(mh_mutator *m) {
    uint32_t last[THREADS] = {0}, value, at;
    while (value_of(m, ROOT) < producers * many) {
        if (!take(m, &value)) { rest(m); continue; }
        at = value % producers;
        if (value / producers < last[at]) wrong("a number after a later one of its producer", value / producers, last[at]);
        last[at] = value / producers;
        wrong("how often a number was taken before", __atomic_exchange_n(&taken[value], 1, __ATOMIC_RELAXED), 0);
        count(m);
    }
}

static void work(mh_mutator *m, uint32_t number) {
    uint32_t k;
    MUST(mh_root(m, ROOT));
    if (number >= producers) consume(m);
    else for (k = 0; k < many; k++) put(m, k * producers + number);
}

static void end(mh_mutator *m, uint32_t number) {
    uint32_t k, value;
    (void)number;
    wrong("whether a number is left", (uint64_t)take(m, &value), 0);
    wrong("how many were taken", value_of(m, ROOT), producers * many);
    for (k = 0; k < producers * many; k++) wrong("how often a number was taken", taken[k], 1);
}

int main(int count_of, char **words) {
    uint32_t cells = number(count_of, words, 4, 128), tracers = number(count_of, words, 5, 0);
    producers = number(count_of, words, 1, 2);
    consumers = number(count_of, words, 2, 2);
    many = number(count_of, words, 3, 100000);
    if (producers < 1 || consumers < 1 || producers + consumers > THREADS) return 2;
    taken = calloc((size_t)producers * many, 1);
    if (!taken) return 2;
    act_together(cells, 2, 0, producers + consumers, tracers, open_queue, work, end);
    free(taken);
    printf("%-13s %-12s producers %u consumers %u tracers %u: %u numbers, each once and in its order, in %u cells, so by %u collections at least\n", "queue", COLLECTOR,
           producers, consumers, tracers, producers * many, cells, producers * many / cells - 1);
    return 0;
}
