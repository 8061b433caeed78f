/*
 * What threads of a shared world agree on. In each round two threads change one value each, X and Y, to the round's number. Of two others one waits for X and
 * then reads Y, and one waits for Y and then reads X: never do both find the old value. Then a value is handed on beside a stamp: who comes after the stamp
 * finds it. At the end a stamp of another world is refused. Arguments: rounds, tracers.
 */
#include "team.h"

enum { ROOT, X, Y };

static uint32_t rounds;
static uint32_t seen[2];
static uint32_t races;
static uint32_t at_gate[2];
static mh_stamp handed;
static uint32_t handed_on;

static void begin(mh_mutator *m, uint32_t number) {
    uint32_t v;
    (void)number;
    MUST(mh_root(m, ROOT));
    for (v = X; v <= Y; v++) {
        make(m, v, 0);
        MUST(mh_set(m, ROOT, v - X, v));
    }
}

/* Waits until all four are at this gate of this round; the last one opens it. */
static void meet(mh_mutator *m, uint32_t gate, uint32_t round) {
    (void)__atomic_add_fetch(&at_gate[gate], 1, __ATOMIC_SEQ_CST);
    while (__atomic_load_n(&at_gate[gate], __ATOMIC_SEQ_CST) < 4 * (round + 1)) rest(m);
}

/* The second value that each reader found is old at most for one of them. */
static void agree(uint32_t round) {
    uint32_t olds = (seen[0] != round ? 1u : 0u) + (seen[1] != round ? 1u : 0u);
    wrong("readers who disagree on which value was changed first", olds == 2, 0);
    races += olds;
}

/* Waits until variable v's value is the round's. */
static void see(mh_mutator *m, uint32_t v, uint32_t round) {
    while (value_of(m, v) != round) MUST(mh_safe_point(m));
}

/* Number 0 changes X, 1 changes Y; 2 reads Y as soon as X is changed, and 3 reads X as soon as Y is. */
static void one_round(mh_mutator *m, uint32_t number, uint32_t round) {
    uint32_t first = number == 2 ? X : Y, second = number == 2 ? Y : X;
    meet(m, 0, round - 1);
    if (number < 2) {
        MUST(mh_put(m, X + number, round));
    } else {
        see(m, first, round);
        seen[number - 2] = value_of(m, second);
    }
    meet(m, 1, round - 1);
    if (number == round % 4) agree(round);
}

/* Number 0 stores, takes a stamp and hands it on; the others come after it, and find what was stored. */
static void hand_on(mh_mutator *m, uint32_t number) {
    if (number == 0) {
        MUST(mh_put(m, X, 4294967295u));
        MUST(mh_stamp_of(m, &handed));
        __atomic_store_n(&handed_on, 1u, __ATOMIC_RELEASE);
        return;
    }
    while (!__atomic_load_n(&handed_on, __ATOMIC_ACQUIRE)) rest(m);
    MUST(mh_after(m, &handed));
    wrong("the value that was handed on", value_of(m, X), 4294967295u);
}

static void work(mh_mutator *m, uint32_t number) {
    uint32_t k, v;
    MUST(mh_root(m, ROOT));
    for (v = X; v <= Y; v++) MUST(mh_get(m, v, ROOT, v - X));
    for (k = 1; k <= rounds; k++) one_round(m, number, k);
    hand_on(m, number);
}

/* A stamp of another world is refused, and nothing is changed. */
static void end(mh_mutator *m, uint32_t number) {
    mh_sizes sizes = {.cells = 64, .fields = 1, .mutators = 1};
    mh_world other = {0};
    mh_mutator n = {0};
    mh_stamp stamp, strange;
    (void)number;
    MUST(mh_open(&sizes, &other));
    MUST(mh_take_mutator(&other, &n));
    MUST(mh_stamp_of(&n, &strange));
    MUST(mh_stamp_of(m, &stamp));
    MUST_BE(MH_REFUSED, mh_after(m, &strange));
    MUST_BE(MH_REFUSED, mh_after(&n, &stamp));
    MUST(mh_after(m, &stamp));
    MUST(mh_after(&n, &strange));
    wrong("the last value", value_of(m, X), 4294967295u);
    MUST(mh_give_back(&other, &n));
    MUST_BE(MH_GIVEN_BACK, mh_after(&n, &strange));
    MUST_BE(MH_GIVEN_BACK, mh_stamp_of(&n, &strange));
    MUST(mh_close(&other));
}

int main(int count_of, char **words) {
    uint32_t tracers = number(count_of, words, 2, 0);
    rounds = number(count_of, words, 1, 2000);
    act_together(64 * 5, 2, 0, 4, tracers, begin, work, end);
    printf("%-13s %-12s threads 4 tracers %u: %u rounds, in %u one reader found the other value old, and never both; and stamps\n", "order", COLLECTOR, tracers, rounds, races);
    return 0;
}
