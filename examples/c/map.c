/*
 * A map with chains that threads fill, change and empty together. Each field of the root is a chain; an object has a key and a count in its value, and the next
 * object in field 0. To raise a key's count is to exchange its object's value for the next one, or to put an object with count 1 before the chain, as long as
 * nothing else was put there. To empty a chain is to exchange it for nothing; whoever did takes each count by exchanging it for 0, which none raises. So a count is
 * taken once, and what was taken and what is left at the end make the number of times that keys were raised. Besides, each thread has a shelf (shelf.h). Arguments:
 * threads, raises of each thread, keys, cells, tracers, how many cycles have to mark beside the program.
 */
#include "shelf.h"

enum { ROOT, NIL, SHELF, MOVED, FOUND, OLD, NEW, AT };
enum { CHAINS = 16, COUNT_BITS = 20, COUNT = (1u << COUNT_BITS) - 1 };

static uint32_t threads, raises, keys;
static uint64_t taken[THREADS], left;
static struct shelf shelves[THREADS];

static void nothing(mh_mutator *m, uint32_t number) { (void)m; (void)number; }

/* AT becomes the object of this key that has a count, by the chain that OLD begins; 0 if there is none. */
static int find(mh_mutator *m, uint32_t key, uint32_t *value) {
    MUST(mh_copy(m, AT, OLD));
    for (; !is_nil(m, AT); MUST(mh_get(m, AT, AT, 0))) {
        *value = value_of(m, AT);
        if (*value >> COUNT_BITS == key && *value & COUNT) return 1;
    }
    return 0;
}

static void raise_count(mh_mutator *m, uint32_t key) {
    uint32_t chain = key % CHAINS, value, made = 0;
    for (;;) {
        MUST(mh_get(m, OLD, ROOT, chain));
        if (find(m, key, &value)) {
            if (exchange_value(m, AT, value, value + 1)) break;
        } else if (!made) {
            make(m, NEW, key << COUNT_BITS | 1);
            made = 1;
        } else {
            MUST(mh_set(m, NEW, 0, OLD));
            if (exchange(m, ROOT, chain, OLD, NEW)) break;
        }
        MUST(mh_safe_point(m));
    }
    MUST(mh_forget(m, OLD));
    MUST(mh_forget(m, NEW));
    MUST(mh_forget(m, AT));
}

/* Takes the count of AT's object, after which it has none for good. */
static uint32_t take_count(mh_mutator *m) {
    uint32_t value;
    do value = value_of(m, AT);
    while (value & COUNT && !exchange_value(m, AT, value, value & ~(uint32_t)COUNT));
    return value & COUNT;
}

static uint64_t empty(mh_mutator *m, uint32_t chain) {
    uint64_t sum = 0;
    do {
        MUST(mh_safe_point(m));
        MUST(mh_get(m, AT, ROOT, chain));
    } while (!exchange(m, ROOT, chain, AT, NIL));
    for (; !is_nil(m, AT); MUST(mh_get(m, AT, AT, 0))) sum += take_count(m);
    return sum;
}

/* Takes the count of one key, whose object stays in its chain. */
static uint64_t clear(mh_mutator *m, uint32_t key) {
    uint32_t value;
    uint64_t count = 0;
    MUST(mh_get(m, OLD, ROOT, key % CHAINS));
    if (find(m, key, &value)) count = take_count(m);
    MUST(mh_forget(m, OLD));
    MUST(mh_forget(m, AT));
    return count;
}

/* What a thread does besides. */
static void do_besides(mh_mutator *m, uint32_t number, uint32_t k) {
    tend_shelf(m, &shelves[number]);
    if (k % 64 == 0) go_on();
    if (number == 0 && k % 1024 == 0) collect_slowly(m, 1 + k / 1024, k / 1024 % 2);
}

static void work(mh_mutator *m, uint32_t number) {
    uint64_t seed = 0x9e3779b97f4a7c15u * (number + 1);
    uint32_t k;
    MUST(mh_root(m, ROOT));
    shelves[number] = (struct shelf){.shelf = SHELF, .moved = MOVED, .found = FOUND, .nil = NIL, .exchanges = 1};
    begin_shelf(m, &shelves[number]);
    for (k = 0; k < raises; k++) {
        do_besides(m, number, k);
        raise_count(m, random_below(&seed, keys));
        if (k % 8 == 0) taken[number] += clear(m, random_below(&seed, keys));
        if (k % 32 == 0) taken[number] += empty(m, random_below(&seed, CHAINS));
    }
}

static void end(mh_mutator *m, uint32_t number) {
    uint32_t chain;
    (void)number;
    MUST(mh_root(m, ROOT));
    for (chain = 0; chain < CHAINS; chain++) left += empty(m, chain);
}

int main(int count_of, char **words) {
    uint32_t cells = number(count_of, words, 4, 1024), tracers = number(count_of, words, 5, 0), k;
    uint64_t sum;
    threads = number(count_of, words, 1, 4);
    raises = number(count_of, words, 2, 100000);
    keys = number(count_of, words, 3, 64);
    if (threads < 1 || threads > THREADS || keys > 1u << (32 - COUNT_BITS) || (uint64_t)threads * raises > COUNT) return 2;
    end_if_it_spins();
    act_together(cells, CHAINS, SHELVED, threads, tracers, nothing, work, end);
    for (sum = left, k = 0; k < threads; k++) sum += taken[k];
    wrong("the counts that were taken", sum, (uint64_t)threads * raises);
    enough_beside(beside, number(count_of, words, 6, 0));
    printf("%-13s %-12s threads %u tracers %u: %u keys raised %llu times, each counted once, in %u cells\n", "map", COLLECTOR, threads, tracers, keys,
           (unsigned long long)sum, cells);
    return 0;
}
