/*
 * Actions that are run once, after their objects' death, on a thread of the program's choice: what Java's Cleaner does. An action holds what it needs, here a text, and
 * a weak reference to its object, which it doesn't keep. Workers make objects, register an action for each, and hand the objects over in the root's fields. One
 * thread more takes what was registered after each cycle, frees the texts of objects that are dead, and keeps the others for later.
 *
 * Whoever holds an object may take a weak reference to it, which finds it alive, unless its maker hasn't published it yet. In the end nothing is kept, and each text
 * was freed. Arguments: workers, objects of each, cells.
 */
#include "team.h"
#include <string.h>

enum { ROOT, NEW, FOUND, AGAIN, FIELDS = 8, LONG = 24 };

struct action { mh_weak object; char *text; struct action *next; };

static uint32_t workers, many, cells;

/* What was registered and not taken yet: it is pushed and taken whole by exchanges. */
static struct action *registered;
static uint64_t at_work, freed, met, waited;

static void write_text(char *text, uint32_t value) { snprintf(text, LONG, "object %u", value); }

static void push(struct action *first, struct action *last) {
    last->next = __atomic_load_n(&registered, __ATOMIC_RELAXED);
    while (!__atomic_compare_exchange_n(&registered, &last->next, first, 0, __ATOMIC_RELEASE, __ATOMIC_RELAXED)) {}
}

/* An action for NEW's object, which this mutator made. */
static void register_action(mh_mutator *m) {
    struct action *a = malloc(sizeof *a);
    if (!a || !(a->text = malloc(LONG))) exit(2);
    MUST(mh_weak_of(m, NEW, &a->object));
    write_text(a->text, value_of(m, NEW));
    push(a, a);
}

/* FOUND's object is held, and so isn't dead, whoever made it. */
static void meet(mh_mutator *m) {
    mh_weak weak;
    mh_status s = mh_weak_of(m, FOUND, &weak);
    if (s == MH_UNPUBLISHED) { __atomic_fetch_add(&waited, 1, __ATOMIC_RELAXED); return; }
    must(s, MH_OK, "mh_weak_of", __FILE__, __LINE__);
    MUST(mh_safe_point(m));
    MUST(mh_upgrade(m, &weak, AGAIN));
    if (!are_one(m, FOUND, AGAIN)) wrong("the object of a weak reference", 2, 1);
    MUST(mh_forget(m, AGAIN));
    __atomic_fetch_add(&met, 1, __ATOMIC_RELAXED);
}

static void work(mh_mutator *m, uint32_t number) {
    uint64_t seed = 0x9e3779b97f4a7c15u * (number + 1);
    uint32_t k;
    MUST(mh_root(m, ROOT));
    for (k = 0; k < many; k++) {
        make(m, NEW, number * many + k);
        if (k % 2) register_action(m);
        MUST(mh_set(m, ROOT, random_below(&seed, FIELDS), NEW));
        if (k % 2 == 0) register_action(m);
        MUST(mh_forget(m, NEW));
        MUST(mh_get(m, FOUND, ROOT, random_below(&seed, FIELDS)));
        if (!is_nil(m, FOUND)) meet(m);
        MUST(mh_forget(m, FOUND));
    }
    MUST(mh_forget_all(m));
    __atomic_fetch_sub(&at_work, 1, __ATOMIC_SEQ_CST);
}

/* The action is run if its object is dead; else the object has its text. */
static int runs(mh_mutator *m, struct action *a) {
    char wanted[LONG];
    mh_status s = mh_upgrade(m, &a->object, AGAIN);
    if (s == MH_DEAD) {
        free(a->text);
        free(a);
        freed++;
        return 1;
    }
    must(s, MH_OK, "mh_upgrade", __FILE__, __LINE__);
    write_text(wanted, value_of(m, AGAIN));
    if (strcmp(a->text, wanted)) { printf("the text of another object: %s, and not %s\n", a->text, wanted); exit(1); }
    return 0;
}

/* All that is registered is gone through, and what isn't run is registered again. */
static void pass(mh_mutator *m) {
    struct action *a = __atomic_exchange_n(&registered, 0, __ATOMIC_ACQUIRE), *kept = 0, *last = 0;
    uint32_t k = 0;
    while (a) {
        struct action *next = a->next;
        if (++k % 256 == 0) MUST(mh_safe_point(m));
        if (!runs(m, a)) {
            a->next = kept;
            kept = a;
            if (!last) last = a;
        }
        a = next;
    }
    MUST(mh_forget(m, AGAIN));
    if (kept) push(kept, last);
}

static void clean(mh_mutator *m, uint32_t number) {
    (void)number;
    while (__atomic_load_n(&at_work, __ATOMIC_SEQ_CST)) {
        pass(m);
        rest(m);
    }
}

/* A worker's part, or that of the thread that runs the actions. */
static void act_by_number(mh_mutator *m, uint32_t number) {
    if (number == workers) clean(m, number);
    else work(m, number);
}

static void begin(mh_mutator *m, uint32_t number) {
    (void)m;
    (void)number;
    at_work = workers;
}

static void end(mh_mutator *m, uint32_t number) {
    uint32_t i;
    (void)number;
    MUST(mh_root(m, ROOT));
    MUST(mh_forget(m, NEW));
    for (i = 0; i < FIELDS; i++) MUST(mh_set(m, ROOT, i, NEW));
    MUST(mh_collect(m));
    pass(m);
}

int main(int count_of, char **words) {
    workers = number(count_of, words, 1, 4);
    many = number(count_of, words, 2, 20000);
    cells = number(count_of, words, 3, 640);
    if (workers < 1 || workers >= THREADS) return 2;
    act_together(cells, FIELDS, 0, workers + 1, 1, begin, act_by_number, end);
    wrong("actions that were run", freed, (uint64_t)workers * many);
    if (registered) wrong("actions that are left", 1, 0);
    if (!met) wrong("objects that were met", met, 1);
    printf("%-13s %-12s %u workers: %u objects, and each had its action run once, after its death\n", "cleaner", COLLECTOR, workers, workers * many);
    return 0;
}
