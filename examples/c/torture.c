/*
 * Threads that link, unlink, hand over and drop random graphs through the fields of objects that they share, in few cells, for a stated number of steps. An
 * object's value says who made it and as which of its objects. Each thread keeps a log of its stores and of its reads.
 *
 * Afterwards each reference that was read was one that was stored in that field of that object. A walk of what the root reaches agrees with the stores: a field
 * has what some thread stored there last, or nothing if none stored. A field of the root is only exchanged, so that it has the one reference by which the
 * exchanges that were won hang together. Where an object lies, and which one it is, is what its maker was told.
 * A third of the cells or more have objects that are kept in slots, so that much is marked beside the program. After each cycle a thread looks at all that it
 * keeps, and at its shelf (shelf.h).
 * Arguments: threads, steps of each thread, cells, tracers, seed, how many cycles have to mark beside the program.
 */
#include "logs.h"
#include "shelf.h"
#include <string.h>

/* ROOT and NIL are always so. A thread keeps what it likes in the variables from OWN on and below FOUND, and in its slots behind those of its shelf, which are SLOTS
   or less. */
enum { ROOT, NIL, OWN, FOUND = 28, OTHER, MOVED, SHELF, SLOTS = 4096, FIELDS = 3 };

/* An object's value: who made it from bit BY on, 0 for the root, and below how many that one had made before. */
enum { BY = 26, MOST = (1u << BY) - 1 };

struct thread {
    struct log stores, reads;
    struct shelf shelf;
    uint32_t own[32], slots[SLOTS], maker, made;
    uint64_t seed;
};

static struct thread threads[THREADS];
static uint32_t count_of_threads, steps, cells, slots;

/* What lies beside the heap for each cell: the value of the object that was made there last. */
static uint32_t *lies_beside;

/* Which object v refers to, as its value says, and its number, and what lies beside the heap at its place. */
static uint32_t which(mh_mutator *m, uint32_t v) {
    uint32_t value, section = 99, before = 99, place = NONE;
    if (is_nil(m, v)) return NONE;
    value = value_of(m, v);
    MUST(mh_number(m, v, &section, &before));
    wrong("who made an object", section, value >> BY);
    wrong("which of its maker's it is", before, value & MOST);
    MUST(mh_place(m, v, &place));
    if (place >= cells) wrong("a place", place, cells - 1);
    wrong("what lies beside the heap at its place", __atomic_load_n(&lies_beside[place], __ATOMIC_ACQUIRE), value);
    return value;
}

/* Slot k becomes what v is; v becomes what slot k is; and slots become nil. */
static void spill(mh_mutator *m, struct thread *t, uint32_t v, uint32_t k) {
    MUST(mh_spill(m, v, SHELVED + k));
    t->slots[k] = t->own[v];
}

static void fill(mh_mutator *m, struct thread *t, uint32_t v, uint32_t k) {
    MUST(mh_fill(m, v, SHELVED + k));
    t->own[v] = which(m, v);
    wrong("what a slot has", t->own[v], t->slots[k]);
}

static void forget_slots(mh_mutator *m, struct thread *t, uint32_t from, uint32_t to) {
    MUST(mh_forget_slots(m, SHELVED + from, SHELVED + to));
    for (; from < to; from++) t->slots[from] = NONE;
}

static void let_go(mh_mutator *m, struct thread *t) {
    uint32_t v;
    for (v = OWN; v <= OTHER; v++) { MUST(mh_forget(m, v)); t->own[v] = NONE; }
    forget_slots(m, t, 0, slots);
}

/* v's object is alive, if its maker has published it. */
static int is_alive(mh_mutator *m, uint32_t v) {
    mh_weak weak;
    mh_status s = mh_weak_of(m, v, &weak);
    if (s == MH_UNPUBLISHED) return 0;
    must(s, MH_OK, "mh_weak_of", __FILE__, __LINE__);
    wrong("whether an object that is kept is dead", mh_upgrade(m, &weak, OTHER) == MH_DEAD, 0);
    return 1;
}

/* v refers to what is kept in it, or in the slot by which it was filled: that has been published, since a cycle has ended. */
static void is_there(mh_mutator *m, uint32_t v, uint32_t kept) {
    wrong("what is kept", which(m, v), kept);
    if (kept != NONE) wrong("whether it is published", (uint64_t)is_alive(m, v), 1);
}

/* Looks at all that the thread keeps, and at what the fields of its variables' objects have. */
static void look_at_own(mh_mutator *m, struct thread *t) {
    uint32_t k, i;
    for (k = OWN; k < FOUND; k++) {
        is_there(m, k, t->own[k]);
        for (i = 0; i < FIELDS; i++) {
            MUST(mh_get(m, FOUND, k, i));
            if (which(m, FOUND) != NONE) is_alive(m, FOUND);
        }
    }
    for (k = 0; k < slots; k++) {
        fill(m, t, FOUND, k);
        is_there(m, FOUND, t->slots[k]);
    }
    MUST(mh_forget(m, FOUND));
    MUST(mh_forget(m, OTHER));
}

/* Lets go of all, and of what the root refers to. */
static void drop_all(mh_mutator *m, struct thread *t, uint32_t number) {
    uint32_t i, was;
    let_go(m, t);
    for (i = 0; i < FIELDS; i++) {
        MUST(mh_get(m, FOUND, ROOT, i));
        was = which(m, FOUND);
        if (was != NONE && exchange(m, ROOT, i, FOUND, NIL)) note(&t->stores, 0, i, NONE, was, number);
    }
    MUST(mh_forget(m, FOUND));
}

static void make_one(mh_mutator *m, struct thread *t, uint32_t number, uint32_t v) {
    uint32_t value = t->maker << BY | t->made, place = NONE;
    mh_status s;
    while ((s = mh_make(m, v, value)) == MH_NO_CELL) {
        drop_all(m, t, number);
        rest(m);
    }
    must(s, MH_OK, "mh_make", __FILE__, __LINE__);
    MUST(mh_place(m, v, &place));
    __atomic_store_n(&lies_beside[place], value, __ATOMIC_RELEASE);
    t->made++;
    t->own[v] = value;
}

static void link_to(mh_mutator *m, struct thread *t, uint32_t number, uint32_t v, uint32_t i, uint32_t w) {
    if (t->own[v] == NONE) MUST_BE(MH_NIL, mh_set(m, v, i, w));
    else {
        MUST(mh_set(m, v, i, w));
        note(&t->stores, t->own[v], i, t->own[w], NONE, number);
    }
}

static void follow(mh_mutator *m, struct thread *t, uint32_t number, uint32_t w, uint32_t v, uint32_t i) {
    uint32_t in = t->own[v];
    MUST(mh_get(m, w, v, i));
    t->own[w] = which(m, w);
    if (in == NONE) wrong("what a field of nothing is", t->own[w], NONE);
    else note(&t->reads, in, i, t->own[w], NONE, number);
}

/* Hands v's object over in a field of the root, and takes what was there into w. */
static void hand_over(mh_mutator *m, struct thread *t, uint32_t number, uint32_t w, uint32_t v, uint32_t i) {
    follow(m, t, number, FOUND, ROOT, i);
    if (!exchange(m, ROOT, i, FOUND, v)) return;
    note(&t->stores, 0, i, t->own[v], t->own[FOUND], number);
    MUST(mh_copy(m, w, FOUND));
    t->own[w] = t->own[FOUND];
}

/* The same in a field of any object, which others only store in. */
static void swap(mh_mutator *m, struct thread *t, uint32_t number, uint32_t w, uint32_t v, uint32_t i) {
    uint32_t won = 2;
    if (t->own[v] == NONE) {
        MUST_BE(MH_NIL, mh_exchange(m, v, i, w, NIL, &won));
        wrong("what was written", won, 2);
        return;
    }
    follow(m, t, number, FOUND, v, i);
    if (exchange(m, v, i, FOUND, w)) note(&t->stores, t->own[v], i, t->own[w], t->own[FOUND], number);
}

static void step(mh_mutator *m, struct thread *t, uint32_t number) {
    uint32_t what = random_below(&t->seed, 100), v = OWN + random_below(&t->seed, FOUND - OWN), w = OWN + random_below(&t->seed, FOUND - OWN);
    uint32_t i = random_below(&t->seed, FIELDS), k = random_below(&t->seed, slots);
    if (what < 25) make_one(m, t, number, v);
    else if (what < 40) link_to(m, t, number, v, i, w);
    else if (what < 45) link_to(m, t, number, v, i, NIL);
    else if (what < 57) follow(m, t, number, w, v, i);
    else if (what < 67) hand_over(m, t, number, w, v, i);
    else if (what < 71) hand_over(m, t, number, w, NIL, i);
    else if (what < 77) swap(m, t, number, w, v, i);
    else if (what < 81) { MUST(mh_copy(m, w, v)); t->own[w] = t->own[v]; }
    else if (what < 84) { MUST(mh_forget(m, v)); t->own[v] = NONE; }
    else if (what < 92) spill(m, t, v, k);
    else if (what < 96) fill(m, t, w, k);
    else if (what < 97 && k % 4 == 0) forget_slots(m, t, k - k % 8, k - k % 8 + 8);
    else if (what < 99) wrong("what a variable refers to", which(m, v), t->own[v]);
    else if (number == 0 && k % 32 == 0) collect_slowly(m, 1 + random_below(&t->seed, 40), random_below(&t->seed, 2));
    MUST(mh_safe_point(m));
    if (tend_shelf(m, &t->shelf)) look_at_own(m, t);
}

static void begin(mh_mutator *m, uint32_t number) {
    uint32_t place = NONE;
    (void)number;
    MUST(mh_root(m, ROOT));
    MUST(mh_place(m, ROOT, &place));
    lies_beside[place] = 0;
}

/* An object tells the thread by which number it makes. Then it makes its shelf. */
static void learn_maker(mh_mutator *m, struct thread *t) {
    make(m, FOUND, 0);
    MUST(mh_number(m, FOUND, &t->maker, &t->made));
    wrong("how many were made before the first", t->made, 0);
    MUST(mh_forget(m, FOUND));
    t->shelf = (struct shelf){.shelf = SHELF, .moved = MOVED, .found = OTHER, .nil = NIL};
    begin_shelf(m, &t->shelf);
    t->made = 2 + SHELVED * LISTED;
}

static void work(mh_mutator *m, uint32_t number) {
    struct thread *t = &threads[number];
    uint32_t k;
    MUST(mh_root(m, ROOT));
    memset(t->own, 0xff, sizeof t->own);
    memset(t->slots, 0xff, sizeof t->slots);
    t->own[ROOT] = 0;
    learn_maker(m, t);
    for (k = 0; k < steps; k++) {
        step(m, t, number);
        if (k % 64 == 0) go_on();
    }
    let_go(m, t);
}

static void gather(void) {
    uint32_t k, n = 0;
    for (k = 0; k < count_of_threads; k++) n += threads[k].stores.count;
    all = malloc((n + 1) * sizeof *all);
    if (!all) exit(2);
    for (k = 0; k < count_of_threads; k++) {
        memcpy(all + stores, threads[k].stores.of, threads[k].stores.count * sizeof *all);
        stores += threads[k].stores.count;
    }
    qsort(all, stores, sizeof *all, in_order);
}

static void check_reads(void) {
    uint32_t k, n;
    for (k = 0; k < count_of_threads; k++)
        for (n = 0; n < threads[k].reads.count; n++) {
            struct entry *e = &threads[k].reads.of[n];
            if (!was_stored(e->in, e->field, e->what, 0)) wrong("a reference that was read and never stored there", e->what, NONE);
            if (n % 64 == 0) go_on();
        }
}

/* Goes to each object that the root reaches, once; those whose fields are still to be looked at wait in slots. */
static void walk(mh_mutator *m, unsigned char *seen) {
    uint32_t waiting = 0, i, in, what, place = 0;
    MUST(mh_spill(m, ROOT, waiting++));
    while (waiting) {
        MUST(mh_fill(m, OTHER, --waiting));
        in = which(m, OTHER);
        for (i = 0; i < FIELDS; i++) {
            MUST(mh_get(m, FOUND, OTHER, i));
            what = which(m, FOUND);
            if (!in) wrong("what a field of the root has", what, left_in_root(i));
            else if (!was_stored(in, i, what, 1)) wrong("what a field has and no thread stored there last", what, NONE);
            if (what == NONE) continue;
            MUST(mh_place(m, FOUND, &place));
            if (!seen[place]) MUST(mh_spill(m, FOUND, waiting++));
            seen[place] = 1;
        }
        go_on();
        MUST(mh_safe_point(m));
    }
}

static void end(mh_mutator *m, uint32_t number) {
    unsigned char *seen = calloc(cells, 1);
    (void)number;
    if (!seen) exit(2);
    gather();
    check_reads();
    walk(m, seen);
    free(seen);
}

int main(int count, char **words) {
    uint32_t tracers = number(count, words, 4, 0), k;
    uint64_t seed = number(count, words, 5, 1), made = 0;
    count_of_threads = number(count, words, 1, 4);
    steps = number(count, words, 2, 100000);
    cells = number(count, words, 3, 512);
    if (count_of_threads < 1 || count_of_threads > THREADS) return 2;
    slots = cells / count_of_threads / 8 * 8;
    if (slots < 8 || slots > SLOTS) return 2;
    end_if_it_spins();
    lies_beside = calloc(cells, sizeof *lies_beside);
    if (!lies_beside) return 2;
    for (k = 0; k < count_of_threads; k++) threads[k].seed = seed * 0x9e3779b97f4a7c15u + k + 1;
    act_together(cells, FIELDS, cells + 1 + SHELVED, count_of_threads, tracers, begin, work, end);
    for (k = 0; k < count_of_threads; k++) {
        made += threads[k].made;
        free(threads[k].stores.of);
        free(threads[k].reads.of);
    }
    free(all);
    free(lies_beside);
    enough_beside(beside, number(count, words, 6, 0));
    printf("%-13s %-12s threads %u tracers %u seed %llu: %u steps each, %llu objects in %u cells; what was read had been stored, and the walk agrees with the logs\n",
           "torture", COLLECTOR, count_of_threads, tracers, (unsigned long long)seed, steps, (unsigned long long)made, cells);
    return 0;
}
