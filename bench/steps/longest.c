/*
 * How many steps the longest call takes, and how long it takes: a line for each kind of call. Each thread makes lists, the leaves of a tree of its own, which fill six
 * tenths of the cells, and stores in each object; the last one to be done collects. Then they replace lists at random, and at the end one collects again. All use calls alone that don't wait,
 * and take what may take long step by step. Tracers take turns beside. The library counts steps: bench/longest.sh builds it, and kinds.h.
 * Arguments: cells, 1 if objects are shared, mutators, tracers, what a step does at most, rounds.
 */
#include "../../examples/c/heap.h"
#include "calls.h"

/* A round in nanoseconds: a thread looks at the clock alone, works, and rests, so that the kernel takes no part of its time from threads with real-time priority, and
   others have theirs. */
enum { IDLES = 50000000, WORKS = 250000000, RESTS = 200000000, ROUND = IDLES + WORKS + RESTS };

/* The variables: the tree, a place in it, a list, a new object, and two to read with. */
enum { TREE, HERE, LIST, MADE, READ, OTHER, SLOTS = 16, LENGTH = 17 };

static mh_world world;
static uint32_t cells, shared, mutators, tracers, most, rounds, depth, filled, ended, collections;
static uint64_t begun;

static uint64_t in_round(void) { return (nanos() - begun) % ROUND; }

/* Rests if it is time to, until the next round begins. */
static void rest_if_due(struct caller *t) {
    uint64_t gone = in_round();
    struct timespec pause = {0, (long)(ROUND - gone)};
    if (gone < IDLES + WORKS) return;
    nanosleep(&pause, 0);
    was_switched(t);
}

/* Rests until the next round begins, and then looks at the clock alone for a while. */
static void rest_a_round(struct caller *t) {
    while (in_round() >= IDLES) rest_if_due(t);
    while (in_round() < IDLES) DOES(t, NOTHING, MH_OK);
}

static void come_in(struct caller *t) {
    uint32_t rests = 0;
    while (BY(t, ENTERS, mh_enter_step(&t->m)) == MH_STOPPED) mh_rest(&rests);
    must(t->answer, MH_OK, "mh_enter_step", __FILE__, __LINE__);
}

static void collect(struct caller *t) {
    uint32_t rests = 0, stopping = 0;
    while (BY(t, COLLECTS, mh_collect_step(&t->m, most)) == MH_NOT_YET) {
        if (mh_is_stopping(&t->m, &stopping) == MH_OK && stopping) mh_rest(&rests);
        rest_if_due(t);
    }
    if (t->answer == MH_OK) __atomic_fetch_add(&collections, 1, __ATOMIC_RELAXED);
    if (t->answer == MH_STOPPED) come_in(t);
    else must(t->answer, MH_OK, "mh_collect_step", __FILE__, __LINE__);
}

/* Comes to a cache with a free cell, step by step. */
static void refill(struct caller *t) {
    while (BY(t, REFILLS, mh_refill_step(&t->m, most)) == MH_NOT_YET) rest_if_due(t);
    if (t->answer == MH_STOPPED) come_in(t);
    else if (t->answer == MH_NO_CELL) collect(t);
    else must(t->answer, MH_OK, "mh_refill_step", __FILE__, __LINE__);
}

/* A new object, by the call that looks for a cell itself or, mostly, by the one that doesn't. */
static mh_status make_step(struct caller *t, uint32_t v, uint32_t value) {
    return value % 64 ? BY(t, MAKES_CACHED, mh_make_cached(&t->m, v, value)) : BY(t, MAKES, mh_make_step(&t->m, v, value));
}

static void make(struct caller *t, uint32_t v, uint32_t value) {
    while (make_step(t, v, value) != MH_OK) {
        if (t->answer == MH_STOPPED) come_in(t);
        else if (t->answer == MH_NO_CACHE) refill(t);
        else if (t->answer == MH_NO_CELL) collect(t);
        else must(t->answer, MH_OK, "an object", __FILE__, __LINE__);
    }
}

/* A list of new objects becomes leaf k of the tree, whose nodes are made if they aren't there. */
static void replace(struct caller *t, uint32_t k) {
    uint32_t i, nil = 0;
    DOES(t, FORGETS, mh_forget(&t->m, LIST));
    for (i = 0; i < LENGTH; i++) {
        make(t, MADE, k + i);
        DOES(t, SETS, mh_set(&t->m, MADE, 0, LIST));
        DOES(t, COPIES, mh_copy(&t->m, LIST, MADE));
    }
    DOES(t, COPIES, mh_copy(&t->m, HERE, TREE));
    for (i = depth - 1; i; i--) {
        DOES(t, GETS, mh_get(&t->m, READ, HERE, k >> i & 1));
        DOES(t, ASKS_NIL, mh_is_nil(&t->m, READ, &nil));
        if (nil) {
            make(t, READ, i);
            DOES(t, SETS, mh_set(&t->m, HERE, k >> i & 1, READ));
        }
        DOES(t, COPIES, mh_copy(&t->m, HERE, READ));
    }
    DOES(t, SETS, mh_set(&t->m, HERE, k & 1, LIST));
}

/* What a shared world has besides, done to leaf k, the list that was made last. */
static void use_shared(struct caller *t, uint32_t k) {
    uint32_t won = 0, place = 0, section = 0, number = 0;
    DOES(t, SPILLS, mh_spill(&t->m, LIST, k % SLOTS));
    DOES(t, FILLS, mh_fill(&t->m, OTHER, k % SLOTS));
    DOES(t, EXCHANGES, mh_exchange(&t->m, HERE, k & 1, LIST, LIST, &won));
    DOES(t, EXCHANGES_VALUE, mh_exchange_value(&t->m, LIST, k + LENGTH - 1, k, &won));
    DOES(t, PLACES, mh_place(&t->m, LIST, &place));
    DOES(t, NUMBERS, mh_number(&t->m, LIST, &section, &number));
    DOES(t, ROOTS, mh_root(&t->m, OTHER));
    DOES(t, FORGETS_SLOTS, mh_forget_slots(&t->m, 0, SLOTS));
}

/* Reads the list that was made last, and changes its first value. */
static void read_list(struct caller *t) {
    uint32_t value = 0, one = 0, i;
    DOES(t, COPIES, mh_copy(&t->m, READ, LIST));
    for (i = 0; i < LENGTH; i++) {
        DOES(t, ASKS_VALUE, mh_value(&t->m, READ, &value));
        DOES(t, GETS, mh_get(&t->m, READ, READ, 0));
    }
    DOES(t, ASKS_SAME, mh_same(&t->m, READ, LIST, &one));
    DOES(t, PUTS, mh_put(&t->m, LIST, value));
    if (BY(t, PASSES, mh_safe_point_step(&t->m)) == MH_STOPPED) come_in(t);
}

/* Each object of leaf k refers to itself too: a store into an object that is published makes its card dirty. */
static void dirty(struct caller *t, uint32_t k) {
    uint32_t i;
    DOES(t, COPIES, mh_copy(&t->m, READ, TREE));
    for (i = depth; i--;) DOES(t, GETS, mh_get(&t->m, READ, READ, k >> i & 1));
    for (i = 0; i < LENGTH; i++) {
        DOES(t, SETS, mh_set(&t->m, READ, 1, READ));
        DOES(t, GETS, mh_get(&t->m, READ, READ, 0));
    }
    if (BY(t, PASSES, mh_safe_point_step(&t->m)) == MH_STOPPED) come_in(t);
}

static void fill(struct caller *t) {
    uint32_t k;
    make(t, TREE, 0);
    for (k = 0; k < 2u << depth; k++) {
        if (k < 1u << depth) replace(t, k);
        else dirty(t, k - (1u << depth));
        rest_if_due(t);
    }
    if (__atomic_add_fetch(&filled, 1, __ATOMIC_SEQ_CST) == mutators) collect(t);
}

static void work(struct caller *t) {
    uint32_t k;
    while (in_round() < IDLES + WORKS) {
        k = random_below(t, 1u << depth);
        replace(t, k);
        if (shared) use_shared(t, k);
        read_list(t);
        dirty(t, random_below(t, 1u << depth));
    }
}

static void *mutate(void *given) {
    struct caller *t = given;
    uint32_t k;
    come_in(t);
    fill(t);
    for (k = 0; k < rounds; k++) {
        DOES(t, LEAVES, mh_leave(&t->m));
        rest_a_round(t);
        come_in(t);
        work(t);
    }
    if (rounds && !__atomic_fetch_add(&ended, 1, __ATOMIC_SEQ_CST)) collect(t);
    DOES(t, LEAVES, mh_leave(&t->m));
    return 0;
}

static void *trace(void *given) {
    struct caller *t = given;
    uint32_t rests = 0;
    while (BY(t, TRACES_TURN, mh_trace_turn(&t->t)) != MH_DISMISSED) {
        mh_rest_turn(t->answer, &rests);
        rest_if_due(t);
    }
    return 0;
}

static void start(struct caller *t, void *(*work)(void *), uint32_t number) {
    t->seed = 88172645463325252ull + number;
    if (pthread_create(&t->thread, 0, work, t)) exit(2);
}

static void play(struct caller *of, struct caller *marks) {
    uint32_t k;
    begun = nanos();
    for (k = 0; k < tracers; k++) start(&marks[k], trace, k);
    for (k = 0; k < mutators; k++) start(&of[k], mutate, k);
    for (k = 0; k < mutators; k++) pthread_join(of[k].thread, 0);
    MUST(mh_dismiss(&world));
    for (k = 0; k < tracers; k++) pthread_join(marks[k].thread, 0);
}

int main(int count, char **words) {
    static struct caller of[THREADS], marks[8];
    uint32_t k;
    cells = number(count, words, 1, 65536), shared = number(count, words, 2, 0), mutators = number(count, words, 3, 1);
    tracers = number(count, words, 4, 1), most = number(count, words, 5, 4096), rounds = number(count, words, 6, 6);
    while (mutators * ((LENGTH + 1ull) << (depth + 1)) * 10 <= cells * 6ull) depth++;
    mh_sizes sizes = {.cells = cells, .fields = 2, .mutators = mutators, .tracers = tracers, .shared = shared, .slots = shared ? SLOTS : 0};
    MUST(mh_open(&sizes, &world));
    for (k = 0; k < mutators; k++) MUST(mh_take_mutator(&world, &of[k].m));
    for (k = 0; k < tracers; k++) MUST(mh_take_tracer(&world, &marks[k].t));
    play(of, marks);
    for (k = 1; k < mutators; k++) add_calls(&of[0], &of[k]);
    for (k = 0; k < tracers; k++) add_calls(&of[0], &marks[k]);
    printf("collections;%" PRIu32 ";0;0;0;\n", collections);
    tell_calls(&of[0]);
    for (k = 0; k < tracers; k++) MUST(mh_give_back_tracer(&world, &marks[k].t));
    for (k = 0; k < mutators; k++) MUST(mh_give_back(&world, &of[k].m));
    MUST(mh_close(&world));
    return 0;
}
