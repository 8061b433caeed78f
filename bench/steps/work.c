/*
 * What marking and cleaning come to in a run, beside what the law `cycles_bounded` of crates/work_laws says that they are at most. Each thread keeps a tree of
 * lists, which fill six tenths of the cells, and replaces lists at random until it has made so many objects as use up the free cells as often as is asked; the
 * last one to be done collects. Tracers take turns beside. The library counts the steps of each thread, by their kinds: bench/work.sh builds it, and kinds.h.
 * Arguments: cells, mutators, tracers, how often the free cells are used up. It prints the line of the table, of numbers a cell and a cycle.
 */
#include "../../examples/c/heap.h"
#include "kinds.h"
#include <inttypes.h>

/* How many steps of each kind this thread took. */
extern _Thread_local uint64_t mh_steps_taken[ROOM];

/* The variables: the tree, a place in it, a list, a new object, and one to read with. */
enum { TREE, HERE, LIST, MADE, READ, LENGTH = 17, FIELDS = 2, CARD = 16, SEATS = 41 };

struct actor { mh_mutator m; mh_tracer t; pthread_t thread; uint64_t seed, made; };

static mh_world world;
static uint32_t cells, mutators, tracers, turns, depth, ended;
static uint64_t cycles, stopped_cleanings;
static uint64_t steps[KINDS];

/* A sink: counts the cycles, and the cards that were cleaned in their stops. */
static void note_cycle(void *context, const mh_cycle *c) {
    (void)context;
    cycles = c->number;
    stopped_cleanings += c->cleaned;
}

/* A thread is done: its steps are added to all. */
static void add_steps(void) {
    uint32_t k;
    for (k = 0; k < KINDS; k++) __atomic_fetch_add(&steps[k], mh_steps_taken[k], __ATOMIC_SEQ_CST);
}

static uint32_t random_below(struct actor *a, uint32_t n) {
    a->seed = a->seed * 6364136223846793005u + 1442695040888963407u;
    return (uint32_t)(a->seed >> 33) % n;
}

static void make(struct actor *a, uint32_t v, uint32_t value) {
    MUST(mh_make(&a->m, v, value));
    a->made++;
}

/* A list of new objects becomes leaf k of the tree, whose nodes are made if they aren't there. */
static void replace(struct actor *a, uint32_t k) {
    uint32_t i, nil = 0;
    MUST(mh_forget(&a->m, LIST));
    for (i = 0; i < LENGTH; i++) {
        make(a, MADE, k + i);
        MUST(mh_set(&a->m, MADE, 0, LIST));
        MUST(mh_copy(&a->m, LIST, MADE));
    }
    MUST(mh_copy(&a->m, HERE, TREE));
    for (i = depth - 1; i; i--) {
        MUST(mh_get(&a->m, READ, HERE, k >> i & 1));
        MUST(mh_is_nil(&a->m, READ, &nil));
        if (nil) {
            make(a, READ, i);
            MUST(mh_set(&a->m, HERE, k >> i & 1, READ));
        }
        MUST(mh_copy(&a->m, HERE, READ));
    }
    MUST(mh_set(&a->m, HERE, k & 1, LIST));
}

static void *mutate(void *given) {
    struct actor *a = given;
    uint64_t most = (uint64_t)turns * cells * 4 / 10 / mutators;
    uint32_t k;
    MUST(mh_enter(&a->m));
    make(a, TREE, 0);
    for (k = 0; k < 1u << depth; k++) replace(a, k);
    for (a->made = 0; a->made < most;) replace(a, random_below(a, 1u << depth));
    if (__atomic_add_fetch(&ended, 1, __ATOMIC_SEQ_CST) == mutators) MUST(mh_collect(&a->m));
    MUST(mh_leave(&a->m));
    add_steps();
    return 0;
}

static void *trace(void *given) {
    struct actor *a = given;
    MUST_BE(MH_DISMISSED, mh_trace(&a->t));
    add_steps();
    return 0;
}

static void play(struct actor *of, struct actor *marks) {
    uint32_t k;
    for (k = 0; k < tracers; k++) if (pthread_create(&marks[k].thread, 0, trace, &marks[k])) exit(2);
    for (k = 0; k < mutators; k++) {
        of[k].seed = k + 1;
        if (pthread_create(&of[k].thread, 0, mutate, &of[k])) exit(2);
    }
    for (k = 0; k < mutators; k++) pthread_join(of[k].thread, 0);
    MUST(mh_dismiss(&world));
    for (k = 0; k < tracers; k++) pthread_join(marks[k].thread, 0);
}

/* A number a cell and a cycle. */
static double each(double n) { return n / cells / (double)cycles; }

/* What was counted of this kind, a cell and a cycle. */
static double of_kind(enum kind k) { return each((double)steps[k]); }

/* The bound if so many cells, a cell and a cycle, find no packet: cleanings are at most the cards, the stores, the seats, and one for each such cell and for each
   cleaning in Marking; references read those of each popped cell, and of the cells of each cleaned card; and marks are tried for them and for the roots. */
static double bound(double spilled) {
    double placed = 2, beside = of_kind(ClearCard) - each((double)stopped_cleanings), roots = of_kind(ReadRoot) + of_kind(LoadSlot);
    double cleaned = each((double)cells / CARD + SEATS) + of_kind(StoreField) + spilled + beside;
    double read = FIELDS * (placed - spilled) + CARD * FIELDS * cleaned;
    return placed - spilled + cleaned + read + read + roots;
}

static void tell(void) {
    double all = of_kind(Pop) + of_kind(ClearCard) + of_kind(ReadField) + of_kind(SetMark);
    printf("| %" PRIu32 " | %" PRIu32 " | %" PRIu32 " | %" PRIu64 " | %.2f | %.2f | %.3f | %.2f | %.2f | %.1f | %.0f | %.0f |\n", cells, mutators, tracers,
           cycles, of_kind(StoreField), of_kind(Pop), of_kind(ClearCard), of_kind(ReadField), of_kind(SetMark), all, bound(0), bound(2));
}

int main(int count, char **words) {
    static struct actor of[THREADS], marks[8];
    uint32_t k;
    cells = number(count, words, 1, 65536), mutators = number(count, words, 2, 1), tracers = number(count, words, 3, 1), turns = number(count, words, 4, 10);
    while (mutators * ((LENGTH + 1ull) << (depth + 1)) * 10 <= cells * 6ull) depth++;
    open_with(&world, cells, FIELDS, mutators, tracers);
    MUST(mh_log_cycles(&world, note_cycle, 0));
    for (k = 0; k < mutators; k++) MUST(mh_take_mutator(&world, &of[k].m));
    for (k = 0; k < tracers; k++) MUST(mh_take_tracer(&world, &marks[k].t));
    play(of, marks);
    tell();
    for (k = 0; k < tracers; k++) MUST(mh_give_back_tracer(&world, &marks[k].t));
    for (k = 0; k < mutators; k++) MUST(mh_give_back(&world, &of[k].m));
    MUST(mh_close(&world));
    return 0;
}
