/*
 * What is told of the last cycle: threads make objects that soon are garbage, beside a list that is kept, and tracers mark; another thread asks meanwhile, and writes
 * a line for some of the cycles that it finds. At the end one mutator collects alone, and what is told then is compared with what is known. Before all this one
 * thread in a world of its own knows each number: what is traced in a stop, which cards are dirty, what it pays, and what a precise collection does for nothing.
 * Arguments: threads, objects of each, cells, tracers.
 */
#include "heap.h"
#include <string.h>

enum { LIST, NEW, NEXT, LENGTH = 2000, LINES = 4, ALONE = 8192 };

static mh_world world;
static uint32_t threads, many, cells, tracers, working;

static void *work(void *p) {
    mh_mutator *m = p;
    uint32_t k;
    MUST(mh_enter(m));
    for (k = 0; k < many; k++) {
        MUST(mh_make(m, NEW, k));
        if (k >= LENGTH) continue;
        MUST(mh_set(m, NEW, 0, LIST));
        MUST(mh_copy(m, LIST, NEW));
    }
    MUST(mh_leave(m));
    __atomic_fetch_sub(&working, 1, __ATOMIC_RELEASE);
    return 0;
}

/* What is called with each cycle: how many were told, and the sum of their numbers. */
static uint64_t told, numbers;
static void note(void *context, const mh_cycle *c) {
    wrong("the context", context == &world, 1);
    __atomic_fetch_add(&told, 1, __ATOMIC_SEQ_CST);
    __atomic_fetch_add(&numbers, c->number, __ATOMIC_SEQ_CST);
}

static void *mark_beside(void *p) {
    MUST_BE(MH_DISMISSED, mh_trace((mh_tracer *)p));
    return 0;
}

static double ms(uint64_t nanoseconds) { return (double)nanoseconds * 1e-6; }

static void tell(const mh_cycle *c) {
    printf("cycle %llu, as %s: %.2f ms marking beside%s, %llu traced by tracers, %llu by mutators, %llu in the stop, %llu cards cleaned in it; ",
           (unsigned long long)c->number, c->why == MH_ASKED ? "asked" : "no cell was free", ms(c->marked), c->beside ? "" : " (none)", (unsigned long long)c->tracers,
           (unsigned long long)c->mutators, (unsigned long long)c->traced, (unsigned long long)c->cleaned);
    printf("%.2f ms waited, %.2f ms stopped, of it %.2f sweeping; %llu freed, %llu kept\n",
           ms(c->waited), ms(c->stopped), ms(c->swept), (unsigned long long)c->freed, (unsigned long long)c->kept);
}

/* Asks until nobody works any more: each answer is a whole cycle, with a number that never falls. How many cycles were found. */
static uint64_t watch(void) {
    mh_cycle c = {0, 0, 0, 0, 0, 0, 0, 0, 0, 0, 0, 0, 0, 0, 0, 0};
    uint64_t last = 0, found = 0;
    while (__atomic_load_n(&working, __ATOMIC_ACQUIRE)) {
        mh_status s = mh_last_cycle(&world, &c);
        if (s != MH_NOT_YET) must(s, MH_OK, "mh_last_cycle", __FILE__, __LINE__);
        if (c.number < last) wrong("the number of a cycle", c.number, last);
        if (c.swept > c.stopped) wrong("how long it was swept", c.swept, c.stopped);
        if (c.freed + c.kept > cells) wrong("how many cells it freed and kept", c.freed + c.kept, cells);
        if (c.number > last && ++found <= LINES) tell(&c);
        last = c.number;
        mh_sleep(200);
    }
    return last;
}

/* One collection by a mutator that is alone: what is told of it. */
static void end_alone(mh_mutator *m, uint64_t before) {
    mh_cycle c;
    mh_numbers n;
    double from, took;
    MUST(mh_enter(m));
    MUST(mh_last_cycle(&world, &c));
    if (c.number < before) wrong("the number of a cycle", c.number, before);
    before = c.number;
    from = now();
    MUST(mh_collect(m));
    took = (now() - from) * 1e9;
    MUST(mh_last_cycle(&world, &c));
    MUST(mh_statistics(&world, &n));
    wrong("the number of the next cycle", c.number, before + 1);
    wrong("why it ended", c.why, MH_ASKED);
    wrong("the cells that it kept", c.kept, n.marked);
    if (c.kept < threads * LENGTH || c.kept > threads * (LENGTH + 1)) wrong("the cells that it kept", c.kept, threads * LENGTH);
    if ((double)(c.waited + c.stopped) > took) wrong("how long it took", c.waited + c.stopped, (uint64_t)took);
    tell(&c);
    MUST(mh_leave(m));
}

/* A collection of a thread alone: it traced each object that is kept once, and cleaned so many cards. */
static void collect_alone(mh_world *w, mh_mutator *m, uint64_t objects, uint64_t cards) {
    mh_cycle c;
    MUST(mh_collect(m));
    MUST(mh_last_cycle(w, &c));
    wrong("whether a cycle was marking", c.beside, 0);
    wrong("the objects that were kept", c.kept, objects);
    wrong("the objects that were traced in the stop", c.traced, objects);
    wrong("the cards that were cleaned in it", c.cleaned, cards);
    wrong("the objects that were traced beside it", c.mutators + c.tracers, 0);
}

/* Stores a reference in each so manieth object of the list, what it was: how many cards of 16 cells the objects lie on. */
static uint64_t dirty(mh_mutator *m, uint32_t each) {
    static char seen[ALONE / 16];
    uint64_t cards = 0;
    uint32_t k, place;
    memset(seen, 0, sizeof seen);
    MUST(mh_copy(m, NEW, LIST));
    for (k = 0; k < LENGTH; k++) {
        MUST(mh_get(m, NEXT, NEW, 0));
        MUST(mh_place(m, NEW, &place));
        if (k % each == 0) {
            MUST(mh_set(m, NEW, 0, NEXT));
            if (!seen[place / 16]) { seen[place / 16] = 1; cards++; }
        }
        MUST(mh_copy(m, NEW, NEXT));
    }
    MUST(mh_forget(m, NEXT));
    return cards;
}

/* An ordinary cycle: each object that it keeps was traced once, beside the program or while the world stood still. */
static void end_once(const mh_cycle *c) {
    wrong("whether a cycle was marking", c->beside, 1);
    wrong("whether it left no garbage", c->exact, 0);
    wrong("the objects that were traced for nothing", c->wasted, 0);
    wrong("the objects that were traced", c->mutators + c->traced, c->kept);
    if (c->kept < LENGTH) wrong("the objects that were kept", c->kept, LENGTH);
}

/* One that came as no cell was free: the world stood still for a fiftieth of them at most. */
static void end_shortly(const mh_cycle *c) {
    end_once(c);
    wrong("why it ended", c->why, MH_LACKED);
    if (50 * c->traced > c->kept) wrong("the objects that were traced in the stop", c->traced, c->kept / 50);
}

/* A cycle that left no garbage: the list is kept and variable NEW's object, and nothing else. */
static void end_exactly(const mh_cycle *c, uint64_t beside) {
    wrong("whether a cycle was marking", c->beside, beside);
    wrong("whether it left no garbage", c->exact, 1);
    wrong("the objects that were kept", c->kept, LENGTH + 1);
    wrong("the objects that were traced for nothing", c->wasted, beside ? c->mutators : 0);
    if (beside && !c->wasted) wrong("the objects that were traced for nothing", 0, LENGTH);
    if (c->traced < c->kept) wrong("the objects that were traced in the stop", c->traced, c->kept);
}

/* Objects that soon are garbage, until a cycle is seen to mark. */
static void mark_first(mh_mutator *m) {
    mh_course course;
    do {
        MUST(mh_make(m, NEW, 0));
        MUST(mhl_course(m, &course));
    } while (!course.marking);
}

/* Both kinds of collection, while a cycle marks and while none does. One goes on as it was begun, and mh_collect makes another then. */
static void collect_both_ways(mh_world *w, mh_mutator *m) {
    mh_cycle c;
    uint64_t before;
    mark_first(m);
    MUST(mh_finish(m));
    MUST(mh_last_cycle(w, &c));
    end_once(&c);
    MUST(mh_finish(m));
    MUST(mh_last_cycle(w, &c));
    end_exactly(&c, 0);
    mark_first(m);
    MUST(mh_collect(m));
    MUST(mh_last_cycle(w, &c));
    end_exactly(&c, 1);
    mark_first(m);
    MUST_BE(MH_OUT_OF_RANGE, mh_finish_step(m, 0));
    MUST_BE(MH_NOT_YET, mh_finish_step(m, 1));
    while (mh_collect_step(m, 64) == MH_NOT_YET) {}
    MUST(mh_last_cycle(w, &c));
    end_once(&c);
    before = c.number;
    mark_first(m);
    MUST_BE(MH_NOT_YET, mh_finish_step(m, 1));
    MUST(mh_collect(m));
    MUST(mh_last_cycle(w, &c));
    end_exactly(&c, 0);
    wrong("the number of the cycle after the next", c.number, before + 2);
}

/* What one thread is told that does all itself, without a tracer: exact numbers, and what it paid, which is what the cycles tell together. */
static void alone(void) {
    mh_sizes sizes = {.cells = ALONE, .fields = 1, .mutators = 1};
    mh_world w = {0};
    mh_mutator m = {0};
    mh_cycle c;
    mh_work work;
    uint64_t last, paid = 0;
    uint32_t k;
    MUST(mh_open(&sizes, &w));
    MUST(mh_take_mutator(&w, &m));
    MUST(mh_enter(&m));
    for (k = 0; k < LENGTH; k++) {
        MUST(mh_make(&m, NEW, k));
        MUST(mh_set(&m, NEW, 0, LIST));
        MUST(mh_copy(&m, LIST, NEW));
    }
    MUST(mh_forget(&m, NEW));
    collect_alone(&w, &m, LENGTH, 0);
    collect_alone(&w, &m, LENGTH, dirty(&m, 100));
    collect_alone(&w, &m, LENGTH, dirty(&m, 1));
    MUST(mh_last_cycle(&w, &c));
    last = c.number;
    for (k = 0; k < 20 * ALONE; k++) {
        MUST(mh_make(&m, NEW, k));
        MUST(mh_last_cycle(&w, &c));
        if (c.number == last) continue;
        wrong("the number of the next cycle", c.number, ++last);
        end_shortly(&c);
        paid += c.mutators;
    }
    MUST(mh_collect(&m));
    MUST(mh_last_cycle(&w, &c));
    MUST(mhl_work(&m, &work));
    wrong("what the mutator paid", paid + c.mutators, work.paid);
    if (!work.paid) wrong("what the mutator paid", 0, LENGTH);
    collect_both_ways(&w, &m);
    MUST(mh_give_back(&w, &m));
    MUST(mh_close(&w));
}

int main(int count_of, char **words) {
    static mh_mutator m[THREADS];
    static mh_tracer t[8];
    pthread_t acting[THREADS], marking[8];
    mh_cycle none = {0, 77, 0, 0, 0, 0, 0, 0, 0, 0, 0, 0, 0, 0, 0, 0};
    mh_sizes sizes = {.fields = 1};
    uint64_t found;
    uint32_t k;
    threads = sizes.mutators = working = number(count_of, words, 1, 4);
    many = number(count_of, words, 2, 300000);
    cells = sizes.cells = number(count_of, words, 3, 16384);
    tracers = sizes.tracers = number(count_of, words, 4, 1);
    alone();
    MUST_BE(MH_GIVEN_BACK, mh_last_cycle(&world, &none));
    MUST(mh_open(&sizes, &world));
    MUST(mh_log_cycles(&world, note, &world));
    MUST_BE(MH_NOT_YET, mh_last_cycle(&world, &none));
    wrong("what is written of no cycle", none.why, 77);
    for (k = 0; k < threads; k++) MUST(mh_take_mutator(&world, &m[k]));
    for (k = 0; k < tracers; k++) MUST(mh_take_tracer(&world, &t[k]));
    for (k = 0; k < tracers; k++) if (pthread_create(&marking[k], 0, mark_beside, &t[k])) return 2;
    for (k = 0; k < threads; k++) if (pthread_create(&acting[k], 0, work, &m[k])) return 2;
    found = watch();
    for (k = 0; k < threads; k++) pthread_join(acting[k], 0);
    MUST(mh_dismiss(&world));
    for (k = 0; k < tracers; k++) pthread_join(marking[k], 0);
    end_alone(&m[0], found);
    MUST(mh_last_cycle(&world, &none));
    wrong("how many cycles were logged", told, none.number);
    wrong("the sum of their numbers", numbers, none.number * (none.number + 1) / 2);
    for (k = 0; k < tracers; k++) MUST(mh_give_back_tracer(&world, &t[k]));
    for (k = 0; k < threads; k++) MUST(mh_give_back(&world, &m[k]));
    MUST(mh_close(&world));
    printf("%-13s %-12s threads %u tracers %u: %llu cycles and more, each told whole\n", "cycles", COLLECTOR, threads, tracers, (unsigned long long)found);
    return 0;
}
