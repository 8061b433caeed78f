/*
 * Collections that a mutator outside helps in, or a tracer. One thread does it step by step, so that what helps, and when, is the same in each run: its mutator
 * keeps a list and forgets other objects, and collects by steps of one object or block; the helper helps after each step. Then the tracer has a thread of its own,
 * which runs mh_trace, and the collecting one waits at the first step of marking and of the sweep until the tracer has found nothing more to do: so the tracer
 * sweeps all. What may not help is refused. Arguments: objects of the list, cells.
 */
#include "heap.h"

enum { LIST, NEW };

/* Who helps: the tracer, if it is taken, else the mutator. */
struct helper {
    mh_mutator m;
    mh_tracer t;
};

static mh_world world;
static mh_mutator m;
static uint32_t length, cells;

static mh_status help(struct helper *h, uint32_t most) { return h->t.at ? mh_help_turn(&h->t, most) : mh_help_step(&h->m, most); }
static mh_status come(struct helper *h) { return h->t.at ? mh_trace_turn(&h->t) : mh_enter_step(&h->m); }

/* A list, with an object that soon is garbage before each of its own. */
static void make_list(void) {
    uint32_t k;
    for (k = 0; k < length; k++) {
        MUST(mh_make(&m, NEW, k));
        MUST(mh_make(&m, NEW, k));
        MUST(mh_set(&m, NEW, 0, LIST));
        MUST(mh_copy(&m, LIST, NEW));
    }
    MUST(mh_forget(&m, NEW));
}

static void check_list(void) {
    uint32_t nil, value, k;
    MUST(mh_copy(&m, NEW, LIST));
    for (k = length; k > 0; k--) {
        MUST(mh_value(&m, NEW, &value));
        wrong("a value of the list", value, k - 1);
        MUST(mh_get(&m, NEW, NEW, 0));
    }
    MUST(mh_is_nil(&m, NEW, &nil));
    wrong("the end of the list", nil, 1);
}

static void begin(void) {
    mh_sizes sizes = {.fields = 1, .mutators = 2, .tracers = 1};
    sizes.cells = cells;
    MUST(mh_open(&sizes, &world));
    MUST(mh_take_mutator(&world, &m));
    MUST(mh_enter(&m));
    make_list();
}

/* What the collection left; the list is whole. */
static mh_cycle end(void) {
    mh_cycle c;
    mh_numbers numbers;
    MUST(mh_last_cycle(&world, &c));
    wrong("the cells in use", c.kept, length);
    MUST(mh_statistics(&world, &numbers));
    wrong("the free cells", numbers.free, cells - length);
    check_list();
    MUST(mh_give_back(&world, &m));
    return c;
}

/* Collects, with the helper after each step, and counts those of its steps that marked, and those that swept. */
static void collect_helped(struct helper *h, uint32_t *marked, uint32_t *swept) {
    mh_course course;
    mh_status s;
    MUST_BE(MH_NO_HELP, help(h, 1));
    while ((s = mh_collect_step(&m, 1)) == MH_NOT_YET) {
        MUST(mhl_course(&m, &course));
        MUST_BE(MH_COLLECTING, mh_help_step(&m, 1));
        MUST_BE(MH_STOPPED, come(h));
        while (help(h, 1) == MH_OK) ++*(course.stage == MH_AT_SWEEP ? swept : marked);
    }
    must(s, MH_OK, "mh_collect_step", __FILE__, __LINE__);
    MUST_BE(MH_NO_HELP, help(h, 1));
}

/* A helper of this thread's, which goes back at the end. */
static void be_helped(int by_tracer) {
    struct helper h = {0};
    uint32_t marked = 0, swept = 0;
    begin();
    if (by_tracer) MUST(mh_take_tracer(&world, &h.t));
    else MUST(mh_take_mutator(&world, &h.m));
    MUST_BE(MH_OUT_OF_RANGE, help(&h, 0));
    MUST_BE(MH_INSIDE, mh_help_step(&m, 1));
    collect_helped(&h, &marked, &swept);
    if (!marked) wrong("the steps that the helper marked", 0, 1);
    if (!swept) wrong("the steps that the helper swept", 0, 1);
    if (end().freed >= length) wrong("the cells that the helper freed", 0, 1);
    if (by_tracer) MUST_BE(MH_IDLE, mh_trace_turn(&h.t));
    else MUST(mh_enter(&h.m));
    MUST_BE(by_tracer ? MH_NO_HELP : MH_INSIDE, help(&h, 1));
    MUST(by_tracer ? mh_give_back_tracer(&world, &h.t) : mh_give_back(&world, &h.m));
    MUST_BE(MH_GIVEN_BACK, by_tracer ? mh_help_turn(&h.t, 1) : mh_help_step(&h.m, 1));
    MUST(mh_close(&world));
    printf("%-13s %-12s %u objects kept in %u cells, by a collection that another %s helped: %u steps of marking, %u of the sweep\n", "helped", COLLECTOR, length, cells,
           by_tracer ? "tracer" : "mutator", marked, swept);
}

/* How often the tracer's thread went to sleep: no other sleeps by this. */
static uint32_t slept;

static void sleep_by(uint32_t microseconds) {
    struct timespec t = {0, (long)microseconds * 1000};
    __atomic_fetch_add(&slept, 1, __ATOMIC_SEQ_CST);
    nanosleep(&t, 0);
}

static void *trace(void *t) {
    MUST_BE(MH_DISMISSED, mh_trace(t));
    return 0;
}

/* Until the tracer has gone to sleep twice: in between it has looked for work, and found none any more. */
static void await_tracer(void) {
    uint32_t from = __atomic_load_n(&slept, __ATOMIC_SEQ_CST);
    while (__atomic_load_n(&slept, __ATOMIC_SEQ_CST) - from < 2) sched_yield();
}

static void collect_beside_tracer(void) {
    mh_course course;
    uint32_t before = MH_AT_INSIDE;
    mh_status s;
    while ((s = mh_collect_step(&m, 1)) == MH_NOT_YET) {
        MUST(mhl_course(&m, &course));
        if (course.stage == MH_AT_STOP || course.stage == MH_AT_PART || course.stage == MH_AT_CLOSE) sched_yield();
        if (course.stage != before && (course.stage == MH_AT_SHARE || course.stage == MH_AT_SWEEP)) await_tracer();
        before = course.stage;
    }
    must(s, MH_OK, "mh_collect_step", __FILE__, __LINE__);
}

/* A tracer that helps by itself. */
static void be_helped_beside(void) {
    mh_tracer t = {0};
    mh_cycle c;
    pthread_t thread;
    begin();
    MUST(mh_take_tracer(&world, &t));
    mh_sleeps_by = sleep_by;
    if (pthread_create(&thread, 0, trace, &t)) exit(2);
    collect_beside_tracer();
    c = end();
    wrong("the cells that the tracer left to free", c.freed, 0);
    if (c.traced >= length) wrong("the objects that the tracer traced in the stop", 0, 1);
    MUST(mh_dismiss(&world));
    pthread_join(thread, 0);
    MUST(mh_give_back_tracer(&world, &t));
    MUST(mh_close(&world));
    printf("%-13s %-12s %u objects kept in %u cells, by a collection beside mh_trace, which left %llu to trace and %llu cells to free\n", "helped", COLLECTOR, length, cells,
           (unsigned long long)c.traced, (unsigned long long)c.freed);
}

int main(int count_of, char **words) {
    length = number(count_of, words, 1, 1000);
    cells = number(count_of, words, 2, 16384);
    be_helped(0);
    be_helped(1);
    be_helped_beside();
    return 0;
}
