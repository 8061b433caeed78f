/*
 * Writes what each thread does as a trace that Chrome's viewer (chrome://tracing) and Perfetto's (ui.perfetto.dev) show: the Trace Event format, as JSON. Each thread
 * has a lane: a mutator runs the program, collects, or waits; a tracer traces. The world has instants where a cycle begins to mark, where its stop is asked for,
 * where the world stands still and where the cycle ends, and counters of free and marked cells.
 * Arguments: threads, objects of each, cells, tracers. The trace goes to standard output.
 */
#include "heap.h"
#include <string.h>

enum { LIST, NEW, LANES = THREADS + 9, WORLD = THREADS + 8, EVENTS = 1 << 15 };

/* What happened in a lane: B and E are the begin and end of what it does, i is an instant, C a counter. */
struct event { uint64_t at, number; uint32_t lane, order; char kind; const char *what; };
struct lane { struct event of[EVENTS]; uint32_t count; const char *doing; };

static mh_world world;
static struct lane *lanes;
static mh_mutator mutators[THREADS];
static mh_tracer marks[8];
static uint32_t threads, many, cells, tracers, events;

/* An event of a lane, by one thread at a time. A lane that is full takes no more. */
static void note(uint32_t lane, uint64_t at, char kind, const char *what, uint64_t number) {
    struct event e = {at, number, lane, __atomic_fetch_add(&events, 1, __ATOMIC_SEQ_CST), kind, what};
    if (lanes[lane].count < EVENTS) lanes[lane].of[lanes[lane].count++] = e;
}

/* From now on the thread does this, or nothing that is shown. A full lane keeps room for the end of what it does. */
static void does(uint32_t lane, const char *what) {
    uint64_t at = mh_now();
    if (lanes[lane].doing == what) return;
    if (lanes[lane].doing) note(lane, at, 'E', lanes[lane].doing, 0);
    lanes[lane].doing = lanes[lane].count + 4 < EVENTS ? what : 0;
    if (lanes[lane].doing) note(lane, at, 'B', what, 0);
}

/* A cycle as it is told: the moments of its stop are found from how long each part took. The sinks of two cycles come one at a time here. */
static void tell(void *context, const mh_cycle *c) {
    static pthread_mutex_t telling = PTHREAD_MUTEX_INITIALIZER;
    uint64_t end = mh_now(), stop = end - c->stopped, asked = stop - c->waited;
    (void)context;
    pthread_mutex_lock(&telling);
    if (c->marked) note(WORLD, asked - c->marked, 'i', "a cycle begins to mark", c->number);
    note(WORLD, asked, 'i', "a stop is asked for", c->number);
    note(WORLD, stop, 'i', "the world stands still", c->number);
    note(WORLD, end, 'i', "the cycle ends", c->number);
    note(WORLD, end, 'C', "free cells", cells - c->kept);
    note(WORLD, end, 'C', "marked cells", c->kept);
    pthread_mutex_unlock(&telling);
}

/* An object: with a collection if no cell is free, which is told. */
static void make(mh_mutator *m, uint32_t lane, uint32_t value) {
    mh_status s;
    while ((s = mh_make_step(m, NEW, value)) != MH_OK) {
        if (s == MH_NO_CELL) {
            does(lane, "collects");
            while ((s = mh_finish_step(m, MH_STEP)) == MH_NOT_YET) sched_yield();
        }
        if (s == MH_STOPPED) {
            does(lane, "waits");
            s = mh_enter(m);
        }
        must(s, MH_OK, "a collection", __FILE__, __LINE__);
        does(lane, "runs the program");
    }
}

static void *work(void *p) {
    mh_mutator *m = p;
    uint32_t lane = (uint32_t)(m - mutators), k;
    MUST(mh_enter(m));
    does(lane, "runs the program");
    for (k = 0; k < many; k++) {
        make(m, lane, k);
        if (k >= cells / 2 / threads) continue;
        MUST(mh_set(m, NEW, 0, LIST));
        MUST(mh_copy(m, LIST, NEW));
    }
    does(lane, 0);
    MUST(mh_leave(m));
    return 0;
}

static void *mark_beside(void *p) {
    mh_tracer *t = p;
    uint32_t lane = THREADS + (uint32_t)(t - marks), rests = 0;
    mh_status s;
    while ((s = mh_trace_turn(t)) != MH_DISMISSED) {
        does(lane, s == MH_OK ? "traces" : 0);
        mh_rest_turn(s, &rests);
    }
    does(lane, 0);
    return 0;
}

static int in_order(const void *p, const void *q) {
    const struct event *a = p, *b = q;
    if (a->at != b->at) return a->at < b->at ? -1 : 1;
    return a->order < b->order ? -1 : a->order > b->order;
}

/* The name of a lane, which the viewer shows. */
static void name(uint32_t lane) {
    printf("{\"name\":\"thread_name\",\"ph\":\"M\",\"pid\":1,\"tid\":%u,\"args\":{\"name\":\"", lane);
    if (lane == WORLD) printf("the world\"}},\n");
    else printf("%s %u\"}},\n", lane < THREADS ? "mutator" : "tracer", lane < THREADS ? lane + 1 : lane - THREADS + 1);
}

/* One event: its time is in microseconds from the first one on. */
static void print(const struct event *e, uint64_t from, int is_last) {
    printf("{\"name\":\"%s\",\"ph\":\"%c\",\"pid\":1,\"tid\":%u,\"ts\":%.3f", e->what, e->kind, e->lane, (double)(e->at - from) / 1e3);
    if (e->kind == 'i') printf(",\"s\":\"g\",\"args\":{\"cycle\":%llu}", (unsigned long long)e->number);
    if (e->kind == 'C') printf(",\"args\":{\"cells\":%llu}", (unsigned long long)e->number);
    printf("}%s\n", is_last ? "" : ",");
}

static void print_all(void) {
    struct event *all = calloc(events + 1, sizeof *all);
    uint32_t n = 0, k;
    if (!all) exit(2);
    for (k = 0; k < LANES; k++) {
        memcpy(all + n, lanes[k].of, lanes[k].count * sizeof *all);
        n += lanes[k].count;
    }
    qsort(all, n, sizeof *all, in_order);
    printf("{\"displayTimeUnit\":\"ms\",\"traceEvents\":[\n");
    for (k = 0; k < LANES; k++) if (lanes[k].count) name(k);
    for (k = 0; k < n; k++) print(&all[k], all[0].at, k + 1 == n);
    printf("]}\n");
    free(all);
}

int main(int count, char **words) {
    mh_sizes sizes = {0, 1, 0, 0, 0, 0, 0};
    pthread_t acting[THREADS], marking[8];
    uint32_t k;
    threads = sizes.mutators = number(count, words, 1, 3);
    many = number(count, words, 2, 300000);
    cells = sizes.cells = number(count, words, 3, 65536);
    tracers = sizes.tracers = number(count, words, 4, 1);
    lanes = calloc(LANES, sizeof *lanes);
    if (!lanes || threads < 1 || threads > THREADS || tracers > 8) return 2;
    MUST(mh_open(&sizes, &world));
    MUST(mh_log_cycles(&world, tell, 0));
    for (k = 0; k < threads; k++) MUST(mh_take_mutator(&world, &mutators[k]));
    for (k = 0; k < tracers; k++) MUST(mh_take_tracer(&world, &marks[k]));
    for (k = 0; k < tracers; k++) if (pthread_create(&marking[k], 0, mark_beside, &marks[k])) return 2;
    for (k = 0; k < threads; k++) if (pthread_create(&acting[k], 0, work, &mutators[k])) return 2;
    for (k = 0; k < threads; k++) pthread_join(acting[k], 0);
    MUST(mh_dismiss(&world));
    for (k = 0; k < tracers; k++) pthread_join(marking[k], 0);
    for (k = 0; k < tracers; k++) MUST(mh_give_back_tracer(&world, &marks[k]));
    for (k = 0; k < threads; k++) MUST(mh_give_back(&world, &mutators[k]));
    MUST(mh_close(&world));
    print_all();
    free(lanes);
    return 0;
}
