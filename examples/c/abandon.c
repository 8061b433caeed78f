/*
 * Threads that leave in the midst: by a signal handler that jumps out of a waiting call, by being cancelled in one, and by ending inside the world, between two
 * steps of a collection or not; and a tracer's thread that helps in a collection, by a jump or a cancel. Whoever waits for them gives their handles up, and the world goes on, with their variables kept or dropped. A handler jumps only
 * while its thread sleeps, which is told by what the program sleeps by: then no call of the library is under way. Arguments: rounds, 1 for a shared world.
 */
#include "heap.h"
#include <setjmp.h>
#include <signal.h>

enum { CELLS = 320, SLOTS = 3, VALUE = 77, KEPT = 5, WAYS = 6 };

/* The sanitizers don't follow a thread that is cancelled. */
#if defined(__SANITIZE_ADDRESS__) || defined(__SANITIZE_THREAD__)
enum { CANCELS = 0 };
#else
enum { CANCELS = 1 };
#endif

static mh_world world;
static uint32_t is_shared;

/* Whether the thread sleeps, and where it goes from there. */
static __thread volatile sig_atomic_t sleeps;
static __thread sigjmp_buf out;
/* How many threads have slept so far, in a call that waits. */
static uint32_t slept;

static void sleep_by(uint32_t microseconds) {
    struct timespec t = {0, (long)microseconds * 1000};
    __atomic_fetch_add(&slept, 1, __ATOMIC_RELAXED);
    sleeps = 1;
    nanosleep(&t, 0);
    sleeps = 0;
}

static void jump(int signal) {
    (void)signal;
    if (sleeps) siglongjmp(out, 1);
}

/* Variable KEPT has an object, and so has a slot. */
static void enter_with_object(mh_mutator *m) {
    MUST(mh_enter(m));
    MUST(mh_make(m, KEPT, VALUE));
    if (is_shared) MUST(mh_spill(m, KEPT, SLOTS - 1));
}

/* What a thread does that ends in the midst. */
static void *wait_to_collect(void *m) {
    if (!sigsetjmp(out, 1)) mh_collect(m);
    sleeps = 0;
    return 0;
}
static void *wait_to_enter(void *m) {
    if (!sigsetjmp(out, 1)) mh_enter(m);
    sleeps = 0;
    return 0;
}
static void *end_inside(void *m) {
    MUST(mh_safe_point(m));
    return 0;
}
static void *end_collecting(void *p) {
    mh_mutator *m = p;
    uint32_t stopping = 1, k;
    while (stopping) {
        MUST_BE(MH_NOT_YET, mh_collect_step(m, 1));
        MUST(mh_is_stopping(m, &stopping));
    }
    for (k = 0; k < 20; k++) MUST_BE(MH_NOT_YET, mh_collect_step(m, 1));
    return 0;
}

static void *trace(void *t) {
    if (!sigsetjmp(out, 1)) mh_trace(t);
    sleeps = 0;
    return 0;
}

static void wait_for_sleep(void) {
    while (!__atomic_load_n(&slept, __ATOMIC_RELAXED)) sched_yield();
}

/* Signals until the handler finds the thread asleep, or ends it where it sleeps. */
static void end_waiting(pthread_t thread, int by_signal) {
    void *came = 0;
    wait_for_sleep();
    if (!by_signal) pthread_cancel(thread);
    else while (pthread_tryjoin_np(thread, &came)) { pthread_kill(thread, SIGUSR1); mh_sleep(100); }
    if (!by_signal) pthread_join(thread, 0);
}

/* One handle that its thread leaves in this way, while another mutator is inside, or collects. */
static void leave_midst(mh_mutator *other, mh_mutator *m, uint32_t way) {
    static void *(*const does[WAYS])(void *) = {wait_to_collect, wait_to_collect, wait_to_enter, wait_to_enter, end_inside, end_collecting};
    pthread_t thread;
    uint32_t k;
    enter_with_object(m);
    if (way == 2 || way == 3) MUST(mh_leave(m));
    if (way < 4) MUST(mh_enter(other));
    for (k = 0; k < 10 && does[way] == wait_to_enter; k++) MUST_BE(MH_NOT_YET, mh_collect_step(other, 1));
    __atomic_store_n(&slept, 0, __ATOMIC_RELAXED);
    if (pthread_create(&thread, 0, does[way], m)) exit(2);
    if (way < 4) end_waiting(thread, way % 2 == 0 || !CANCELS);
    else pthread_join(thread, 0);
    if (does[way] == wait_to_enter) MUST(mh_collect(other));
    MUST(mh_leave(other));
}

/* A tracer's handle that its thread leaves once it has helped in the other's collection and found nothing more to do there. It is no helper, so that goes on. */
static void leave_helping(mh_mutator *other, int by_signal) {
    mh_tracer t = {0};
    mh_course course = {0};
    pthread_t thread;
    MUST(mh_take_tracer(&world, &t));
    MUST(mh_enter(other));
    while (course.stage != MH_AT_SHARE) {
        MUST_BE(MH_NOT_YET, mh_collect_step(other, 1));
        MUST(mhl_course(other, &course));
    }
    __atomic_store_n(&slept, 0, __ATOMIC_RELAXED);
    if (pthread_create(&thread, 0, trace, &t)) exit(2);
    end_waiting(thread, by_signal || !CANCELS);
    MUST_BE(MH_NO_HELP, mh_help_turn(&t, 1));
    MUST(mh_give_back_tracer(&world, &t));
    MUST(mh_collect(other));
    MUST(mh_leave(other));
}

/* What the mutator has whose handle was given up. */
static void look(int keeps) {
    mh_mutator m = {0};
    uint32_t value = 0, nil = 0;
    MUST(mh_take_mutator(&world, &m));
    MUST(mh_enter(&m));
    MUST(mh_is_nil(&m, KEPT, &nil));
    wrong("whether the variable is nil", nil, !keeps);
    if (keeps) MUST(mh_value(&m, KEPT, &value));
    if (keeps) wrong("the value", value, VALUE);
    if (is_shared) {
        MUST(mh_fill(&m, KEPT, SLOTS - 1));
        MUST(mh_is_nil(&m, KEPT, &nil));
        wrong("whether the slot is nil", nil, !keeps);
    }
    MUST(mh_forget_all(&m));
    MUST(mh_collect(&m));
    MUST(mh_give_back(&world, &m));
}

/* A handle of another world, and one by which a call of the library is under way, aren't given up. */
static void refuse(mh_mutator *m, int keeps) {
    mh_world elsewhere = {0};
    mh_sizes sizes = {.cells = 64, .fields = 1, .mutators = 1};
    MUST_BE(MH_GIVEN_BACK, mh_abandon(&elsewhere, m, keeps));
    MUST(mh_open(&sizes, &elsewhere));
    MUST_BE(MH_REFUSED, mh_abandon(&elsewhere, m, keeps));
    MUST(mh_close(&elsewhere));
#ifdef MH_CHECKED
    m->used = 1;
    MUST_BE(MH_IN_USE, mh_abandon(&world, m, keeps));
    m->used = 0;
#endif
}

static void go_round(mh_mutator *other, uint32_t round) {
    mh_mutator m = {0};
    mh_numbers numbers;
    uint32_t way = round % WAYS;
    int keeps = (int)(round / WAYS % 2);
    MUST(mh_take_mutator(&world, &m));
    leave_midst(other, &m, way);
    refuse(&m, keeps);
    MUST(mh_abandon(&world, &m, keeps));
    MUST_BE(MH_GIVEN_BACK, mh_abandon(&world, &m, keeps));
    look(keeps);
    MUST(mh_statistics(&world, &numbers));
    wrong("how many cells are in use", numbers.marked, is_shared);
    leave_helping(other, round % 2 == 0);
}

int main(int count_of, char **words) {
    mh_mutator other = {0};
    struct sigaction handler;
    uint32_t rounds = number(count_of, words, 1, 60), k;
    mh_sizes sizes = {.cells = CELLS, .fields = 1, .mutators = 2, .tracers = 1};
    is_shared = sizes.shared = number(count_of, words, 2, 0);
    sizes.slots = is_shared ? SLOTS : 0;
    mh_sleeps_by = sleep_by;
    handler.sa_handler = jump;
    sigemptyset(&handler.sa_mask);
    handler.sa_flags = 0;
    sigaction(SIGUSR1, &handler, 0);
    MUST(mh_open(&sizes, &world));
    MUST(mh_take_mutator(&world, &other));
    for (k = 0; k < rounds; k++) go_round(&other, k);
    MUST(mh_give_back(&world, &other));
    MUST(mh_close(&world));
    printf("%-13s %-12s %u threads left in the midst%s: by a jump or a cancel out of a waiting call, or inside, and as many tracers; the world went on\n", "abandon", COLLECTOR, rounds, is_shared ? ", sharing" : "");
    return 0;
}
