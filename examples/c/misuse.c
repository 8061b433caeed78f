/*
 * One handle used by two at once, against the rule. A signal handler calls by the handle that it interrupts: each of its calls is MH_IN_USE, or came between two
 * others. Built with MH_CHECKED, threads make objects by one handle side by side: each call is done or is MH_IN_USE, and as many objects were made as calls were
 * done. Arguments: calls of each, threads.
 */
#include "heap.h"
#include <signal.h>
#include <sys/time.h>

enum { NUMBER = 31 };

static mh_world world;
static mh_mutator m;
static uint64_t calls;

/* How often a call was done, and how often it was refused. */
struct tally { uint64_t done, refused; uint32_t v, last; };

static void note(struct tally *t, mh_status s) {
    if (s == MH_IN_USE) { t->refused++; return; }
    must(s, MH_OK, "a call beside another", __FILE__, __LINE__);
    t->done++;
}

/* Makes objects in the variable that is the caller's, each with how many were made before. */
static void *make_some(void *p) {
    struct tally *t = p;
    uint64_t k, before;
    for (k = 0; k < calls; k++) {
        before = t->done;
        note(t, mh_make_step(&m, t->v, (uint32_t)t->done));
        if (t->done > before) t->last = (uint32_t)before;
        else sched_yield();
    }
    return 0;
}

/* All that were done have been done whole. */
static void compare(const struct tally *t, uint32_t n) {
    uint32_t k, section = 0, number = 0, value = 0;
    uint64_t done = 0;
    MUST(mh_make(&m, NUMBER, 0));
    MUST(mh_number(&m, NUMBER, &section, &number));
    for (k = 0; k < n; k++) {
        done += t[k].done;
        if (!t[k].done) continue;
        MUST(mh_value(&m, t[k].v, &value));
        wrong("the value of the last object", value, t[k].last);
    }
    wrong("how many objects were made", number, done);
}

#ifdef MH_CHECKED
static const char *by = "threads";
static void act(struct tally *t, uint32_t n) {
    pthread_t threads[THREADS];
    uint32_t k;
    for (k = 0; k < n; k++) if (pthread_create(&threads[k], 0, make_some, &t[k])) exit(2);
    for (k = 0; k < n; k++) pthread_join(threads[k], 0);
}
#else
static const char *by = "a signal handler";
static struct tally *handled;
static void handle(int number) {
    (void)number;
    note(handled, mh_make_step(&m, handled->v, (uint32_t)handled->done));
    handled->last = (uint32_t)(handled->done - 1);
}
static void act(struct tally *t, uint32_t n) {
    struct sigaction handler = {0};
    struct itimerval often = {{0, 100}, {0, 100}}, never = {{0, 0}, {0, 0}};
    (void)n;
    handled = &t[1];
    handler.sa_handler = handle;
    sigaction(SIGALRM, &handler, 0);
    setitimer(ITIMER_REAL, &often, 0);
    make_some(&t[0]);
    setitimer(ITIMER_REAL, &never, 0);
    wrong("how many calls of the thread itself were refused", t[0].refused, 0);
}
#endif

int main(int count_of, char **words) {
    static struct tally t[THREADS];
    mh_sizes sizes = {.cells = 1u << 22, .fields = 1, .mutators = 1, .shared = 1};
    uint64_t refused = 0, done = 0;
    uint32_t k, n = number(count_of, words, 2, 2);
    calls = number(count_of, words, 1, 1000000);
    if (n < 2 || n > THREADS || n * calls > 1u << 21) return 2;
    for (k = 0; k < n; k++) t[k].v = k;
    MUST(mh_open(&sizes, &world));
    MUST(mh_take_mutator(&world, &m));
    MUST(mh_enter(&m));
    act(t, n);
    compare(t, n);
    MUST(mh_give_back(&world, &m));
    MUST(mh_close(&world));
    for (k = 0; k < n; k++) { refused += t[k].refused; done += t[k].done; }
    printf("%-13s %-12s one handle by %s beside another: %llu calls done whole, %llu refused\n", "misuse", COLLECTOR, by, (unsigned long long)done, (unsigned long long)refused);
    return 0;
}
