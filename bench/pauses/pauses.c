/*
 * The work `pauses` of crates/bench_heaps over the library for C: mutators that keep orders below a directory, and replace one with each transaction and look at
 * another. Each stop is told by mh_log_cycles; the stops after the first mutator is done aren't counted, since the others have fewer hands then. Values that are
 * read are checked.
 *
 *     pauses CELLS LIVE MUTATORS TRACERS TRANSACTIONS
 *
 * LIVE of a hundred cells are live. Each mutator collects once before, so that the first cycle, which knows of no last one, isn't counted. They work in rounds with
 * a rest before each, so that the kernel doesn't hold up a thread of a fixed priority; the rests aren't counted. It prints words and numbers, which bench/pauses.sh
 * reads: times in microseconds, latencies in nanoseconds.
 */
#include "managed_heap.h"
#include <pthread.h>
#include <stdio.h>
#include <string.h>

enum { DIRECTORY = 0, LIST = 1, ITEM = 2, ORDER = 3, TREE = 4, AT = 5, NEXT = 6, LINE = 7, LEAF = 8 };
enum { MOST_STOPS = 1 << 16 };

static mh_world world;
static mh_cycle stops[MOST_STOPS];
static uint64_t stop_count;
static pthread_barrier_t all_filled, round_begins, round_ends;
static uint32_t working, counting;

enum { ROUND = 600000000, REST = 100000, THREADS = 32 };

static void must(mh_status s, const char *what) {
    if (s == MH_OK) return;
    fprintf(stderr, "%s: %s\n", what, mh_status_text(s));
    exit(3);
}

struct worker {
    mh_mutator m;
    uint32_t orders, transactions, levels, done;
    uint64_t number, sum;
    uint64_t *times;
} __attribute__((aligned(256))); /* no two workers share a line of the cache */

static struct worker workers[THREADS];
static mh_tracer marks[8];
static pthread_t working_threads[THREADS], tracing[8];
static uint32_t threads, tracers;

static void node(struct worker *w, uint32_t v, uint32_t value) { must(mh_make(&w->m, v, value), "mh_make"); }

/* An order: five lines with an item each, and a tree with four leaves. */
static void order(struct worker *w, uint32_t number) {
    uint32_t k, fields[4];
    node(w, ORDER, number);
    must(mh_forget(&w->m, LIST), "mh_forget");
    for (k = 0; k < 5; k++) {
        node(w, ITEM, number);
        fields[0] = LIST, fields[1] = ITEM;
        must(mh_make_with(&w->m, LINE, number, fields, 2), "mh_make_with");
        must(mh_copy(&w->m, LIST, LINE), "mh_copy");
    }
    must(mh_set(&w->m, ORDER, 0, LIST), "mh_set");
    node(w, TREE, number);
    for (k = 0; k < 4; k++) {
        node(w, LEAF, number);
        must(mh_set(&w->m, TREE, k, LEAF), "mh_set");
    }
    must(mh_set(&w->m, ORDER, 1, TREE), "mh_set");
    must(mh_forget(&w->m, LIST), "mh_forget");
    must(mh_forget(&w->m, ITEM), "mh_forget");
    must(mh_forget(&w->m, LINE), "mh_forget");
    must(mh_forget(&w->m, TREE), "mh_forget");
    must(mh_forget(&w->m, LEAF), "mh_forget");
}

/* The lowest node above the order of this number. */
static void lowest(struct worker *w, uint32_t at) {
    uint32_t level, nil;
    must(mh_copy(&w->m, AT, DIRECTORY), "mh_copy");
    for (level = w->levels - 1; level > 0; level--) {
        uint32_t k = (at >> (2 * level)) % 4;
        must(mh_get(&w->m, NEXT, AT, k), "mh_get");
        must(mh_is_nil(&w->m, NEXT, &nil), "mh_is_nil");
        if (nil) {
            node(w, NEXT, 0);
            must(mh_set(&w->m, AT, k, NEXT), "mh_set");
        }
        must(mh_copy(&w->m, AT, NEXT), "mh_copy");
    }
}

static void replace(struct worker *w, uint32_t at, uint32_t number) {
    order(w, number);
    lowest(w, at);
    must(mh_set(&w->m, AT, at % 4, ORDER), "mh_set");
    must(mh_forget(&w->m, ORDER), "mh_forget");
    must(mh_forget(&w->m, AT), "mh_forget");
    must(mh_forget(&w->m, NEXT), "mh_forget");
}

static uint32_t value(struct worker *w, uint32_t v) {
    uint32_t n = 0;
    must(mh_value(&w->m, v, &n), "mh_value");
    return n;
}

/* Looks at an order: all its values are one. */
static void look(struct worker *w, uint32_t at) {
    uint32_t nil, k, lines = 0, number;
    lowest(w, at);
    must(mh_get(&w->m, ORDER, AT, at % 4), "mh_get");
    number = value(w, ORDER);
    must(mh_get(&w->m, LIST, ORDER, 0), "mh_get");
    while (mh_is_nil(&w->m, LIST, &nil) == MH_OK && !nil) {
        must(mh_get(&w->m, ITEM, LIST, 1), "mh_get");
        if (value(w, LIST) != number || value(w, ITEM) != number) { puts("LOST: a line"); exit(4); }
        lines++;
        must(mh_get(&w->m, LIST, LIST, 0), "mh_get");
    }
    must(mh_get(&w->m, TREE, ORDER, 1), "mh_get");
    for (k = 0; k < 4; k++) {
        must(mh_get(&w->m, LEAF, TREE, k), "mh_get");
        if (value(w, LEAF) != number) { puts("LOST: a leaf"); exit(4); }
    }
    if (lines != 5) { printf("LOST: %u lines\n", lines); exit(4); }
    w->sum += number;
    for (k = LIST; k <= LEAF; k++) must(mh_forget(&w->m, k), "mh_forget");
}

static uint64_t following(uint64_t x) {
    x ^= x << 13;
    x ^= x >> 7;
    return x ^ x << 17;
}

/* Keeps a cycle that has ended while all mutators were at work. */
static void keep_cycle(void *context, const mh_cycle *cycle) {
    uint64_t k;
    (void)context;
    if (!__atomic_load_n(&counting, __ATOMIC_SEQ_CST)) return;
    k = __atomic_fetch_add(&stop_count, 1, __ATOMIC_SEQ_CST);
    if (k < MOST_STOPS) stops[k] = *cycle;
}

/* Transactions until all are made or the time of the round is over. */
static void make_round(struct worker *w) {
    uint64_t began = mh_now(), before = began, now;
    must(mh_enter(&w->m), "mh_enter");
    while (w->done < w->transactions && before - began < ROUND) {
        w->number = following(w->number);
        replace(w, (uint32_t)((w->number >> 20) % w->orders), w->done);
        w->number = following(w->number);
        look(w, (uint32_t)((w->number >> 20) % w->orders));
        now = mh_now();
        w->times[w->done++] = now - before;
        before = now;
    }
    if (w->done == w->transactions) __atomic_store_n(&counting, 0, __ATOMIC_SEQ_CST);
    must(mh_leave(&w->m), "mh_leave");
}

static void *work(void *given) {
    struct worker *w = (struct worker *)given;
    uint32_t k;
    must(mh_enter(&w->m), "mh_enter");
    for (w->levels = 1; w->orders >> (2 * w->levels); w->levels++) {}
    node(w, DIRECTORY, 0);
    for (k = 0; k < w->orders; k++) replace(w, k, k);
    must(mh_leave(&w->m), "mh_leave");
    pthread_barrier_wait(&all_filled);
    must(mh_enter(&w->m), "mh_enter");
    must(mh_collect(&w->m), "mh_collect");
    must(mh_leave(&w->m), "mh_leave");
    pthread_barrier_wait(&all_filled);
    for (;;) {
        pthread_barrier_wait(&round_begins);
        if (!working) return 0;
        make_round(w);
        pthread_barrier_wait(&round_ends);
    }
}

static void *trace(void *given) {
    mh_trace((mh_tracer *)given);
    return 0;
}

static int by_size(const void *a, const void *b) {
    uint64_t x = *(const uint64_t *)a, y = *(const uint64_t *)b;
    return (x > y) - (x < y);
}

/* Opens the world, and takes its mutators and tracers. */
static void begin(uint32_t cells, uint32_t live, uint32_t transactions) {
    mh_sizes sizes = {cells, 4, threads, 0, tracers, 0, 0};
    uint32_t k;
    must(mh_open(&sizes, &world), "mh_open");
    must(mh_log_cycles(&world, keep_cycle, 0), "mh_log_cycles");
    pthread_barrier_init(&round_begins, 0, threads + 1);
    pthread_barrier_init(&round_ends, 0, threads + 1);
    pthread_barrier_init(&all_filled, 0, threads + 1);
    for (k = 0; k < threads; k++) {
        workers[k].orders = (uint32_t)((uint64_t)cells * live / 100 / threads * 3 / 49);
        workers[k].transactions = transactions / threads;
        workers[k].number = 88172645463325252u + k;
        workers[k].times = (uint64_t *)calloc(transactions / threads + 1, sizeof(uint64_t));
        if (!workers[k].times) exit(2);
        must(mh_take_mutator(&world, &workers[k].m), "mh_take_mutator");
    }
    for (k = 0; k < tracers; k++) {
        must(mh_take_tracer(&world, &marks[k]), "mh_take_tracer");
        if (pthread_create(&tracing[k], 0, trace, &marks[k])) exit(2);
    }
    for (k = 0; k < threads; k++) if (pthread_create(&working_threads[k], 0, work, &workers[k])) exit(2);
}

/* The rounds: how long they took together. */
static uint64_t make_rounds(void) {
    uint64_t took = 0, began;
    uint32_t k;
    pthread_barrier_wait(&all_filled);
    pthread_barrier_wait(&all_filled);
    counting = 1;
    do {
        mh_sleep(REST);
        for (working = k = 0; k < threads; k++) working += workers[k].done < workers[k].transactions;
        pthread_barrier_wait(&round_begins);
        began = mh_now();
        if (working) pthread_barrier_wait(&round_ends);
        if (working) took += mh_now() - began;
    } while (working);
    for (k = 0; k < threads; k++) pthread_join(working_threads[k], 0);
    must(mh_dismiss(&world), "mh_dismiss");
    for (k = 0; k < tracers; k++) pthread_join(tracing[k], 0);
    return took;
}

/* What the stops and transactions came to. */
static void tell(uint64_t took) {
    uint64_t all = 0, count = stop_count < MOST_STOPS ? stop_count : MOST_STOPS, sum = 0, longest = 0, traced = 0, kept = 0, paid = 0, helped = 0, k;
    uint64_t *times = (uint64_t *)calloc((uint64_t)threads * workers[0].transactions + 1, sizeof *times);
    if (!times) exit(2);
    for (k = 0; k < threads; k++) {
        memcpy(times + all, workers[k].times, workers[k].transactions * sizeof *times);
        all += workers[k].transactions;
    }
    qsort(times, all, sizeof *times, by_size);
    for (k = 0; k < count; k++) {
        sum += stops[k].stopped; traced += stops[k].traced; kept += stops[k].kept; paid += stops[k].mutators; helped += stops[k].tracers;
        if (stops[k].stopped > longest) longest = stops[k].stopped;
    }
    printf("rate %llu stops %llu mean %llu longest %llu p50 %llu p99 %llu p999 %llu slowest %llu ", (unsigned long long)(all * 1000000000u / (took ? took : 1)),
           (unsigned long long)count, (unsigned long long)(count ? sum / count / 1000 : 0), (unsigned long long)(longest / 1000), (unsigned long long)times[all / 2],
           (unsigned long long)times[all * 99 / 100], (unsigned long long)times[all * 999 / 1000], (unsigned long long)times[all - 1]);
    printf("cycles %llu mutators %llu tracers %llu left %llu kept %llu\n", (unsigned long long)count, (unsigned long long)paid, (unsigned long long)helped,
           (unsigned long long)traced, (unsigned long long)kept);
}

int main(int count, char **words) {
    uint32_t n[5] = {0}, k;
    for (k = 0; k < 5 && (int)k + 1 < count; k++) n[k] = (uint32_t)atoi(words[k + 1]);
    threads = n[2];
    tracers = n[3];
    if (count != 6 || threads < 1 || threads > THREADS || tracers > 8 || n[4] < threads) {
        fputs("usage: pauses CELLS LIVE MUTATORS TRACERS TRANSACTIONS\n", stderr);
        return 1;
    }
    begin(n[0], n[1], n[4]);
    tell(make_rounds());
    return 0;
}
