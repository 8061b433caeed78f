/*
 * Binary trees on threads: each makes trees of depths 4 to the greatest and counts their objects, which are 2^(d+1)-1. The first thread keeps a tree of the
 * greatest depth meanwhile. Other threads mark beside them. Arguments: greatest depth, threads, tracers, cells.
 */
#include "heap.h"

struct job {
    mh_mutator m;
    struct pause pause;
    uint32_t greatest, threads, number;
    uint64_t made, trees;
};

struct marker { mh_tracer t; uint64_t marked, idle; };

/* Marks turn by turn, as mh_trace does, and counts the turns in which a cycle was marking, and those in which none was. */
static void *mark(void *p) {
    struct marker *r = p;
    uint32_t rests = 0;
    mh_status s;
    while ((s = mh_trace_turn(&r->t)) == MH_OK || s == MH_IDLE || s == MH_STOPPED) {
        r->marked += s == MH_OK;
        r->idle += s == MH_IDLE;
        mh_rest_turn(s, &rests);
    }
    must(s, MH_DISMISSED, "mh_trace_turn", __FILE__, __LINE__);
    return 0;
}

/* A tree of this depth in variable v, made from the top; variables above v are used. */
static void build(struct job *j, uint32_t v, uint32_t depth) {
    MUST(timed_make(&j->pause, &j->m, v, depth));
    j->made++;
    if (!depth) return;
    build(j, v + 1, depth - 1);
    MUST(mh_set(&j->m, v, 0, v + 1));
    build(j, v + 1, depth - 1);
    MUST(mh_set(&j->m, v, 1, v + 1));
    MUST(mh_forget(&j->m, v + 1));
}

/* How many objects the tree in variable v has. Each has its depth as its value. */
static uint64_t count(struct job *j, uint32_t v, uint32_t depth) {
    uint32_t value = 0, nil = 0;
    uint64_t n = 1;
    uint32_t i, w = v + 1;
    MUST(mh_value(&j->m, v, &value));
    wrong("depth", value, depth);
    for (i = 0; i < 2; i++) {
        MUST(mh_get(&j->m, w, v, i));
        MUST(mh_is_nil(&j->m, w, &nil));
        if (nil) wrong("a leaf's depth", depth, 0);
        else n += count(j, w, depth - 1);
    }
    MUST(mh_forget(&j->m, w));
    MUST(mh_safe_point(&j->m));
    return n;
}

static void one(struct job *j, uint32_t v, uint32_t depth) {
    build(j, v, depth);
    wrong("objects of a tree", count(j, v, depth), (2ull << depth) - 1);
    MUST(mh_forget(&j->m, v));
    j->trees++;
}

static void *work(void *p) {
    struct job *j = p;
    uint32_t depth, k;
    MUST(mh_enter(&j->m));
    if (j->number == 0) build(j, 0, j->greatest);
    for (depth = 4; depth <= j->greatest; depth += 2) {
        uint32_t trees = 1u << (j->greatest - depth);
        for (k = j->number; k < trees; k += j->threads) one(j, 1, depth);
    }
    if (j->number == 0) wrong("objects of the tree that was kept", count(j, 0, j->greatest), (2ull << j->greatest) - 1);
    MUST(mh_leave(&j->m));
    return 0;
}

int main(int count_of, char **words) {
    static mh_world world;
    static struct job jobs[THREADS];
    static struct marker markers[8];
    pthread_t threads[THREADS], marking[8];
    uint32_t greatest = number(count_of, words, 1, 16), n = number(count_of, words, 2, 1), tracers = number(count_of, words, 3, 0), k;
    uint32_t cells = number(count_of, words, 4, 1u << 20);
    uint64_t made = 0, trees = 0, marked = 0, idle = 0;
    double from, took, pause = 0;
    open_with(&world, cells, 2, n, tracers);
    from = now();
    for (k = 0; k < tracers; k++) {
        MUST(mh_take_tracer(&world, &markers[k].t));
        if (pthread_create(&marking[k], 0, mark, &markers[k])) return 2;
    }
    for (k = 0; k < n; k++) {
        jobs[k].greatest = greatest; jobs[k].threads = n; jobs[k].number = k;
        MUST(mh_take_mutator(&world, &jobs[k].m));
        if (pthread_create(&threads[k], 0, work, &jobs[k])) return 2;
    }
    for (k = 0; k < n; k++) {
        pthread_join(threads[k], 0);
        MUST(mh_give_back(&world, &jobs[k].m));
        made += jobs[k].made; trees += jobs[k].trees;
        if (jobs[k].pause.longest > pause) pause = jobs[k].pause.longest;
    }
    took = now() - from;
    MUST(mh_dismiss(&world));
    for (k = 0; k < tracers; k++) {
        pthread_join(marking[k], 0);
        MUST_BE(MH_STILL_LENT, mh_close(&world));
        MUST(mh_give_back_tracer(&world, &markers[k].t));
        marked += markers[k].marked; idle += markers[k].idle;
    }
    MUST(mh_close(&world));
    printf("%-13s %-12s depth %u threads %u tracers %u: %llu trees, %llu objects, %.2f s, %.2f s of processors, %.0f MB, longest call %.2f ms", "binary_trees",
           COLLECTOR, greatest, n, tracers, (unsigned long long)trees, (unsigned long long)made, took, processor(), megabytes(), pause * 1e3);
    if (tracers) printf(", %llu turns marked and %llu found nothing", (unsigned long long)marked, (unsigned long long)idle);
    printf("\n");
    return 0;
}
