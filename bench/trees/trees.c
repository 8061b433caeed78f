/* Binary trees in C over managed_heap: the work of trees.cpp and trees.go. trees DEPTH WORKERS TRACERS CELLS
   A mutator's variables are its stack: what stands at a node's level and below is that of its walk. */
#include <managed_heap.h>
#include <pthread.h>
#include <stdio.h>
#include <stdlib.h>

enum { KINDS = 5, MOST = 32 };

struct worker {
    mh_mutator m;
    unsigned depth, workers, at;
    uint64_t checks[KINDS];
};

static void done(mh_status s) {
    if (s == MH_OK) return;
    fprintf(stderr, "trees: %s\n", mh_status_text(s));
    exit(1);
}

/* Variable v refers to a new tree: its children first, the left one in v and the right one in the next. */
static void make(mh_mutator *m, uint32_t v, unsigned depth) {
    if (depth == 0) {
        done(mh_make(m, v, 0));
        return;
    }
    make(m, v, depth - 1);
    make(m, v + 1, depth - 1);
    done(mh_make(m, v + 2, 0));
    done(mh_set(m, v + 2, 0, v));
    done(mh_set(m, v + 2, 1, v + 1));
    done(mh_copy(m, v, v + 2));
}

/* The nodes below v, with a safe point in every fourth level, since a stop waits for the walk. */
static uint64_t count(mh_mutator *m, uint32_t v) {
    uint32_t nil;
    uint64_t nodes = 1;
    done(mh_is_nil(m, v, &nil));
    if (nil) return 0;
    if (v % 4 == 0) done(mh_safe_point(m));
    for (uint32_t way = 0; way < 2; way++) {
        done(mh_get(m, v + 1, v, way));
        nodes += count(m, v + 1);
    }
    return nodes;
}

/* The short-lived trees of one worker, depth by depth. */
static void *play(void *given) {
    struct worker *w = given;
    done(mh_enter(&w->m));
    for (unsigned i = 0; i < KINDS && 4 + 2 * i <= w->depth; i++) {
        unsigned trees = 1u << (w->depth - 2 * i), share = (trees + w->workers - 1 - w->at) / w->workers;
        for (unsigned tree = 0; tree < share; tree++) {
            make(&w->m, 0, 4 + 2 * i);
            w->checks[i] += count(&w->m, 0);
        }
    }
    done(mh_leave(&w->m));
    return NULL;
}

static void *trace(void *given) {
    mh_trace(given);
    return NULL;
}

int main(int words, char **word) {
    if (words != 5) return 1;
    unsigned depth = atoi(word[1]), workers = atoi(word[2]), tracers = atoi(word[3]);
    mh_world world = {0};
    mh_mutator m = {0};
    static struct worker all[MOST];
    static mh_tracer marking[8];
    pthread_t threads[MOST], beside[8];
    done(mh_open(&(mh_sizes){.cells = atoi(word[4]), .fields = 2, .mutators = workers + 1, .tracers = tracers}, &world));
    for (unsigned t = 0; t < tracers; t++) {
        done(mh_take_tracer(&world, &marking[t]));
        pthread_create(&beside[t], NULL, trace, &marking[t]);
    }
    done(mh_take_mutator(&world, &m));
    done(mh_enter(&m));
    make(&m, 0, depth + 1);
    printf("stretch tree of depth %u\t check: %lu\n", depth + 1, (unsigned long)count(&m, 0));
    make(&m, 0, depth);
    for (uint32_t v = 1; v < 32; v++) done(mh_forget(&m, v));
    done(mh_leave(&m));
    for (unsigned at = 0; at < workers; at++) {
        all[at] = (struct worker){{0}, depth, workers, at, {0}};
        done(mh_take_mutator(&world, &all[at].m));
        pthread_create(&threads[at], NULL, play, &all[at]);
    }
    for (unsigned at = 0; at < workers; at++) pthread_join(threads[at], NULL);
    for (unsigned i = 0; i < KINDS && 4 + 2 * i <= depth; i++) {
        uint64_t sum = 0;
        for (unsigned at = 0; at < workers; at++) sum += all[at].checks[i];
        printf("%u\t trees of depth %u\t check: %lu\n", 1u << (depth - 2 * i), 4 + 2 * i, (unsigned long)sum);
    }
    done(mh_enter(&m));
    printf("long lived tree of depth %u\t check: %lu\n", depth, (unsigned long)count(&m, 0));
    done(mh_leave(&m));
    done(mh_dismiss(&world));
    for (unsigned t = 0; t < tracers; t++) {
        pthread_join(beside[t], NULL);
        done(mh_give_back_tracer(&world, &marking[t]));
    }
    for (unsigned at = 0; at < workers; at++) done(mh_give_back(&world, &all[at].m));
    done(mh_give_back(&world, &m));
    done(mh_close(&world));
    return 0;
}
