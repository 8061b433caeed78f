/*
 * A heap that fills up: each thread keeps all that it makes, until no cell is left for it. Once the threads have forgotten what they kept, each makes an object
 * again. Arguments: threads, cells.
 */
#include "heap.h"

struct job { mh_mutator m; uint64_t made; mh_status ended; };

static void *work(void *p) {
    struct job *j = p;
    j->ended = mh_enter(&j->m);
    while (j->ended == MH_OK && (j->ended = mh_make(&j->m, 1, (uint32_t)j->made)) == MH_OK) {
        j->made++;
        MUST(mh_set(&j->m, 1, 0, 0));
        MUST(mh_copy(&j->m, 0, 1));
    }
    MUST_BE(j->made ? MH_OK : MH_NIL, mh_put(&j->m, 0, 7));
    MUST(mh_leave(&j->m));
    return 0;
}

int main(int count_of, char **words) {
    static mh_world world;
    static struct job jobs[THREADS];
    pthread_t threads[THREADS];
    uint32_t n = number(count_of, words, 1, 1), cells = number(count_of, words, 2, 4096), k;
    uint64_t made = 0;
    open_world(&world, cells, 2, n);
    for (k = 0; k < n; k++) {
        MUST(mh_take_mutator(&world, &jobs[k].m));
        if (pthread_create(&threads[k], 0, work, &jobs[k])) return 2;
    }
    for (k = 0; k < n; k++) {
        pthread_join(threads[k], 0);
        wrong("how a thread ended", jobs[k].ended, MH_NO_CELL);
        made += jobs[k].made;
    }
    for (k = 0; k < n; k++) {
        MUST(mh_enter(&jobs[k].m));
        MUST(mh_forget(&jobs[k].m, 0));
        MUST(mh_forget(&jobs[k].m, 1));
        MUST(mh_leave(&jobs[k].m));
    }
    for (k = 0; k < n; k++) {
        MUST(mh_enter(&jobs[k].m));
        MUST(mh_make(&jobs[k].m, 0, k));
        MUST(mh_give_back(&world, &jobs[k].m));
    }
    MUST(mh_close(&world));
    MUST_BE(MH_GIVEN_BACK, mh_close(&world));
    wrong("objects made", made, cells);
    printf("%-13s %-12s threads %u: full after %llu objects in %u cells, and not once they are forgotten\n", "fills_up", COLLECTOR, n, (unsigned long long)made, cells);
    return 0;
}
