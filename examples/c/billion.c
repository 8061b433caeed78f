/*
 * Many objects in few cells: a queue of 1,000 objects is kept, and each object that leaves it is the one that came 1,000 before. Arguments: millions of objects,
 * cells.
 */
#include "heap.h"

enum { KEPT = 1000, FIRST = 0, LAST = 1, NEW = 2 };

int main(int count_of, char **words) {
    static mh_world world;
    static mh_mutator m;
    static struct pause pause;
    uint64_t many = 1000000ull * number(count_of, words, 1, 1000), k;
    uint32_t cells = number(count_of, words, 2, 65536), value = 0;
    double from, lap;
    mh_numbers numbers;
    open_world(&world, cells, 2, 1);
    MUST(mh_take_mutator(&world, &m));
    MUST(mh_enter(&m));
    from = lap = now();
    for (k = 0; k < many; k++) {
        MUST(k % 64 ? mh_make(&m, NEW, (uint32_t)k) : timed_make(&pause, &m, NEW, (uint32_t)k));
        if (k == 0) MUST(mh_copy(&m, FIRST, NEW));
        else MUST(mh_set(&m, LAST, 0, NEW));
        MUST(mh_copy(&m, LAST, NEW));
        if (k >= KEPT) {
            MUST(mh_value(&m, FIRST, &value));
            wrong("the object that leaves", value, (uint32_t)(k - KEPT));
            MUST(mh_get(&m, FIRST, FIRST, 0));
        }
        if ((k + 1) % 100000000ull == 0) {
            printf("  %llu million objects, %.1f million a second\n", (unsigned long long)((k + 1) / 1000000), 100.0 / (now() - lap));
            fflush(stdout);
            lap = now();
        }
    }
    lap = now() - from;
    MUST(mh_leave(&m));
    MUST(mh_statistics(&world, &numbers));
    MUST(mh_give_back(&world, &m));
    MUST(mh_close(&world));
    printf("%-13s %-12s %llu million objects in %u cells: %.2f s, %.1f ns an object, %.0f MB, longest call of those timed %.2f ms\n", "billion", COLLECTOR,
           (unsigned long long)(many / 1000000), cells, lap, lap * 1e9 / (double)many, megabytes(), pause.longest * 1e3);
    return 0;
}
