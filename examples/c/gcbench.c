/*
 * The shape of GCBench: a tree that stretches the heap, then a long-lived tree and a long-lived table, and beside them short-lived trees that are made from
 * the top and from the bottom. The table, an array's stand-in, is a trie with its entries at the leaves. Arguments: greatest depth, cells.
 */
#include "heap.h"

/* The variables of what lives long, one for an entry that is looked up, and one for the object above two trees. The others, from 2 on, are for trees. */
enum { TREE = 28, TABLE = 29, ENTRY = 30, ABOVE = 31 };

static mh_mutator m;
static struct pause pause_;
static uint64_t made;

static void object(uint32_t v, uint32_t value) {
    MUST(timed_make(&pause_, &m, v, value));
    made++;
}

/* From the top: the object in v gets two trees of this depth below it. */
static void populate(uint32_t depth, uint32_t v) {
    uint32_t w = v + 1, i;
    if (!depth) return;
    for (i = 0; i < 2; i++) {
        object(w, depth);
        MUST(mh_set(&m, v, i, w));
    }
    for (i = 0; i < 2; i++) {
        MUST(mh_get(&m, w, v, i));
        populate(depth - 1, w);
    }
    MUST(mh_forget(&m, w));
}

/* From the bottom: the two trees below are made first, in v and in the variable after it, and the object above takes them. */
static void make_tree(uint32_t depth, uint32_t v) {
    if (depth) {
        uint32_t w = v + 1;
        make_tree(depth - 1, v);
        make_tree(depth - 1, w);
        object(ABOVE, depth);
        MUST(mh_set(&m, ABOVE, 0, v));
        MUST(mh_set(&m, ABOVE, 1, w));
        MUST(mh_copy(&m, v, ABOVE));
        MUST(mh_forget(&m, w));
        MUST(mh_forget(&m, ABOVE));
    } else {
        object(v, 0);
    }
}

static uint64_t size(uint32_t v) {
    uint32_t w = v + 1, i;
    uint64_t n = 1;
    uint32_t nil = 0;
    for (i = 0; i < 2; i++) {
        MUST(mh_get(&m, w, v, i));
        MUST(mh_is_nil(&m, w, &nil));
        if (!nil) n += size(w);
    }
    MUST(mh_forget(&m, w));
    MUST(mh_safe_point(&m));
    return n;
}

/* A table of 2^bits entries in v, each with its number times a factor. */
static void fill(uint32_t v, uint32_t bits, uint32_t number_of, uint32_t factor) {
    uint32_t w = v + 1, i;
    object(v, number_of * factor);
    if (!bits) return;
    for (i = 0; i < 2; i++) {
        fill(w, bits - 1, number_of * 2 + i, factor);
        MUST(mh_set(&m, v, i, w));
    }
    MUST(mh_forget(&m, w));
}

static uint32_t entry(uint32_t v, uint32_t bits, uint32_t number_of) {
    uint32_t value = 0, b;
    MUST(mh_copy(&m, ENTRY, v));
    for (b = bits; b-- > 0;) MUST(mh_get(&m, ENTRY, ENTRY, (uint32_t)((number_of >> b) & 1)));
    MUST(mh_value(&m, ENTRY, &value));
    MUST(mh_forget(&m, ENTRY));
    return value;
}

int main(int count_of, char **words) {
    static mh_world world;
    uint32_t greatest = number(count_of, words, 1, 16), cells = number(count_of, words, 2, 1u << 21);
    uint32_t depth, k, bits = greatest - 1, seed = 1;
    double from, took;
    open_world(&world, cells, 2, 1);
    MUST(mh_take_mutator(&world, &m));
    MUST(mh_enter(&m));
    from = now();
    make_tree(greatest + 2, 2);
    wrong("objects of the tree that stretches", size(2), (2ull << (greatest + 2)) - 1);
    MUST(mh_forget(&m, 2));
    object(2, greatest);
    populate(greatest, 2);
    MUST(mh_copy(&m, TREE, 2));
    fill(2, bits, 0, 3);
    MUST(mh_copy(&m, TABLE, 2));
    for (depth = 4; depth <= greatest; depth += 2) {
        uint32_t trees = (2u << (greatest + 2)) / (2u << depth);
        for (k = 0; k < trees; k++) {
            object(2, depth);
            populate(depth, 2);
            if (k == 0) wrong("objects from the top", size(2), (2ull << depth) - 1);
            MUST(mh_forget(&m, 2));
        }
        for (k = 0; k < trees; k++) {
            make_tree(depth, 2);
            if (k == 0) wrong("objects from the bottom", size(2), (2ull << depth) - 1);
            MUST(mh_forget(&m, 2));
        }
    }
    MUST(mh_copy(&m, 2, TREE));
    wrong("objects of the long-lived tree", size(2), (2ull << greatest) - 1);
    for (k = 0; k < 100000; k++) {
        seed = seed * 1664525u + 1013904223u;
        wrong("entry of the table", entry(TABLE, bits, seed >> (32 - bits)), (seed >> (32 - bits)) * 3);
    }
    took = now() - from;
    MUST(mh_leave(&m));
    MUST(mh_give_back(&world, &m));
    MUST(mh_close(&world));
    printf("%-13s %-12s depth %u: %llu objects, %.2f s, %.2f s of processors, %.0f MB, longest call %.2f ms\n", "gcbench", COLLECTOR, greatest,
           (unsigned long long)made, took, processor(), megabytes(), pause_.longest * 1e3);
    return 0;
}
