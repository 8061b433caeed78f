/* What a call takes, on one thread, in a world whose objects are the mutator's own, and in a shared one. An object is published, and a store into it dirties a card, from
   its mutator's next collection on at the latest. Arguments: millions of calls, cells. */
#include "heap.h"

static const char *kind;

static void tell(const char *what, double from, uint64_t many) {
    printf("%-13s %-12s %-7s %-14s %6.1f ns\n", "speed", COLLECTOR, kind, what, (now() - from) * 1e9 / (double)many);
}

/* So many calls, which may use k, the number of the call. */
#define TIME(what, many, call) \
    do { \
        double from_ = now(); \
        uint64_t k; \
        for (k = 0; k < (many); k++) MUST(call); \
        tell((what), from_, (many)); \
    } while (0)

#ifndef OVER_BOEHM
/* Weak references in a shared world: to one object, and a table of a million entries, half of which are dead. And stamps. */
enum { ENTRIES = 1000000, PIECE = 4096 };

/* Makes the table's objects, of which each second one is kept by a list, and collects. */
static void fill_table(mh_mutator *m, mh_weak *weaks) {
    uint32_t k, fields[1] = {1};
    for (k = 0; k < ENTRIES; k++) {
        MUST(mh_make_with(m, 0, k, fields, 1));
        MUST(mh_weak_of(m, 0, &weaks[k]));
        if (k % 2) MUST(mh_copy(m, 1, 0));
    }
    MUST(mh_forget(m, 0));
    MUST(mh_collect(m));
}

/* Goes through it in pieces. */
static void go_through(mh_mutator *m, const mh_weak *weaks) {
    uint32_t dead[PIECE], from, many = 0, all = 0;
    double began = now();
    for (from = 0; from < ENTRIES; from += PIECE) {
        MUST(mh_deaths(m, weaks + from, ENTRIES - from < PIECE ? ENTRIES - from : PIECE, 0, dead, &many));
        all += many;
        MUST(mh_safe_point(m));
    }
    tell("deaths, each", began, ENTRIES);
    wrong("how many are dead", all, ENTRIES / 2);
}

static void weak_references(uint64_t many) {
    mh_sizes sizes = {.cells = 1u << 21, .fields = 2, .mutators = 1, .shared = 1};
    mh_weak *weaks = calloc(ENTRIES, sizeof *weaks), weak;
    mh_stamp stamp;
    mh_world world = {0};
    mh_mutator m = {0};
    if (!weaks) exit(2);
    MUST(mh_open(&sizes, &world));
    MUST(mh_take_mutator(&world, &m));
    MUST(mh_enter(&m));
    fill_table(&m, weaks);
    go_through(&m, weaks);
    TIME("upgrade", many, mh_upgrade(&m, &weaks[1], (uint32_t)(2 + (k & 7))));
    TIME("weak_of", many, mh_weak_of(&m, 2, &weak));
    TIME("stamp_of", many, mh_stamp_of(&m, &stamp));
    TIME("after", many, mh_after(&m, &stamp));
    MUST(mh_give_back(&world, &m));
    MUST(mh_close(&world));
    free(weaks);
}
#endif

/* Variable 1 has an object of value 5, and variable 0 one that refers to it twice. */
static void make(mh_mutator *m, uint64_t many) {
    uint32_t fields[2] = {1, 1};
    MUST(mh_make(m, 1, 5));
    TIME("make", many, mh_make(m, 0, (uint32_t)k));
    TIME("make, 2 sets", many, (MUST(mh_make(m, 0, (uint32_t)k)), MUST(mh_set(m, 0, 0, 1)), mh_set(m, 0, 1, 1)));
    TIME("make_with", many, mh_make_with(m, 0, (uint32_t)k, fields, 2));
    TIME("set", many, mh_set(m, 0, (uint32_t)(k & 1), 1));
    MUST(mh_collect(m));
    TIME("set, published", many, mh_set(m, 0, (uint32_t)(k & 1), 1));
}

/* What reads, of which some take no step. */
static void ask(mh_mutator *m, uint64_t many) {
    uint32_t value = 0, is = 0;
    uint64_t sum = 0;
    TIME("get", many, mh_get(m, 2, 0, (uint32_t)(k & 1)));
    TIME("fields, 2", many, mh_fields(m, 0, 2, 2));
    TIME("value", many, (sum += value, mh_value(m, 2, &value)));
    wrong("the sum", sum + value, 5 * many);
    TIME("is_nil", many, mh_is_nil(m, 2, &is));
    TIME("same", many, mh_same(m, 2, 3, &is));
    TIME("copy", many, mh_copy(m, (uint32_t)(4 + (k & 7)), 2));
    TIME("forget", many, mh_forget(m, (uint32_t)(4 + (k & 7))));
    TIME("put", many, mh_put(m, 2, 5));
    TIME("safe point", many, mh_safe_point(m));
}

#ifndef OVER_BOEHM
static void ask_where(mh_mutator *m, uint64_t many) {
    uint32_t place = 0;
    mh_object what = {0, 0};
    TIME("place", many, mh_place(m, 2, &place));
    TIME("look", many, mh_look(m, 2, &what));
}
#endif

/* What only a shared world has. */
static void share(mh_mutator *m, uint64_t many) {
    uint32_t won = 0;
    TIME("root", many, mh_root(m, 4));
    TIME("exchange", many, mh_exchange(m, 0, (uint32_t)(k & 1), 1, 1, &won));
    TIME("exchange_value", many, mh_exchange_value(m, 2, 5, 5, &won));
#ifndef OVER_BOEHM
    TIME("spill", many, mh_spill(m, 2, (uint32_t)(k & 7)));
    TIME("fill", many, mh_fill(m, 4, (uint32_t)(k & 7)));
#endif
}

static void in_world(uint32_t shared, uint32_t cells, uint64_t many) {
    mh_sizes sizes = {.cells = cells, .fields = 2, .mutators = 1, .shared = shared, .slots = 8 * shared};
    mh_world world = {0};
    mh_mutator m = {0};
    kind = shared ? "shared" : "own";
    MUST(mh_open(&sizes, &world));
    MUST(mh_take_mutator(&world, &m));
    MUST(mh_enter(&m));
    make(&m, many);
    ask(&m, many);
#ifndef OVER_BOEHM
    ask_where(&m, many);
#endif
    if (shared) share(&m, many);
    TIME("leave, enter", many, (MUST(mh_leave(&m)), mh_enter(&m)));
    MUST(mh_give_back(&world, &m));
    MUST(mh_close(&world));
}

int main(int count_of, char **words) {
    uint64_t many = 1000000ull * number(count_of, words, 1, 10);
    uint32_t cells = number(count_of, words, 2, 65536);
    in_world(0, cells, many);
    in_world(1, cells, many);
#ifndef OVER_BOEHM
    weak_references(many);
#endif
    return 0;
}
