/*
 * Objects move, each by its one reference, from a list whose holders aren't marked yet to one whose holders are, and back, again and again while cycles mark: where
 * a tracer would lose an object if the card of the holder that gets it weren't dirtied. There are two lists of holders, and each object is in field 1 of a holder of
 * one of them. A round goes along both, takes the object out of a holder of the one, looks at its value, puts it into the holder of the other, and makes an object
 * that is garbage, so that cycles come. With one mutator and no tracer a run is the same each time.
 * Arguments: cells, rounds, tracers, how many cycles have to mark beside the program.
 */
#include "going_on.h"

enum { FROM, TO, LEFT, RIGHT, MOVED, NEW };

static mh_world world;
static mh_mutator m;
static uint32_t holders;

static void *mark_beside(void *p) {
    MUST_BE(MH_DISMISSED, mh_trace((mh_tracer *)p));
    return 0;
}

/* A list of as many holders, in this variable. */
static void make_holders(uint32_t list) {
    uint32_t k;
    for (k = 0; k < holders; k++) {
        MUST(mh_make(&m, NEW, k));
        MUST(mh_set(&m, NEW, 0, list));
        MUST(mh_copy(&m, list, NEW));
    }
}

/* An object for each holder of the left list, with a number from 0 on. */
static void make_moved(void) {
    uint32_t k;
    MUST(mh_copy(&m, TO, LEFT));
    for (k = 0; k < holders; k++) {
        MUST(mh_make(&m, MOVED, k));
        MUST(mh_set(&m, TO, 1, MOVED));
        MUST(mh_get(&m, TO, TO, 0));
    }
    MUST(mh_forget(&m, MOVED));
}

/* FROM's object becomes TO's, which is its number. */
static void move(uint32_t number) {
    uint32_t nil = 1, value = 0;
    go_on();
    MUST(mh_get(&m, MOVED, FROM, 1));
    MUST(mh_is_nil(&m, MOVED, &nil));
    wrong("whether a holder has no object", nil, 0);
    MUST(mh_value(&m, MOVED, &value));
    wrong("the number of an object", value, number);
    MUST(mh_set(&m, TO, 1, MOVED));
    MUST(mh_forget(&m, MOVED));
    MUST(mh_set(&m, FROM, 1, MOVED));
}

static void move_all(uint32_t from, uint32_t to) {
    uint32_t k;
    MUST(mh_copy(&m, FROM, from));
    MUST(mh_copy(&m, TO, to));
    for (k = 0; k < holders; k++) {
        move(k);
        MUST(mh_get(&m, FROM, FROM, 0));
        MUST(mh_get(&m, TO, TO, 0));
        MUST(mh_make(&m, NEW, k));
    }
}

int main(int count, char **words) {
    static mh_tracer t[8];
    uint32_t cells = number(count, words, 1, 65536), rounds = number(count, words, 2, 40), tracers = number(count, words, 3, 0), k;
    uint32_t least = number(count, words, 4, 0);
    uint64_t beside = 0;
    pthread_t marking[8];
    holders = cells / 10;
    end_if_it_spins();
    open_with(&world, cells, 2, 1, tracers);
    MUST(mh_log_cycles(&world, count_beside, &beside));
    MUST(mh_take_mutator(&world, &m));
    for (k = 0; k < tracers; k++) {
        MUST(mh_take_tracer(&world, &t[k]));
        if (pthread_create(&marking[k], 0, mark_beside, &t[k])) return 2;
    }
    MUST(mh_enter(&m));
    make_holders(LEFT);
    make_holders(RIGHT);
    make_moved();
    for (k = 0; k < rounds; k++) move_all(k % 2 ? RIGHT : LEFT, k % 2 ? LEFT : RIGHT);
    MUST(mh_leave(&m));
    MUST(mh_dismiss(&world));
    for (k = 0; k < tracers; k++) {
        pthread_join(marking[k], 0);
        MUST(mh_give_back_tracer(&world, &t[k]));
    }
    MUST(mh_give_back(&world, &m));
    MUST(mh_close(&world));
    enough_beside(beside, least);
    printf("%-13s %-12s tracers %u: %u objects moved %u times in %u cells, none was lost, and %u cycles or more marked beside\n", "hidden", COLLECTOR, tracers, holders,
           rounds, cells, least);
    return 0;
}
