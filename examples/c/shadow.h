/*
 * What a thread of fuzz.c did: the shadow of its objects, its variables and its slots in plain C, which says what each call is to answer, and with which what
 * can be reached is compared.
 */
#ifndef SHADOW_H
#define SHADOW_H

#include "heap.h"
#include <string.h>

enum { FIELDS = 3, OBJECTS = 6000, ROOT = OBJECTS, VARIABLES = 32, FOUND = 31, NEXT = 30, MOVED = 29, SLOTS = 40, STATUSES = 25, TRACERS = 8,
       KEPT = 16 };
enum place { OUTSIDE, INSIDE, COLLECTING };

/* A place that isn't known yet. */
#define NOWHERE 0xffffffffu

/* An object: its value and fields; which of its maker's it is, and where it lies; the walk that found it last, and from which object by which field, or from none
   by which variable or, with numbers behind those, by which slot, and the root by the number behind all. */
struct shadow {
    uint32_t value, number, lies_at, seen;
    int32_t field[FIELDS], from, by;
};

/* Besides: weak references that are kept, all zero at first, the shadow of each one's object, and whether that was found dead. */
struct job {
    mh_mutator m, gone;
    mh_tracer t, none;
    struct shadow of[OBJECTS + 1];
    int32_t variable[VARIABLES], slot[SLOTS], waiting[OBJECTS + 1];
    uint64_t seed, calls, answers[STATUSES], walked, walks, collections, cycles;
    mh_weak weak[KEPT];
    int32_t weakened[KEPT];
    unsigned char dead[KEPT];
    uint32_t round, maker, made, looked, at, upgrades, deaths;
    enum place place;
};

static mh_world world;
static pthread_mutex_t lending = PTHREAD_MUTEX_INITIALIZER;

/* Whether the world's objects are shared; whether others may look at the root meanwhile, so that none changes it; and how many cells there are. */
static uint32_t is_shared, root_is_others, cells;

static uint32_t random_below(struct job *j, uint32_t n) {
    j->seed ^= j->seed << 13;
    j->seed ^= j->seed >> 7;
    j->seed ^= j->seed << 17;
    return (uint32_t)(j->seed >> 32) % n;
}

/* A number below this, or now and then any: one of a byte, one that has the number in its lowest byte, or one of 32 bits. */
static uint32_t some_number(struct job *j, uint32_t below) {
    switch (random_below(j, 24)) {
    case 0: return random_below(j, 256);
    case 1: return (1 + random_below(j, 0xffffff)) << 8 | random_below(j, below);
    case 2: return random_below(j, 0xffffffff) + random_below(j, 2);
    default: return random_below(j, below);
    }
}

static uint32_t some_variable(struct job *j) { return some_number(j, MOVED); }
static uint32_t some_field(struct job *j) { return some_number(j, FIELDS); }

/* What a root of this number refers to is listed in waiting, if it is found for the first time. */
static uint32_t find_root(struct job *j, uint32_t n, int32_t o, uint32_t by) {
    if (o < 0 || j->of[o].seen == j->round) return n;
    j->of[o].seen = j->round; j->of[o].from = -1; j->of[o].by = (int32_t)by;
    j->waiting[n] = o;
    return n + 1;
}

/* The shadow's own collection: how many objects are reachable, each marked with this round. What is found is listed in waiting. */
static uint32_t reach(struct job *j) {
    uint32_t n = 0, at, k;
    j->round++;
    for (k = 0; k < VARIABLES; k++) n = find_root(j, n, j->variable[k], k);
    for (k = 0; k < SLOTS; k++) n = find_root(j, n, j->slot[k], VARIABLES + k);
    if (is_shared) n = find_root(j, n, ROOT, VARIABLES + SLOTS);
    for (at = 0; at < n; at++)
        for (k = 0; k < FIELDS; k++) {
            int32_t o = j->of[j->waiting[at]].field[k];
            if (o < 0 || j->of[o].seen == j->round) continue;
            j->of[o].seen = j->round; j->of[o].from = j->waiting[at]; j->of[o].by = (int32_t)k;
            j->waiting[n++] = o;
        }
    return n;
}

/* FOUND becomes the object, by the way on which the shadow was found. */
static void follow(struct job *j, int32_t o) {
    uint32_t by = (uint32_t)j->of[o].by;
    if (j->of[o].from >= 0) {
        follow(j, j->of[o].from);
        MUST(mh_get(&j->m, FOUND, FOUND, by));
    } else if (by < VARIABLES) MUST(mh_copy(&j->m, FOUND, by));
    else if (by < VARIABLES + SLOTS) MUST(mh_fill(&j->m, FOUND, by - VARIABLES));
    else MUST(mh_root(&j->m, FOUND));
}

/* FOUND's object lies where it lay before, and no other that this walk found lies there. */
static void compare_place(struct job *j, struct shadow *o, unsigned char *taken) {
    uint32_t at = NOWHERE;
    MUST(mh_place(&j->m, FOUND, &at));
    if (at >= cells) wrong("a place", at, cells - 1);
    if (o->lies_at == NOWHERE) o->lies_at = at;
    wrong("the place of an object", at, o->lies_at);
    wrong("whether another lies there", taken[at]++, 0);
}

/* FOUND's object tells by which mutator it was made, and as which of its objects. */
static void compare_number(struct job *j, const struct shadow *o) {
    uint32_t maker = 77, number = 77;
    if (!is_shared) { MUST_BE(MH_NOT_SHARED, mh_number(&j->m, FOUND, &maker, &number)); return; }
    MUST(mh_number(&j->m, FOUND, &maker, &number));
    wrong("which of its maker's an object is", number, o->number);
    if (o == &j->of[ROOT]) { wrong("the root's maker", maker, 0); return; }
    if (!j->maker) j->maker = maker;
    if (!maker) wrong("the maker of an object", maker, j->maker);
    wrong("the maker of an object", maker, j->maker);
}

/* A value that is put into FOUND's object is read by variable k if it refers to that object, and else not. */
static void compare_variable(struct job *j, int32_t o, uint32_t k) {
    uint32_t one, value;
    MUST(mh_same(&j->m, FOUND, k, &one));
    wrong("whether two variables refer to one object", one, j->variable[k] == o);
    if (j->variable[k] < 0 || (o == ROOT && root_is_others)) return;
    MUST(mh_put(&j->m, FOUND, 1u << 31));
    MUST(mh_value(&j->m, k, &value));
    wrong("what is read by another variable", value, j->variable[k] == o ? 1u << 31 : j->of[j->variable[k]].value);
    MUST(mh_put(&j->m, FOUND, j->of[o].value));
}

/* Each reachable object is as its shadow. */
static void compare(struct job *j) {
    unsigned char *taken = calloc(cells, 1);
    uint32_t n, at, k, value, nil;
    if (!taken) exit(2);
    j->variable[FOUND] = j->variable[NEXT] = -1;
    n = reach(j);
    for (at = 0; at < n; at++) {
        int32_t o = j->waiting[at];
        follow(j, o);
        MUST(mh_value(&j->m, FOUND, &value));
        wrong("a value", value, j->of[o].value);
        compare_place(j, &j->of[o], taken);
        compare_number(j, &j->of[o]);
        for (k = 0; k < FIELDS; k++) {
            MUST(mh_get(&j->m, NEXT, FOUND, (uint32_t)k));
            MUST(mh_is_nil(&j->m, NEXT, &nil));
            wrong("whether a field is nil", nil, j->of[o].field[k] < 0);
        }
        compare_variable(j, o, random_below(j, MOVED));
    }
    MUST(mh_forget(&j->m, FOUND));
    MUST(mh_forget(&j->m, NEXT));
    free(taken);
    j->walked += n;
    j->walks++;
}

/* A new object, or the root, whose fields are nil. */
static void begin_shadow(struct job *j, int32_t o, uint32_t value, uint32_t number) {
    uint32_t i;
    j->of[o].value = value;
    j->of[o].number = number;
    j->of[o].lies_at = NOWHERE;
    j->of[o].seen = j->round;
    for (i = 0; i < FIELDS; i++) j->of[o].field[i] = -1;
}

/* All roots are nil, and there are no objects but the root. */
static void begin_shadows(struct job *j) {
    uint32_t k;
    for (k = 0; k < VARIABLES; k++) j->variable[k] = -1;
    for (k = 0; k < SLOTS; k++) j->slot[k] = -1;
    begin_shadow(j, ROOT, 0, 0);
}

static mh_status told(struct job *j, mh_status s) {
    j->calls++;
    j->answers[s % STATUSES]++;
    return s;
}

/* What an operation is to answer whose numbers are in range or not. */
static mh_status expected(struct job *j, int in_range) {
    if (!in_range) return MH_OUT_OF_RANGE;
    return j->place == OUTSIDE ? MH_OUTSIDE : j->place == COLLECTING ? MH_COLLECTING : MH_OK;
}

/* The same of a call for shared worlds. */
static mh_status if_shared(struct job *j, int in_range) { return is_shared ? expected(j, in_range) : MH_NOT_SHARED; }

/* The same of an operation that wants an object, if the variable's is this one. */
static mh_status unless_nil(mh_status s, int32_t o) { return s == MH_OK && o < 0 ? MH_NIL : s; }

#define SAYS(wanted, call) must(told(j, (call)), (wanted), #call, __FILE__, __LINE__)

#endif
