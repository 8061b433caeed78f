/* The calls at random of fuzz.c by which objects are made and references move, so that live objects fill a good part of the cells, and those that collect. */
#ifndef GROWING_H
#define GROWING_H

#include "shadow.h"

/* The numbers of a new object's references, now and then one out of range, and whether an object may be made with them. */
static int choose(struct job *j, uint32_t *fields, uint32_t count) {
    uint32_t k;
    int fit = count <= FIELDS;
    for (k = 0; k < count; k++) {
        fields[k] = random_below(j, 3) ? some_variable(j) : MH_NOTHING;
        fit = fit && (fields[k] < VARIABLES || fields[k] == MH_NOTHING);
    }
    return fit;
}

/* Makes an object, every other time with references, and else now and then of the mutator's cache alone. */
static mh_status make_step(struct job *j, uint32_t v, uint32_t value, const uint32_t *fields, uint32_t count) {
    if (count) return told(j, mh_make_with_step(&j->m, v, value, fields, count));
    return told(j, random_below(j, 2) ? mh_make_cached(&j->m, v, value) : mh_make_step(&j->m, v, value));
}

/* Steps of a refill, of a block or of many. Now and then the mutator does something else before the next. */
static void refill(struct job *j) {
    mh_status s;
    do s = told(j, mh_refill_step(&j->m, 1 + random_below(j, random_below(j, 2) ? 3 : 10000)));
    while (s == MH_NOT_YET && random_below(j, 10));
    if (j->place != INSIDE) must(s, expected(j, 1), "mh_refill_step", __FILE__, __LINE__);
    else if (s == MH_STOPPED) j->place = OUTSIDE;
    else if (s != MH_NOT_YET && s != MH_NO_CELL) must(s, MH_OK, "mh_refill_step", __FILE__, __LINE__);
    if (s != MH_OK || j->place != INSIDE) return;
    SAYS(MH_OK, mh_refill_step(&j->m, 1));
}

/* A step of a collection, of some roots, objects, cards or blocks or of many: of a precise one every other time. */
static void collect(struct job *j) {
    uint32_t most = 1 + random_below(j, random_below(j, 2) ? 10 : 10000);
    mh_status s = told(j, random_below(j, 2) ? mh_collect_step(&j->m, most) : mh_finish_step(&j->m, most));
    if (j->place == OUTSIDE) must(s, MH_OUTSIDE, "mh_collect_step", __FILE__, __LINE__);
    else if (s == MH_NOT_YET) j->place = COLLECTING;
    else if (s == MH_STOPPED) j->place = OUTSIDE;
    else { must(s, MH_OK, "mh_collect_step", __FILE__, __LINE__); j->collections += j->place == COLLECTING; j->place = INSIDE; }
}

/* A collection that was begun is ended, and the mutator is inside. Steps that wait aren't counted. */
static void come_in(struct job *j) {
    mh_status s;
    while (j->place == COLLECTING) {
        s = mh_collect_step(&j->m, 1 + random_below(j, 100));
        if (s == MH_NOT_YET) { sched_yield(); continue; }
        if (s != MH_STOPPED) must(s, MH_OK, "mh_collect_step", __FILE__, __LINE__);
        told(j, s);
        j->collections += s == MH_OK;
        j->place = s == MH_OK ? INSIDE : OUTSIDE;
    }
    if (j->place == OUTSIDE) {
        MUST(mh_enter(&j->m));
        j->place = INSIDE;
    }
}

/* Lets go of what a variable refers to, and in a shared world of what a slot does and, if nobody else may look at it, a field of the root. */
static void let_go(struct job *j) {
    uint32_t v = random_below(j, VARIABLES), k = random_below(j, SLOTS), i = random_below(j, FIELDS);
    SAYS(MH_OK, mh_forget(&j->m, v));
    j->variable[v] = -1;
    if (!is_shared) return;
    SAYS(MH_OK, mh_forget_slots(&j->m, k, k + 1));
    j->slot[k] = -1;
    if (root_is_others) return;
    SAYS(MH_OK, mh_forget(&j->m, FOUND));
    SAYS(MH_OK, mh_root(&j->m, NEXT));
    SAYS(MH_OK, mh_set(&j->m, NEXT, i, FOUND));
    SAYS(MH_OK, mh_forget(&j->m, NEXT));
    j->of[ROOT].field[i] = j->variable[FOUND] = j->variable[NEXT] = -1;
}

/* Looks which shadows are reachable. If half of them or more are the mutator lets go of some until they aren't: so live objects fill a good part of the cells, a
   cycle begins before all are used up, and its marking goes on for a while. */
static void look(struct job *j) {
    while (reach(j) > OBJECTS / 2) let_go(j);
    j->looked = j->made;
    j->at = 0;
}

/* A shadow that nothing reaches. What nothing reached at the last look nothing reaches now. */
static int32_t unreached(struct job *j) {
    if (j->made >= j->looked + OBJECTS / 20) look(j);
    for (;; look(j))
        for (; j->at < OBJECTS; j->at++)
            if (j->of[j->at].seen != j->round) return (int32_t)j->at;
}

/* An object is made in v, if its numbers are in range: whether one was. */
static int make_with(struct job *j, uint32_t v, const uint32_t *fields, uint32_t count, int fit) {
    uint32_t value = random_below(j, 1u << 30), k;
    mh_status wanted = expected(j, fit && v < VARIABLES), s;
    int32_t o;
    if (wanted != MH_OK) { must(make_step(j, v, value, fields, count), wanted, "an object that isn't made", __FILE__, __LINE__); return 0; }
    o = unreached(j);
    s = make_step(j, v, value, fields, count);
    if (s == MH_STOPPED) { j->place = OUTSIDE; return 0; }
    if (s == MH_NO_CACHE) refill(j);
    if (s == MH_NO_CELL && random_below(j, 4)) collect(j);
    if (s == MH_NO_CELL || s == MH_NO_CACHE) return 0;
    must(s, MH_OK, "an object that is made", __FILE__, __LINE__);
    begin_shadow(j, o, value, j->made++);
    j->variable[v] = o;
    for (k = 0; k < count; k++) if (fields[k] != MH_NOTHING) j->of[o].field[k] = j->variable[fields[k]];
    return 1;
}

static void make(struct job *j) {
    uint32_t v = some_variable(j), fields[FIELDS + 1];
    uint32_t count = random_below(j, 2) ? 0 : random_below(j, 12) ? random_below(j, FIELDS + 1) : FIELDS + 1;
    make_with(j, v, fields, count, choose(j, fields, count));
}

/* v goes from some variable's object along references, so many steps far, or along first fields alone. */
static void walk(struct job *j, uint32_t v, uint32_t steps, int straight) {
    uint32_t from = random_below(j, MOVED), i;
    SAYS(MH_OK, mh_copy(&j->m, v, from));
    for (j->variable[v] = j->variable[from]; j->variable[v] >= 0 && steps; steps--) {
        i = straight || random_below(j, 4) ? 0 : random_below(j, FIELDS);
        SAYS(MH_OK, mh_get(&j->m, v, v, i));
        j->variable[v] = j->of[j->variable[v]].field[i];
    }
}

/* A reference moves from a field of one object to a field of another: without the card a tracer could lose what it refers to. While a cycle marks the first is far
   down a list, so that it is hardly marked before the second, which a variable refers to, and what moves is the list's end, to which mostly nothing else refers. */
static void move_reference(struct job *j) {
    mh_course course = {0};
    uint32_t far = random_below(j, 4) && mhl_course(&j->m, &course) == MH_OK && course.marking, i = far ? 0 : random_below(j, 2), k = random_below(j, FIELDS);
    int32_t from, to;
    if (j->place != INSIDE) return;
    walk(j, FOUND, random_below(j, far ? 512 : 16), (int)far);
    walk(j, NEXT, far ? 0 : random_below(j, 16), 0);
    from = j->variable[FOUND];
    to = j->variable[NEXT];
    if (from >= 0 && to >= 0 && !(root_is_others && (from == ROOT || to == ROOT))) {
        SAYS(MH_OK, mh_get(&j->m, MOVED, FOUND, i));
        SAYS(MH_OK, mh_set(&j->m, NEXT, k, MOVED));
        SAYS(MH_OK, mh_forget(&j->m, MOVED));
        SAYS(MH_OK, mh_set(&j->m, FOUND, i, MOVED));
        j->of[to].field[k] = j->of[from].field[i];
        j->of[from].field[i] = j->variable[MOVED] = -1;
    }
    SAYS(MH_OK, mh_forget(&j->m, FOUND));
    SAYS(MH_OK, mh_forget(&j->m, NEXT));
    j->variable[FOUND] = j->variable[NEXT] = -1;
}

/* Puts new objects before what a variable refers to, one before the other, each with another reference perhaps. Meanwhile references move. */
static void lengthen(struct job *j) {
    uint32_t v = random_below(j, MOVED), many = random_below(j, 256), fields[2];
    for (fields[0] = v; many--; ) {
        fields[1] = random_below(j, MOVED);
        if (!make_with(j, NEXT, fields, 1 + random_below(j, 2), 1)) break;
        SAYS(MH_OK, mh_copy(&j->m, v, NEXT));
        j->variable[v] = j->variable[NEXT];
        if (many % 4 == 0) move_reference(j);
    }
    SAYS(expected(j, 1), mh_forget(&j->m, NEXT));
    if (j->place == INSIDE) j->variable[NEXT] = -1;
}

#endif
