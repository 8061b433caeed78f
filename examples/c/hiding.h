/*
 * What fuzz.c tries again and again besides calls at random: a cycle is to lose objects, and must not. All roots get objects of their own, and one a long list. Once a
 * cycle marks, and has come to an object of a variable, but not to the list's end, ends of the list move to that object's fields. The cycle ends, new objects take
 * the cells that it freed, and what is reached is compared with its shadow.
 */
#ifndef HIDING_H
#define HIDING_H

#include "giving_up.h"
#include "going_on.h"
#include "growing.h"

/* After how many calls a thread hides objects again; the variable, or in a shared world the slot, that has the list; the variable whose object has been come to, since
   what is marked last is traced first; how long the list is, and its ends; and how many turns, or objects that are paid for, come between. */
enum { HIDES = 100000, LIST = 0, EARLY = MOVED - 1, LONG = 1200, END = 100, TURNS = 200, PAID = 32 };

/* A turn of the thread's tracer, if it has one. */
static void turn(struct job *j) {
    mh_status s = told(j, mh_trace_turn(&j->t));
    if (!j->t.at) must(s, MH_GIVEN_BACK, "mh_trace_turn", __FILE__, __LINE__);
    else if (j->place == COLLECTING) must(s, MH_STOPPED, "mh_trace_turn", __FILE__, __LINE__);
    else if (s != MH_STOPPED && s != MH_IDLE) must(s, MH_OK, "mh_trace_turn", __FILE__, __LINE__);
}

/* An object is made in v, with the first reference if there is one. */
static void make_one(struct job *j, uint32_t v, const uint32_t *field) {
    come_in(j);
    while (!make_with(j, v, field, field != 0, 1)) come_in(j);
    go_on();
}

/* Slot k and v become what one of them is. */
static void spill(struct job *j, uint32_t v, uint32_t k) {
    SAYS(MH_OK, mh_spill(&j->m, v, k));
    j->slot[k] = j->variable[v];
}

static void fill(struct job *j, uint32_t v, uint32_t k) {
    SAYS(MH_OK, mh_fill(&j->m, v, k));
    j->variable[v] = j->slot[k];
}

static void forget(struct job *j, uint32_t v) {
    SAYS(MH_OK, mh_forget(&j->m, v));
    j->variable[v] = -1;
}

/* Each root refers to an object that nothing else refers to, and one to a list. */
static void renew_roots(struct job *j) {
    uint32_t k, list = LIST;
    come_in(j);
    forget_all(j);
    for (k = 0; is_shared && k < SLOTS; k++) {
        make_one(j, NEXT, 0);
        spill(j, NEXT, k);
    }
    for (k = 0; k < MOVED; k++) make_one(j, k, 0);
    for (k = 0; k < LONG; k++) {
        make_one(j, NEXT, &list);
        SAYS(MH_OK, mh_copy(&j->m, LIST, NEXT));
        j->variable[LIST] = j->variable[NEXT];
    }
    if (!is_shared) return;
    spill(j, LIST, LIST);
    forget(j, LIST);
}

static int is_marking(struct job *j) {
    mh_course course = {0};
    return mhl_course(&j->m, &course) == MH_OK && course.marking;
}

/* Makes garbage until another cycle marks, or none has after many objects. */
static void await_marking(struct job *j) {
    uint32_t left = cells + OBJECTS, before = 1, now;
    for (now = 1; left-- && (before || !now); now = (uint32_t)is_marking(j)) {
        before = now;
        make_one(j, NEXT, 0);
    }
}

/* The end of the list that begins behind so many objects becomes field i of the early object. */
static void move_end(struct job *j, uint32_t behind, uint32_t i) {
    int32_t at = j->variable[LIST];
    SAYS(MH_OK, mh_copy(&j->m, FOUND, LIST));
    while (at >= 0 && behind--) {
        SAYS(MH_OK, mh_get(&j->m, FOUND, FOUND, 0));
        at = j->of[at].field[0];
    }
    SAYS(MH_OK, mh_get(&j->m, MOVED, FOUND, 0));
    SAYS(MH_OK, mh_set(&j->m, EARLY, i, MOVED));
    SAYS(MH_OK, mh_forget(&j->m, MOVED));
    SAYS(MH_OK, mh_set(&j->m, FOUND, 0, MOVED));
    SAYS(MH_OK, mh_forget(&j->m, FOUND));
    j->of[j->variable[EARLY]].field[i] = j->of[at].field[0];
    j->of[at].field[0] = -1;
}

static uint64_t ended_cycles(struct job *j) {
    uint64_t cycles = 0;
    MUST(mh_cycles(&j->m, &cycles));
    return cycles;
}

/* Moves one end behind the other while this cycle marks, with payments between them, or first turns of the tracer, which doesn't come to what is in slots. */
static void move_ends(struct job *j, uint64_t cycles) {
    uint32_t i, k;
    for (k = 0; is_shared && k < TURNS; k++) turn(j);
    for (i = 0; i < FIELDS && ended_cycles(j) == cycles; i++) {
        come_in(j);
        if (is_shared) fill(j, LIST, LIST);
        move_end(j, LONG - (i + 1) * END, i);
        if (is_shared) { spill(j, LIST, LIST); forget(j, LIST); }
        for (k = 0; !is_shared && k < PAID; k++) make_one(j, NEXT, 0);
    }
}

/* This cycle is finished, in small steps. */
static void finish(struct job *j, uint64_t cycles) {
    mh_status s;
    come_in(j);
    if (ended_cycles(j) != cycles) return;
    s = told(j, mh_finish_step(&j->m, 1 + random_below(j, 100)));
    j->place = s == MH_NOT_YET ? COLLECTING : s == MH_STOPPED ? OUTSIDE : j->place;
    come_in(j);
}

/* What is reached from FOUND, by first fields, is as this shadow and those behind it. */
static void compare_list(struct job *j, int32_t o) {
    uint32_t value = 77;
    for (; o >= 0; o = j->of[o].field[0]) {
        MUST(mh_value(&j->m, FOUND, &value));
        wrong("the value of an object that was hidden", value, j->of[o].value);
        MUST(mh_get(&j->m, FOUND, FOUND, 0));
    }
    MUST(mh_forget(&j->m, FOUND));
}

static void compare_hidden(struct job *j) {
    uint32_t k;
    come_in(j);
    for (k = 0; k < MOVED; k++) {
        MUST(mh_copy(&j->m, FOUND, k));
        compare_list(j, j->variable[k]);
    }
    for (k = 0; is_shared && k < SLOTS; k++) {
        MUST(mh_fill(&j->m, FOUND, k));
        compare_list(j, j->slot[k]);
    }
    for (k = 0; k < FIELDS; k++) {
        MUST(mh_get(&j->m, FOUND, EARLY, k));
        compare_list(j, j->of[j->variable[EARLY]].field[k]);
    }
}

static void hide(struct job *j) {
    uint64_t cycles;
    renew_roots(j);
    await_marking(j);
    cycles = ended_cycles(j);
    move_ends(j, cycles);
    finish(j, cycles);
    await_marking(j);
    compare_hidden(j);
    forget_all(j);
}

#endif
