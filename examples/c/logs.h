/* The logs of torture.c: which references its threads stored where, and which they read. Objects are named by their values. */
#ifndef LOGS_H
#define LOGS_H

#include "heap.h"

/* Stands for nothing. */
#define NONE 0xffffffffu

/* A store: field `field` of object `in` became `what`; by an exchange if it was `from`. A read has the same, and no `from`. */
struct entry { uint32_t in, field, what, from, thread, at; };
struct log { struct entry *of; uint32_t count, room; };

/* All stores, in the order of objects, fields, threads. */
static struct entry *all;
static uint32_t stores;

static void note(struct log *log, uint32_t in, uint32_t field, uint32_t what, uint32_t from, uint32_t thread) {
    struct entry *e;
    if (log->count == log->room) {
        log->room = 2 * log->room + 1000;
        log->of = realloc(log->of, log->room * sizeof *log->of);
        if (!log->of) exit(2);
    }
    e = &log->of[log->count];
    e->in = in; e->field = field; e->what = what; e->from = from; e->thread = thread; e->at = log->count++;
}

static int in_order(const void *p, const void *q) {
    const struct entry *a = p, *b = q;
    if (a->in != b->in) return a->in < b->in ? -1 : 1;
    if (a->field != b->field) return a->field < b->field ? -1 : 1;
    if (a->thread != b->thread) return a->thread < b->thread ? -1 : 1;
    return a->at < b->at ? -1 : a->at > b->at;
}

/* The stores in this field of this object: the first of them, and how many. */
static uint32_t stores_in(uint32_t in, uint32_t field, uint32_t *many) {
    struct entry key = {in, field, 0, 0, 0, 0};
    uint32_t low = 0, high = stores, first;
    while (low < high) {
        uint32_t middle = low + (high - low) / 2;
        if (in_order(&all[middle], &key) < 0) low = middle + 1;
        else high = middle;
    }
    for (first = low; low < stores && all[low].in == in && all[low].field == field; low++) {}
    *many = low - first;
    return first;
}

/* Whether the reference was stored in the field of the object, or stored there last by some thread. */
static int was_stored(uint32_t in, uint32_t field, uint32_t what, int last) {
    uint32_t many, first = stores_in(in, field, &many), k;
    if (what == NONE && (!last || !many)) return 1;
    for (k = first; k < first + many; k++) {
        int is_last = k + 1 == first + many || all[k + 1].thread != all[k].thread;
        if (all[k].what == what && (!last || is_last)) return 1;
    }
    return 0;
}

/* What the exchanges of a field of the root leave in it. It began with nothing, and each goes on from what another left, so that of all references but the last
   as many come as go. */
static uint32_t left_in_root(uint32_t field) {
    uint32_t many, first = stores_in(0, field, &many), k, left = NONE;
    for (k = first; k < first + many; k++) left ^= all[k].what ^ all[k].from;
    return left;
}

#endif
