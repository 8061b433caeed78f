/*
 * mh_boehm.h: the calls of managed_heap.h over Boehm's collector, so that one program is built over either. Objects are blocks of GC_MALLOC; a mutator's
 * variables lie in its handle, which the collector finds as a root. The sizes of a world are not kept to: there is no fixed number of cells.
 */
#ifndef MH_BOEHM_H
#define MH_BOEHM_H

#define GC_THREADS
#include <gc.h>
#include <stdint.h>

typedef enum mh_status {
    MH_OK, MH_NOT_YET, MH_STOPPED, MH_NO_CELL, MH_OUTSIDE, MH_COLLECTING, MH_OUT_OF_RANGE, MH_NIL, MH_FULL, MH_SPENT, MH_OUT_OF_MEMORY, MH_GIVEN_BACK,
    MH_IN_USE, MH_NONE_LEFT, MH_REFUSED, MH_IDLE, MH_DISMISSED, MH_STILL_LENT, MH_TAKEN, MH_NOT_SHARED, MH_NO_CACHE
} mh_status;

typedef struct mh_sizes { uint32_t cells, fields, mutators, name, tracers, shared, slots; } mh_sizes;
typedef struct mh_numbers { uint32_t cells; uint64_t free, marked; } mh_numbers;
struct mh_block { uint64_t value; struct mh_block *field[]; };
typedef struct mh_world { void *at; mh_sizes sizes; uint32_t taken; struct mh_block *root; } mh_world;
typedef struct mh_mutator { void *at; struct mh_block *v[32], *root; uint32_t fields, inside; } mh_mutator;

static inline mh_status mh_open(const mh_sizes *sizes, mh_world *w) {
    if (sizes->cells < 64 || sizes->cells % 64 || sizes->fields < 1 || sizes->fields > 16 || sizes->mutators < 1 || sizes->mutators > 32)
        return MH_OUT_OF_RANGE;
    GC_INIT();
    GC_allow_register_threads();
    w->at = w; w->sizes = *sizes; w->taken = 0; w->root = 0;
    if (sizes->shared && !(w->root = GC_MALLOC(sizeof(struct mh_block) + sizes->fields * sizeof(void *)))) return MH_OUT_OF_MEMORY;
    return MH_OK;
}
static inline mh_status mh_take_mutator(mh_world *w, mh_mutator *m) {
    uint32_t k;
    if (!w->at) return MH_GIVEN_BACK;
    if (m->at) return MH_TAKEN;
    if (w->taken == w->sizes.mutators) return MH_NONE_LEFT;
    w->taken++; m->at = w; m->inside = 0; m->fields = w->sizes.fields; m->root = w->root;
    for (k = 0; k < 32; k++) m->v[k] = 0;
    return MH_OK;
}
static inline mh_status mh_give_back(mh_world *w, mh_mutator *m) {
    uint32_t k;
    if (!w->at || !m->at) return MH_GIVEN_BACK;
    for (k = 0; k < 32; k++) m->v[k] = 0;
    w->taken--; m->at = 0;
    return MH_OK;
}
static inline mh_status mh_statistics(mh_world *w, mh_numbers *n) {
    n->cells = w->sizes.cells; n->free = GC_get_free_bytes(); n->marked = 0;
    return MH_OK;
}
static inline mh_status mh_close(mh_world *w) {
    if (!w->at) return MH_GIVEN_BACK;
    if (w->taken) return MH_STILL_LENT;
    w->at = 0;
    return MH_OK;
}

#define MH_AT(m, in_range) do { if (!(m)->at) return MH_GIVEN_BACK; if (!(in_range)) return MH_OUT_OF_RANGE; if (!(m)->inside) return MH_OUTSIDE; } while (0)

static inline mh_status mh_enter(mh_mutator *m) { if (!m->at) return MH_GIVEN_BACK; m->inside = 1; return MH_OK; }
static inline mh_status mh_leave(mh_mutator *m) { if (!m->at) return MH_GIVEN_BACK; m->inside = 0; return MH_OK; }
static inline mh_status mh_safe_point(mh_mutator *m) { MH_AT(m, 1); return MH_OK; }
static inline mh_status mh_collect(mh_mutator *m) { MH_AT(m, 1); GC_gcollect(); return MH_OK; }
static inline mh_status mh_make(mh_mutator *m, uint32_t v, uint32_t value) {
    struct mh_block *b;
    MH_AT(m, v < 32);
    b = GC_MALLOC(sizeof(struct mh_block) + m->fields * sizeof(void *));
    if (!b) return MH_FULL;
    b->value = value; m->v[v] = b;
    return MH_OK;
}
static inline mh_status mh_set(mh_mutator *m, uint32_t v, uint32_t i, uint32_t w) {
    MH_AT(m, v < 32 && w < 32 && i < m->fields);
    if (!m->v[v]) return MH_NIL;
    if (m->root) __atomic_store_n(&m->v[v]->field[i], m->v[w], __ATOMIC_SEQ_CST);
    else m->v[v]->field[i] = m->v[w];
    return MH_OK;
}
static inline mh_status mh_get(mh_mutator *m, uint32_t w, uint32_t v, uint32_t i) {
    MH_AT(m, v < 32 && w < 32 && i < m->fields);
    m->v[w] = !m->v[v] ? 0 : m->root ? __atomic_load_n(&m->v[v]->field[i], __ATOMIC_SEQ_CST) : m->v[v]->field[i];
    return MH_OK;
}
#define MH_NOTHING 0xffffffffu
static inline mh_status mh_make_with(mh_mutator *m, uint32_t v, uint32_t value, const uint32_t *fields, uint32_t count) {
    uint32_t k;
    mh_status s;
    MH_AT(m, v < 32 && count <= m->fields);
    for (k = 0; k < count; k++) if (fields[k] >= 32 && fields[k] != MH_NOTHING) return MH_OUT_OF_RANGE;
    s = mh_make(m, v, value);
    for (k = 0; s == MH_OK && k < count; k++) if (fields[k] != MH_NOTHING) s = mh_set(m, v, k, fields[k]);
    return s;
}
static inline mh_status mh_copy(mh_mutator *m, uint32_t w, uint32_t v) { MH_AT(m, v < 32 && w < 32); m->v[w] = m->v[v]; return MH_OK; }
static inline mh_status mh_forget(mh_mutator *m, uint32_t v) { MH_AT(m, v < 32); m->v[v] = 0; return MH_OK; }
static inline mh_status mh_put(mh_mutator *m, uint32_t v, uint32_t value) {
    MH_AT(m, v < 32);
    if (!m->v[v]) return MH_NIL;
    if (m->root) __atomic_store_n(&m->v[v]->value, value, __ATOMIC_SEQ_CST);
    else m->v[v]->value = value;
    return MH_OK;
}
static inline mh_status mh_value(mh_mutator *m, uint32_t v, uint32_t *out) {
    MH_AT(m, v < 32);
    if (!m->v[v]) return MH_NIL;
    *out = (uint32_t)(m->root ? __atomic_load_n(&m->v[v]->value, __ATOMIC_SEQ_CST) : m->v[v]->value);
    return MH_OK;
}
static inline mh_status mh_is_nil(mh_mutator *m, uint32_t v, uint32_t *out) { MH_AT(m, v < 32); *out = !m->v[v]; return MH_OK; }
static inline mh_status mh_same(mh_mutator *m, uint32_t v, uint32_t w, uint32_t *out) {
    MH_AT(m, v < 32 && w < 32);
    *out = m->v[v] == m->v[w];
    return MH_OK;
}
static inline mh_status mh_fields(mh_mutator *m, uint32_t v, uint32_t first, uint32_t count) {
    uint32_t k;
    mh_status s = MH_OK;
    MH_AT(m, v < 32 && first <= 32 && count <= 32 - first && count <= m->fields && (v < first || v - first >= count));
    for (k = 0; s == MH_OK && k < count; k++) s = mh_get(m, first + k, v, k);
    return s;
}

/* What a shared world has besides. There are no slots and no numbers of objects. */
static inline mh_status mh_root(mh_mutator *m, uint32_t v) {
    if (m->at && !m->root) return MH_NOT_SHARED;
    MH_AT(m, v < 32);
    m->v[v] = m->root;
    return MH_OK;
}
static inline mh_status mh_exchange(mh_mutator *m, uint32_t v, uint32_t i, uint32_t expected, uint32_t next, uint32_t *won) {
    struct mh_block *found;
    if (m->at && !m->root) return MH_NOT_SHARED;
    MH_AT(m, v < 32 && i < m->fields && expected < 32 && next < 32);
    if (!m->v[v]) return MH_NIL;
    found = m->v[expected];
    *won = __atomic_compare_exchange_n(&m->v[v]->field[i], &found, m->v[next], 0, __ATOMIC_SEQ_CST, __ATOMIC_SEQ_CST);
    return MH_OK;
}
static inline mh_status mh_exchange_value(mh_mutator *m, uint32_t v, uint32_t expected, uint32_t next, uint32_t *won) {
    uint64_t found = expected;
    if (m->at && !m->root) return MH_NOT_SHARED;
    MH_AT(m, v < 32);
    if (!m->v[v]) return MH_NIL;
    *won = __atomic_compare_exchange_n(&m->v[v]->value, &found, next, 0, __ATOMIC_SEQ_CST, __ATOMIC_SEQ_CST);
    return MH_OK;
}

/* Cycles aren't told. */
typedef struct mh_cycle { uint64_t beside, mutators, tracers, exact; } mh_cycle;
typedef void mh_sink(void *context, const mh_cycle *cycle);
static inline mh_status mh_log_cycles(mh_world *w, mh_sink *sink, void *context) { (void)sink; (void)context; return w->at ? MH_OK : MH_GIVEN_BACK; }

/* There are no tracers: the collector marks with threads of its own. */
typedef struct mh_tracer { void *at; } mh_tracer;
static inline mh_status mh_take_tracer(mh_world *w, mh_tracer *t) { (void)w; (void)t; return MH_NONE_LEFT; }
static inline mh_status mh_give_back_tracer(mh_world *w, mh_tracer *t) { (void)w; (void)t; return MH_GIVEN_BACK; }
static inline mh_status mh_trace_turn(mh_tracer *t) { (void)t; return MH_GIVEN_BACK; }
static inline mh_status mh_trace(mh_tracer *t) { (void)t; return MH_GIVEN_BACK; }
static inline mh_status mh_dismiss(mh_world *w) { (void)w; return MH_OK; }
static inline void mh_rest_turn(mh_status s, uint32_t *count) { (void)s; (void)count; }

#endif
