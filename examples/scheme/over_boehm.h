/* The calls of heap.h over Boehm's collector: the variables and the slots of each thread are arrays, which it finds as roots. */
#ifndef OVER_BOEHM_H
#define OVER_BOEHM_H

#define GC_THREADS
#include <gc.h>

struct object { uint32_t word; struct object *field[]; };
extern PER_THREAD struct object **heap_at, **heap_slots;
extern struct object *heap_root;

static inline void heap_made(uint32_t v, uint32_t word, struct object *o) {
    if (!o) { heap_is_full(); return; }
    o->word = word;
    heap_at[v] = o;
}
static inline void make(uint32_t v, uint32_t word, uint32_t fields) {
    struct object *o = fields ? GC_MALLOC(sizeof *o + fields * sizeof o) : GC_MALLOC_ATOMIC(sizeof *o);
    heap_made(v, word, o);
}
static inline void set(uint32_t v, uint32_t i, uint32_t w) {
    if (!heap_at[v]) heap_refused(1);
    else __atomic_store_n(&heap_at[v]->field[i], heap_at[w], __ATOMIC_RELEASE);
}
static inline void get(uint32_t w, uint32_t v, uint32_t i) { heap_at[w] = heap_at[v] ? __atomic_load_n(&heap_at[v]->field[i], __ATOMIC_ACQUIRE) : 0; }
static inline void copy(uint32_t w, uint32_t v) { heap_at[w] = heap_at[v]; }
static inline void forget(uint32_t v) { heap_at[v] = 0; }
static inline void put(uint32_t v, uint32_t word) { __atomic_store_n(&heap_at[v]->word, word, __ATOMIC_RELEASE); }
static inline uint32_t word_or(uint32_t v, uint32_t otherwise) { return heap_at[v] ? __atomic_load_n(&heap_at[v]->word, __ATOMIC_ACQUIRE) : otherwise; }
static inline int same(uint32_t v, uint32_t w) { return heap_at[v] == heap_at[w]; }

static inline void spill(uint32_t v, uint32_t i) { heap_slots[i] = heap_at[v]; }
static inline void fill(uint32_t v, uint32_t i) { heap_at[v] = heap_slots[i]; }
static inline void forget_slots(uint32_t from, uint32_t to) { while (from < to) heap_slots[from++] = 0; }

static inline void root(uint32_t v) { heap_at[v] = heap_root; }
static inline int exchange(uint32_t v, uint32_t i, uint32_t expected, uint32_t next) {
    struct object *it = heap_at[expected];
    return __atomic_compare_exchange_n(&heap_at[v]->field[i], &it, heap_at[next], 0, __ATOMIC_SEQ_CST, __ATOMIC_SEQ_CST);
}

/* The bytes lie in the object, where others have their fields. */
static inline void make_beside(uint32_t v, uint32_t word) {
    struct object *o = GC_MALLOC_ATOMIC(sizeof *o + BESIDE);
    heap_made(v, word, o);
}
static inline unsigned char *beside(uint32_t v) { return (unsigned char *)heap_at[v]->field; }
static inline uint32_t look(uint32_t v, uint32_t otherwise, unsigned char **at) {
    *at = heap_at[v] ? beside(v) : 0;
    return word_or(v, otherwise);
}

/* The memory of an object that make_text made. */
static inline unsigned char *text_at(uint32_t v) { return (unsigned char *)heap_at[v]->field[0]; }
static inline void text_used(unsigned char *at) { (void)at; }

/* The collector stops threads wherever they are. */
static inline void pass(void) {}
static inline void heap_leave(void) {}
static inline void heap_enter(void) {}

#endif
