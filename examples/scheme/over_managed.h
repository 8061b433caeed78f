/* The calls of heap.h over managed_heap.h: a shared world, in which each thread has a mutator. */
#ifndef OVER_MANAGED_H
#define OVER_MANAGED_H

#include "managed_heap.h"

extern PER_THREAD mh_mutator heap_mutator;
/* The bytes beside the objects, by their places. An object that has none doesn't use those of its place. */
extern unsigned char *heap_beside;

static inline void heap_must(mh_status s) { if (s != MH_OK) heap_refused((int)s); }

/* Variable v refers to a new object with this word, whose fields are nil. Each object has four, however many it uses. */
static inline void make(uint32_t v, uint32_t word, uint32_t fields) {
    mh_status s = mh_make(&heap_mutator, v, word);
    (void)fields;
    if (s == MH_NO_CELL) heap_is_full();
    else heap_must(s);
}
/* Field i of v's object becomes w. */
static inline void set(uint32_t v, uint32_t i, uint32_t w) { heap_must(mh_set(&heap_mutator, v, i, w)); }
/* w becomes field i of v's object; nil if v is. */
static inline void get(uint32_t w, uint32_t v, uint32_t i) { heap_must(mh_get(&heap_mutator, w, v, i)); }
static inline void copy(uint32_t w, uint32_t v) { heap_must(mh_copy(&heap_mutator, w, v)); }
static inline void forget(uint32_t v) { heap_must(mh_forget(&heap_mutator, v)); }
/* The word of v's object becomes this. */
static inline void put(uint32_t v, uint32_t word) { heap_must(mh_put(&heap_mutator, v, word)); }
/* The word of v's object, or this if v is nil. */
static inline uint32_t word_or(uint32_t v, uint32_t otherwise) {
    uint32_t word = otherwise;
    mh_status s = mh_value(&heap_mutator, v, &word);
    if (s == MH_NIL) return otherwise;
    heap_must(s);
    return word;
}
static inline int same(uint32_t v, uint32_t w) {
    uint32_t answer = 0;
    heap_must(mh_same(&heap_mutator, v, w, &answer));
    return answer != 0;
}

/* Slot i becomes what v is, and back; the slots from one on and below another become nil. */
static inline void spill(uint32_t v, uint32_t i) { heap_must(mh_spill(&heap_mutator, v, i)); }
static inline void fill(uint32_t v, uint32_t i) { heap_must(mh_fill(&heap_mutator, v, i)); }
static inline void forget_slots(uint32_t from, uint32_t to) { heap_must(mh_forget_slots(&heap_mutator, from, to)); }

/* v becomes the root. */
static inline void root(uint32_t v) { heap_must(mh_root(&heap_mutator, v)); }
/* If field i of v's object is what `expected` is it becomes what `next` is, in one step; whether it did. */
static inline int exchange(uint32_t v, uint32_t i, uint32_t expected, uint32_t next) {
    uint32_t won = 0;
    heap_must(mh_exchange(&heap_mutator, v, i, expected, next, &won));
    return won != 0;
}

/* v refers to a new object with bytes beside it. Its place is nobody else's while it is reachable, so what lies there is of an object that is gone. */
static inline void make_beside(uint32_t v, uint32_t word) { make(v, word, 0); }
static inline unsigned char *beside(uint32_t v) {
    uint32_t place = 0;
    heap_must(mh_place(&heap_mutator, v, &place));
    return heap_beside + (size_t)place * BESIDE;
}
/* The word of v's object, and where the bytes beside it are; or this, and nowhere, if v is nil. */
static inline uint32_t look(uint32_t v, uint32_t otherwise, unsigned char **at) {
    mh_object what = {0, 0};
    mh_status s = mh_look(&heap_mutator, v, &what);
    *at = 0;
    if (s == MH_NIL) return otherwise;
    heap_must(s);
    *at = heap_beside + (size_t)what.place * BESIDE;
    return what.value;
}

/* A thread sanitizer doesn't see into the library. It is told that who finds memory does so after all that was done by who has used it. */
#ifdef __SANITIZE_THREAD__
void __tsan_acquire(void *at);
void __tsan_release(void *at);
static inline void text_found(unsigned char *at) { __tsan_acquire(at); }
static inline void text_used(unsigned char *at) { __tsan_release(at); }
#else
static inline void text_found(unsigned char *at) { (void)at; }
static inline void text_used(unsigned char *at) { (void)at; }
#endif

/* The memory of an object that make_text made, at this address while a variable refers to it. */
static inline unsigned char *text_at(uint32_t v) {
    unsigned char *at = (unsigned char *)(uintptr_t)bits_at(beside(v));
    text_found(at);
    return at;
}

/* A safe point, for what runs long and makes nothing. A thread that waits leaves before and enters again. */
static inline void pass(void) { heap_must(mh_safe_point(&heap_mutator)); }
static inline void heap_leave(void) { heap_must(mh_leave(&heap_mutator)); }
static inline void heap_enter(void) { heap_must(mh_enter(&heap_mutator)); }

#endif
