/*
 * The heap that the interpreter runs over, by the few calls that it makes: over managed_heap.h, or over Boehm's collector if OVER_BOEHM is defined.
 * Threads share its objects. Each has 32 variables and some slots, which are its roots, and all find the root. An object has a word of 32 bits and up to four
 * fields; or, in their place, some bytes beside it. What opens and fills is in heap_managed.c and heap_boehm.c; what is called most is in over_managed.h and
 * over_boehm.h, so that the compiler sees through it.
 */
#ifndef HEAP_H
#define HEAP_H

#include <pthread.h>
#include <stdint.h>

/* What each thread has of its own. */
#define PER_THREAD __thread

enum { VARIABLES = 32, FIELDS = 4, BESIDE = 16, THREADS = 32, SLOTS = 1024 };

/* Opened and closed by one thread. Each thread joins before its first call on the heap, and parts after its last. */
void heap_open(uint32_t cells, uint32_t threads);
void heap_close(void);
void heap_join(void);
void heap_part(void);
void heap_collect(void);
/* How many cells, or bytes, are free. */
uint64_t heap_free(void);
/* A call that answered what the program doesn't provide for: it ends here. */
void heap_refused(int status);
/* What the program does if no cell is free. It doesn't return. */
void heap_is_full(void);

/* v refers to a new object with this word, which refers to w's object and doesn't keep it; its field 1 is nil. w becomes what v's object refers to so: whether
   that is alive, and else w is nil. While as many cycles have ended nothing more has died. */
void make_weak(uint32_t v, uint32_t word, uint32_t w);
int upgrade(uint32_t w, uint32_t v);
uint64_t heap_cycles(void);

/* v refers to a new object with so many bytes of memory, all 0, which is freed once the object is dead. Then the spare variable is nil. */
void make_text(uint32_t v, uint32_t word, uint32_t length, uint32_t spare);
/* How much memory objects have so, once that of the dead ones is freed; Boehm's collector doesn't tell. */
uint64_t heap_texts(uint32_t spare);

/* The bytes beside an object, at this address while a variable refers to it. Threads may read and write them at once, so each access is an atomic one. */
static inline uint64_t bits_at(const unsigned char *at) { return __atomic_load_n((const uint64_t *)(const void *)at, __ATOMIC_RELAXED); }
static inline void lay_bits(unsigned char *at, uint64_t bits) { __atomic_store_n((uint64_t *)(void *)at, bits, __ATOMIC_RELAXED); }
static inline uint32_t byte_at(const unsigned char *at) { return __atomic_load_n(at, __ATOMIC_RELAXED); }
static inline void lay_byte(unsigned char *at, uint32_t byte) { __atomic_store_n(at, (unsigned char)byte, __ATOMIC_RELAXED); }

#ifdef OVER_BOEHM
#include "over_boehm.h"
#else
#include "over_managed.h"
#endif
#endif
