/* The heap over Boehm's collector. It gets as many bytes as a world with so many cells takes, at once. */
#include "heap.h"

#include <stdlib.h>
#include <string.h>

/* What a cell with four fields takes in the managed heap, with all that lies beside it, in bytes. */
enum { CELL = 49 + BESIDE };

PER_THREAD struct object **heap_at, **heap_slots;
struct object *heap_root;

void heap_refused(int status) { exit(status); }

static void *out_of_memory(size_t bytes) {
    (void)bytes;
    return 0;
}

static void nothing(char *message, GC_word argument) { (void)message, (void)argument; }

void heap_open(uint32_t cells, uint32_t threads) {
    size_t bytes = (size_t)cells * CELL;
    (void)threads;
    GC_INIT();
    GC_set_oom_fn(out_of_memory);
    GC_set_warn_proc(nothing);
    GC_set_max_heap_size(bytes);
    if (bytes > GC_get_heap_size()) GC_expand_hp(bytes - GC_get_heap_size());
    heap_root = GC_MALLOC(sizeof *heap_root + FIELDS * sizeof heap_root);
    if (!heap_root) exit(2);
}

void heap_close(void) {}

void heap_join(void) {
    heap_at = GC_MALLOC_UNCOLLECTABLE((VARIABLES + SLOTS) * sizeof *heap_at);
    if (!heap_at) exit(2);
    heap_slots = heap_at + VARIABLES;
}

void heap_part(void) { GC_FREE(heap_at); }

void heap_collect(void) { GC_gcollect(); }

/* Field 0 has the address in a form that the collector doesn't see; it becomes 0 as the object dies. */
void make_weak(uint32_t v, uint32_t word, uint32_t w) {
    make(v, word, FIELDS);
    heap_at[v]->field[0] = (struct object *)GC_HIDE_POINTER(heap_at[w]);
    if (GC_general_register_disappearing_link((void **)&heap_at[v]->field[0], heap_at[w]) == GC_NO_MEMORY) heap_is_full();
}

static void *seen(void *link) { return *(void **)link ? GC_REVEAL_POINTER(*(void **)link) : 0; }
int upgrade(uint32_t w, uint32_t v) {
    heap_at[w] = GC_call_with_alloc_lock(seen, &heap_at[v]->field[0]);
    return heap_at[w] != 0;
}
uint64_t heap_cycles(void) { return GC_get_gc_no(); }

void make_text(uint32_t v, uint32_t word, uint32_t length, uint32_t spare) {
    void *bytes;
    make(v, word, 1);
    bytes = GC_MALLOC_ATOMIC(length);
    if (!bytes) heap_is_full();
    else heap_at[v]->field[0] = memset(bytes, 0, length);
    forget(spare);
}
uint64_t heap_texts(uint32_t spare) {
    forget(spare);
    return 0;
}

uint64_t heap_free(void) { return GC_get_free_bytes(); }
