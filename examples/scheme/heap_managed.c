/* The heap over managed_heap.h: a shared world with a mutator for each thread, and an array of the bytes beside its objects. Those of an object that refers weakly
   to another are a weak reference. Those of one that has more memory are its address; a table has all of them with weak references, and lets go of the dead. */
#include "heap.h"

#include <stdio.h>
#include <stdlib.h>

PER_THREAD mh_mutator heap_mutator;
unsigned char *heap_beside;

/* The world's handle is for one thread at a time. */
static mh_world world;
static pthread_mutex_t world_lock = PTHREAD_MUTEX_INITIALIZER;

/* The objects that have memory, in no order; how many there are, how many of the first ones a sweep has still to look at, and how many cycles had ended as it
   began; how many bytes they have, and how many may be. All under the lock: who has it makes no object and has no safe point, so that others wait inside. */
struct text { mh_weak object; unsigned char *bytes; uint32_t length; };
enum { PIECE = 4096, A_FEW = 16, FEWEST_BYTES = 1 << 24 };
static pthread_mutex_t texts_lock = PTHREAD_MUTEX_INITIALIZER;
static struct text *texts;
static size_t texts_count, texts_room, texts_left;
static uint64_t texts_seen, texts_bytes, texts_most = FEWEST_BYTES;

void heap_refused(int status) {
    fprintf(stderr, "scheme: the heap says: %s\n", mh_status_text((mh_status)status));
    exit(2);
}

void heap_open(uint32_t cells, uint32_t threads) {
    mh_sizes sizes = {.fields = FIELDS, .shared = 1, .slots = SLOTS};
    sizes.cells = cells;
    sizes.mutators = threads;
    heap_must(mh_open(&sizes, &world));
    heap_beside = calloc(cells, BESIDE);
    if (!heap_beside) heap_refused(MH_OUT_OF_MEMORY);
}

void heap_close(void) {
    heap_must(mh_close(&world));
    free(heap_beside);
    while (texts_count) free(texts[--texts_count].bytes);
    free(texts);
}

void heap_join(void) {
    pthread_mutex_lock(&world_lock);
    heap_must(mh_take_mutator(&world, &heap_mutator));
    pthread_mutex_unlock(&world_lock);
    heap_enter();
}

void heap_part(void) {
    pthread_mutex_lock(&world_lock);
    heap_must(mh_give_back(&world, &heap_mutator));
    pthread_mutex_unlock(&world_lock);
}

void heap_collect(void) { heap_must(mh_collect(&heap_mutator)); }

uint64_t heap_free(void) {
    mh_numbers numbers;
    pthread_mutex_lock(&world_lock);
    heap_must(mh_statistics(&world, &numbers));
    pthread_mutex_unlock(&world_lock);
    return numbers.free;
}

uint64_t heap_cycles(void) {
    uint64_t cycles = 0;
    heap_must(mh_cycles(&heap_mutator, &cycles));
    return cycles;
}

/* What another thread has made it publishes at the next stop at the latest. */
static mh_weak weak_of(uint32_t w) {
    mh_weak weak = {0, 0, 0, 0};
    mh_status s;
    while ((s = mh_weak_of(&heap_mutator, w, &weak)) == MH_UNPUBLISHED) heap_must(mh_finish(&heap_mutator));
    heap_must(s);
    return weak;
}

void make_weak(uint32_t v, uint32_t word, uint32_t w) {
    mh_weak weak = weak_of(w);
    unsigned char *at;
    make(v, word, FIELDS);
    at = beside(v);
    lay_bits(at, (uint64_t)weak.world << 32 | weak.place);
    lay_bits(at + 8, (uint64_t)weak.section << 32 | weak.number);
}

int upgrade(uint32_t w, uint32_t v) {
    const unsigned char *at = beside(v);
    uint64_t where = bits_at(at), which = bits_at(at + 8);
    mh_weak weak;
    mh_status s;
    weak.world = (uint32_t)(where >> 32);
    weak.place = (uint32_t)where;
    weak.section = (uint32_t)(which >> 32);
    weak.number = (uint32_t)which;
    s = mh_upgrade(&heap_mutator, &weak, w);
    if (s != MH_DEAD) heap_must(s);
    return s == MH_OK;
}

/* Under the lock. The object that the sweep comes to is dead: its memory is freed. The last one comes to its place. */
static void drop_text(void) {
    struct text *it = &texts[texts_left];
    text_found(it->bytes);
    free(it->bytes);
    texts_bytes -= it->length;
    *it = texts[--texts_count];
}

/* Under the lock. Looks at so many objects at most: whether there is no more to do. A sweep begins if a cycle has ended since the last one did. */
static int sweep_texts(size_t most, uint32_t spare) {
    uint64_t cycles = heap_cycles();
    if (!texts_left && cycles != texts_seen) {
        texts_seen = cycles;
        texts_left = texts_count;
    }
    for (; texts_left && most; most--) {
        mh_status s = mh_upgrade(&heap_mutator, &texts[--texts_left].object, spare);
        if (s == MH_DEAD) drop_text();
        else heap_must(s);
    }
    forget(spare);
    return !texts_left && cycles == texts_seen;
}

uint64_t heap_texts(uint32_t spare) {
    uint64_t bytes;
    int is_done;
    do {
        pthread_mutex_lock(&texts_lock);
        is_done = sweep_texts(PIECE, spare);
        bytes = texts_bytes;
        pthread_mutex_unlock(&texts_lock);
        pass();
    } while (!is_done);
    return bytes;
}

/* Makes room for so many bytes more: if twice as many have been taken as were left before, a collection tells which may go. */
static void make_room(uint32_t length, uint32_t spare) {
    uint64_t bytes;
    int is_room;
    pthread_mutex_lock(&texts_lock);
    is_room = texts_bytes + length <= texts_most;
    pthread_mutex_unlock(&texts_lock);
    if (is_room) return;
    heap_collect();
    bytes = heap_texts(spare) + length;
    pthread_mutex_lock(&texts_lock);
    texts_most = bytes < FEWEST_BYTES / 2 ? FEWEST_BYTES : 2 * bytes;
    pthread_mutex_unlock(&texts_lock);
}

/* Under the lock: whether the table has room for one more. */
static int has_room(void) {
    size_t room = texts_count < texts_room ? texts_room : 2 * texts_room + 64;
    struct text *grown = room == texts_room ? texts : realloc(texts, room * sizeof *texts);
    if (!grown) return 0;
    texts = grown;
    texts_room = room;
    return 1;
}

/* v's object has this memory from now on; whether the table has room for it. */
static int add_text(uint32_t v, unsigned char *bytes, uint32_t length, uint32_t spare) {
    struct text it;
    int is_room;
    it.object = weak_of(v);
    it.bytes = bytes;
    it.length = length;
    pthread_mutex_lock(&texts_lock);
    sweep_texts(A_FEW, spare);
    is_room = has_room();
    if (is_room) {
        texts[texts_count++] = it;
        texts_bytes += length;
    }
    pthread_mutex_unlock(&texts_lock);
    return is_room;
}

void make_text(uint32_t v, uint32_t word, uint32_t length, uint32_t spare) {
    unsigned char *bytes;
    make_room(length, spare);
    make(v, word, 0);
    bytes = calloc(length, 1);
    if (!bytes || !add_text(v, bytes, length, spare)) {
        free(bytes);
        heap_is_full();
    }
    lay_bits(beside(v), (uintptr_t)bytes);
}
