/* Symbols, and the places of global variables and constants. A symbol is its index in a table in C, which threads use one after the other. A place is an
   object that holds a value and stays the place's; all are leaves of a tree in the heap. Those that a thread used last lie in its variables from CACHE on, so
   that most values are read with one call. Places are made by the compiler alone, while no other thread is at work. */
#include "scheme.h"

#include <stdlib.h>
#include <string.h>

enum { BUCKETS = 1024, CACHED = VARIABLES - CACHE };

struct name { char *text; uint32_t length, next, place, primitive; };

static struct name *names;
static uint32_t name_count, buckets[BUCKETS];
static pthread_mutex_t names_lock = PTHREAD_MUTEX_INITIALIZER;
static unsigned char *bound;
static uint32_t place_count, tree_size = FIELDS;
static PER_THREAD uint32_t cached[CACHED];

static uint32_t bucket_of(const char *name, uint32_t length) {
    uint32_t hash = 5381, i;
    for (i = 0; i < length; i++) hash = hash * 33u + (unsigned char)name[i];
    return hash % BUCKETS;
}

static uint32_t new_name(const char *name, uint32_t length, uint32_t *at) {
    struct name *made;
    if (name_count % 256 == 0) names = realloc(names, (name_count + 256) * sizeof *names);
    made = &names[name_count];
    made->text = malloc(length + 1);
    memcpy(made->text, name, length);
    made->text[length] = 0;
    made->length = length;
    made->place = made->primitive = NONE;
    made->next = *at;
    *at = ++name_count;
    return name_count - 1;
}

/* The symbol with this name. Buckets have a symbol's index and one more, so that 0 is none. */
uint32_t symbol(const char *name, uint32_t length) {
    uint32_t *at = &buckets[bucket_of(name, length)], i;
    pthread_mutex_lock(&names_lock);
    for (i = *at; i; i = names[i - 1].next)
        if (names[i - 1].length == length && !memcmp(names[i - 1].text, name, length)) break;
    i = i ? i - 1 : new_name(name, length, at);
    pthread_mutex_unlock(&names_lock);
    return i;
}

const char *symbol_name(uint32_t it) {
    const char *text;
    pthread_mutex_lock(&names_lock);
    text = names[it].text;
    pthread_mutex_unlock(&names_lock);
    return text;
}

/* For the compiler. */
uint32_t *symbol_place(uint32_t it) { return &names[it].place; }
uint32_t *symbol_primitive(uint32_t it) { return &names[it].primitive; }

/* The first thread's. */
void names_open(void) {
    uint32_t i;
    for (i = 0; i < primitive_count; i++) *symbol_primitive(symbol(primitives[i].name, (uint32_t)strlen(primitives[i].name))) = i;
    root(S0);
    make(S1, WORD(RIB, 0), FIELDS);
    set(S0, ROOT_PLACES, S1);
    make(S1, WORD(CONSTANT, NO), 0);
    make(S2, WORD(CONSTANT, YES), 0);
    pair(S3, S1, S2, 0);
    set(S0, ROOT_CONSTANTS, S3);
}

/* A thread's, when it begins, and when it has waited: meanwhile there may be a new root of the tree. */
void names_join(void) {
    root(S0);
    get(PLACES, S0, ROOT_PLACES);
    get(S0, S0, ROOT_CONSTANTS);
    get(FALSE_, S0, 0);
    get(TRUE_, S0, 1);
}

/* The tree is full: it becomes the first of the four parts of a new one. */
static void grow(void) {
    make(S0, WORD(RIB, 0), FIELDS);
    set(S0, 0, PLACES);
    copy(PLACES, S0);
    root(S0);
    set(S0, ROOT_PLACES, PLACES);
    tree_size *= FIELDS;
}

/* A place that has no value yet. Uses S0 to S3. */
uint32_t new_place(void) {
    if (place_count % 256 == 0) bound = realloc(bound, place_count + 256);
    if (place_count == tree_size) grow();
    make(S3, WORD(RIB, 0), 1);
    tree_set(PLACES, tree_size, place_count, S3);
    bound[place_count] = 0;
    return place_count++;
}

/* The variable that has the place, until another one is asked for. Variables have a place's number and one more, so that 0 is none. */
static uint32_t place(uint32_t it) {
    uint32_t slot = it % CACHED;
    if (cached[slot] == it + 1) return CACHE + slot;
    tree_get(CACHE + slot, PLACES, tree_size, it);
    cached[slot] = it + 1;
    return CACHE + slot;
}

void place_value(uint32_t to, uint32_t it) { get(to, place(it), 0); }

void bind_place(uint32_t it, uint32_t v) {
    set(place(it), 0, v);
    __atomic_store_n(&bound[it], 1, __ATOMIC_RELEASE);
}

int is_bound(uint32_t it) { return __atomic_load_n(&bound[it], __ATOMIC_ACQUIRE); }
