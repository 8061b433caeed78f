/*
 * A weak hash table by identity, whose values are texts in memory of the program. Threads link and drop random graphs of objects that they share; each object has a
 * text in the table, under the number that mh_number tells, which no other object ever has. Nothing moves, so the table is never hashed anew. Whoever holds an
 * object finds its text. Once a cycle has ended threads go through the table, a part with a lock of its own at a time, and free the texts of objects that are dead:
 * each text once, and none too early. Whoever has a lock makes no object and has no safe point, so that others may wait for it inside the world.
 *
 * In the end, after a precise collection, the texts that are left are those of the objects that a walk from the root finds; after another, with nothing in the
 * root, none is left. Arguments: threads, steps of each thread, cells, seed.
 */
#include "team.h"
#include <string.h>

/* A thread keeps what it likes in the variables from OWN on and below NEW. */
enum { ROOT, NIL, OWN, NEW = 16, FOUND, OTHER, FIELDS = 3, LONG = 24, PARTS = 64, CHAINS = 64 };

struct entry { mh_weak object; char *text; struct entry *next; int seen; };

struct part { pthread_mutex_t lock; struct entry *first[CHAINS]; uint64_t cycles; };
static struct part parts[PARTS];

static uint32_t threads, steps, cells;
static uint64_t seed, made, freed, looked_up, left;

static void write_text(char *text, uint32_t value) { snprintf(text, LONG, "object %u", value); }

static struct part *part_of(uint32_t number) { return &parts[number % PARTS]; }
static struct entry **chain_of(uint32_t number) { return &part_of(number)->first[number / PARTS % CHAINS]; }

/* The entry of the object with these numbers, under its part's lock; 0 if it has none. */
static struct entry *entry_of(uint32_t section, uint32_t number) {
    struct entry *e = *chain_of(number);
    while (e && (e->object.section != section || e->object.number != number)) e = e->next;
    return e;
}

/* NEW's object, which this mutator made, gets a text. */
static void add_text(mh_mutator *m) {
    struct entry *e = calloc(1, sizeof *e), **chain;
    if (!e || !(e->text = malloc(LONG))) exit(2);
    MUST(mh_weak_of(m, NEW, &e->object));
    write_text(e->text, value_of(m, NEW));
    chain = chain_of(e->object.number);
    pthread_mutex_lock(&part_of(e->object.number)->lock);
    e->next = *chain;
    *chain = e;
    pthread_mutex_unlock(&part_of(e->object.number)->lock);
    __atomic_fetch_add(&made, 1, __ATOMIC_RELAXED);
}

/* v's object has its text: whether it was seen before, if it is marked as seen. */
static int look_up(mh_mutator *m, uint32_t v, int marks) {
    uint32_t section = 0, number = 0;
    char wanted[LONG];
    struct entry *e;
    int seen;
    MUST(mh_number(m, v, &section, &number));
    write_text(wanted, value_of(m, v));
    pthread_mutex_lock(&part_of(number)->lock);
    e = entry_of(section, number);
    if (!e) wrong("the texts of an object that is held", 0, 1);
    if (strcmp(e->text, wanted)) { printf("the text of another object: %s, and not %s\n", e->text, wanted); exit(1); }
    seen = e->seen;
    e->seen |= marks;
    pthread_mutex_unlock(&part_of(number)->lock);
    __atomic_fetch_add(&looked_up, 1, __ATOMIC_RELAXED);
    return seen;
}

/* Whether the entry's object is dead; then its text is freed, and it itself. */
static int lets_go(mh_mutator *m, struct entry *e) {
    mh_status s = mh_upgrade(m, &e->object, OTHER);
    if (s == MH_OK) return 0;
    must(s, MH_DEAD, "mh_upgrade", __FILE__, __LINE__);
    free(e->text);
    free(e);
    __atomic_fetch_add(&freed, 1, __ATOMIC_RELAXED);
    return 1;
}

static void sweep_chain(mh_mutator *m, struct entry **at) {
    while (*at) {
        struct entry *e = *at, *next = e->next;
        if (lets_go(m, e)) *at = next;
        else at = &e->next;
    }
}

/* Goes through a part, if a cycle has ended since somebody did. */
static void sweep(mh_mutator *m, struct part *of) {
    uint64_t cycles = 0;
    uint32_t k;
    MUST(mh_cycles(m, &cycles));
    pthread_mutex_lock(&of->lock);
    if (of->cycles != cycles) for (k = 0; k < CHAINS; k++) sweep_chain(m, &of->first[k]);
    of->cycles = cycles;
    pthread_mutex_unlock(&of->lock);
    MUST(mh_forget(m, OTHER));
}

/* Lets go of what the thread's variables and the root refer to. */
static void drop_all(mh_mutator *m) {
    uint32_t v, i;
    for (v = OWN; v < NEW; v++) MUST(mh_forget(m, v));
    for (i = 0; i < FIELDS; i++) MUST(mh_set(m, ROOT, i, NIL));
}

/* v becomes a new object with a text, of which most refer to what v was. If objects that are kept fill all cells the thread lets go of some. */
static void make_one(mh_mutator *m, uint32_t v, uint32_t value) {
    mh_status s;
    while ((s = mh_make(m, NEW, value)) == MH_NO_CELL) { drop_all(m); rest(m); }
    must(s, MH_OK, "mh_make", __FILE__, __LINE__);
    add_text(m);
    if (value % 16) MUST(mh_set(m, NEW, value % FIELDS, v));
    MUST(mh_copy(m, v, NEW));
    MUST(mh_forget(m, NEW));
}

static void step(mh_mutator *m, uint64_t *random, uint32_t value) {
    uint32_t what = random_below(random, 100), v = OWN + random_below(random, NEW - OWN), w = OWN + random_below(random, NEW - OWN);
    uint32_t i = random_below(random, FIELDS);
    if (what < 35) make_one(m, v, value);
    else if (what < 50 && !is_nil(m, v)) MUST(mh_set(m, v, i, w));
    else if (what < 60) MUST(mh_set(m, ROOT, i, w));
    else if (what < 75) MUST(mh_get(m, w, v, i));
    else if (what < 85) MUST(mh_get(m, w, ROOT, i));
    else if (what < 93) MUST(mh_forget(m, w));
    else if (what < 95) MUST(mh_set(m, ROOT, i, NIL));
    else if (what < 98) sweep(m, &parts[random_below(random, PARTS)]);
    if (!is_nil(m, w)) look_up(m, w, 0);
    MUST(mh_safe_point(m));
}

/* What the thread's variables refer to is left in the root, linked. */
static void leave_all(mh_mutator *m, uint32_t number) {
    uint32_t v;
    make_one(m, OWN, threads * steps + number);
    for (v = OWN; v + 1 < NEW; v++) if (!is_nil(m, v)) MUST(mh_set(m, v, 0, v + 1));
    MUST(mh_set(m, ROOT, number % FIELDS, OWN));
    MUST(mh_forget_all(m));
}

static void work(mh_mutator *m, uint32_t number) {
    uint64_t random = (seed + 1) * 0x9e3779b97f4a7c15u + number;
    uint32_t k;
    MUST(mh_root(m, ROOT));
    for (k = 0; k < steps; k++) step(m, &random, number * steps + k);
    leave_all(m, number);
}

/* How many objects the root reaches, besides itself. Those whose fields are still to be looked at wait in slots. */
static uint64_t walk(mh_mutator *m) {
    uint32_t waiting = 0, i;
    uint64_t found = 0;
    MUST(mh_spill(m, ROOT, waiting++));
    while (waiting) {
        MUST(mh_fill(m, FOUND, --waiting));
        for (i = 0; i < FIELDS; i++) {
            MUST(mh_get(m, OTHER, FOUND, i));
            if (is_nil(m, OTHER) || look_up(m, OTHER, 1)) continue;
            MUST(mh_spill(m, OTHER, waiting++));
            found++;
        }
    }
    return found;
}

static void sweep_all(mh_mutator *m) {
    uint32_t k;
    MUST(mh_collect(m));
    for (k = 0; k < PARTS; k++) sweep(m, &parts[k]);
}

static void end(mh_mutator *m, uint32_t number) {
    (void)number;
    MUST(mh_root(m, ROOT));
    sweep_all(m);
    left = made - freed;
    wrong("texts that are left", left, walk(m));
    if (!left) wrong("texts that are left", 0, 1);
    drop_all(m);
    MUST(mh_forget_all(m));
    sweep_all(m);
    wrong("texts that were freed", freed, made);
}

static void begin(mh_mutator *m, uint32_t number) {
    (void)m;
    (void)number;
}

int main(int count_of, char **words) {
    uint32_t k;
    threads = number(count_of, words, 1, 4);
    steps = number(count_of, words, 2, 20000);
    cells = number(count_of, words, 3, 512);
    seed = number(count_of, words, 4, 1);
    if (threads < 1 || threads > THREADS) return 2;
    for (k = 0; k < PARTS; k++) if (pthread_mutex_init(&parts[k].lock, 0)) return 2;
    act_together(cells, FIELDS, cells + 1, threads, 1, begin, work, end);
    if (looked_up < steps / 4) wrong("texts that were looked up", looked_up, steps / 4);
    printf("%-13s %-12s threads %u seed %llu: each text was its object's, freed once after its death, and those left were of the objects left\n", "weak_map", COLLECTOR,
           threads, (unsigned long long)seed);
    return 0;
}
