/*
 * A symbol table that lets go. A symbol is an object; the table beside the heap has its text and a weak reference to it, so that a symbol lives as long as the
 * program keeps it, and its entry as long as the symbol. Looking a text up has the same object again, or makes a new one if the old one is dead. Once a cycle has
 * ended the table is gone through in pieces: an entry whose symbol is dead is removed, and its text freed.
 *
 * It interns as many symbols as the first argument says, keeps each second one in a list, and collects: exactly those are in the table afterwards, and the same
 * objects. Then it lets all go, and the table is empty. Arguments: symbols, entries that a piece has.
 */
#include "team.h"
#include <string.h>

enum { KEPT, SYMBOL, OTHER, PAIR, NEXT = 0, CAR = 1, FIELDS = 2, LONG = 24 };

/* The end of a chain. */
#define NONE 0xffffffffu

/* An entry keeps its number: its text, its weak reference, which is all zero if it is free, and the entry behind it in its chain, or in that of the free ones. */
static char **texts;
static mh_weak *weaks;
static uint32_t *next, *first, *dead;
static uint32_t unused, used, many, piece;
static uint64_t seen;

static uint32_t hash(const char *text) {
    uint32_t h = 2166136261u;
    for (; *text; text++) h = (h ^ (uint8_t)*text) * 16777619u;
    return h;
}

static uint32_t *chain_of(const char *text) { return &first[hash(text) % many]; }

/* Where the number of this text's entry stands; NONE stands there if it has none. */
static uint32_t *find(const char *text) {
    uint32_t *at = chain_of(text);
    while (*at != NONE && strcmp(texts[*at], text)) at = &next[*at];
    return at;
}

/* All entries are free. */
static void open_table(void) {
    uint32_t k;
    for (k = 0; k < many; k++) {
        first[k] = NONE;
        next[k] = k + 1 < many ? k + 1 : NONE;
    }
}

/* A new entry, which begins its chain. */
static uint32_t add(const char *text) {
    uint32_t k = unused, *chain = chain_of(text);
    if (k == NONE || !(texts[k] = malloc(LONG))) exit(2);
    snprintf(texts[k], LONG, "%s", text);
    unused = next[k];
    next[k] = *chain;
    *chain = k;
    used++;
    return k;
}

static void drop(uint32_t k) {
    static const mh_weak none = {0, 0, 0, 0};
    uint32_t *at = find(texts[k]);
    *at = next[k];
    free(texts[k]);
    weaks[k] = none;
    next[k] = unused;
    unused = k;
    used--;
}

/* Variable v becomes the symbol of this text: 1 if the table had it. */
static int intern(mh_mutator *m, const char *text, uint32_t v) {
    uint32_t k = *find(text);
    mh_status s = k == NONE ? MH_DEAD : mh_upgrade(m, &weaks[k], v);
    if (s == MH_OK) return 1;
    must(s, MH_DEAD, "mh_upgrade", __FILE__, __LINE__);
    make(m, v, hash(text));
    if (k == NONE) k = add(text);
    MUST(mh_weak_of(m, v, &weaks[k]));
    return 0;
}

/* Drops the entries of this piece whose symbols are dead. */
static void sweep_piece(mh_mutator *m, uint32_t from) {
    uint32_t length = many - from < piece ? many - from : piece, deaths, k;
    MUST(mh_deaths(m, weaks + from, length, OTHER, dead, &deaths));
    for (k = 0; k < deaths; k++) drop(from + dead[k]);
}

/* Goes through the table, if a cycle has ended since it did: whether one had. */
static int sweep(mh_mutator *m) {
    uint64_t cycles = 0;
    uint32_t from;
    MUST(mh_cycles(m, &cycles));
    if (cycles == seen) return 0;
    seen = cycles;
    for (from = 0; from < many; from += piece) {
        sweep_piece(m, from);
        MUST(mh_safe_point(m));
    }
    return 1;
}

static const char *text_of(uint32_t k) {
    static char text[LONG];
    snprintf(text, LONG, "symbol %u", k);
    return text;
}

/* The symbol goes to the front of the list that is kept. */
static void keep(mh_mutator *m) {
    make(m, PAIR, 0);
    MUST(mh_set(m, PAIR, CAR, SYMBOL));
    MUST(mh_set(m, PAIR, NEXT, KEPT));
    MUST(mh_copy(m, KEPT, PAIR));
    MUST(mh_forget(m, PAIR));
}

static void fill(mh_mutator *m) {
    uint32_t k;
    for (k = 0; k < many; k++) {
        wrong("whether a new text has a symbol", (uint64_t)intern(m, text_of(k), SYMBOL), 0);
        wrong("whether an old text has one", (uint64_t)intern(m, text_of(k), OTHER), 1);
        if (!are_one(m, SYMBOL, OTHER)) wrong("a symbol", 2, 1);
        if (k % 2) keep(m);
    }
    MUST(mh_forget(m, SYMBOL));
    MUST(mh_forget(m, OTHER));
}

/* The list has the symbols of odd numbers, the last one first, and the table has the same. */
static void look(mh_mutator *m) {
    uint32_t k;
    for (k = many - many % 2; k > 0; k -= 2) {
        MUST(mh_get(m, SYMBOL, KEPT, CAR));
        wrong("whether a kept symbol is found", (uint64_t)intern(m, text_of(k - 1), OTHER), 1);
        if (!are_one(m, SYMBOL, OTHER)) wrong("a kept symbol", 2, 1);
        MUST(mh_get(m, KEPT, KEPT, NEXT));
    }
    if (!is_nil(m, KEPT)) wrong("the list's end", 1, 0);
}

static void work(mh_mutator *m, uint32_t number) {
    (void)number;
    fill(m);
    wrong("entries before the collection", used, many);
    MUST(mh_collect(m));
    wrong("whether there was something to do", (uint64_t)sweep(m), 1);
    wrong("whether there is still", (uint64_t)sweep(m), 0);
    wrong("entries of symbols that are kept", used, many / 2);
    look(m);
    MUST(mh_forget_all(m));
    MUST(mh_collect(m));
    sweep(m);
    wrong("entries of symbols that nobody keeps", used, 0);
}

static void nothing(mh_mutator *m, uint32_t number) {
    (void)m;
    (void)number;
}

int main(int count_of, char **words) {
    many = number(count_of, words, 1, 20000);
    piece = number(count_of, words, 2, 4096);
    if (many < 1 || piece < 1) return 2;
    texts = calloc(many, sizeof *texts);
    weaks = calloc(many, sizeof *weaks);
    next = calloc(many, sizeof *next);
    first = calloc(many, sizeof *first);
    dead = calloc(piece, sizeof *dead);
    if (!texts || !weaks || !next || !first || !dead) return 2;
    open_table();
    act_together((2 * many + 1087) / 64 * 64, FIELDS, 0, 1, 1, nothing, work, nothing);
    free(texts);
    free(weaks);
    free(next);
    free(first);
    free(dead);
    printf("%-13s %-12s %u symbols: the table let go of each that nobody kept, and of no other\n", "weak_table", COLLECTOR, many);
    return 0;
}
