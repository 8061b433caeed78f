/*
 * Texts that lie beside the heap, each at the place of its object, in memory of the program. Threads make objects with texts, hand them over in the root's fields, and
 * look at the texts of what they find there. Four rules make it right:
 *
 * 1. Who made an object lays its text at its place before others can find it, and frees what lay there, which was of an object that is gone.
 * 2. Whoever looks at a text has a variable that refers to its object until it has looked.
 * 3. Who frees or reads a text got its address from the place anew.
 * 4. Who knows that an object is gone, and frees its text before the place is taken again, frees it only if it is that object's still: the text is labelled by
 *    the object's number, which no other object ever has, and whoever takes the label away by an exchange frees the text.
 *
 * A fourth argument breaks a rule. 1: a place is used after its object was forgotten, and then another object's text is there; the program says so, and ends with
 * status 1. 2: an address is kept, and read when the text is freed. 3: a text is freed by its place alone, and is another object's. The sanitizers see both.
 * Arguments: threads, objects of each thread, cells, 0 to 3.
 */
#include "team.h"
#include <string.h>

enum { ROOT, NEW, FOUND, FIELDS = 8, LONG = 24 };

enum broken { NONE, PLACE_KEPT, ADDRESS_KEPT, LABEL_IGNORED };
static uint32_t threads, many, cells, broken;

/* The texts and their labels, by place: a label is 0 if no text lies. How often each place was looked at tells a sanitizer, which doesn't see into the library, that who looked did so before the object died. */
static char **text_at;
static uint64_t *label_at;
static uint32_t *looks;

static uint64_t texts_made, texts_read, texts_dropped;

static void write_text(char *text, uint32_t value) { snprintf(text, LONG, "object %u", value); }

static uint32_t place_of(mh_mutator *m, uint32_t v) {
    uint32_t place = cells;
    MUST(mh_place(m, v, &place));
    if (place >= cells) wrong("a place", place, cells - 1);
    return place;
}

/* What no other object has: the number of the mutator that made this one, and how many it had made before. */
static uint64_t label_of(mh_mutator *m, uint32_t v) {
    uint32_t section = 0, number = 0;
    MUST(mh_number(m, v, &section, &number));
    return (uint64_t)section << 32 | number;
}

/* NEW's object gets a text. */
static void lay_text(mh_mutator *m) {
    uint32_t place = place_of(m, NEW);
    char *text = malloc(LONG);
    if (!text) exit(2);
    write_text(text, value_of(m, NEW));
    __atomic_load_n(&looks[place], __ATOMIC_ACQUIRE);
    if (__atomic_exchange_n(&label_at[place], 0, __ATOMIC_ACQ_REL)) free(__atomic_load_n(&text_at[place], __ATOMIC_ACQUIRE));
    __atomic_store_n(&text_at[place], text, __ATOMIC_RELEASE);
    __atomic_store_n(&label_at[place], label_of(m, NEW), __ATOMIC_RELEASE);
    __atomic_fetch_add(&texts_made, 1, __ATOMIC_RELAXED);
}

/* The text is freed that lay here, of an object that is gone, if nobody has freed it yet. It is read before the label is taken: as long as the label stands the
   text is that object's, and once it is gone it never comes back. */
static void drop_text(uint32_t place, uint64_t label) {
    char *text = __atomic_load_n(&text_at[place], __ATOMIC_ACQUIRE);
    if (broken == LABEL_IGNORED) free(text);
    else if (__atomic_compare_exchange_n(&label_at[place], &label, 0, 0, __ATOMIC_ACQ_REL, __ATOMIC_RELAXED)) free(text);
    __atomic_fetch_add(&texts_dropped, 1, __ATOMIC_RELAXED);
}

/* NEW's object, which no other thread has found, is let go of, with its text. */
static void drop(mh_mutator *m) {
    uint32_t place = place_of(m, NEW);
    uint64_t label = label_of(m, NEW);
    MUST(mh_forget(m, NEW));
    MUST(mh_safe_point(m));
    drop_text(place, label);
}

/* The text at this place is that of the object with this value. */
static void look(uint32_t place, uint32_t value) {
    char wanted[LONG];
    const char *text = __atomic_load_n(&text_at[place], __ATOMIC_ACQUIRE);
    write_text(wanted, value);
    if (strcmp(text, wanted)) {
        printf("the text of another object: %s, and not %s\n", text, wanted);
        exit(1);
    }
    __atomic_fetch_add(&looks[place], 1, __ATOMIC_RELEASE);
    __atomic_fetch_add(&texts_read, 1, __ATOMIC_RELAXED);
}

/* A place that is used after its object was forgotten, while objects are made until one lies there, which FOUND keeps. */
static void break_rule(mh_mutator *m) {
    const char *text;
    uint64_t label;
    uint32_t place, k;
    make(m, NEW, 0);
    lay_text(m);
    place = place_of(m, NEW);
    label = label_of(m, NEW);
    text = text_at[place];
    MUST(mh_forget(m, NEW));
    for (k = 1; k <= 4 * cells && (is_nil(m, FOUND) || place_of(m, FOUND) != place); k++) {
        make(m, NEW, k);
        lay_text(m);
        MUST(mh_copy(m, FOUND, NEW));
        MUST(mh_forget(m, NEW));
    }
    if (broken == PLACE_KEPT) look(place, 0);
    if (broken == ADDRESS_KEPT && strcmp(text, "object 0")) { printf("a text that is freed: %s\n", text); exit(1); }
    drop_text(place, label);
    look(place, value_of(m, FOUND));
}

static void begin(mh_mutator *m, uint32_t number) {
    (void)number;
    if (broken) break_rule(m);
}

static void work(mh_mutator *m, uint32_t number) {
    uint64_t seed = 0x9e3779b97f4a7c15u * (number + 1);
    uint32_t k, i;
    MUST(mh_root(m, ROOT));
    for (k = 0; k < many; k++) {
        make(m, NEW, number * many + k);
        lay_text(m);
        if (!random_below(&seed, 8)) { drop(m); continue; }
        i = random_below(&seed, FIELDS);
        MUST(mh_set(m, ROOT, i, NEW));
        i = random_below(&seed, FIELDS);
        MUST(mh_get(m, FOUND, ROOT, i));
        if (is_nil(m, FOUND)) continue;
        MUST(mh_safe_point(m));
        look(place_of(m, FOUND), value_of(m, FOUND));
        MUST(mh_forget(m, FOUND));
    }
}

static void end(mh_mutator *m, uint32_t number) {
    uint32_t i;
    (void)number;
    MUST(mh_root(m, ROOT));
    MUST(mh_collect(m));
    for (i = 0; i < FIELDS; i++) {
        MUST(mh_get(m, FOUND, ROOT, i));
        if (!is_nil(m, FOUND)) look(place_of(m, FOUND), value_of(m, FOUND));
    }
}

int main(int count_of, char **words) {
    uint32_t k;
    threads = number(count_of, words, 1, 4);
    many = number(count_of, words, 2, 50000);
    cells = number(count_of, words, 3, 320);
    broken = number(count_of, words, 4, NONE);
    if (threads < 1 || threads > THREADS) return 2;
    text_at = calloc(cells, sizeof *text_at);
    label_at = calloc(cells, sizeof *label_at);
    looks = calloc(cells, sizeof *looks);
    if (!text_at || !label_at || !looks) return 2;
    act_together(cells, FIELDS, 0, threads, 0, begin, work, end);
    wrong("texts made", texts_made, (uint64_t)threads * many);
    if (texts_read < many / 2) wrong("texts read", texts_read, many / 2);
    for (k = 0; k < cells; k++) if (label_at[k]) free(text_at[k]);
    free(text_at);
    free(label_at);
    free(looks);
    printf("%-13s %-12s threads %u: %u texts beside the heap, by place, in %u cells: each was its object's, and %llu were freed early\n", "places", COLLECTOR, threads,
           threads * many, cells, (unsigned long long)texts_dropped);
    return 0;
}
