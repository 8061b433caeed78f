/* Vectors and strings. A vector is a tree: a head with the length and up to four parts, each a tree of a fourth, with its elements as leaves. The bytes of a
   string lie beside its object where they are few; a longer one has memory of its own, which is freed after its death. */
#include "primitives.h"

#include <string.h>

/* How many leaves a part of a tree with so many leaves has. */
static uint32_t part_of(uint32_t leaves) {
    uint32_t part = 1;
    while (part * FIELDS < leaves) part *= FIELDS;
    return part;
}

void tree_get(uint32_t to, uint32_t tree, uint32_t leaves, uint32_t i) {
    uint32_t part = part_of(leaves);
    get(to, tree, i / part);
    while (part > 1) {
        i %= part;
        part /= FIELDS;
        get(to, to, i / part);
    }
}

/* Uses S1 and S2, which v may not be. */
void tree_set(uint32_t tree, uint32_t leaves, uint32_t i, uint32_t v) {
    uint32_t part = part_of(leaves);
    copy(S1, tree);
    while (part > 1) {
        get(S2, S1, i / part);
        if (word(S2) == EMPTY) {
            make(S2, WORD(RIB, 0), FIELDS);
            set(S1, i / part, S2);
        }
        copy(S1, S2);
        i %= part;
        part /= FIELDS;
    }
    set(S1, i, v);
}

/* The length of what has this kind; an index below such a number. */
static uint32_t length_of(value v, enum kind kind) {
    uint32_t w = word_of(v);
    if (KIND(w) != kind) fail_at(v, kind == STRING ? "a string" : "a vector");
    return DATA(w);
}
static uint32_t index_of(value v, uint32_t below) {
    uint32_t w = word_of(v);
    if (KIND(w) != INTEGER) fail_at(v, "an index");
    if (DATA(w) >= below) fail_at(v, "an index in its range");
    return DATA(w);
}

value p_is_vector(value *a, uint32_t n, uint32_t t) { UNUSED(n, t); return truth(KIND(word_of(a[0])) == VECTOR); }
value p_make_vector(value *a, uint32_t n, uint32_t t) {
    uint32_t length = index_of(a[0], 1u << 27), i, v = n == 2 ? in_variable(a[1], S3) : NIL;
    make(t, WORD(VECTOR, length), FIELDS);
    if (v != NIL)
        for (i = 0; i < length; i++) tree_set(t, length, i, v);
    return here(t);
}
value p_vector_length(value *a, uint32_t n, uint32_t t) { (void)n; return integer(length_of(a[0], VECTOR), t); }

/* An element of a vector whose parts aren't there yet is nil. */
value p_vector_ref(value *a, uint32_t n, uint32_t t) {
    uint32_t length = length_of(a[0], VECTOR);
    (void)n;
    tree_get(t, a[0].reg, length, index_of(a[1], length));
    return here(t);
}
value p_vector_set(value *a, uint32_t n, uint32_t t) {
    uint32_t length = length_of(a[0], VECTOR);
    UNUSED(n, t);
    tree_set(a[0].reg, length, index_of(a[1], length), in_variable(a[2], S3));
    return nothing_();
}

/* Uses S2, S3 and S4; to may be the vector. */
void vector_list(uint32_t to, uint32_t vector) {
    uint32_t length = DATA(word(vector)), i = length;
    copy(S4, vector);
    forget(to);
    while (i--) {
        tree_get(S2, S4, length, i);
        pair(S3, S2, to, 0);
        copy(to, S3);
    }
}
value p_vector_to_list(value *a, uint32_t n, uint32_t t) { (void)n; length_of(a[0], VECTOR); vector_list(t, a[0].reg); return here(t); }
value p_list_to_vector(value *a, uint32_t n, uint32_t t) {
    uint32_t length = list_length(a[0]), i;
    (void)n;
    copy(S0, in_variable(a[0], NIL));
    make(t, WORD(VECTOR, length), FIELDS);
    for (i = 0; i < length; i++, get(S0, S0, 1)) {
        get(S3, S0, 0);
        tree_set(t, length, i, S3);
    }
    return here(t);
}

/* Where the bytes of a string lie; and what is said once one was read or stored there. */
static unsigned char *bytes_of(uint32_t string) {
    unsigned char *at;
    return DATA(look(string, EMPTY, &at)) <= BESIDE ? at : text_at(string);
}
static void used(uint32_t string, unsigned char *bytes) {
    if (DATA(word(string)) > BESIDE) text_used(bytes);
}

int string_byte(uint32_t string, uint32_t i) {
    unsigned char *bytes = bytes_of(string);
    int byte = (int)byte_at(bytes + i);
    used(string, bytes);
    return byte;
}

/* The bytes of a string that is made: byte_at says which they are. */
struct bytes { uint32_t length; uint32_t (*byte_at)(const void *from, uint32_t i); const void *from; };

/* t becomes a string of so few bytes that they lie beside it. */
static void short_string(uint32_t t, const struct bytes *of) {
    unsigned char some[BESIDE], *at;
    uint32_t k;
    for (k = 0; k < of->length; k++) some[k] = (unsigned char)of->byte_at(of->from, k);
    make_beside(t, WORD(STRING, of->length));
    at = beside(t);
    for (k = 0; k < of->length; k++) lay_byte(at + k, some[k]);
}

/* t becomes a string. Uses S2. */
static void string_by(uint32_t t, uint32_t length, uint32_t (*byte_at_)(const void *from, uint32_t i), const void *from) {
    struct bytes of = {0, 0, 0};
    unsigned char *at;
    uint32_t i;
    of.length = length;
    of.byte_at = byte_at_;
    of.from = from;
    if (length <= BESIDE) {
        short_string(t, &of);
        return;
    }
    make_text(t, WORD(STRING, length), length, S2);
    at = text_at(t);
    for (i = 0; i < length; i++) lay_byte(at + i, of.byte_at(from, i));
    text_used(at);
}

static uint32_t byte_of_text(const void *from, uint32_t i) { return ((const unsigned char *)from)[i]; }
void new_string(uint32_t t, const char *text, uint32_t length) { string_by(t, length, byte_of_text, text); }

static uint32_t character_of(value v) {
    uint32_t w = word_of(v);
    if (KIND(w) != CHARACTER) fail_at(v, "a character");
    return DATA(w) & 255u;
}
static uint32_t one_byte(const void *from, uint32_t i) { (void)i; return *(const uint32_t *)from; }

value p_is_string(value *a, uint32_t n, uint32_t t) { UNUSED(n, t); return truth(KIND(word_of(a[0])) == STRING); }
value p_make_string(value *a, uint32_t n, uint32_t t) {
    uint32_t byte = n == 2 ? character_of(a[1]) : ' ';
    string_by(t, index_of(a[0], 1u << 27), one_byte, &byte);
    return here(t);
}
value p_string_length(value *a, uint32_t n, uint32_t t) { (void)n; return integer(length_of(a[0], STRING), t); }
value p_string_ref(value *a, uint32_t n, uint32_t t) {
    UNUSED(n, t);
    return plain(WORD(CHARACTER, (uint32_t)string_byte(a[0].reg, index_of(a[1], length_of(a[0], STRING)))));
}
value p_string_set(value *a, uint32_t n, uint32_t t) {
    uint32_t i = index_of(a[1], length_of(a[0], STRING)), byte = character_of(a[2]);
    unsigned char *bytes = bytes_of(a[0].reg);
    UNUSED(n, t);
    lay_byte(bytes + i, byte);
    used(a[0].reg, bytes);
    return nothing_();
}

/* A part of a string, and two strings as one. */
struct joined { uint32_t first, length, second, from; };
static uint32_t joined_byte(const void *of, uint32_t i) {
    const struct joined *it = of;
    return (uint32_t)(i < it->length ? string_byte(it->first, it->from + i) : string_byte(it->second, i - it->length));
}

value p_substring(value *a, uint32_t n, uint32_t t) {
    uint32_t length = length_of(a[0], STRING), end = index_of(a[2], length + 1), from = index_of(a[1], end + 1);
    struct joined it = {0, 0, 0, 0};
    (void)n;
    it.first = a[0].reg;
    it.length = end - from;
    it.from = from;
    string_by(t, it.length, joined_byte, &it);
    return here(t);
}
value p_string_append(value *a, uint32_t n, uint32_t t) {
    struct joined it = {0, 0, 0, 0};
    if (n < 2) {
        if (n) length_of(a[0], STRING);
        else new_string(t, "", 0);
        return n ? a[0] : here(t);
    }
    it.length = length_of(a[0], STRING);
    it.first = a[0].reg;
    it.second = a[1].reg;
    string_by(t, it.length + length_of(a[1], STRING), joined_byte, &it);
    return here(t);
}

/* Below 0, 0 or above, as the first string comes before, is or comes after the second. */
static int order(value *a) {
    uint32_t m = length_of(a[0], STRING), n = length_of(a[1], STRING), i;
    for (i = 0; i < m && i < n; i++) {
        int difference = string_byte(a[0].reg, i) - string_byte(a[1].reg, i);
        if (difference) return difference;
    }
    return (m > n) - (m < n);
}
value p_string_equals(value *a, uint32_t n, uint32_t t) { UNUSED(n, t); return truth(order(a) == 0); }
value p_string_less(value *a, uint32_t n, uint32_t t) { UNUSED(n, t); return truth(order(a) < 0); }

value p_string_to_list(value *a, uint32_t n, uint32_t t) {
    uint32_t i = length_of(a[0], STRING);
    (void)n;
    copy(S4, a[0].reg);
    forget(t);
    while (i--) {
        make(S1, WORD(CHARACTER, (uint32_t)string_byte(S4, i)), 0);
        pair(S0, S1, t, 0);
        copy(t, S0);
    }
    return here(t);
}

/* The first of the list in S0, which goes on. */
static uint32_t next_byte(const void *from, uint32_t i) {
    uint32_t byte;
    UNUSED(from, i);
    get(S2, S0, 0);
    byte = character_of(here(S2));
    get(S0, S0, 1);
    return byte;
}
value p_list_to_string(value *a, uint32_t n, uint32_t t) {
    uint32_t length = list_length(a[0]);
    (void)n;
    copy(S0, in_variable(a[0], NIL));
    string_by(t, length, next_byte, 0);
    return here(t);
}
