/* Pairs and lists, and what is equal. */
#include "primitives.h"

#include <string.h>

static uint32_t pair_at(value v) {
    if (KIND(word_of(v)) != PAIR) fail_at(v, "a pair");
    return v.reg;
}

value p_itself(value *a, uint32_t n, uint32_t t) { UNUSED(n, t); return a[0]; }

value p_cons(value *a, uint32_t n, uint32_t t) {
    uint32_t first = in_variable(a[0], S0), rest = in_variable(a[1], S1);
    (void)n;
    pair(t, first, rest, 0);
    return here(t);
}
value p_car(value *a, uint32_t n, uint32_t t) { (void)n; get(t, pair_at(a[0]), 0); return here(t); }
value p_cdr(value *a, uint32_t n, uint32_t t) { (void)n; get(t, pair_at(a[0]), 1); return here(t); }

/* What the letters between c and r say, from the last one on. */
value p_path(value *a, uint32_t n, uint32_t t) {
    const char *name = primitives[running].name;
    size_t i = strlen(name) - 2;
    value v = a[0];
    (void)n;
    for (; i; i--) {
        get(t, pair_at(v), name[i] == 'd');
        v = here(t);
    }
    return v;
}

value p_set_car(value *a, uint32_t n, uint32_t t) { UNUSED(n, t); set(pair_at(a[0]), 0, in_variable(a[1], S0)); return nothing_(); }
value p_set_cdr(value *a, uint32_t n, uint32_t t) { UNUSED(n, t); set(pair_at(a[0]), 1, in_variable(a[1], S0)); return nothing_(); }
/* If the first of the pair is eqv? to a[1] it becomes a[2], in one step. */
value p_compare_and_set(value *a, uint32_t n, uint32_t t) {
    uint32_t of = pair_at(a[0]), next = in_variable(a[2], S1);
    UNUSED(n, t);
    for (;; pass()) {
        get(S0, of, 0);
        if (!are_eqv(a[1], here(S0))) return truth(0);
        if (exchange(of, 0, S0, next)) return truth(1);
    }
}
value p_is_null(value *a, uint32_t n, uint32_t t) { UNUSED(n, t); return truth(word_of(a[0]) == EMPTY); }
value p_is_pair(value *a, uint32_t n, uint32_t t) { UNUSED(n, t); return truth(KIND(word_of(a[0])) == PAIR); }

/* How many pairs the value begins with. S0 becomes what follows them, and the answer is in the word of that. */
static uint32_t pairs(value v, uint32_t *end) {
    uint32_t length = 0;
    if (v.reg == NOWHERE) {
        *end = v.word;
        return 0;
    }
    for (copy(S0, v.reg); KIND(*end = word(S0)) == PAIR; get(S0, S0, 1)) length++;
    return length;
}

uint32_t list_length(value v) {
    uint32_t end, length = pairs(v, &end);
    if (end != EMPTY) fail_at(v, "a list");
    return length;
}

value p_length(value *a, uint32_t n, uint32_t t) { (void)n; return integer(list_length(a[0]), t); }
value p_is_list(value *a, uint32_t n, uint32_t t) {
    uint32_t end;
    UNUSED(n, t);
    pairs(a[0], &end);
    return truth(end == EMPTY);
}

/* to becomes the list in the variable the other way round. */
void reversed(uint32_t to, uint32_t list) {
    copy(S0, list);
    forget(S1);
    for (; KIND(word(S0)) == PAIR; get(S0, S0, 1)) {
        get(S2, S0, 0);
        pair(to, S2, S1, 0);
        copy(S1, to);
    }
    copy(to, S1);
}

value p_reverse(value *a, uint32_t n, uint32_t t) {
    (void)n;
    list_length(a[0]);
    reversed(t, in_variable(a[0], NIL));
    return here(t);
}

value p_append(value *a, uint32_t n, uint32_t t) {
    if (n < 2) return n ? a[0] : plain(EMPTY);
    list_length(a[0]);
    if (word_of(a[0]) == EMPTY) return a[1];
    reversed(t, a[0].reg);
    copy(S1, in_variable(a[1], S1));
    for (copy(S0, t); KIND(word(S0)) == PAIR; get(S0, S0, 1)) {
        get(S2, S0, 0);
        pair(t, S2, S1, 0);
        copy(S1, t);
    }
    return here(t);
}

value p_list_tail(value *a, uint32_t n, uint32_t t) {
    uint32_t i = DATA(word_of(a[1]));
    (void)n;
    copy(t, in_variable(a[0], t));
    while (i--) get(t, pair_at(here(t)), 1);
    return here(t);
}
value p_list_ref(value *a, uint32_t n, uint32_t t) {
    p_list_tail(a, n, t);
    get(t, pair_at(here(t)), 0);
    return here(t);
}

/* Whether the values are equal, part by part. What is left to compare lies on the stack. */
static int are_equal(value a, value b) {
    uint32_t pending = 0, i, length;
    for (;;) {
        uint32_t x = word_of(a), y = word_of(b);
        int equal = KIND(x) == KIND(y);
        if (equal && (KIND(x) == PAIR || (KIND(x) == VECTOR && DATA(x)))) {
            equal = KIND(x) == PAIR || x == y;
            copy(S0, a.reg);
            copy(S1, b.reg);
            if (equal && KIND(x) == VECTOR) {
                vector_list(S0, S0);
                push(S0);
                vector_list(S1, S1);
                pop(S0);
            }
            if (equal) {
                push(S0);
                push(S1);
                pending++;
                get(S0, S0, 0);
                get(S1, S1, 0);
                a = here(S0);
                b = here(S1);
                continue;
            }
        } else if (equal && KIND(x) == STRING) {
            length = DATA(x);
            equal = x == y;
            for (i = 0; equal && i < length; i++) equal = string_byte(a.reg, i) == string_byte(b.reg, i);
        } else if (equal && KIND(x) == VECTOR) equal = x == y;
        else if (equal) equal = are_eqv(a, b);
        if (!equal)
            for (; pending; pending--) drop(), drop();
        if (!equal || !pending) return equal;
        pop(S1);
        pop(S0);
        pending--;
        get(S0, S0, 1);
        get(S1, S1, 1);
        a = here(S0);
        b = here(S1);
    }
}

value p_eq(value *a, uint32_t n, uint32_t t) {
    uint32_t x = word_of(a[0]), y = word_of(a[1]);
    UNUSED(n, t);
    return truth(KIND(x) <= EMPTY || KIND(y) <= EMPTY ? x == y : same(a[0].reg, a[1].reg));
}
value p_eqv(value *a, uint32_t n, uint32_t t) { UNUSED(n, t); return truth(are_eqv(a[0], a[1])); }
value p_equal(value *a, uint32_t n, uint32_t t) { UNUSED(n, t); return truth(are_equal(a[0], a[1])); }

/* t becomes the first part of the list whose first, or whose first's first, the operand is the same as; #f if none is. */
static value found(value *a, uint32_t t, int in_pairs, int (*are_same)(value, value)) {
    copy(t, in_variable(a[1], t));
    for (; KIND(word(t)) == PAIR; get(t, t, 1)) {
        get(S3, t, 0);
        if (in_pairs) get(S4, pair_at(here(S3)), 0);
        if (!are_same(a[0], here(in_pairs ? S4 : S3))) continue;
        if (in_pairs) get(t, t, 0);
        return here(t);
    }
    return truth(0);
}
value p_memv(value *a, uint32_t n, uint32_t t) { (void)n; return found(a, t, 0, are_eqv); }
value p_member(value *a, uint32_t n, uint32_t t) { (void)n; return found(a, t, 0, are_equal); }
value p_assv(value *a, uint32_t n, uint32_t t) { (void)n; return found(a, t, 1, are_eqv); }
value p_assoc(value *a, uint32_t n, uint32_t t) { (void)n; return found(a, t, 1, are_equal); }
