/* Weak pairs, whose first part is kept by others or not at all, and what is told of memory that goes. A weak pair is KEEPING if its first part is no object by itself:
   a number, a character or a symbol never dies. */
#include "primitives.h"

enum { LETTING_GO, KEEPING };

value p_weak_cons(value *a, uint32_t n, uint32_t t) {
    uint32_t rest = in_variable(a[1], S1);
    (void)n;
    if (KIND(word_of(a[0])) > EMPTY) make_weak(t, WORD(WEAK, LETTING_GO), a[0].reg);
    else {
        uint32_t first = in_variable(a[0], S0);
        make(t, WORD(WEAK, KEEPING), FIELDS);
        set(t, 0, first);
    }
    set(t, 1, rest);
    return here(t);
}

static uint32_t weak_pair_at(value v) {
    if (KIND(word_of(v)) != WEAK) fail_at(v, "a weak pair");
    return v.reg;
}

/* S0 becomes the first part: whether that isn't dead. */
static int first_of(value v) {
    uint32_t of = weak_pair_at(v);
    if (DATA(word(of)) == LETTING_GO) return upgrade(S0, of);
    get(S0, of, 0);
    return 1;
}

value p_is_weak_pair(value *a, uint32_t n, uint32_t t) { UNUSED(n, t); return truth(KIND(word_of(a[0])) == WEAK); }
value p_weak_car(value *a, uint32_t n, uint32_t t) { UNUSED(n, t); return first_of(a[0]) ? here(S0) : truth(0); }
value p_weak_cdr(value *a, uint32_t n, uint32_t t) { (void)n; get(t, weak_pair_at(a[0]), 1); return here(t); }
value p_has_weak_car(value *a, uint32_t n, uint32_t t) {
    int is_alive = first_of(a[0]);
    UNUSED(n, t);
    forget(S0);
    return truth(is_alive);
}

value p_string_memory(value *a, uint32_t n, uint32_t t) { (void)a, (void)n; return integer((int64_t)heap_texts(S0), t); }
value p_cycles(value *a, uint32_t n, uint32_t t) { (void)a, (void)n; return integer((int64_t)heap_cycles(), t); }
